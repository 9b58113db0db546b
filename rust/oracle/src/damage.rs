//! Sheets as the entries write them, and damaged copies with the verdict that the damage settles.

use crate::auditor::{Verdict, MOST_BYTES};
use crate::entries;
use crate::fields::{self, Line};
use crate::generate;
use crate::model::{has_floor_flag, is_known, lists_services, shows_hydronic_time, Card, VERSIONS};
use crate::plain;
use crate::random::Random;
use crate::raw::garbage;
use crate::reading;
use crate::sheet::{self, CARD_BYTES};

/// A sheet for an auditor without a limit of length.
pub struct Sheet {
    /// How it was made.
    pub what: &'static str,
    pub bytes: Vec<u8>,
    pub known: Known,
}

/// Which verdict the making of a sheet settles.
#[derive(Clone, Copy, Debug, PartialEq, Eq)]
pub enum Known {
    Exactly(Verdict),
    /// No line before this one is refused.
    From(u64),
}

impl Known {
    pub fn allows(&self, verdict: &Verdict) -> bool {
        match (self, verdict) {
            (Known::Exactly(known), verdict) => known == verdict,
            (Known::From(_), Verdict::Accepted(_)) => true,
            (Known::From(first), Verdict::Refused { line, .. }) => line >= first,
        }
    }
}

fn refused(refusal: u8, line: u64) -> Known {
    Known::Exactly(Verdict::refused(refusal, line))
}

// ---- Sheets as the entries write them

/// A sheet, and how many of the calls 10 and 11 spared.
pub struct Written {
    pub bytes: Vec<u8>,
    pub lines: u64,
}

/// Opens a sheet of `room` bytes and makes up to `calls` random calls, some of them broken.
pub fn write(random: &mut Random, version: u8, card: &Card, calls: u64, room: usize) -> Written {
    let mut lent = garbage(random, room);
    let card_bytes = sheet::card_bytes(version, card);
    let mut record = vec![0; sheet::record_length(&card_bytes)];
    let opened = entries::open(version, &card_bytes, &mut record, &mut lent);
    assert_eq!(opened, 0, "an accepted card with room opens a sheet");
    let mut written = Written { bytes: Vec::new(), lines: 0 };
    let mut used = sheet::opening_length(&card_bytes);
    for _ in 0..calls {
        let battery = reading::battery(version, &record).expect("an entry leaves a good battery");
        let mut call = sheet::call_bytes(version, &generate::next_call(random, version, &battery));
        if random.one_in(10) {
            fields::break_call(random, version, &mut call, card.timestep);
        }
        let result = entries::call(version, &mut record, &call, &mut lent[used..]);
        if result != 10 && result != 11 {
            used += sheet::line_length(&call, card.layers);
            written.lines += 1;
        }
    }
    lent.truncate(used);
    written.bytes = lent;
    written
}

/// A sheet of an ordinary list; the room is at times too small for all of it.
fn ordinary(random: &mut Random) -> Written {
    let version = generate::version(random);
    let card = generate::card_of(random, version);
    let calls = generate::list_length(random) - 1;
    let opening = sheet::opening(version, &card).len();
    let room = match random.below(4) {
        0 => opening + random.below(3000) as usize,
        _ => 40_000,
    };
    write(random, version, &card, calls, room)
}

/// A sheet of more bytes than the program takes.
fn long(random: &mut Random) -> Written {
    let version = generate::version(random);
    let card = Card { layers: 64, ..generate::card_of(random, version) };
    write(random, version, &card, 140, 2 * MOST_BYTES)
}

// ---- Damage that is tried everywhere

/// One bit flipped in one byte of an accepted sheet, with its verdict.
pub fn flipped(sheet: &[u8], lines: &[Line], at: usize, bit: u8) -> Sheet {
    let mut bytes = sheet.to_vec();
    bytes[at] ^= bit;
    let known = match lines.iter().find(|line| line.whole().contains(&at)) {
        Some(line) => line_known(sheet, &bytes, line, at, lines.len() as u64),
        None if at == 0 => version_known(sheet[0], &bytes, lines),
        None if at < 3 => refused(41, 0),
        None => card_known(&bytes),
    };
    Sheet { what: "flipped bit", bytes, known }
}

/// The version of an accepted sheet was changed, nothing else.
fn version_known(before: u8, bytes: &[u8], lines: &[Line]) -> Known {
    let accepted = Known::Exactly(Verdict::Accepted(lines.len() as u64));
    let (shown, due) = (shows_hydronic_time(before), shows_hydronic_time(bytes[0]));
    if !is_known(bytes[0]) {
        refused(40, 0)
    } else if sheet::card_length(before, 0) != sheet::card_length(bytes[0], 0) {
        refused(41, 0) // no card's length is one of both
    } else if shown == due {
        accepted
    } else {
        lines.iter().find_map(|line| another_time(bytes, line, shown)).unwrap_or(accepted)
    }
}

/// The verdict on a hydronic line whose time is shown and not due any more, or the other way round;
/// None where it is 0 in both.
fn another_time(bytes: &[u8], line: &Line, is_shown: bool) -> Option<Known> {
    let substeps = &bytes[line.substeps()..line.state()];
    if line.kind != 3 || bytes[line.answer()] != 0 || *substeps == [0; 4] {
        None
    } else if is_shown {
        (fields::number_at(bytes, line.time()) != 0.0).then_some(refused(43, line.index))
    } else if *substeps == [0, 0, 0, 2] && fields::number_at(bytes, line.limit()) < 1e-10 {
        // The second can be a replay of no time at all.
        Some(Known::From(line.index))
    } else {
        Some(refused(43, line.index))
    }
}

/// The card of a sheet was changed.
fn card_known(bytes: &[u8]) -> Known {
    let card = reading::card(bytes[0], &bytes[3..fields::opening_end(bytes)]);
    match card.map(|card| plain::card_refusal(&card)) {
        Some(0) => Known::From(1),
        _ => refused(41, 0),
    }
}

/// Byte `at` of a line was changed, nothing else.
fn line_known(before: &[u8], after: &[u8], line: &Line, at: usize, lines: u64) -> Known {
    let index = line.index;
    if at < line.call() {
        refused(42, index)
    } else if at < line.answer() {
        // Kinds 4, 5 and 6 have one length; another call in range can have the same answer.
        let length = |kind| sheet::call_length(line.version, kind);
        match length(after[line.call()]) == length(line.kind) {
            true => Known::From(index),
            false => refused(42, index),
        }
    } else if at == line.outlet_mark() {
        let absent = after[at] == 0 && fields::number_at(after, line.outlet()).to_bits() == 0;
        match absent || after[at] == 1 {
            true => refused(43, index),
            false => refused(42, index),
        }
    } else if (line.outlet()..line.time()).contains(&at) && after[line.outlet_mark()] == 0 {
        refused(42, index)
    } else if at == line.answer() || (line.substeps()..line.state()).contains(&at) {
        refused(43, index)
    } else {
        number_known(before, after, line, at, lines)
    }
}

/// A number that is present was changed: accepted where f64 equality still holds.
fn number_known(before: &[u8], after: &[u8], line: &Line, at: usize, lines: u64) -> Known {
    let start =
        [line.energy(), line.outlet(), line.time()].into_iter().find(|p| (*p..p + 8).contains(&at));
    let start = start.unwrap_or_else(|| at - (at - line.state()) % 8);
    match fields::number_at(before, start) == fields::number_at(after, start) {
        true => Known::Exactly(Verdict::Accepted(lines)),
        false => refused(43, line.index),
    }
}

/// An accepted sheet cut to a length, with its verdict.
pub fn cut(sheet: &[u8], lines: &[Line], length: usize) -> Sheet {
    let known = match lines.iter().find(|line| line.end() > length) {
        _ if length == 0 => refused(40, 0),
        _ if length < fields::opening_end(sheet) => refused(41, 0),
        Some(line) if line.at == length => Known::Exactly(Verdict::Accepted(line.index - 1)),
        Some(line) => refused(42, line.index),
        None => Known::Exactly(Verdict::Accepted(lines.len() as u64)),
    };
    Sheet { what: "cut", bytes: sheet[..length].to_vec(), known }
}

/// A bit flipped in every byte, and the sheet cut at every length.
pub fn everywhere(random: &mut Random, sheet: &[u8]) -> Vec<Sheet> {
    let lines = fields::lines(sheet);
    let mut copies = Vec::with_capacity(2 * sheet.len());
    for at in 0..sheet.len() {
        copies.push(flipped(sheet, &lines, at, 1 << random.below(8)));
        copies.push(cut(sheet, &lines, at));
    }
    copies
}

/// The sign of every zero of every line flipped, in copies of their own.
pub fn zero_signs(sheet: &[u8]) -> Vec<Sheet> {
    let lines = fields::lines(sheet);
    let mut copies = Vec::new();
    for line in &lines {
        let mut places = line.numbers();
        places.push(line.outlet());
        places.retain(|at| fields::number_at(sheet, *at) == 0.0);
        for at in places {
            copies.push(Sheet { what: "sign of a zero", ..flipped(sheet, &lines, at, 128) });
        }
        let call = &sheet[line.call_bytes()];
        if let Some(mark) = fields::mark(line.version, line.kind).filter(|mark| call[*mark] == 0) {
            let mut bytes = sheet.to_vec();
            bytes[line.call() + mark + 1] = 128;
            let known = refused(42, line.index);
            copies.push(Sheet { what: "sign of an absent zero", bytes, known });
        }
    }
    copies
}

// ---- Damage that is drawn

/// A sheet under damage: its bytes, and the lines that it had.
struct Copy<'a> {
    random: &'a mut Random,
    bytes: Vec<u8>,
    lines: Vec<Line>,
}

impl Copy<'_> {
    fn line(&mut self) -> Option<Line> {
        match self.lines.len() as u64 {
            0 => None,
            n => Some(self.lines[self.random.below(n) as usize]),
        }
    }

    fn done(self, what: &'static str, known: Known) -> Option<Sheet> {
        Some(Sheet { what, bytes: self.bytes, known })
    }

    fn behind(&self) -> u64 {
        self.lines.len() as u64 + 1
    }

    /// Changes a line's answer so that it disagrees and keeps the layout.
    fn disagree(&mut self, line: &Line) {
        match self.random.below(6) {
            0 => self.bytes[line.answer()] ^= 1 + self.random.below(255) as u8,
            1 => self.bytes[line.substeps() + 3] ^= 1 + self.random.below(255) as u8,
            2 => {
                let at = self.random.pick(&line.numbers());
                fields::put_number(&mut self.bytes, at, fields::not_finite(self.random));
            }
            3 => {
                let at = self.random.pick(&line.numbers());
                let next = fields::number_at(&self.bytes, at).next_up().next_up();
                fields::put_number(&mut self.bytes, at, next);
            }
            4 => {
                let time = fields::number_at(&self.bytes, line.time());
                let other = if time == 0.0 { 20.0 } else { 0.0 };
                fields::put_number(&mut self.bytes, line.time(), other);
            }
            _ => self.swap_outlet(line),
        }
    }

    /// Shows an outlet where none is due, and none where one is.
    fn swap_outlet(&mut self, line: &Line) {
        self.bytes[line.outlet_mark()] ^= 1;
        if self.bytes[line.outlet_mark()] == 0 {
            fields::put_number(&mut self.bytes, line.outlet(), 0.0);
        } else if self.random.one_in(2) {
            let outlet = self.random.between(0.0, 90.0);
            fields::put_number(&mut self.bytes, line.outlet(), outlet);
        }
    }

    /// Changes a line so that refusal 42 applies to it.
    fn break_layout(&mut self, line: &Line, timestep: f64) {
        match self.random.below(4) {
            0 => self.bytes[line.at + 1] ^= 1 + self.random.below(255) as u8,
            1 => self.bytes[line.outlet_mark()] = self.random.pick(&[2, 3, 128, 255]),
            2 if self.bytes[line.outlet_mark()] == 0 => {
                let at = line.outlet() + self.random.below(8) as usize;
                self.bytes[at] = self.random.pick(&[1, 128, 255]);
            }
            _ => {
                let call = &mut self.bytes[line.call_bytes()];
                fields::break_call(self.random, line.version, call, timestep);
            }
        }
    }

    /// A refusal line in the place of an answer, or with another number.
    fn refuse_without_case(&mut self, line: &Line) {
        let numbers = [1, 10, 11, 20, 21, 22, 23, 24, 25, 40, 43, 255];
        let shown = self.bytes[line.answer()];
        let refusal = self.random.pick(&numbers);
        self.bytes[line.answer()] = if refusal == shown { refusal + 1 } else { refusal };
        self.bytes[line.energy()..line.state()].fill(0);
    }

    fn remove(&mut self, line: &Line) {
        self.bytes.drain(line.whole());
    }

    fn repeat(&mut self, line: &Line) {
        let copy = self.bytes[line.whole()].to_vec();
        self.bytes.splice(line.at..line.at, copy);
    }

    fn opening_end(&self) -> usize {
        fields::opening_end(&self.bytes)
    }

    /// Another length of line 0.
    fn put_length(&mut self, length: usize) {
        self.bytes[1..3].copy_from_slice(&(length as u16).to_be_bytes());
    }

    /// In the place of line 0.
    fn put_card(&mut self, card: &Card) {
        let opening = sheet::opening(self.bytes[0], card);
        self.bytes.splice(..self.opening_end(), opening);
    }

    fn card(&self) -> Card {
        let card = reading::card(self.bytes[0], &self.bytes[3..self.opening_end()]);
        card.expect("a sheet under damage has a card")
    }
}

/// Damage to the list of services, from version 3 on: its count, its length, its entries.
fn damage_services(mut copy: Copy) -> Option<Sheet> {
    if !lists_services(copy.bytes[0]) {
        return None;
    }
    let card = copy.card();
    let count = copy.bytes[3 + CARD_BYTES];
    match copy.random.below(6) {
        0 => {
            copy.bytes[3 + CARD_BYTES] =
                copy.random.pick(&[!count, count ^ 1, count ^ 32, count ^ 33]);
            copy.done("count", refused(41, 0))
        }
        1 => {
            // A byte of the card less, and its length with it: 158 + 3 × count, or in version 4
            // the card of version 3.
            let end = copy.opening_end();
            copy.bytes.remove(end - 1);
            copy.put_length(end - 4);
            copy.done("a byte of the card less", refused(41, 0))
        }
        2 => {
            // A service more, made of the first line's bytes.
            copy.bytes[3 + CARD_BYTES] = count.checked_add(1)?;
            copy.put_length(copy.opening_end() - 3 + 3);
            copy.done("count and length", Known::From(0))
        }
        3 | 4 => {
            let services = generate::refused_services(copy.random);
            copy.put_card(&Card { services, ..card });
            copy.done("refused services", refused(41, 0))
        }
        _ => {
            let services = generate::services(copy.random);
            copy.put_card(&Card { services, ..card });
            copy.done("other services", Known::From(1))
        }
    }
}

/// Damage to the floor flag: another one, none, or one that no version has.
fn damage_flag(mut copy: Copy) -> Option<Sheet> {
    let end = copy.opening_end();
    match (has_floor_flag(copy.bytes[0]), copy.random.below(6)) {
        (true, 0..=2) => {
            copy.bytes[end - 1] ^= 1;
            let lines = copy.lines.len() as u64;
            let loss = copy.lines.iter().find(|line| line.kind == 4);
            let known =
                loss.map_or(Known::Exactly(Verdict::Accepted(lines)), |l| Known::From(l.index));
            copy.done("flag turned", known)
        }
        (true, 3 | 4) => {
            copy.bytes[end - 1] = generate::refused_floor(copy.random);
            copy.done("refused flag", refused(41, 0))
        }
        _ => {
            let flag = copy.random.below(3) as u8;
            copy.bytes.insert(end, flag);
            copy.put_length(end - 3 + 1);
            copy.done("a flag more", refused(41, 0))
        }
    }
}

/// Damage to a demand's type, from version 3 on: its bytes exchanged, or another one. Any is in range.
fn damage_type(mut copy: Copy) -> Option<Sheet> {
    let line = copy.line().filter(|line| line.kind == 1 && lists_services(line.version))?;
    let (high, low) = (line.call() + 1, line.call() + 2);
    match copy.random.below(3) {
        0 => copy.bytes.swap(high, low),
        1 => copy.bytes[high] ^= 1,
        _ => copy.bytes[low] = copy.bytes[low].wrapping_add(1),
    }
    copy.done("type", Known::From(line.index))
}

/// Half of them are known ones.
fn another_version(random: &mut Random, version: u8) -> u8 {
    let others: Vec<u8> = VERSIONS.into_iter().filter(|other| *other != version).collect();
    match random.one_in(2) {
        true => random.pick(&others),
        false => generate::unknown_version(random),
    }
}

fn turned(mut copy: Copy) -> Option<Sheet> {
    let before = copy.bytes[0];
    copy.bytes[0] = another_version(copy.random, before);
    let known = version_known(before, &copy.bytes, &copy.lines);
    copy.done("version", known)
}

/// Damage to version, card line or what stands after the last line.
fn damage_ends(mut copy: Copy) -> Option<Sheet> {
    let behind = copy.behind();
    match copy.random.below(8) {
        0 => turned(copy),
        1 => {
            let right = copy.opening_end() - 3;
            let lengths = [0, 1, 157, right - 1, right + 1, right + 3, 0x9e00, 0xffff];
            let length = copy.random.pick(&lengths);
            copy.put_length(length);
            copy.done("card's length", refused(41, 0))
        }
        2 | 3 => {
            let card = generate::any_card_of(copy.random, copy.bytes[0]);
            copy.put_card(&card);
            let known = card_known(&copy.bytes);
            copy.done("another card", known)
        }
        4 => {
            let length = 1 + copy.random.below(80) as usize;
            let more = garbage(copy.random, length);
            copy.bytes.extend(more);
            copy.done("bytes behind", refused(42, behind))
        }
        5 => {
            let length = copy.random.below(400) as usize;
            let more = garbage(copy.random, length);
            copy.bytes.truncate(copy.opening_end());
            copy.bytes.extend(more);
            let first =
                if length == 0 { Known::Exactly(Verdict::Accepted(0)) } else { refused(42, 1) };
            copy.done("garbage behind the card", first)
        }
        6 => {
            let length = copy.random.below(400) as usize;
            copy.bytes = garbage(copy.random, length);
            copy.done("garbage", Known::From(0))
        }
        _ => {
            let at = copy.random.below(copy.bytes.len() as u64) as usize;
            let lines = std::mem::take(&mut copy.lines);
            Some(flipped(&copy.bytes, &lines, at, 1 << copy.random.below(8)))
        }
    }
}

/// Damage to one line.
fn damage_line(mut copy: Copy, timestep: f64) -> Option<Sheet> {
    let line = copy.line()?;
    let index = line.index;
    match copy.random.below(9) {
        0 | 1 => {
            copy.disagree(&line);
            copy.done("answer", refused(43, index))
        }
        2 | 3 => {
            copy.break_layout(&line, timestep);
            copy.done("layout", refused(42, index))
        }
        4 => {
            copy.refuse_without_case(&line);
            copy.done("refusal without its case", refused(43, index))
        }
        5 => {
            copy.disagree(&line);
            copy.break_layout(&line, timestep);
            copy.done("42 and 43 on one line", refused(42, index))
        }
        6 => {
            copy.remove(&line);
            copy.done("line removed", Known::From(index))
        }
        7 => {
            copy.repeat(&line);
            copy.done("line repeated", Known::From(index + 1))
        }
        _ => {
            let length = copy.random.below(copy.bytes.len() as u64) as usize;
            Some(cut(&copy.bytes, &copy.lines, length))
        }
    }
}

/// Damage to two lines: the lower one wins.
fn damage_two(mut copy: Copy, timestep: f64) -> Option<Sheet> {
    let (one, other) = (copy.line()?, copy.line()?);
    if one.index == other.index {
        return None;
    }
    copy.disagree(&one);
    copy.break_layout(&other, timestep);
    let known =
        if one.index < other.index { refused(43, one.index) } else { refused(42, other.index) };
    copy.done("43 and 42 on two lines", known)
}

/// A damaged copy of an accepted sheet; None where the sheet has no place for the damage drawn.
pub fn damaged(random: &mut Random, sheet: &[u8]) -> Option<Sheet> {
    let which = random.below(13);
    let copy = Copy { random, bytes: sheet.to_vec(), lines: fields::lines(sheet) };
    let timestep = copy.card().timestep;
    match which {
        10 => damage_services(copy),
        11 => damage_type(copy),
        12 => damage_flag(copy),
        0..=2 => damage_ends(copy),
        3..=8 => damage_line(copy, timestep),
        _ => damage_two(copy, timestep),
    }
}

// ---- Families

/// The most bytes of a sheet that is damaged everywhere.
const SMALL: usize = 900;
/// Damaged copies that are drawn for one sheet.
const DRAWN: u64 = 24;

/// Which families are of a sheet with more bytes than the program takes.
const LONG_EVERY: u64 = 100;

/// A sheet as the entries write it, with damaged copies: all of `everywhere` for a small one
/// now and then.
pub fn family(random: &mut Random, index: u64) -> Vec<Sheet> {
    let is_long = index.is_multiple_of(LONG_EVERY);
    let written = if is_long { long(random) } else { ordinary(random) };
    let sheet = written.bytes;
    let mut family = Vec::new();
    for _ in 0..if is_long { 4 } else { DRAWN } {
        family.extend(damaged(random, &sheet));
    }
    if sheet.len() <= SMALL && random.one_in(8) {
        family.extend(everywhere(random, &sheet));
        family.extend(zero_signs(&sheet));
    }
    let known = Known::Exactly(Verdict::Accepted(written.lines));
    family.push(Sheet { what: "as written", bytes: sheet, known });
    family
}

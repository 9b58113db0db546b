//! The independent auditor on sheets as written and on damaged ones.

use oracle::auditor::{audit, audit_limited, Verdict};
use oracle::compare;
use oracle::damage::{self, Known, Sheet};
use oracle::entries;
use oracle::faults::{Faulty, IN_AUDIT, IN_BOTH};
use oracle::fields;
use oracle::generate::{self, points_card};
use oracle::model::{is_known, Card, VERSIONS};
use oracle::random::Random;
use oracle::sheet;
#[cfg(published)]
use oracle::{judge, library::Independent};
use oracle::{plain, sheets};
use std::collections::BTreeMap;

fn named(name: &str) -> Vec<u8> {
    let found = sheets::all().into_iter().find(|sheet| sheet.name == name);
    found.expect("a sheet of this name").bytes
}

fn assert_known(sheet: &Sheet) {
    let verdict = audit(&sheet.bytes);
    assert!(sheet.known.allows(&verdict), "{}: {verdict}, {:?}", sheet.what, sheet.known);
}

/// The sheet that the entries write for the version and the calls of a sheet, cut into lines by its
/// lengths alone; None where version or card are refused, a call is or a length doesn't fit.
fn replayed(bytes: &[u8]) -> Option<Vec<u8>> {
    let version = *bytes.first()?;
    let card = sheet::card_in_front(version, bytes.get(3..)?)?;
    let mut record = vec![0; sheet::record_length(card)];
    let mut written = vec![0; sheet::opening_length(card)];
    if entries::open(version, card, &mut record, &mut written) != 0 {
        return None;
    }
    let mut rest = &bytes[written.len()..];
    while !rest.is_empty() {
        let call = rest.get(2..2 + sheet::call_length(version, *rest.get(2)?)?)?;
        let mut line = vec![0; sheet::line_length(call, card[0])];
        if entries::call(version, &mut record, call, &mut line) == 10 {
            return None;
        }
        rest = rest.get(line.len()..)?;
        written.extend(line);
    }
    Some(written)
}

/// Whether two sheets are equal but for signs of zeros.
fn equal_but_for_zeros(one: &[u8], other: &[u8]) -> bool {
    one.len() == other.len() && one.iter().zip(other).all(|(p, q)| p == q || p ^ q == 128)
}

#[test]
fn document_01s_single_verdicts() {
    assert_eq!(audit(&[1]).to_string(), "refused 41 line 0");
    assert_eq!(audit(&[]).to_string(), "refused 40 line 0");
    assert_eq!(audit(&[1]).word(), 41);
    assert_eq!(audit(&named("kind_close_timestep")).word(), 256);
    assert_eq!(audit(&named("byte_behind")).word(), 8 * 256 + 42);
}

#[test]
fn the_library_has_no_limit_and_the_c_audit_has() {
    let bytes = named("too_long");
    assert_eq!(audit(&bytes), Verdict::Accepted(112));
    assert_eq!(audit_limited(&bytes), Verdict::refused(44, 0));
    let bytes = named("longest_64_layers");
    assert_eq!((bytes.len(), audit_limited(&bytes)), (65_536, Verdict::Accepted(111)));
}

/// Every bit of every byte, and every length.
#[test]
fn flipped_everywhere_and_cut_everywhere() {
    let kinds = ["kind_demand", "kind_hydronic", "kind_charge_energy_demand"];
    let others = ["zero_signs", "hydronic_times", "services", "opening_floor_32_services"];
    for name in kinds.into_iter().chain(others) {
        let bytes = named(name);
        let lines = fields::lines(&bytes);
        for at in 0..bytes.len() {
            assert_known(&damage::cut(&bytes, &lines, at));
            for bit in 0..8 {
                assert_known(&damage::flipped(&bytes, &lines, at, 1 << bit));
            }
        }
    }
}

/// A bit of every byte of a sheet with every kind and refusal, in every version.
#[test]
fn all_kinds_damaged_everywhere() {
    for version in ["", "_version_2", "_version_3", "_version_4"] {
        let name = &format!("all_kinds{version}");
        damage::everywhere(&mut Random::new(3), &named(name)).iter().for_each(assert_known);
    }
}

#[test]
fn signs_of_zeros_by_their_place() {
    let copies = damage::zero_signs(&named("all_kinds"));
    copies.iter().for_each(assert_known);
    let accepted = Known::Exactly(Verdict::Accepted(19));
    let present = copies.iter().filter(|copy| copy.known == accepted).count();
    assert!(present > 19);
    assert!(copies.iter().any(|copy| copy.what == "sign of an absent zero"));
    let refused = copies.iter().filter(|copy| copy.known != accepted);
    for copy in refused {
        assert!(matches!(audit(&copy.bytes), Verdict::Refused { refusal: 42, .. }));
    }
}

/// Accepted exactly when the entries write the same for the sheet's calls.
#[test]
fn accepted_exactly_when_replayed() {
    let mut random = Random::new(11);
    let mut accepted = 0;
    for index in 0..150 {
        for Sheet { what, bytes, .. } in damage::family(&mut random, index) {
            let same = |written: Vec<u8>| equal_but_for_zeros(&written, &bytes);
            let replays = replayed(&bytes).is_some_and(same);
            let is_accepted = matches!(audit(&bytes), Verdict::Accepted(_));
            // Other bytes than a zero's sign can differ by 128 too: then replaying says nothing.
            assert!(!is_accepted || replays, "{what}");
            assert!(is_accepted || replayed(&bytes).is_none_or(|same| same != bytes), "{what}");
            accepted += u64::from(is_accepted);
        }
    }
    assert!(accepted > 300);
}

/// The same list in versions 1 and 2: the sheets differ in the first byte and in the times of
/// hydronic lines, which version 1 shows as 0.
#[test]
fn versions_differ_in_hydronic_times() {
    let mut times = 0;
    for seed in 0..300 {
        let card = generate::card(&mut Random::new(seed));
        let write = |version| damage::write(&mut Random::new(seed), version, &card, 20, 60_000);
        let [untimed, timed] = [1, 2].map(|version| write(version).bytes);
        let mut stripped = timed.clone();
        stripped[0] = 1;
        for line in fields::lines(&timed).iter().filter(|line| line.kind == 3) {
            times += u64::from(fields::number_at(&timed, line.time()) != 0.0);
            fields::put_number(&mut stripped, line.time(), 0.0);
        }
        assert_eq!(stripped, untimed);
    }
    assert!(times > 300, "{times}");
}

/// Another version in the first byte: accepted in 1 and 2 where no hydronic line has a time in
/// either; no card of 3 is one of another version, nor one of 4.
#[test]
fn turned_versions() {
    let mut random = Random::new(19);
    let mut counts = BTreeMap::new();
    for index in 0..1200 {
        for sheet in damage::family(&mut random, index) {
            if sheet.what == "version" {
                assert_known(&sheet);
                let version = Some(sheet.bytes[0]).filter(|version| is_known(*version));
                let refusal = audit(&sheet.bytes).refusal();
                *counts.entry((version, refusal)).or_insert(0u64) += 1;
            }
        }
    }
    let met: Vec<_> =
        counts.iter().filter(|(_, count)| **count >= 5).map(|(met, _)| *met).collect();
    let of = |version, refusals: &[u8]| -> Vec<_> {
        refusals.iter().map(|refusal| (Some(version), *refusal)).collect()
    };
    let shared = [1, 2].map(|version| of(version, &[0, 41, 43])).concat();
    let due = [vec![(None, 40)], shared, of(3, &[41]), of(4, &[41])].concat();
    assert_eq!(met, due, "{counts:?}");
}

/// A flag turned: accepted where no loss shows it, else 43 on one that does. One more than the version
/// has, or another than 0 and 1, is 41.
#[test]
fn turned_flags() {
    let mut random = Random::new(29);
    let mut counts = BTreeMap::new();
    for index in 0..600 {
        for sheet in damage::family(&mut random, index) {
            if sheet.what.contains("flag") {
                assert_known(&sheet);
                let met = (sheet.what, audit(&sheet.bytes).refusal());
                *counts.entry(met).or_insert(0u64) += 1;
            }
        }
    }
    let due = [("a flag more", 41), ("flag turned", 0), ("flag turned", 43), ("refused flag", 41)];
    assert_eq!(counts.keys().copied().collect::<Vec<_>>(), due, "{counts:?}");
    assert!(counts.values().all(|count| *count > 20), "{counts:?}");
}

/// However few bytes were free.
#[test]
fn written_sheets_are_accepted_in_every_room() {
    for free in 0..900 {
        let (version, mut random) = (VERSIONS[free % VERSIONS.len()], Random::new(free as u64));
        let layers = 1 + (free / 3 % 3) as u8;
        let Card { services, .. } = generate::card_of(&mut random, version);
        let card = Card { layers, services, ..points_card() };
        let room = sheet::opening(version, &card).len() + free;
        let written = damage::write(&mut random, version, &card, 12, room);
        assert!(written.bytes.len() <= room);
        assert_eq!(audit(&written.bytes), Verdict::Accepted(written.lines));
        assert_eq!(fields::lines(&written.bytes).len() as u64, written.lines);
    }
}

#[test]
fn charged_total_and_directions_on_accepted_sheets() {
    let mut random = Random::new(13);
    for _ in 0..300 {
        let version = generate::version(&mut random);
        let card = generate::card_of(&mut random, version);
        let bytes = damage::write(&mut random, version, &card, 20, 60_000).bytes;
        let mut charged = 0.0;
        let mut before = vec![card.start; usize::from(card.layers)];
        for line in fields::lines(&bytes) {
            let zones = |at| fields::number_at(&bytes, line.state() + 8 * at);
            let after: Vec<f64> = (0..before.len()).map(zones).collect();
            let pairs = || before.iter().zip(&after);
            let answered = bytes[line.answer()] == 0;
            let trial = line.kind == 1 && bytes[line.commit()] == 0;
            if answered && [2, 3].contains(&line.kind) {
                charged += fields::number_at(&bytes, line.energy());
            }
            assert_eq!(fields::number_at(&bytes, line.end() - 16), charged);
            assert!(line.kind != 4 || pairs().all(|(p, q)| q <= p));
            assert!(line.kind != 2 || pairs().all(|(p, q)| q >= p));
            assert!((answered && !trial) || pairs().all(|(p, q)| p == q));
            before = after;
        }
    }
}

#[cfg(published)]
#[test]
fn plain_and_judge_give_the_same_verdicts() {
    let judged = Independent { step: judge::step };
    let report = compare::audit(&judged, plain::step, 8_000, 5);
    assert!(report.is_clean(), "{report}");
    for refusal in [0, 40, 41, 42, 43, 44] {
        assert!(report.count("audit", refusal) > 0, "{refusal}");
    }
}

/// Most with the first seed; one that shows in the last places alone may take more.
#[test]
fn a_comparison_finds_every_fault() {
    for (name, fault) in IN_AUDIT.into_iter().chain(IN_BOTH) {
        let is_found = (5..13).any(|seed| {
            let report = compare::audit(&Faulty { fault }, plain::step, 8_000, seed);
            assert_eq!(report.surprises, 0, "{name}");
            report.disagreements > 0
        });
        assert!(is_found, "{name}");
    }
}

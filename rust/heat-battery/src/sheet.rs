//! A battery and the sheet of its calls.

use crate::answer::{Answer, Line};
use crate::battery::{line_bytes, opening_bytes, Battery};
use crate::call::Call;
use crate::card::Card;
use crate::reading::read;
use crate::refusal::Refusal;
use crate::version::Version;

/// A fresh battery with the sheet of all calls made on it.
///
/// The two stay together, so that the sheet is one that the auditor accepts. Each call gets
/// the free bytes after the last line and the bytes that it used are kept.
///
/// ```
/// use heat_battery::{audit, Call, Card, Refusal, Sheet, Verdict};
///
/// let mut sheet = Sheet::open(&Card::example())?;
/// sheet.call(&Call::Electric { power: 3.0, target: 1.0 })?;
/// sheet.call(&Call::CloseTimestep)?;
/// assert_eq!(audit(sheet.as_bytes()), Verdict::Accepted(2));
/// # Ok::<(), Refusal>(())
/// ```
#[derive(Clone, Debug)]
pub struct Sheet {
    battery: Battery,
    bytes: Vec<u8>,
    most: usize,
    lines: u64,
}

impl Sheet {
    /// Opens a battery and a sheet of the newest version that grows with its lines. Refusals 1 to
    /// 4 and 61. The laboratory's audit program takes sheets of at most
    /// [`MOST_AUDITED`](crate::MOST_AUDITED) bytes.
    pub fn open(card: &Card) -> Result<Sheet, Refusal> {
        Sheet::open_as(Version::NEWEST, card)
    }

    /// Opens a battery and a sheet of a version, which every call is then given. Refusals 1 to 4
    /// and 61: 1 also for a card with a floor before version 4, 61 also for one that lists services
    /// before version 3.
    pub fn open_as(version: Version, card: &Card) -> Result<Sheet, Refusal> {
        Sheet::open_within(version, card, usize::MAX)
    }

    /// Opens a battery and a sheet of at most `most` bytes: 11 where a line has no room.
    pub fn open_within(version: Version, card: &Card, most: usize) -> Result<Sheet, Refusal> {
        let mut bytes = vec![0; opening_bytes(version, card).min(most)];
        let battery = Battery::open_on(version, card, &mut bytes)?;
        Ok(Sheet { battery, bytes, most, lines: 0 })
    }

    /// The version that it was opened with.
    pub fn version(&self) -> Version {
        self.battery.version()
    }

    /// Makes a call. 10 and 11 leave battery and sheet as they were; 20 to 25 leave the
    /// battery as it was and stand on the sheet as a line; all are errors.
    pub fn call(&mut self, call: &Call) -> Result<Answer, Refusal> {
        self.answer(call)?.result()
    }

    /// Makes a call and gives what its line shows: one of 20 to 25 is an answer with its
    /// refusal, only 10 and 11 are errors.
    pub fn answer(&mut self, call: &Call) -> Result<Answer, Refusal> {
        let used = self.bytes.len();
        let call_bytes = call.kind().bytes(self.version());
        let needed = line_bytes(call_bytes, self.battery.card().layers);
        self.bytes.resize(used + needed.min(self.most - used), 0);
        let free = self.bytes.get_mut(used..).unwrap_or_default();
        let answer = self.battery.answer_on(call, free);
        match answer {
            Ok(_) => self.lines += 1,
            Err(_) => self.bytes.truncate(used),
        }
        answer
    }

    /// The battery as the last call left it.
    pub fn battery(&self) -> &Battery {
        &self.battery
    }

    /// The sheet's bytes.
    pub fn as_bytes(&self) -> &[u8] {
        &self.bytes
    }

    /// The sheet's bytes, by value.
    pub fn into_bytes(self) -> Vec<u8> {
        self.bytes
    }

    /// The number of call lines.
    pub fn len(&self) -> u64 {
        self.lines
    }

    /// Whether there is no call line yet.
    pub fn is_empty(&self) -> bool {
        self.lines == 0
    }

    /// The call lines.
    pub fn lines(&self) -> impl Iterator<Item = Line> + '_ {
        read(&self.bytes).into_iter().flat_map(|(_, _, lines)| lines).flatten()
    }
}

//! A card's fingerprint.

use crate::card::Card;
use crate::version::Version;
use std::fmt;

/// CRC-32 over a card's bytes, shown as eight hexadecimal digits: enough to tell cards apart at a
/// glance, and no seal. The bytes are those of the first version that has what the card has: the 158
/// of its fields; where it lists services, their count and list behind them; where it has a floor,
/// count, list and flag. So a card has one fingerprint in every version.
///
/// ```
/// use heat_battery::Card;
///
/// let card = Card::example();
/// assert_eq!(card.fingerprint().to_string(), "3ce57cdf");
/// assert_ne!(Card { losses: 0.2, ..card.clone() }.fingerprint(), card.fingerprint());
/// ```
#[derive(Clone, Copy, Debug, PartialEq, Eq, Hash)]
pub struct Fingerprint(pub u32);

impl fmt::Display for Fingerprint {
    fn fmt(&self, f: &mut fmt::Formatter<'_>) -> fmt::Result {
        write!(f, "{:08x}", self.0)
    }
}

impl Card {
    /// The fingerprint of the card's bytes.
    pub fn fingerprint(&self) -> Fingerprint {
        let first = Version::ALL.into_iter().find(|version| self.stands_in(*version).is_ok());
        Fingerprint(crc_32(&self.line(first.unwrap_or_default())))
    }
}

/// The polynomial of CRC-32, its lowest power first.
const POLYNOMIAL: u32 = 0xedb8_8320;

/// CRC-32 as zip, gzip and PNG have it: it begins with ones and its end is inverted.
fn crc_32(bytes: &[u8]) -> u32 {
    let mut rest = u32::MAX;
    for byte in bytes {
        rest ^= u32::from(*byte);
        for _ in 0..8 {
            let carry = rest & 1;
            rest >>= 1;
            rest ^= POLYNOMIAL * carry;
        }
    }
    !rest
}

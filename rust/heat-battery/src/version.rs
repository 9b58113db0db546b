//! The versions of a sheet.

use std::fmt;

/// A version of the sheet: its first byte. New sheets and batteries get the newest unless another
/// is asked for; a sheet that is read keeps its own.
///
/// ```
/// use heat_battery::Version;
///
/// assert_eq!(Version::default(), Version::NEWEST);
/// assert_eq!(Version::from_number(1), Some(Version::One));
/// assert_eq!(Version::from_number(0), None);
/// assert_eq!(Version::Two.to_string(), "2");
/// assert!(Version::Three.has_services() && !Version::Two.has_services());
/// assert!(Version::Four.has_floor() && !Version::Three.has_floor());
/// ```
#[derive(Clone, Copy, Debug, PartialEq, Eq, PartialOrd, Ord, Hash)]
pub enum Version {
    /// 1, document 01's.
    One = 1,
    /// 2: an answered hydronic charge shows how long its pump ran.
    Two,
    /// 3: a card lists services by number, and a demand's type has two bytes.
    Three,
    /// 4: a card may set a floor of 16 °C for standing losses.
    Four,
}

impl Version {
    /// Every known one, the oldest first.
    pub const ALL: [Version; 4] = [Version::One, Version::Two, Version::Three, Version::Four];

    /// The last of them.
    pub const NEWEST: Version = Version::ALL[Version::ALL.len() - 1];

    /// The first byte of its sheets.
    pub fn number(&self) -> u8 {
        *self as u8
    }

    /// The version of a first byte; None where it is no known one.
    pub fn from_number(number: u8) -> Option<Version> {
        Version::ALL.into_iter().find(|version| version.number() == number)
    }

    /// The numbers of all, for messages: `1, 2, 3, 4`.
    pub fn known() -> String {
        Version::ALL.map(|version| version.to_string()).join(", ")
    }

    /// Whether the time of an answered hydronic charge stands on its line; else 0 does.
    pub fn shows_hydronic_time(&self) -> bool {
        *self >= Version::Two
    }

    /// Whether its cards list services, and its demands may be for a number above 3.
    #[inline]
    pub const fn has_services(&self) -> bool {
        *self as u8 >= Version::Three as u8
    }

    /// Whether its cards say if standing losses have a floor; else they have none.
    #[inline]
    pub const fn has_floor(&self) -> bool {
        *self as u8 >= Version::Four as u8
    }
}

/// The newest.
impl Default for Version {
    fn default() -> Version {
        Version::NEWEST
    }
}

/// Its number.
impl fmt::Display for Version {
    fn fmt(&self, f: &mut fmt::Formatter<'_>) -> fmt::Result {
        self.number().fmt(f)
    }
}

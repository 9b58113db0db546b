//! The refusals of documents 01 and 02, with their numbers and words.

use std::fmt;

/// Why a card, a call or a sheet is refused.
///
/// ```
/// use heat_battery::Refusal;
///
/// let refusal = Refusal::from_number(20);
/// assert_eq!(refusal, Some(Refusal::NoReturn));
/// assert_eq!(
///     Refusal::NoReturn.to_string(),
///     "20: required above 1e-10 without a return temperature"
/// );
/// ```
#[derive(Clone, Copy, Debug, PartialEq, Eq, Hash)]
pub enum Refusal {
    /// 1, a card.
    CardOutOfRange,
    /// 1 too: a card with a floor, for a sheet of version 1, 2 or 3.
    VersionWithoutFloor,
    /// 2, a card.
    LowerAboveUpper,
    /// 3, a card.
    MaxTooLow,
    /// 4, a card.
    NothingToStore,
    /// 10, a call without a line.
    BadCall,
    /// 10 too: the battery that was handed in.
    BadBattery,
    /// 11, a call without a line, or an opening.
    NoRoom,
    /// 20, as a line.
    NoReturn,
    /// 21, as a line.
    NoService,
    /// 22, as a line.
    OverBudget,
    /// 23, as a line.
    NotFinite,
    /// 24, as a line.
    NoLogarithm,
    /// 25, as a line.
    OverFull,
    /// 40, a sheet, or the version that a C entry is given.
    NoVersion,
    /// 41, a sheet.
    BadCard,
    /// 42, a sheet.
    BadLine,
    /// 43, a sheet.
    Disagrees,
    /// 44, a sheet.
    TooLong,
    /// 61, a card, after 4.
    BadServices,
    /// 61 too: a card that lists services, for a sheet of version 1 or 2.
    VersionWithoutServices,
    /// A number that documents 01 and 02 have no refusal for. Only a damaged sheet shows one.
    Other(u8),
}

/// Each refusal with its number, its name in the C header and in the definitions, and its meaning.
const REFUSALS: [(Refusal, u8, &str, &str); 21] = [
    (Refusal::CardOutOfRange, 1, "CARD_OUT_OF_RANGE", "a card field is not finite or out of range"),
    (Refusal::VersionWithoutFloor, 1, "CARD_OUT_OF_RANGE",
        "the card has a floor for standing losses, which sheets have from version 4 on",
    ),
    (Refusal::LowerAboveUpper, 2, "LOWER_ABOVE_UPPER", "lower is above upper"),
    (Refusal::MaxTooLow, 3, "MAX_TOO_LOW", "max is at most 20 °C"),
    (Refusal::NothingToStore, 4, "NOTHING_TO_STORE", "max is below ref or nearly equal to it"),
    (Refusal::BadCall, 10, "BAD_CALL", "a call field is not finite or out of range"),
    (Refusal::BadBattery, 10, "BAD_CALL",
        "the battery handed in has another length, a refused card, or a zone or total that is not finite",
    ),
    (Refusal::NoRoom, 11, "NO_ROOM", "fewer free sheet bytes than the line needs"),
    (Refusal::NoReturn, 20, "NO_RETURN", "required above 1e-10 without a return temperature"),
    (Refusal::NoService, 21, "NO_SERVICE",
        "a committed demand of service type combi, or of a number that the card doesn't list",
    ),
    (Refusal::OverBudget, 22, "OVER_BUDGET", "a substep is called for after the card's budget of them is done"),
    (Refusal::NotFinite, 23, "NOT_FINITE",
        "a zone, outlet, delivered sum, charged energy or total is not finite",
    ),
    (Refusal::NoLogarithm, 24, "NO_LOGARITHM", "the logarithm's argument is not positive, normal and finite"),
    (Refusal::OverFull, 25, "OVER_FULL", "the state of charge is above 1"),
    (Refusal::NoVersion, 40, "NO_VERSION", "the version, a sheet's first byte, is missing or not known"),
    (Refusal::BadCard, 41, "BAD_CARD", "the card line is missing, of wrong length or its card is refused"),
    (Refusal::BadLine, 42, "BAD_LINE",
        "a call line is cut short, of unknown kind or wrong length, or has a field out of range",
    ),
    (Refusal::Disagrees, 43, "DISAGREES", "an answer disagrees with the steps"),
    (Refusal::TooLong, 44, "TOO_LONG", "more than 65,536 bytes"),
    (Refusal::BadServices, 61, "BAD_SERVICES",
        "the card lists more than 32 services, a number under 4, numbers that don't rise or an unknown class",
    ),
    (Refusal::VersionWithoutServices, 61, "BAD_SERVICES",
        "the card lists services, which sheets have from version 3 on",
    ),
];

impl Refusal {
    /// The refusal of a number; None for 0, which is no refusal. 1 is read as that of a field, 10 as
    /// that of a call, though the C entries give it for a bad battery too; 61 as that of a list of
    /// services.
    pub fn from_number(number: u8) -> Option<Refusal> {
        if number == 0 {
            return None;
        }
        let known = REFUSALS.iter().find(|entry| entry.1 == number);
        Some(known.map_or(Refusal::Other(number), |entry| entry.0))
    }

    fn entry(&self) -> Option<&'static (Refusal, u8, &'static str, &'static str)> {
        REFUSALS.iter().find(|entry| entry.0 == *self)
    }

    /// Its number.
    pub fn number(&self) -> u8 {
        match self {
            Refusal::Other(number) => *number,
            known => known.entry().map_or(0, |entry| entry.1),
        }
    }

    /// Its name: that of the C header after `HEAT_BATTERY_`. Refusals of one number have one name.
    pub fn name(&self) -> &'static str {
        self.entry().map_or("OTHER", |entry| entry.2)
    }

    /// What it means.
    pub fn words(&self) -> &'static str {
        self.entry().map_or("no known refusal", |entry| entry.3)
    }

    /// Every refusal, in the order of their numbers.
    pub fn all() -> impl Iterator<Item = Refusal> {
        REFUSALS.iter().map(|entry| entry.0)
    }

    /// Whether it stands on the sheet as a line: 20 to 25.
    pub fn is_line(&self) -> bool {
        matches!(
            self,
            Refusal::NoReturn
                | Refusal::NoService
                | Refusal::OverBudget
                | Refusal::NotFinite
                | Refusal::NoLogarithm
                | Refusal::OverFull
        )
    }
}

/// The number, a colon, the meaning.
impl fmt::Display for Refusal {
    fn fmt(&self, f: &mut fmt::Formatter<'_>) -> fmt::Result {
        write!(f, "{}: {}", self.number(), self.words())
    }
}

impl std::error::Error for Refusal {}

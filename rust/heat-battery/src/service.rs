//! Services: document 01's four, and those that a card lists by number.

use std::fmt;
use std::hash::{Hash, Hasher};

/// Which service a demand is for. 0 to 3 have names; a number above 3 stands for the class that
/// the card lists for it ([`Card::services`](crate::Card::services)), from version 3 on.
///
/// ```
/// use heat_battery::ServiceType;
///
/// assert_eq!(ServiceType::from_number(2), ServiceType::Space);
/// assert_eq!(ServiceType::from_number(700), ServiceType::Numbered(700));
/// assert_eq!(ServiceType::Numbered(2), ServiceType::Space); // by their numbers
/// assert_eq!(ServiceType::Numbered(700).to_string(), "700");
/// assert_eq!(ServiceType::Direct.to_string(), "direct");
/// ```
#[derive(Clone, Copy, Debug)]
pub enum ServiceType {
    /// 0; only in trials.
    Combi,
    /// 1: hot water through a cylinder.
    Regular,
    /// 2: space heating.
    Space,
    /// 3: hot water straight from the battery.
    Direct,
    /// Above 3: of the class that the card lists for the number; only in trials where it lists none.
    Numbered(u16),
}

impl ServiceType {
    /// The four with names, each at its number.
    pub const NAMED: [ServiceType; 4] =
        [ServiceType::Combi, ServiceType::Regular, ServiceType::Space, ServiceType::Direct];

    /// Its number on the sheet.
    #[inline]
    pub fn number(&self) -> u16 {
        match *self {
            ServiceType::Combi => 0,
            ServiceType::Regular => 1,
            ServiceType::Space => 2,
            ServiceType::Direct => 3,
            ServiceType::Numbered(number) => number,
        }
    }

    /// The service of a number.
    pub fn from_number(number: u16) -> ServiceType {
        let named = ServiceType::NAMED.get(usize::from(number));
        named.copied().unwrap_or(ServiceType::Numbered(number))
    }

    /// The name in text and JSON; None for a number above 3.
    pub fn name(&self) -> Option<&'static str> {
        ["combi", "regular", "space", "direct"].get(usize::from(self.number())).copied()
    }

    /// Whether its number is above 3, which only sheets from version 3 on have.
    #[inline]
    pub fn is_numbered(&self) -> bool {
        self.number() >= Service::LEAST
    }
}

/// By their numbers.
impl PartialEq for ServiceType {
    fn eq(&self, other: &ServiceType) -> bool {
        self.number() == other.number()
    }
}

impl Eq for ServiceType {}

impl Hash for ServiceType {
    fn hash<H: Hasher>(&self, state: &mut H) {
        self.number().hash(state);
    }
}

/// The name, or the number where it has none.
impl fmt::Display for ServiceType {
    fn fmt(&self, f: &mut fmt::Formatter<'_>) -> fmt::Result {
        match self.name() {
            Some(name) => f.write_str(name),
            None => self.number().fmt(f),
        }
    }
}

/// What a listed service is: it runs as the service type of that name does.
#[derive(Clone, Copy, Debug, PartialEq, Eq, Hash)]
pub enum ServiceClass {
    /// 1: hot water through a cylinder.
    Regular = 1,
    /// 2: space heating.
    Space,
    /// 3: hot water straight from the battery.
    Direct,
}

impl ServiceClass {
    /// All three in the order of their numbers.
    pub const ALL: [ServiceClass; 3] =
        [ServiceClass::Regular, ServiceClass::Space, ServiceClass::Direct];

    /// Its number on the sheet.
    pub fn number(&self) -> u8 {
        *self as u8
    }

    /// The class of a number; None where there is none.
    pub fn from_number(number: u8) -> Option<ServiceClass> {
        ServiceClass::ALL.into_iter().find(|class| class.number() == number)
    }

    /// The name in text and JSON.
    pub fn name(&self) -> &'static str {
        match self {
            ServiceClass::Regular => "regular",
            ServiceClass::Space => "space",
            ServiceClass::Direct => "direct",
        }
    }
}

/// The name.
impl fmt::Display for ServiceClass {
    fn fmt(&self, f: &mut fmt::Formatter<'_>) -> fmt::Result {
        f.write_str(self.name())
    }
}

/// A service that a card lists, from version 3 on.
#[derive(Clone, Copy, Debug, PartialEq, Eq, Hash)]
pub struct Service {
    /// 4 to 65535, above that of the service before.
    pub number: u16,
    /// What it is.
    pub class: ServiceClass,
}

impl Service {
    /// The least number of a listed service; those below have names.
    pub const LEAST: u16 = 4;

    /// The most services of a card.
    pub const MOST: usize = heat_battery_sys::MOST_SERVICES;

    /// A service of a number and a class.
    pub const fn new(number: u16, class: ServiceClass) -> Service {
        Service { number, class }
    }

    /// Why a list of services is refused, in words, each with the place of the service where it is
    /// one's own; `count` is how many are listed.
    pub(crate) fn faults(services: &[Service], count: usize) -> Vec<(Option<usize>, String)> {
        let most = Service::MOST;
        let too_many = format!("{count} services are listed, at most {most} may be");
        let mut faults: Vec<_> = (count > most).then_some((None, too_many)).into_iter().collect();
        let mut before = 0;
        for (at, service) in services.iter().enumerate() {
            faults.extend(service.fault_behind(before).map(|words| (Some(at), words)));
            before = service.number;
        }
        faults
    }

    /// Why it can't stand behind another number on a list, in words; None where it can.
    fn fault_behind(&self, before: u16) -> Option<String> {
        let number = self.number;
        match number {
            ..Service::LEAST => {
                let name = ServiceType::from_number(number);
                Some(format!("service {number} is {name}; listed numbers are 4 to 65535"))
            }
            _ if number == before => Some(format!("service {number} is listed twice")),
            _ if number < before => {
                Some(format!("service {number} stands behind {before}; the numbers have to rise"))
            }
            _ => None,
        }
    }
}

/// The number and the class: `12 space`
impl fmt::Display for Service {
    fn fmt(&self, f: &mut fmt::Formatter<'_>) -> fmt::Result {
        write!(f, "{} {}", self.number, self.class)
    }
}

//! The plain C of plain_c/heat_battery.c.

use std::ptr::NonNull;

/// C's `struct plain_battery`.
enum Battery {}

extern "C" {
    fn plain_c_new(start: *const f64, floor: bool) -> *mut Battery;
    fn plain_c_free(battery: *mut Battery);
    fn plain_c_list(battery: *mut Battery, calls: *const f64, count: usize) -> f64;
}

pub struct PlainC(NonNull<Battery>);

impl PlainC {
    /// From a card's 23 numbers, five totals and 64 zones, and its floor.
    pub fn new(start: &[f64], floor: bool) -> Self {
        assert_eq!(start.len(), 23 + 5 + 64);
        // SAFETY: as many numbers as it reads.
        PlainC(NonNull::new(unsafe { plain_c_new(start.as_ptr(), floor) }).expect("memory"))
    }

    /// The list from the start on: the sum of energies and the first zone.
    pub fn list(&mut self, calls: &[[f64; 10]]) -> f64 {
        // SAFETY: the battery is its own, and the calls are as many as it is told.
        unsafe { plain_c_list(self.0.as_ptr(), calls.as_ptr().cast(), calls.len()) }
    }
}

impl Drop for PlainC {
    fn drop(&mut self) {
        // SAFETY: it came from plain_c_new and is not used again.
        unsafe { plain_c_free(self.0.as_ptr()) }
    }
}

/// The plain C gives the judge's sums on random lists of kinds 1 to 5, up to the first refusal, with
/// and without a floor.
#[cfg(test)]
mod tests {
    use super::PlainC;
    use crate::engine::version_with;
    use crate::{oracle_battery, oracle_call, oracle_list};
    use heat_battery::Version;
    use oracle::entries::BEST;
    use oracle::generate;
    use oracle::model::{Battery, Call, Card, Demand, Hydronic, Services};
    use oracle::random::Random;

    fn start(battery: &Battery) -> Vec<f64> {
        let card = &battery.card;
        let mut start = vec![card.layers.into(), card.units.into()];
        start.extend([f64::from(card.simultaneous), f64::from(card.budget)]);
        start.extend(card.numbers());
        start.extend(battery.state.totals.numbers());
        start.extend(&battery.state.zones);
        start.resize(23 + 5 + 64, 0.0);
        start
    }

    /// A call of kinds 1 to 5 as the rows have it.
    fn numbers(call: &Call) -> Option<[f64; 10]> {
        let numbers = match call {
            Call::Demand(d) => {
                let flags =
                    [1, d.service_type, d.commit.into(), d.control_on.into()].map(f64::from);
                let Demand { required, start, return_temperature, .. } = *d;
                let mark = f64::from(u8::from(return_temperature.is_some()));
                [&flags[..], &[required, start, mark, return_temperature.unwrap_or(0.0)]].concat()
            }
            Call::Electric { power, target } => vec![2.0, *power, *target],
            Call::Hydronic(h) => {
                let Hydronic { inlet, hours, flow, target, limit, hex_a, hex_b, .. } = *h;
                vec![3.0, inlet, hours, flow, target, limit, hex_a, hex_b, h.velocity, h.diameter]
            }
            Call::StandingLoss => vec![4.0],
            Call::CloseTimestep => vec![5.0],
            Call::StateOfCharge | Call::ChargeEnergyDemand { .. } => return None,
        };
        Some(std::array::from_fn(|k| numbers.get(k).copied().unwrap_or(0.0)))
    }

    /// A list without refusals from a battery on, of types 0 to 3.
    fn list(random: &mut Random, version: Version, from: &Battery) -> (Vec<Call>, Vec<[f64; 10]>) {
        let mut battery = from.clone();
        let (mut calls, mut rows) = (vec![], vec![]);
        for _ in 0..generate::list_length(random) {
            let next = generate::next_call(random, Version::Two.number(), &battery);
            let Some(row) = numbers(&next) else { continue };
            let call = oracle_call(&row);
            let (answer, after) = BEST(version.number(), &battery, &call);
            if answer.refusal != 0 {
                break;
            }
            battery = after;
            calls.push(call);
            rows.push(row);
        }
        (calls, rows)
    }

    #[test]
    fn random_lists() {
        let mut random = Random::new(1);
        let (mut count, mut losses) = (0, 0);
        while count < 100_000 {
            let card = generate::card_of(&mut random, Version::Four.number());
            let card = Card { services: Services::default(), ..card };
            let (floor, battery) = (card.floor == 1, generate::battery(&mut random, &card));
            let version = version_with(floor);
            let (calls, rows) = list(&mut random, version, &battery);
            let start = start(&battery);
            assert_eq!(start, self::start(&oracle_battery(&start, floor)));
            let (sum, _) = oracle_list(version, BEST, &battery, &calls);
            let got = PlainC::new(&start, floor).list(&rows);
            assert!(got.to_bits() == sum.to_bits() || got.is_nan() && sum.is_nan(), "{calls:?}");
            count += calls.len();
            let is_loss = |call: &&Call| matches!(call, Call::StandingLoss);
            losses += calls.iter().filter(is_loss).filter(|_| floor).count();
        }
        assert!(losses > 10_000, "{losses} losses with a floor");
    }
}

//! What `card check` says of an accepted card.

mod common {
    pub mod command;
}

use common::command::{example, run, Ended, Folder};
use heat_battery::{Battery, Card, Totals, Version};

fn check(folder: &Folder, card: &Card) -> Ended {
    let ended = run(&["card", "check", &folder.write("card", card.to_string().as_bytes())]);
    ended.assert_fine("card check");
    ended
}

/// The numbers of the line that says what a battery holds.
fn holds(ended: &Ended) -> Vec<f64> {
    let line = ended.out.lines().find(|line| line.starts_with("holds ")).expect("what it holds");
    line.split([' ', ':', ',']).filter_map(|word| word.parse().ok()).collect()
}

#[test]
fn card_check_says_what_the_card_holds() {
    let checked = run(&["card", "check", &example("salt-battery.card")]);
    let words = "\nholds 10.51 kWh: 1.44 below, 6.84 in and 2.23 above the melting range\n";
    assert!(checked.out.contains(words), "{}", checked.out);
    let units = check(&Folder::new("holds-units"), &Card { units: 3, ..Card::example() });
    let words = "\nholds 31.53 kWh, each unit 10.51 kWh: 1.44 below, ";
    assert!(units.out.contains(words), "{}", units.out);
}

/// The sum is the engine's: what it takes to charge an empty battery.
#[test]
fn what_a_card_holds_is_what_the_engine_charges() {
    let folder = Folder::new("holds");
    let salt = Card::example();
    for card in [
        salt.clone(),
        Card { reference: 58.0, ..salt.clone() },
        Card { reference: 70.0, ..salt.clone() },
        Card { max: 58.5, start: 45.0, ..salt.clone() },
        Card { max: 50.0, start: 45.0, ..salt.clone() },
        Card { lower: 57.0, upper: 57.0, ..salt.clone() },
        Card { lower: 20.0, upper: 30.0, ..salt.clone() },
        Card { lower: 90.0, upper: 95.0, ..salt.clone() },
    ] {
        let (zones, totals) = ([card.reference; 8], Totals::default());
        let empty = Battery::with_state(Version::NEWEST, &card, &zones, &totals).unwrap();
        let full = empty.charge_energy_demand(None, 1.0).unwrap();
        let said = holds(&check(&folder, &card));
        let [sum, below, during, above] = said[..] else { panic!("{said:?}") };
        assert!((sum - full).abs() < 0.006, "{sum} is not {full}: {card:?}");
        assert!((below + during + above - sum).abs() < 0.016, "{said:?}");
    }
}

#[test]
fn card_check_warns_of_odd_values() {
    let folder = Folder::new("odd");
    let salt = Card::example();
    let odd = |card: Card, words: &str| {
        let ended = check(&folder, &card);
        assert_eq!(ended.err, format!("warning: {words}\n"));
        assert!(ended.out.starts_with("accepted: "));
    };
    odd(Card { start: 85.0, ..salt.clone() }, "start is 85 °C, above max, which is 80 °C");
    odd(Card { start: 15.0, ..salt.clone() }, "start is 15 °C, below reference, which is 40 °C");
    let words = "losses of 0.5 kW take 12.00 kWh a day, and a unit holds 10.51 kWh";
    odd(Card { losses: 0.5, ..salt.clone() }, words);
    let far = "far from below and above, which are 305.2 and 381.5 kJ/K";
    odd(Card { during: 380.0, losses: 0.0, ..salt.clone() }, &format!("during is 380 kJ/K, {far}"));
    odd(Card { during: 1e6, ..salt.clone() }, &format!("during is 1000000 kJ/K, {far}"));
    for card in
        [salt.clone(), Card { start: 80.0, ..salt.clone() }, Card { start: 40.0, ..salt.clone() }]
    {
        assert_eq!(check(&folder, &card).err, "");
    }
}

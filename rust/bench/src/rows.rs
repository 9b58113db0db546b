//! The rows: a battery and a list of calls each. A call is its kind and its numbers in document
//! 01's order; a demand has type, commit, control, required, start, return mark and temperature.

pub struct Row {
    pub name: &'static str,
    /// 23 numbers of the card, five totals, 64 zones.
    pub start: Vec<f64>,
    /// Whether standing losses stop at 16 °C, which the published Rust doesn't have.
    pub floor: bool,
    pub calls: Vec<[f64; 10]>,
}

/// A card as a maker would write it.
fn card(layers: f64, simultaneous: f64, start: f64) -> Vec<f64> {
    let mut card = vec![layers, 1.0, simultaneous, 65535.0];
    card.extend([20.0, 0.5]); // substep, timestep
    card.extend([10.0, 53.0, 80.0, 20.0, 57.0, 59.0]); // inlet, outlet, max, ref, lower, upper
    card.extend([381.5, 12317.0, 381.5]); // below, during, above
    card.extend([0.035, 6.5, 19.744, -105.5, 10.0]); // velocity, diameter, a, b, flow
    card.extend([0.22, start, 5.6]); // losses, start, power
    card
}

fn battery(card: Vec<f64>, zone: impl Fn(usize) -> f64) -> Vec<f64> {
    let layers = card[0] as usize;
    let mut start = card;
    start.extend([0.0; 5]);
    start.extend((0..64).map(|k| if k < layers { zone(k) } else { 0.0 }));
    start
}

fn demand(service: f64, commit: f64, required: f64, feed: f64) -> [f64; 10] {
    [1.0, service, commit, 1.0, required, 0.0, 1.0, feed, 0.0, 0.0]
}

fn electric(power: f64, target: f64) -> [f64; 10] {
    [2.0, power, target, 0.0, 0.0, 0.0, 0.0, 0.0, 0.0, 0.0]
}

fn hydronic(inlet: f64, hours: f64, limit: f64) -> [f64; 10] {
    [3.0, inlet, hours, 10.0, 1.0, limit, 19.744, -105.5, 0.035, 0.0065]
}

fn kind(k: f64) -> [f64; 10] {
    [k, 0.0, 0.0, 0.0, 0.0, 0.0, 0.0, 0.0, 0.0, 0.0]
}

/// From 56.5 °C upward, below, within and above the melting range.
fn spread(layers: f64) -> impl Fn(usize) -> f64 {
    move |k| 56.5 + 18.0 * (k as f64) / layers
}

fn one(name: &'static str, start: Vec<f64>, call: [f64; 10]) -> Row {
    Row { name, start, floor: false, calls: vec![call] }
}

fn with_floor(name: &'static str, start: Vec<f64>) -> Row {
    Row { floor: true, ..one(name, start, kind(4.0)) }
}

/// Eight zones from 12 °C upward: three that are at the floor or under it and stay, five whose losses
/// would end under it.
fn at_floor() -> Vec<f64> {
    let losses = 20.0;
    let card = [&card(8.0, 0.0, 80.0)[..20], &[losses, 80.0, 5.6]].concat();
    battery(card, |k| 12.0 + 2.0 * (k as f64))
}

/// 48 half-hours, three services, a charge at night, losses and the end of each timestep.
fn winter_day() -> Vec<[f64; 10]> {
    let mut calls = Vec::new();
    for half_hour in 0..48 {
        let hot_water = if (12..18).contains(&half_hour) || half_hour > 36 { 0.9 } else { 0.05 };
        calls.push(demand(1.0, 0.0, hot_water, 30.0));
        calls.push(demand(1.0, 1.0, hot_water, 30.0));
        calls.push(demand(2.0, 0.0, 0.25, 35.0));
        calls.push(demand(2.0, 1.0, 0.25, 35.0));
        calls.push(demand(3.0, 1.0, 0.1, 10.0));
        if half_hour < 12 {
            calls.push(electric(5.6, 1.0));
        }
        calls.push(kind(4.0));
        calls.push(kind(5.0));
    }
    calls
}

pub fn rows() -> Vec<Row> {
    let eight = || battery(card(8.0, 0.0, 80.0), spread(8.0));
    let most = || battery(card(64.0, 0.0, 80.0), spread(64.0));
    let cold = |layers: f64| battery(card(layers, 0.0, 30.0), |_| 30.0);
    let both = || battery(card(8.0, 1.0, 80.0), spread(8.0));
    vec![
        one("demand, 8 layers", eight(), demand(1.0, 1.0, 0.15, 30.0)),
        one("demand, 64 layers", most(), demand(1.0, 1.0, 0.15, 30.0)),
        one("demand while charging, 8 layers", both(), demand(1.0, 1.0, 0.15, 30.0)),
        one("electric charge, 8 layers", cold(8.0), electric(5.6, 0.9)),
        one("electric charge, 64 layers", cold(64.0), electric(5.6, 0.9)),
        one("hydronic charge, 8 layers", cold(8.0), hydronic(70.0, 0.6, 50.0)),
        one("standing loss, 8 layers", eight(), kind(4.0)),
        one("standing loss, 64 layers", most(), kind(4.0)),
        with_floor("standing loss with the floor, 8 layers", eight()),
        with_floor("standing loss at the floor, 8 layers", at_floor()),
        Row { name: "winter day, 8 layers", start: eight(), floor: false, calls: winter_day() },
    ]
}

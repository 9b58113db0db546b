//! `heat-battery refusals`.

use crate::arguments::Arguments;
use crate::failure::Failure;
use crate::output::print;
use heat_battery::Refusal;
use std::fmt::Write;

/// A row for each meaning; 10 has two.
pub fn refusals(_: &Arguments) -> Result<(), Failure> {
    let mut text = String::new();
    for refusal in Refusal::all() {
        let _ =
            writeln!(text, "{:>2}  {:<17}  {}", refusal.number(), refusal.name(), refusal.words());
    }
    print(&text)
}

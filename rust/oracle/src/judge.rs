//! The judge, and in the place of what the published file doesn't have the plain implementation.

use crate::model::{Answer, Battery, Call};
use crate::plain;
use published::judge;
pub use published::judge::*;

/// One call on a battery in a known version: the answer, and the battery that it leaves. A standing
/// loss with the floor is answered by the plain implementation, so that the calls after it are judged
/// from the battery that it leaves.
pub fn step(version: u8, battery: &Battery, call: &Call) -> (Answer, Battery) {
    match battery.has_floor(version, call) {
        true => plain::step(version, battery, call),
        false => judge::step(version, battery, call),
    }
}

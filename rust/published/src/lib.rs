//! The published heat_battery_pcm.rs, from the one text that build.rs finds, as three modules: the
//! judge, with document 01's stand-ins and its substeps counted; and for the benchmark the file as
//! it stands, and with the stand-ins, both without counting, budget or tests around a substep.
//!
//! Without the file (`cfg(published)`) there is only what judge and oracle have in common.

pub mod model;
pub mod ranges;
pub mod stand_ins;

#[cfg(published)]
mod functions;
#[cfg(published)]
#[allow(dead_code)]
mod home_model;
#[cfg(published)]
pub(crate) use home_model::{compare_floats, core, corpus, input};

#[cfg(published)]
#[allow(warnings)]
mod judged {
    include!(concat!(env!("OUT_DIR"), "/judged.rs"));
}

#[cfg(published)]
#[allow(warnings)]
mod as_it_stands {
    include!(concat!(env!("OUT_DIR"), "/as_it_stands.rs"));
}

#[cfg(published)]
#[allow(warnings)]
mod with_stand_ins {
    include!(concat!(env!("OUT_DIR"), "/with_stand_ins.rs"));
}

#[cfg(published)]
pub use {
    as_it_stands::driver::Published as AsItStands, judged::judge,
    with_stand_ins::driver::Published as WithStandIns,
};

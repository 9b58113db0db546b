//! The target of the C entries.
#![no_main]

fuzz::target!(entries);

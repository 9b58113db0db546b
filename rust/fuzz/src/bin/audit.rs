//! The target of the audit.
#![no_main]

fuzz::target!(audit);

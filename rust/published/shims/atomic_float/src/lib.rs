//! An f64 in an atomic word, under the name of `atomic_float`.

use std::sync::atomic::{AtomicU64, Ordering};

#[derive(Debug, Default)]
pub struct AtomicF64(AtomicU64);

impl AtomicF64 {
    pub fn load(&self, order: Ordering) -> f64 {
        f64::from_bits(self.0.load(order))
    }

    pub fn store(&self, value: f64, order: Ordering) {
        self.0.store(value.to_bits(), order)
    }

    /// One f64 addition. The oracle uses a battery from one thread only.
    pub fn fetch_add(&self, value: f64, order: Ordering) -> f64 {
        let old = self.load(order);
        self.store(old + value, order);
        old
    }
}

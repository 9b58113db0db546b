//! A lock whose guards come without a Result, under the name of `parking_lot`.

use std::cell::{Ref, RefCell, RefMut};

/// The oracle uses a battery from one thread only, so a cell is enough.
#[derive(Debug, Default)]
pub struct RwLock<T>(RefCell<T>);

impl<T> RwLock<T> {
    pub fn new(value: T) -> Self {
        RwLock(RefCell::new(value))
    }

    pub fn read(&self) -> Ref<'_, T> {
        self.0.borrow()
    }

    pub fn write(&self) -> RefMut<'_, T> {
        self.0.borrow_mut()
    }
}

//! `collect_vec`, under the name of `itertools`.

pub trait Itertools: Iterator + Sized {
    fn collect_vec(self) -> Vec<Self::Item> {
        self.collect()
    }
}

impl<I: Iterator> Itertools for I {}

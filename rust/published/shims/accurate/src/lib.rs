//! `Sum2` as document 01 writes it, under the names of the crate `accurate`.

pub mod sum {
    /// s and c of document 01.
    #[derive(Clone, Copy)]
    pub struct Sum2<F> {
        sum: F,
        compensation: F,
    }

    impl crate::traits::SumAccumulator for Sum2<f64> {
        type Item = f64;

        fn zero() -> Self {
            Sum2 { sum: 0.0, compensation: 0.0 }
        }

        fn add(&mut self, p: f64) {
            let s = self.sum;
            let t = s + p;
            let z = t - s;
            self.compensation += (s - (t - z)) + (p - z);
            self.sum = t;
        }

        fn result(self) -> f64 {
            self.sum + self.compensation
        }
    }
}

pub mod traits {
    pub trait SumAccumulator {
        type Item;

        fn zero() -> Self;
        fn add(&mut self, p: Self::Item);
        fn result(self) -> Self::Item;
    }

    pub trait SumWithAccumulator: Iterator + Sized {
        fn sum_with_accumulator<A: SumAccumulator<Item = Self::Item>>(self) -> Self::Item {
            let mut sum = A::zero();
            for p in self {
                sum.add(p);
            }
            sum.result()
        }
    }

    impl<I: Iterator> SumWithAccumulator for I {}
}

//! Stands in for the crate `rand`: names only. A fit draws nothing, so a draw is a mistake and stops the run.

pub mod rngs {
    pub struct SmallRng;
}

pub trait SeedableRng: Sized {
    fn from_rng<R>(rng: &mut R) -> Self;
}

impl SeedableRng for rngs::SmallRng {
    fn from_rng<R>(_: &mut R) -> Self {
        panic!("the oracle draws no random number")
    }
}

pub trait RngExt {
    fn random<T>(&mut self) -> T {
        panic!("the oracle draws no random number")
    }
}

impl RngExt for rngs::SmallRng {}

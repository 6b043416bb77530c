//! Stands in for the crate `approx`: two traits, never called by a fit.

pub trait AbsDiffEq {
    type Epsilon;
    fn default_epsilon() -> Self::Epsilon;
    fn abs_diff_eq(&self, other: &Self, epsilon: Self::Epsilon) -> bool;
}

pub trait RelativeEq: AbsDiffEq {
    fn default_max_relative() -> Self::Epsilon;
    fn relative_eq(&self, other: &Self, epsilon: Self::Epsilon, max_relative: Self::Epsilon) -> bool;
}

//! Stands in for the crate `num`: the two names that docs/src takes from it, which `num` itself re-exports.
pub use num_traits::{cast, ToPrimitive};

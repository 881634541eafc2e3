//! What the tests of this crate and of `compare/` share, and the tools there:
//! generators, models as the paper writes them, calls in a row, texts, the
//! vectors and xmllint. The implementation uses none of it.
//!
//! The tests take the vectors from the folder FORM_VECTORS, or from
//! `shared/vectors` beside the repository, and the seed of what is random from
//! FORM_SEED, or from the clock; they print it.

pub mod notation;
pub mod play;
pub mod random;
pub mod rng;
pub mod texts;
pub mod vectors;
pub mod xmllint;

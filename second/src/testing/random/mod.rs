//! Random forms, documents, calls and damage, for tests. All is drawn from a
//! seeded [`crate::rng::Rng`], so a seed tells a whole run.

pub mod calls;
pub mod damage;
pub mod documents;
pub mod forms;
pub mod history;
pub mod words;

//! Shared parts of the programs `oracle`, `generate`, `record` and
//! `differential`: the text forms and refusals, the answers, the seeded layouts,
//! the branches that a layout reaches, a model of slow cutting, and the recorded
//! files.

pub mod answer;
pub mod branches;
pub mod generate;
pub mod layout;
pub mod model;
pub mod options;
pub mod record;

// Documents and originals agree on 64 bits; every conversion rests on it.
const _: () = assert!(usize::BITS == 64);

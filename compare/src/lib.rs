//! An independent calculation, written from `docs/` alone: the plainest
//! formulas, so that any script can be compared with the product by `diff`.

pub mod board;
pub mod cabinet;
pub mod coverage;
pub mod difference;
pub mod house;
pub mod refusal;
pub mod rules;
pub mod samples;
pub mod script;

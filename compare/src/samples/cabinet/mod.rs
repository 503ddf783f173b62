//! Lines about boards and cabinets: eras, each on a board of its own.

mod accounts;
mod boards;
mod edges;
mod eras;
mod limits;
mod look;
mod months;
mod refusals;
mod rows;
mod spoiled_lines;

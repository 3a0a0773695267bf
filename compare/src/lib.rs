//! Differential testing: oracle and proved reader side by side. `README.md` beside this crate says how it is run.
pub mod expected;
#[path = "../../rust/src/ffi.rs"]
mod ffi;
pub mod judge;
pub mod model;
pub mod reader;
pub mod recorded;
pub mod run;
pub mod same;
pub mod servant;
pub mod show;
pub mod shrink;
pub mod streams;
pub mod tally;
pub mod trial;
pub mod values;

#[cfg(test)]
mod stand_in;
#[cfg(test)]
mod tests;

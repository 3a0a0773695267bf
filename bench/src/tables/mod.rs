//! The tables, each of one question.
pub mod called;
pub mod growth;
pub mod late;
pub mod memory;
pub mod recordings;
pub mod small;
pub mod whole;

/// What the command line says.
#[derive(Clone, Copy)]
pub struct Run {
    pub rounds: usize,
    pub seed: u32,
}

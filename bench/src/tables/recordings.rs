//! Recordings that a caller names, as users call.
use super::called::{sequence_rows, COLUMNS};
use crate::exports::Lent;
use crate::table::heading;
use std::path::Path;

const PIECES: [usize; 2] = [4_096, 64];

/// Each file is one DCS sequence, without the line end that some encoders write after it. It has to keep the house's limits, or nothing is timed.
pub fn run(rounds: usize, files: &[String]) {
    heading("Recordings", &COLUMNS);
    let mut lent = Lent::house();
    for file in files {
        let sequence = std::fs::read(file).unwrap_or_else(|error| panic!("{file}: {error}"));
        let name = Path::new(file).file_name().map_or(file.clone(), |name| name.to_string_lossy().into_owned());
        sequence_rows(rounds, &mut lent, &name, sequence.trim_ascii_end(), &PIECES);
    }
}

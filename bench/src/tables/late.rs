//! Two megabytes that keep the picture small, and an end that makes it large.
use super::{called, Run};
use crate::exports::Lent;
use crate::inputs::commands::late;
use crate::inputs::Input;
use crate::random::Random;
use crate::table::heading;
use owlgantry::Limits;

const LENGTH: usize = 2_000_000;
const WIDTH: usize = 40_000;
const BANDS: usize = 1_000;
/// A byte at a time says nothing here that it does not say of the pictures.
const PIECES: [usize; 3] = [0, 4_096, 64];

pub fn run(run: Run) {
    heading("Large at last", &called::COLUMNS);
    for (input, columns, rows) in inputs(run.seed) {
        called::rows(run.rounds, &mut Lent::new(Limits::CRATE, columns, rows), &input, &PIECES);
    }
}

/// Each with the columns and rows that it needs.
fn inputs(seed: u32) -> Vec<(Input, usize, usize)> {
    vec![
        (Input::new("2 MB of `~$`, then `!40000~`", wide()), WIDTH, 6),
        (Input::new("2 MB of colours by chance, then `!40000~`", coloured(seed)), WIDTH, 6),
        (Input::new("2 MB of `~$`, then 1,000 of `-~`", tall()), 1, 6 * (BANDS + 1)),
    ]
}

/// The stream that a reader which starts anew on a larger canvas reads most often.
pub fn wide() -> Vec<u8> {
    late(LENGTH, || "~$".into(), &format!("!{WIDTH}~"))
}

fn coloured(seed: u32) -> Vec<u8> {
    let mut random = Random::new(seed);
    late(LENGTH, || format!("#{}{}$", random.below(256), random.sixel()), &format!("!{WIDTH}~"))
}

fn tall() -> Vec<u8> {
    late(LENGTH, || "~$".into(), &"-~".repeat(BANDS))
}

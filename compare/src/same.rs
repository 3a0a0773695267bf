//! Differences: two answers that are not the same, and canvases that do not show the same.
use crate::reader::GUARD;
use std::fmt::Debug;

pub struct Difference {
    pub what: String,
    pub ours: String,
    pub theirs: String,
}

pub type Same = Result<(), Difference>;

/// The picture's rows are the oracle's, all other bytes those of the opening.
pub fn pixels([width, height]: [usize; 2], theirs: &[u8], stride: usize, ours: &[u8], opening: &[u8]) -> Same {
    let mut at = 0;
    for row in 0..height {
        let start = GUARD + 4 * row * stride;
        untouched(at, &ours[at..start], &opening[at..start])?;
        at = start + 4 * width;
        let theirs = &theirs[4 * row * width..][..4 * width];
        if ours[start..at] != *theirs {
            let place = (0..width).find(|x| ours[start + 4 * x..][..4] != theirs[4 * x..][..4]).unwrap_or(0);
            let colour = |pixel: &[u8]| pixel.iter().map(|byte| format!("{byte:02X}")).collect();
            let what = format!("pixel at column {place}, row {row}");
            return Err(differs(&what, colour(&ours[start + 4 * place..][..4]), colour(&theirs[4 * place..][..4])));
        }
    }
    untouched(at, &ours[at..], &opening[at..])
}

fn untouched(from: usize, ours: &[u8], opening: &[u8]) -> Same {
    if ours == opening {
        return Ok(());
    }
    let place = ours.iter().zip(opening).position(|(mine, before)| mine != before).unwrap_or(0);
    let what = format!("byte {} of the canvas, outside the picture", (from + place) as i64 - GUARD as i64);
    Err(differs(&what, format!("{:02X}", ours[place]), format!("{:02X}", opening[place])))
}

pub fn same<T: PartialEq + Debug>(what: &str, ours: T, theirs: T) -> Same {
    if ours == theirs {
        return Ok(());
    }
    Err(differs(what, format!("{ours:?}"), format!("{theirs:?}")))
}

pub fn same_call(call: u64, what: &str, ours: u64, counted: u64) -> Same {
    if ours == counted {
        return Ok(());
    }
    Err(differs(&format!("{what} of call {call}"), ours.to_string(), counted.to_string()))
}

pub fn differs(what: &str, ours: String, theirs: String) -> Difference {
    Difference { what: what.into(), ours, theirs }
}

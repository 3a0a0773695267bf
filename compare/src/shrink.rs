//! Shrinking: the smallest trial that still fails, found by leaving things out.
use crate::trial::{Trial, LEAST};
use oracle::run::Entry;

/// Tries at most so many trials, so that a slow one comes to an end too.
const TRIES: usize = 20_000;

pub fn shrink(trial: &Trial, fails: &mut dyn FnMut(&Trial) -> bool) -> Trial {
    let mut smallest = trial.clone();
    let mut tries = 0;
    loop {
        let mut smaller = false;
        let mut at = 0;
        // Where a candidate is taken, the next one is looked for at the same place of the new list.
        while let Some(candidate) = candidate(&smallest, at) {
            tries += 1;
            if tries > TRIES {
                return smallest;
            }
            if candidate != smallest && fails(&candidate) {
                smallest = candidate;
                smaller = true;
            } else {
                at += 1;
            }
        }
        if !smaller {
            return smallest;
        }
    }
}

/// The candidates in order: large cuts of the stream first, then single bytes, then the rest of the setting.
fn candidate(trial: &Trial, at: usize) -> Option<Trial> {
    let mut at = at;
    let mut size = trial.stream().len().next_power_of_two();
    while size > 0 {
        let cuts = trial.stream().len().div_ceil(size);
        if at < cuts {
            return Some(without(trial, at * size, size));
        }
        at -= cuts;
        size /= 2;
    }
    if at < trial.pieces.len() {
        return Some(merged(trial, at));
    }
    at -= trial.pieces.len();
    let plain = trial.clone();
    let entry = match trial.entry {
        Entry::Payload(_) => Entry::Payload([None; 3]),
        other => other,
    };
    Some(match at {
        0 => Trial { before: Vec::new(), ..plain },
        1 => Trial { abort: false, ..plain },
        2 => Trial { poked: false, ..plain },
        3 => Trial { room: [0; 3], ..plain },
        4 => Trial { allowances: vec![usize::MAX], ..plain },
        5 if trial.allowances.len() > 1 => Trial { allowances: vec![LEAST], ..plain },
        5 => plain,
        6 => Trial { fill: 0, ..plain },
        7 => Trial { entry, ..plain },
        8 => Trial { pieces: Vec::new(), ..plain },
        9 => Trial { watched: false, ..plain },
        _ if at - 10 < trial.before.len() => {
            let mut before = plain.before.clone();
            before.remove(at - 10);
            Trial { before, ..plain }
        }
        _ => return None,
    })
}

/// Without `size` bytes of the stream from `from` on; the pieces stay, some of them shorter.
fn without(trial: &Trial, from: usize, size: usize) -> Trial {
    let mut place = 0;
    let mut left = trial.clone();
    for piece in &mut left.pieces {
        piece.retain(|_| {
            place += 1;
            !(from < place && place <= from + size)
        });
    }
    left
}

/// A piece and the next one as one; the last, where it is empty, goes.
fn merged(trial: &Trial, at: usize) -> Trial {
    let mut merged = trial.clone();
    let piece = merged.pieces.remove(at);
    match merged.pieces.get_mut(at) {
        Some(next) => *next = [piece, std::mem::take(next)].concat(),
        None if !piece.is_empty() => merged.pieces.push(piece),
        None => {}
    }
    merged
}

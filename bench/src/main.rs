//! The benchmark: what users call, timed beside the Rust. Whoever is compared takes turns in one run, and the best processor time
//! of each counts. Before anything is timed, all have to see the same picture.
mod canvas;
mod clock;
mod counting;
mod exports;
#[path = "../../rust/src/ffi.rs"]
mod ffi;
mod inputs;
mod libsixel;
mod picture;
mod random;
mod readers;
mod sessions;
mod table;
mod tables;
mod timing;

use exports::{ROWS, STRIDE};
use tables::Run;

#[global_allocator]
static ALLOCATOR: counting::Counting = counting::Counting;

const STANDARD_ROUNDS: usize = 30;

fn run_of(words: &[String]) -> Option<Run> {
    let word = |index: usize, otherwise: usize| words.get(index).map_or(Some(otherwise), |word| word.parse().ok());
    let rounds = word(0, STANDARD_ROUNDS).filter(|&rounds| rounds > 0)?;
    let seed = u32::try_from(word(1, random::STANDARD_SEED as usize)?).ok()?;
    Some(Run { rounds, seed })
}

/// The lower bound of whatever fills pixels.
fn memset(rounds: usize) {
    let mut canvas = vec![0_u8; 4 * STRIDE * ROWS];
    let time = clock::alone(rounds, || std::hint::black_box(&mut canvas).fill(7));
    let bytes = table::grouped(canvas.len() as u64);
    println!("\nmemset of the whole canvas, {bytes} bytes: {}", table::microseconds(time));
}

fn main() {
    let words: Vec<String> = std::env::args().skip(1).collect();
    let Some(run) = run_of(&words) else {
        eprintln!("bench/run [ROUNDS] [SEED] [FILE..]: rounds from 1 on, a seed below 2^32, and recordings to time in place of the tables");
        std::process::exit(2);
    };
    let kind = std::env::var("OWLGANTRY_KIND").unwrap_or_default();
    println!("ours: {kind}; {} rounds, seed {}, best processor time in microseconds", run.rounds, run.seed);
    if let Some(files) = words.get(2..).filter(|files| !files.is_empty()) {
        return tables::recordings::run(run.rounds, files);
    }
    tables::whole::run(run);
    tables::called::run(run);
    tables::small::run(run);
    tables::growth::run(run);
    tables::memory::run(run);
    tables::late::run(run);
    memset(run.rounds);
}

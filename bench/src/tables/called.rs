//! What users call: the exports on a lent canvas, and the crate's owned decode and streams, whole and in pieces.
use super::Run;
use crate::clock::{done, race};
use crate::exports::Lent;
use crate::inputs::commands::{short_repeats, stepped_definitions};
use crate::inputs::encode::Order;
use crate::inputs::maps::{map, Map};
use crate::inputs::photos::{photo, Photo};
use crate::inputs::{framed, Input, Raster};
use crate::picture::Picture;
use crate::readers::{ours, rust};
use crate::sessions;
use crate::table::{grouped, heading, microseconds, over, row};

pub const COLUMNS: [&str; 7] =
    ["input and call", "bytes", "Rust", "export", "crate", "export over the Rust", "crate over the Rust"];
const PIECES: [usize; 4] = [0, 4_096, 64, 1];

pub fn run(run: Run) {
    heading("As users call", &COLUMNS);
    let mut lent = Lent::house();
    for input in inputs(run.seed) {
        rows(run.rounds, &mut lent, &input, &PIECES);
    }
}

fn inputs(seed: u32) -> Vec<Input> {
    let photo = |kind| photo(kind, seed, 800, 480, Raster::Given);
    let map = |kind, order| map(kind, order, seed, 512, 768, Raster::Given);
    vec![
        Input::new("photo", photo(Photo::Smooth)),
        Input::new("photo of short runs", photo(Photo::ShortRuns)),
        Input::new("band map with repeats", map(Map::Bars, Order::Repeats)),
        Input::new("walking band map, a register where it changes", map(Map::Walk, Order::RegisterChanges)),
        Input::new("short repeats", short_repeats(seed, 1_000, 768, Raster::Given)),
        Input::new("colour definitions", stepped_definitions(seed, 20_000)),
    ]
}

/// Every call that reads one input.
pub fn rows(rounds: usize, lent: &mut Lent, input: &Input, pieces: &[usize]) {
    let Input { name, payload } = input;
    let sequence = framed(payload);
    decode(rounds, lent, &format!("{name}, owned decode"), &sequence);
    for &piece in pieces {
        payload_row(rounds, lent, &format!("{name}, payload, {}", told(piece)), payload, piece);
    }
    dcs_rows(rounds, lent, name, &sequence, pieces);
}

/// Every call that reads one sequence: the owned decode, and a DCS stream.
pub fn sequence_rows(rounds: usize, lent: &mut Lent, name: &str, sequence: &[u8], pieces: &[usize]) {
    decode(rounds, lent, &format!("{name}, owned decode"), sequence);
    dcs_rows(rounds, lent, name, sequence, pieces);
}

fn dcs_rows(rounds: usize, lent: &mut Lent, name: &str, sequence: &[u8], pieces: &[usize]) {
    for &piece in pieces {
        sequence_row(rounds, lent, &format!("{name}, DCS, {}", told(piece)), sequence, piece);
    }
}

fn told(piece: usize) -> String {
    match piece {
        0 => "whole".into(),
        1 => "pieces of 1 byte".into(),
        _ => format!("pieces of {} bytes", grouped(piece as u64)),
    }
}

/// All at once: the exports' `owlgantry_raw_read`, and the decoders that own their canvas.
fn decode(rounds: usize, lent: &mut Lent, name: &str, sequence: &[u8]) {
    let export = lent.picture(|lent| lent.read(sequence));
    check(name, export, ours::decode(sequence).into(), rust::decode(sequence).into());
    let times = race(
        rounds,
        [&mut || done(rust::decode(sequence)), &mut || done(lent.read(sequence)), &mut || done(ours::decode(sequence))],
    );
    report(name, sequence.len(), times);
}

fn payload_row(rounds: usize, lent: &mut Lent, name: &str, payload: &[u8], piece: usize) {
    let export = lent.picture(|lent| sessions::payload(lent, payload, piece));
    check(name, export, ours::payload(payload, piece).into(), rust::payload(payload, piece).into());
    let times = race(
        rounds,
        [
            &mut || done(rust::payload(payload, piece)),
            &mut || done(sessions::payload(lent, payload, piece)),
            &mut || done(ours::payload(payload, piece)),
        ],
    );
    report(name, payload.len(), times);
}

fn sequence_row(rounds: usize, lent: &mut Lent, name: &str, sequence: &[u8], piece: usize) {
    let export = lent.picture(|lent| sessions::sequence(lent, sequence, piece));
    check(name, export, ours::sequence(sequence, piece).into(), rust::sequence(sequence, piece).into());
    let times = race(
        rounds,
        [
            &mut || done(rust::sequence(sequence, piece)),
            &mut || done(sessions::sequence(lent, sequence, piece)),
            &mut || done(ours::sequence(sequence, piece)),
        ],
    );
    report(name, sequence.len(), times);
}

/// All see the same picture, or nothing is timed.
fn check(name: &str, export: Picture, owned: Picture, theirs: Picture) {
    assert_eq!(export, theirs, "{name}: the export");
    assert_eq!(owned, theirs, "{name}: the crate");
}

fn report(name: &str, bytes: usize, times: [f64; 3]) {
    let [theirs, export, owned] = times;
    let [theirs_told, export_told, owned_told] = times.map(microseconds);
    let bytes = grouped(bytes as u64);
    row(name, &[bytes, theirs_told, export_told, owned_told, over(theirs, export), over(theirs, owned)]);
}

//! The same kind of picture at 1, 2, 4 and 8 times the size, with a raster and without: whether time is linear in it.
use super::Run;
use crate::clock::{alone, done};
use crate::exports::Lent;
use crate::inputs::commands::{growth, long_repeats, short_repeats, stepped_definitions};
use crate::inputs::encode::Order;
use crate::inputs::maps::{map, Map};
use crate::inputs::photos::{photo, Photo};
use crate::inputs::{framed, Raster};
use crate::picture::Picture;
use crate::readers::{ours, rust};
use crate::table::{heading, microseconds, over, row};

const TIMES: [usize; 4] = [1, 2, 4, 8];
const PIECE: usize = 4_096;

/// What is read, and its payload at so many times the size.
struct Sort {
    name: &'static str,
    /// What a raster adds to the name, so that earlier names stay.
    added: [&'static str; 2],
    payload: fn(u32, usize, Raster) -> Vec<u8>,
}

const NAMED_WITH: [&str; 2] = ["", ", without raster"];
const NAMED_WITHOUT: [&str; 2] = [", with raster", ""];

const SORTS: [Sort; 7] = [
    Sort {
        name: "photo, 800 x 90",
        added: NAMED_WITH,
        payload: |seed, times, raster| photo(Photo::Smooth, seed, 800, 90 * times, raster),
    },
    Sort {
        name: "photo of short runs, 800 x 90",
        added: NAMED_WITH,
        payload: |seed, times, raster| photo(Photo::ShortRuns, seed, 800, 90 * times, raster),
    },
    Sort {
        name: "band map, 512 x 96, column by column",
        added: NAMED_WITH,
        payload: |seed, times, raster| map(Map::Bars, Order::Columns, seed, 512, 96 * times, raster),
    },
    Sort {
        name: "walking band map, 512 x 96, a register where it changes",
        added: NAMED_WITH,
        payload: |seed, times, raster| map(Map::Walk, Order::RegisterChanges, seed, 512, 96 * times, raster),
    },
    Sort {
        name: "long repeats, 1,000 x 96",
        added: NAMED_WITHOUT,
        payload: |seed, times, raster| long_repeats(seed, 1_000, 96 * times, raster),
    },
    Sort {
        name: "short repeats, 1,000 x 96",
        added: NAMED_WITH,
        payload: |seed, times, raster| short_repeats(seed, 1_000, 96 * times, raster),
    },
    Sort {
        name: "growth to 128 columns of 768",
        added: NAMED_WITH,
        payload: |seed, times, raster| growth(seed, 128 * times, 768, raster),
    },
];

pub fn run(run: Run) {
    heading("1, 2, 4 and 8 times the size", &["input and call", "1", "2", "4", "8", "8 over 1"]);
    let mut lent = Lent::house();
    for sort in SORTS {
        for (raster, added) in [Raster::Given, Raster::Missing].into_iter().zip(sort.added) {
            let payloads = TIMES.map(|times| (sort.payload)(run.seed, times, raster));
            rows(run.rounds, &mut lent, &format!("{}{added}", sort.name), &payloads, &CALLS);
        }
    }
    // One column is all that definitions need: a raster or a memset would say nothing of them.
    let payloads = TIMES.map(|times| stepped_definitions(run.seed, 2_500 * times));
    rows(run.rounds, &mut lent, "2,500 colour definitions", &payloads, &CALLS[..4]);
}

/// Without an addition to the name it is `sixbench_decode`, on a lent canvas. The last is no reading: it is the machine's limit
/// for pictures that are all fill.
const CALLS: [&str; 5] =
    ["", ", owned decode", ", stream in pieces of 4,096 bytes", ", the Rust's decode", ", memset of the picture"];

fn rows(rounds: usize, lent: &mut Lent, name: &str, payloads: &[Vec<u8>; 4], calls: &[&str]) {
    let times = payloads.each_ref().map(|payload| {
        let sequence = framed(payload);
        let mut pixels = checked(name, lent, payload, &sequence).pixels;
        [
            alone(rounds, || done(lent.decode(payload, 0))),
            alone(rounds, || done(ours::decode(&sequence))),
            alone(rounds, || done(ours::payload(payload, PIECE))),
            alone(rounds, || done(rust::decode(&sequence))),
            alone(rounds, || std::hint::black_box(&mut pixels).fill(7)),
        ]
    });
    for (call, added) in calls.iter().enumerate() {
        let times = times.map(|times| times[call]);
        let mut cells = times.map(microseconds).to_vec();
        cells.push(over(times[3], times[0]));
        row(&format!("{name}{added}"), &cells);
    }
}

/// The picture that all of them see.
fn checked(name: &str, lent: &mut Lent, payload: &[u8], sequence: &[u8]) -> Picture {
    let picture = Picture::from(rust::decode(sequence));
    assert_eq!(lent.picture(|lent| lent.decode(payload, 0)), picture, "{name}");
    assert_eq!(Picture::from(ours::decode(sequence)), picture, "{name}: owned");
    assert_eq!(Picture::from(ours::payload(payload, PIECE)), picture, "{name}: streamed");
    picture
}

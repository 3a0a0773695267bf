//! Payloads of every sort through `sixbench_decode`.
use super::Run;
use crate::clock::{done, race};
use crate::exports::Lent;
use crate::inputs::commands::{definitions, growth, long_repeats, short_repeats, stairs, stepped_definitions, Space};
use crate::inputs::encode::Order;
use crate::inputs::maps::{map, Map};
use crate::inputs::photos::{photo, Photo};
use crate::inputs::{framed, Input, Raster};
use crate::libsixel;
use crate::picture::Picture;
use crate::readers::rust;
use crate::table::{grouped, heading, microseconds, over, row};

/// Bytes of a piece, 0 for all at once; and ours over the Rust, at least, where that was set.
struct Task {
    input: Input,
    piece: usize,
    target: Option<f64>,
}

impl Task {
    fn new(name: impl Into<String>, target: impl Into<Option<f64>>, payload: Vec<u8>) -> Self {
        Self { input: Input::new(name, payload), piece: 0, target: target.into() }
    }
}

pub fn run(run: Run) {
    heading(
        "Whole, through `sixbench_decode`",
        &["input", "bytes", "Rust", "libsixel", "ours", "ours over the Rust", "target", "memset of the picture"],
    );
    let mut lent = Lent::house();
    let tasks = photos(run.seed).into_iter().chain(maps(run.seed)).chain(commands(run.seed));
    tasks.for_each(|task| compare(run.rounds, &mut lent, &task));
}

fn photos(seed: u32) -> Vec<Task> {
    let [smooth, short] = [Photo::Smooth, Photo::ShortRuns].map(|kind| photo(kind, seed, 800, 480, Raster::Given));
    let pieces = |task| Task { piece: 64, ..task };
    vec![
        Task::new("photo, 800 x 480, 256 colours", 1.5, smooth.clone()),
        pieces(Task::new("photo in pieces of 64 bytes", 1.2, smooth)),
        Task::new("photo of short runs, 800 x 480, 256 colours", None, short.clone()),
        pieces(Task::new("photo of short runs in pieces of 64 bytes", None, short)),
    ]
}

fn maps(seed: u32) -> Vec<Task> {
    let orders = [
        ("column by column", Order::Columns, Some(1.5)),
        ("with repeats", Order::Repeats, Some(1.5)),
        ("a register before each column", Order::RegisterEachColumn, None),
        ("a register where it changes", Order::RegisterChanges, None),
    ];
    let mut tasks = Vec::new();
    for (kind_name, kind, has_targets) in [("band map", Map::Bars, true), ("walking band map", Map::Walk, false)] {
        for (order_name, order, target) in orders {
            let payload = map(kind, order, seed, 512, 768, Raster::Given);
            let name = format!("{kind_name}, 512 x 768, {order_name}");
            tasks.push(Task::new(name, target.filter(|_| has_targets), payload));
        }
    }
    tasks
}

fn commands(seed: u32) -> Vec<Task> {
    let missing = Raster::Missing;
    vec![
        Task::new("long repeats", 2.0, long_repeats(seed, 1_000, 768, missing)),
        Task::new("short repeats", None, short_repeats(seed, 1_000, 768, Raster::Given)),
        Task::new("colour definitions", 1.3, stepped_definitions(seed, 20_000)),
        Task::new("colour definitions, RGB", None, definitions(Space::Rgb, seed, 20_000)),
        Task::new("colour definitions, HLS", None, definitions(Space::Hls, seed, 20_000)),
        Task::new("growth by one column a sixel", 10.0, growth(seed, 1_024, 768, Raster::Given)),
        Task::new("growth by one column a sixel, without raster", None, growth(seed, 1_024, 768, missing)),
        Task::new("growth by eight columns a band, without raster", None, stairs(seed, 8, 128)),
    ]
}

fn compare(rounds: usize, lent: &mut Lent, task: &Task) {
    let Task { input: Input { name, payload }, piece, target } = task;
    let picture = lent.picture(|lent| lent.decode(payload, *piece));
    assert_eq!(picture, Picture::from(rust::payload(payload, *piece)), "{name}");
    let (mut memory, mut sequence) = (picture.pixels, framed(payload));
    let other = libsixel::load();
    let [theirs, others, mine, memset] = race(
        rounds,
        [
            &mut || done(rust::payload(payload, *piece)),
            &mut || other.iter().for_each(|decode| libsixel::decode(*decode, &mut sequence)),
            &mut || done(lent.decode(payload, *piece)),
            &mut || std::hint::black_box(&mut memory).fill(7),
        ],
    );
    let others = if other.is_some() { others } else { f64::INFINITY };
    let target = target.map_or("-".into(), |target| format!("{target:.1}"));
    let [theirs_told, others, mine_told, memset] = [theirs, others, mine, memset].map(microseconds);
    let bytes = grouped(payload.len() as u64);
    row(name, &[bytes, theirs_told, others, mine_told, over(theirs, mine), target, memset]);
}

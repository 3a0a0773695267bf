//! Memory: the size of each kind of session and decoder, and what they ask of the heap.
use super::{late, Run};
use crate::counting::{counted, held};
use crate::exports::Lent;
use crate::inputs::encode::Order;
use crate::inputs::maps::{map, Map};
use crate::inputs::photos::{photo, Photo};
use crate::inputs::{framed, Input, Raster};
use crate::readers::{ours, rust};
use crate::sessions;
use crate::table::{grouped, heading, row};
use std::mem::size_of;

const PIECE: usize = 4_096;

pub fn run(run: Run) {
    sizes();
    heading(
        "Heap, bytes",
        &["input and call", "most at once", "held before the finish", "held after it", "allocations"],
    );
    lent(run.seed);
    inputs(run.seed).iter().for_each(heaps);
}

/// What a value takes by itself, without what it points to.
fn sizes() {
    heading("Sizes, bytes", &["what", "Rust", "ours"]);
    let told = |name: &str, theirs: Option<usize>, mine: usize| {
        let theirs = theirs.map_or("-".into(), |size| grouped(size as u64));
        row(name, &[theirs, grouped(mine as u64)]);
    };
    told("lent payload session", None, size_of::<owlgantry::PayloadSession>());
    told("lent DCS session", None, size_of::<owlgantry::DcsSession>());
    told("decoder", Some(size_of::<oracle::SixelDecoder>()), size_of::<owlgantry::SixelDecoder>());
    told(
        "payload stream",
        Some(size_of::<oracle::decoder::SixelStreamDecoder>()),
        size_of::<owlgantry::SixelStreamDecoder>(),
    );
    told(
        "DCS stream",
        Some(size_of::<oracle::decoder::SixelDcsStreamDecoder>()),
        size_of::<owlgantry::SixelDcsStreamDecoder>(),
    );
}

fn inputs(seed: u32) -> Vec<Input> {
    let photo = |raster| photo(Photo::Smooth, seed, 800, 480, raster);
    let map = map(Map::Walk, Order::RegisterChanges, seed, 512, 768, Raster::Missing);
    vec![
        Input::new("photo", photo(Raster::Given)),
        Input::new("photo, without raster", photo(Raster::Missing)),
        Input::new("walking band map, without raster", map),
        Input::new("2 MB of `~$`, then `!40000~`", late::wide()),
    ]
}

/// On a lent canvas nothing is asked of the heap, from the opening to the finish.
fn lent(seed: u32) {
    let payload = photo(Photo::Smooth, seed, 800, 480, Raster::Given);
    let sequence = framed(&payload);
    let mut lent = Lent::house();
    counted_image("photo, lent payload session", |_| sessions::payload(&mut lent, &payload, PIECE));
    counted_image("photo, lent DCS session", |_| sessions::sequence(&mut lent, &sequence, PIECE));
}

/// Counts a reading and what is left when it has answered, its image. A stream tells what it held before its finish.
fn counted_image<Image>(name: &str, read: impl FnOnce(&mut Option<usize>) -> Image) {
    let mut before = None;
    let ((_image, after), heap) = counted(|| {
        let image = read(&mut before);
        (image, held())
    });
    let [most, after, calls] = [heap.most, after, heap.calls].map(|number| grouped(number as u64));
    row(name, &[most, before.map_or("-".into(), |held| grouped(held as u64)), after, calls]);
}

fn heaps(Input { name, payload }: &Input) {
    let sequence = framed(payload);
    counted_image(&format!("{name}, owned decode"), |_| ours::decode(&sequence));
    counted_image(&format!("{name}, owned decode, the Rust"), |_| rust::decode(&sequence));
    counted_image(&format!("{name}, payload stream"), |before| {
        ours::payload_watched(payload, PIECE, || *before = Some(held()))
    });
    counted_image(&format!("{name}, payload stream, the Rust"), |before| {
        rust::payload_watched(payload, PIECE, || *before = Some(held()))
    });
    counted_image(&format!("{name}, DCS stream"), |before| {
        ours::sequence_watched(&sequence, PIECE, || *before = Some(held()))
    });
    counted_image(&format!("{name}, DCS stream, the Rust"), |before| {
        rust::sequence_watched(&sequence, PIECE, || *before = Some(held()))
    });
}

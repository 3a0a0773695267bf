//! How often the decoders ask for memory, and how much they hold at most.
use owlgantry::{DcsSettings, Limits, Refusal, SixelDecoder, SixelError, SixelImage};
use std::alloc::{GlobalAlloc, Layout, System};
use std::cell::Cell;

/// The system's allocator with a count beside it, by thread: tests run side by side.
struct Counting;

#[derive(Clone, Copy, Default)]
struct Heap {
    calls: usize,
    held: usize,
    most: usize,
}

thread_local! {
    static HEAP: Cell<Heap> = const { Cell::new(Heap { calls: 0, held: 0, most: 0 }) };
    /// A larger block can't be had.
    static LARGEST: Cell<usize> = const { Cell::new(usize::MAX) };
}

fn taken(length: usize) {
    let Heap { calls, held, most } = HEAP.get();
    let held = held + length;
    HEAP.set(Heap { calls: calls + 1, held, most: most.max(held) });
}

/// What is given back may have been taken before the count began.
fn given_back(length: usize) {
    let heap = HEAP.get();
    HEAP.set(Heap { held: heap.held.saturating_sub(length), ..heap });
}

// SAFETY: every call is handed on to the system's allocator as it came, and its answer handed back; or it answers null.
unsafe impl GlobalAlloc for Counting {
    unsafe fn alloc(&self, layout: Layout) -> *mut u8 {
        taken(layout.size());
        System.alloc(layout)
    }

    unsafe fn alloc_zeroed(&self, layout: Layout) -> *mut u8 {
        if layout.size() > LARGEST.get() {
            return std::ptr::null_mut();
        }
        taken(layout.size());
        System.alloc_zeroed(layout)
    }

    unsafe fn realloc(&self, block: *mut u8, layout: Layout, length: usize) -> *mut u8 {
        taken(length);
        given_back(layout.size());
        System.realloc(block, layout, length)
    }

    unsafe fn dealloc(&self, block: *mut u8, layout: Layout) {
        given_back(layout.size());
        System.dealloc(block, layout);
    }
}

#[global_allocator]
static ALLOCATOR: Counting = Counting;

fn counted<Answer>(work: impl FnOnce() -> Answer) -> (Answer, Heap) {
    HEAP.set(Heap::default());
    let answer = work();
    (answer, HEAP.get())
}

fn decode(data: &[u8], limits: Limits) -> (Result<SixelImage, SixelError>, Heap) {
    let mut decoder = SixelDecoder::with_limits(limits);
    counted(|| decoder.decode(data))
}

/// One allocation, and of nothing but the pixels.
fn once(payload: &str, size: (usize, usize)) {
    let sequence = format!("\x1bPq{payload}\x1b\\");
    let (image, heap) = decode(sequence.as_bytes(), Limits::CRATE);
    let mut decoder = SixelDecoder::new();
    let (same, again) = counted(|| decoder.decode_from_dcs(payload.as_bytes(), DcsSettings::default()));
    for (image, heap) in [(image, heap), (same, again)] {
        let image = image.expect("a picture");
        assert_eq!(image.dimensions(), size, "{payload:.40}");
        assert_eq!((heap.calls, heap.most), (1, 4 * size.0 * size.1), "{payload:.40}");
        assert_eq!(image.pixels.capacity(), image.pixels.len());
    }
}

#[test]
fn once_with_a_raster() {
    once("\"1;1;16;12#1!16~-#2!16~", (16, 12));
    once("#1;2;100;0;0\"1;1;16;12#1!16~-#2!16~-", (16, 12));
    once(&("\"1;1;800;480".to_owned() + &"#1!800~-".repeat(80)), (800, 480));
    // The last band reaches below the raster.
    once("\"1;1;16;10#1!16~-#2!16~", (16, 12));
    once("\"1;1;300;198", (300, 198));
}

#[test]
fn once_without_a_raster() {
    once("", (1, 1));
    once("#1!16~-#2!16~", (16, 12));
    once("#1!16~$-#2!17~-\n", (17, 12));
    // Longer than what is looked at closely, with `-` behind the last sixel and behind the end.
    let band = "#1~~~#2".repeat(300);
    once(&format!("{band}{}--$#3", format!("-{band}").repeat(9)), (900, 60));
    let data = format!("text\x1b[m\x1bPq{band}{}\x1b\\{}", format!("-{band}").repeat(9), "-~".repeat(1_000));
    let (image, heap) = decode(data.as_bytes(), Limits::CRATE);
    assert_eq!((image.map(|image| image.dimensions()), heap.calls), (Ok((900, 60)), 1));
}

/// A raster that says too little, or a later band that is wider than those looked at: one canvas more, and not ten.
#[test]
fn twice_where_the_look_is_too_small() {
    let bands = format!("{}!1001~", "#1!9~#2-".repeat(1_000));
    for (payload, size) in [("\"1;1;16;12#1!600~-#2!16~--~", (600, 24)), (&*bands, (1_001, 6_006))] {
        let (image, heap) = decode(payload.as_bytes(), Limits::CRATE);
        assert_eq!((image.map(|image| image.dimensions()), heap.calls), (Ok(size), 2), "{payload:.40}");
        assert_eq!(heap.most, 4 * size.0 * size.1);
    }
}

/// What can't become a picture takes no memory: a raster, repeats and bands beyond the limits.
#[test]
fn never_more_than_the_limits_allow() {
    let bands = "-~".repeat(200_000);
    let beyond = [
        ("\"1;1;1000000;1000000~", Refusal::Pixels),
        ("\"1;1;1000001;1~", Refusal::Size),
        ("!65536~", Refusal::Repeat),
        ("!99999999999999999999999999~", Refusal::Repeat),
        (&*bands, Refusal::Size),
    ];
    for (payload, refusal) in beyond {
        let (answer, heap) = decode(payload.as_bytes(), Limits::CRATE);
        assert_eq!(answer.unwrap_err().refusal(), Some(refusal), "{payload:.40}");
        assert!(heap.most <= 4 * 1_000_000, "{payload:.40}: {}", heap.most);
    }
    let limits = Limits { pixels: 6_000, ..Limits::CRATE };
    let wide = "!100~".repeat(1_000) + "-~";
    for payload in [&*bands, &*wide, "\"1;1;100;60!101~"] {
        let (answer, heap) = decode(payload.as_bytes(), limits);
        assert_eq!(answer.unwrap_err().refusal(), Some(Refusal::Pixels), "{payload:.40}");
        assert!(heap.most <= 4 * 6_000, "{payload:.40}: {}", heap.most);
    }
}

/// A stream's image is its canvas: nothing beside it is asked for but a larger canvas and the kept bytes.
#[test]
fn a_stream_without_a_copy() {
    for limits in [Limits::HOUSE, Limits::CRATE] {
        let mut decoder = SixelDecoder::with_limits(limits);
        let mut frame = decoder.begin_frame(DcsSettings::default()).unwrap();
        let _ = frame.feed(b"\"1;1;500;300#1~").unwrap();
        let (image, heap) = counted(|| frame.finish().unwrap());
        assert_eq!((image.dimensions(), image.pixels.len()), ((500, 300), 600_000));
        assert_eq!((image.pixels.capacity(), heap.most), (600_000, heap.calls * 600_000));
        assert!(heap.calls <= 1);
    }
}

/// Where the limits are those of a small screen, the canvas has room for all of it, and no bytes are kept.
#[test]
fn no_kept_bytes_where_the_canvas_has_room_for_all() {
    let mut decoder = SixelDecoder::with_limits(Limits::HOUSE);
    let mut frame = decoder.begin_frame(DcsSettings::default()).unwrap();
    let ((), heap) = counted(|| (0..10_000).for_each(|_| _ = frame.feed(b"#1~$").unwrap()));
    assert_eq!(heap.calls, 0);
}

/// Memory that can't be had is an answer only where the picture needs it, and a look that asks for too much is none.
#[test]
fn out_of_memory() {
    LARGEST.set(4_000_000);
    let million = "\"1;1;1000;1001~";
    let (answer, _) = decode(million.as_bytes(), Limits::CRATE);
    assert_eq!(answer.err(), Some(SixelError::OutOfMemory));
    let mut decoder = SixelDecoder::new();
    let mut frame = decoder.begin_frame(DcsSettings::default()).unwrap();
    assert_eq!(frame.feed(million.as_bytes()).err(), Some(SixelError::OutOfMemory));
    assert_eq!(frame.feed(b"~").err(), Some(SixelError::from(Refusal::Failed)));
    let refused = "#1!1000~-".repeat(1_000) + "!65536~" + &"-~".repeat(100_000);
    LARGEST.set(30_000_000);
    assert_eq!(decode(refused.as_bytes(), Limits::CRATE).0.unwrap_err().refusal(), Some(Refusal::Repeat));
    assert_eq!(decoder.decode(b"!1000~-~").unwrap().dimensions(), (1_000, 12));
}

/// Also near the limit of pixels a stream is not read again for every band.
#[test]
fn few_canvases_up_to_the_limit() {
    let limits = Limits { pixels: 120_000, ..Limits::CRATE };
    let mut decoder = SixelDecoder::with_limits(limits);
    let mut frame = decoder.begin_frame(DcsSettings::default()).unwrap();
    let (bands, heap) = counted(|| {
        let _ = frame.feed(b"!65~").unwrap();
        (1..).find(|_| frame.feed(b"-~").is_err()).unwrap()
    });
    assert_eq!(bands, 120_000 / 65 / 6);
    // The kept bytes grow a few times too.
    assert!(heap.calls <= 20, "{}", heap.calls);
    assert!(heap.most < 2 * 4 * 120_000 + 4_096, "{}", heap.most);
}

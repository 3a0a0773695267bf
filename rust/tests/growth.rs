//! Pictures that outgrow the decoder's first canvas are the same as on a canvas that was large enough.
use owlgantry::{copy, read, DcsSettings, Limits, Palette, Refusal, Result, SixelDecoder, SixelImage};

/// The payload through every way that owns its canvas, under the crate's limits.
fn every_way(payload: &[u8], limits: Limits) -> Vec<Result<SixelImage>> {
    let sequence = [b"\x1bPq", payload, b"\x1b\\"].concat();
    let decoder = || SixelDecoder::with_limits(limits);
    let mut answers = vec![decoder().decode(payload), decoder().decode(&sequence)];
    answers.push(decoder().decode_from_dcs(payload, DcsSettings::default()));
    for size in [1, 7, 1_000] {
        let mut owner = decoder();
        let mut frame = owner.begin_frame(DcsSettings::default()).unwrap();
        let fed: Result<Vec<_>> = payload.chunks(size).map(|piece| frame.feed(piece)).collect();
        answers.push(fed.and_then(|_| frame.finish()));
        let mut owner = decoder();
        let mut dcs = owner.begin_dcs();
        let fed: Result<Vec<_>> = sequence.chunks(size).map(|piece| dcs.feed(piece)).collect();
        answers.push(fed.and_then(|_| dcs.finish()));
    }
    answers
}

fn same_as_on_a_large_canvas(payload: &str, [stride, rows]: [usize; 2]) {
    let mut canvas = vec![0; 4 * stride * rows];
    let reading = read(Limits::CRATE, stride, &mut canvas, payload.as_bytes(), &mut Palette::standard());
    let picture = reading.picture.expect("the large canvas has room");
    let mut pixels = vec![0; 4 * picture.width * picture.height];
    copy(&canvas, stride, picture.width, picture.height, &mut pixels).unwrap();
    for answer in every_way(payload.as_bytes(), Limits::CRATE) {
        let image = answer.expect("a picture");
        assert_eq!(image.dimensions(), (picture.width, picture.height));
        assert!(image.pixels == pixels, "the same pixels");
    }
}

#[test]
fn larger_than_the_first_canvas() {
    same_as_on_a_large_canvas("#1!64~#2~", [65, 6]);
    same_as_on_a_large_canvas("#1!64~-#2~", [64, 12]);
    same_as_on_a_large_canvas("#1!3000~-#2!3001A-----#3@$#4!2000?B", [3_001, 42]);
    same_as_on_a_large_canvas("\"1;1;900;700#1!65~-!66~$#2!900A", [900, 700]);
    same_as_on_a_large_canvas("#1@\"1;1;1;4000#2~", [2, 4_000]);
    same_as_on_a_large_canvas("#1@\"1;1;70000;2", [70_000, 6]);
    // A raster that is pending at the finish.
    same_as_on_a_large_canvas("#1@\"1;1;300;200", [300, 200]);
}

/// What a look at the bytes takes for the size, and what the size is.
#[test]
fn not_what_it_seems() {
    // A raster that is smaller than the picture, at its first sixel and at its last.
    same_as_on_a_large_canvas("\"1;1;16;12#1!400~-#2!16~", [400, 12]);
    same_as_on_a_large_canvas("\"1;1;16;12#1!16~-#2!16~---#3!500A", [500, 30]);
    same_as_on_a_large_canvas("\"1;1;16#1~-#2~-~", [16, 18]);
    same_as_on_a_large_canvas("\"1;1;;12#1!70~-#2~-~", [70, 18]);
    // One that is larger, one that comes late, and several.
    same_as_on_a_large_canvas("\"1;1;400;300#1~", [400, 300]);
    same_as_on_a_large_canvas("#1~-~\"1;1;100;200#2~", [100, 200]);
    same_as_on_a_large_canvas("\"1;1;10;10\"1;1;200\"1;1;;300#1~", [200, 300]);
    // No raster: the last band is the widest, with few bands before it and with many.
    same_as_on_a_large_canvas("#1~-~~-~~~-!300A", [300, 24]);
    same_as_on_a_large_canvas(&("#1~~~#2~~$#3~-".repeat(1_000) + "#4!1001~"), [1_001, 6_006]);
    // Lines that stand behind the last sixel, and behind the end.
    same_as_on_a_large_canvas("#1!80~-#2~$--$-#3", [80, 12]);
    same_as_on_a_large_canvas(&("#1!80~-".repeat(1_000) + "~--\x1b\\" + &"-~".repeat(1_000)), [80, 6_006]);
    // Digits that skipped bytes part, and a repeat that waits.
    same_as_on_a_large_canvas("#1!1\n0\x7f0$-#2;\t2~", [100, 12]);
    same_as_on_a_large_canvas("\"1;1;1\n00;\x0020!9 ~", [100, 20]);
}

#[test]
fn growth_by_each_sixel() {
    let mut payload = String::new();
    for band in 0..40 {
        for column in 0..5 * band {
            payload += ["#1~", "#2A", "#3o"][(band + column) % 3];
        }
        payload += "-";
    }
    same_as_on_a_large_canvas(&payload, [400, 300]);
}

fn refused(payload: &str, limits: Limits, refusal: Refusal) {
    for answer in every_way(payload.as_bytes(), limits) {
        assert_eq!(answer.unwrap_err().refusal(), Some(refusal), "{payload}");
    }
}

/// Refusals are those of the limits, whatever the canvas's size was when they came.
#[test]
fn refused_by_the_limits_alone() {
    let limits = Limits { width: 3_000, height: 2_000, repeats: 3_500, pixels: 60_000 };
    refused("~!3000~", limits, Refusal::Size);
    refused("\"1;1;1;2001~", limits, Refusal::Size);
    refused("!3000~\"1;1;1;2001~", limits, Refusal::Size);
    refused("\"1;1;3001;1~", limits, Refusal::Size);
    refused("\"1;1;3000;21~", limits, Refusal::Pixels);
    refused("\"1;1;31;2000~", limits, Refusal::Pixels);
    refused("\"1;1;20;2000!31~", limits, Refusal::Pixels);
    refused("\"1;1;20;1999!65~", limits, Refusal::Pixels);
    refused("!3501~", limits, Refusal::Repeat);
    for answer in every_way(b"\"1;1;3000;20", limits).into_iter().chain(every_way(b"\"1;1;30;2000", limits)) {
        assert_eq!(answer.map(|image| image.width * image.height), Ok(60_000));
    }
}

/// The canvas is cut to what the limit of pixels leaves possible, and never below what a picture needs.
#[test]
fn few_pixels_and_long_sides() {
    let limits = Limits { repeats: 100, pixels: 70, ..Limits::CRATE };
    for (payload, size) in
        [("\"1;1;65;1", (65, 1)), ("\"1;1;1;70", (1, 70)), ("\"1;1;1;7!10?", (10, 7)), ("!11?", (11, 6))]
    {
        for answer in every_way(payload.as_bytes(), limits) {
            assert_eq!(answer.map(|image| image.dimensions()), Ok(size), "{payload}");
        }
    }
    refused("\"1;1;71;1~", limits, Refusal::Pixels);
    refused("\"1;1;65;1~", limits, Refusal::Pixels);
    refused("\"1;1;1;7!11?", limits, Refusal::Pixels);
    refused("\"1;1;1;70??", limits, Refusal::Pixels);
}

//! The examples through the names that a user of icy_sixel knows.
mod common;
use common::{examples, pieces, sequence, Example};
use owlgantry::{
    BackgroundMode, DcsSettings, Limits, PixelAspectRatio, Refusal, Result, SixelDcsFeedStatus, SixelDecoder,
    SixelError, SixelFeedStatus, SixelImage,
};

fn check(example: &Example, way: &str, answer: Result<SixelImage>) {
    let name = format!("{:?}, {way}", example.payload);
    match (answer, &example.outcome) {
        (Ok(image), Ok(outcome)) => {
            assert_eq!([image.width, image.height], outcome.size, "{name}");
            assert_eq!(image.pixels, outcome.pixels, "{name}");
            assert_eq!(image.background_mode, BackgroundMode::Opaque, "{name}");
        }
        (Err(error), Err(number)) => assert_eq!(error.number(), *number, "{name}"),
        (answer, _) => panic!("{name}: {answer:?}"),
    }
}

fn in_pieces(decoder: &mut SixelDecoder, bytes: &[u8], size: usize) -> Result<SixelImage> {
    let mut frame = decoder.begin_frame(DcsSettings::default())?;
    for piece in pieces(bytes, size) {
        let fed = frame.feed(piece)?;
        assert_eq!((fed.consumed, fed.status), (piece.len(), SixelFeedStatus::NeedMoreData));
    }
    frame.finish()
}

fn dcs_in_pieces(decoder: &mut SixelDecoder, bytes: &[u8], size: usize) -> Result<SixelImage> {
    let mut dcs = decoder.begin_dcs();
    let mut last = SixelDcsFeedStatus::NeedMoreData;
    for piece in pieces(bytes, size) {
        assert_eq!(last, SixelDcsFeedStatus::NeedMoreData);
        let fed = dcs.feed(piece)?;
        assert_eq!(fed.consumed, piece.len());
        last = fed.status;
    }
    assert_eq!(last, SixelDcsFeedStatus::Complete);
    dcs.finish()
}

#[test]
fn examples_in_every_way() {
    for example in examples() {
        let decoder = || SixelDecoder::with_limits(example.limits);
        let (payload, whole) = (example.payload.as_bytes(), sequence(example.payload));
        check(&example, "decode", decoder().decode(&whole));
        check(&example, "decode a payload", decoder().decode(payload));
        check(&example, "decode_from_dcs", decoder().decode_from_dcs(payload, DcsSettings::default()));
        for size in [0, 1, 2, 7] {
            check(&example, "begin_frame", in_pieces(&mut decoder(), payload, size));
            check(&example, "begin_dcs", dcs_in_pieces(&mut decoder(), &whole, size));
        }
    }
}

#[test]
fn the_palette_is_committed_by_a_finish_alone() {
    let mut decoder = SixelDecoder::new();
    let red = b"#1;2;100;0;0";
    let mut frame = decoder.begin_frame(DcsSettings::default()).unwrap();
    let _ = frame.feed(red).unwrap();
    frame.abort();
    let mut dcs = decoder.begin_dcs();
    let _ = dcs.feed(b"\x1bPq#1;2;100;0;0~").unwrap();
    assert_eq!(dcs.finish().unwrap_err().refusal(), Some(Refusal::Unfinished));
    assert_eq!(decoder.decode(b"#1;2;100;0;0!99999~").unwrap_err().number(), 4);
    assert_eq!(decoder.palette().color(1), [0x33, 0x33, 0xcc]);
    decoder.decode_from_dcs(red, DcsSettings::default()).unwrap();
    assert_eq!(decoder.palette().color(1), [255, 0, 0]);
    assert_eq!(decoder.decode(b"\x1bPq#1@\x1b\\").unwrap().pixels[..4], [255, 0, 0, 255]);
    decoder.reset_palette();
    assert_eq!(decoder.palette().color(1), [0x33, 0x33, 0xcc]);
}

#[test]
fn settings_reach_the_image() {
    let settings = DcsSettings::new(Some(2), Some(1), Some(9));
    let image = SixelImage::decode_from_dcs(b"?", settings).unwrap();
    assert_eq!(image.aspect_ratio, PixelAspectRatio::Ratio5To1);
    assert_eq!(image.background_mode, BackgroundMode::Transparent);
    assert!(image.has_transparency());
    assert_eq!(image.corrected_dimensions(), (1, 30));
    let settings = DcsSettings::default()
        .with_pixel_aspect_ratio(PixelAspectRatio::Ratio3To1)
        .with_background_mode(BackgroundMode::Opaque)
        .with_grid_size(10);
    let image = SixelImage::decode_from_dcs(b"\"2;1;3;3", settings).unwrap();
    assert_eq!((image.aspect_ratio, image.dimensions()), (PixelAspectRatio::Ratio2To1, (3, 3)));
    let image: SixelImage = "\x1bP3;1q@\x1b\\".parse().unwrap();
    assert_eq!(image.aspect_ratio, PixelAspectRatio::Ratio3To1);
}

#[test]
fn ends_and_what_comes_after_them() {
    let ends: [(&[u8], usize, SixelDcsFeedStatus); 6] = [
        (b"\x1bPq~\x1b\\x", 6, SixelDcsFeedStatus::Complete),
        (b"\x90q~\x9cx", 4, SixelDcsFeedStatus::Complete),
        (b"\x90q~\x18x", 4, SixelDcsFeedStatus::Cancelled(0x18)),
        (b"\x90q~\x1ax", 4, SixelDcsFeedStatus::Cancelled(0x1a)),
        (b"\x90q~\x1b[x", 4, SixelDcsFeedStatus::Interrupted(0x1b)),
        (b"\x90q~\x85x", 3, SixelDcsFeedStatus::Interrupted(0x85)),
    ];
    let mut decoder = SixelDecoder::new();
    for (bytes, consumed, status) in ends {
        let mut dcs = decoder.begin_dcs();
        let fed = dcs.feed(bytes).unwrap();
        assert_eq!((fed.consumed, fed.status), (consumed, status));
        let again = dcs.feed(b"~~~").unwrap();
        assert_eq!((again.consumed, again.status), (0, status));
        assert_eq!(dcs.finish().unwrap().dimensions(), (1, 6));
    }
    let mut frame = decoder.begin_frame(DcsSettings::default()).unwrap();
    let fed = frame.feed(b"~\x9c~").unwrap();
    assert_eq!((fed.consumed, fed.status), (1, SixelFeedStatus::Terminated(0x9c)));
    assert_eq!(frame.feed(b"~").unwrap().consumed, 0);
    assert_eq!(frame.finish().unwrap().dimensions(), (1, 6));
}

#[test]
fn a_refused_stream_stays_refused() {
    let mut decoder = SixelDecoder::new();
    let mut dcs = decoder.begin_dcs();
    assert!(matches!(dcs.feed(b"x"), Err(SixelError::NoSixelData(_))));
    assert_eq!(dcs.feed(b"\x90q"), Err(SixelError::InvalidData(Refusal::Failed.into())));
    assert_eq!(dcs.finish(), Err(SixelError::InvalidData(Refusal::Failed.into())));
    for (bytes, number) in [(&b"\x90\x1b"[..], 2), (b"\x90 ", 3), (b"\x90q\"1;1;1000001;1~", 5), (b"\x90q!70000~", 4)] {
        assert_eq!(decoder.begin_dcs().feed(bytes).unwrap_err().number(), number);
        assert_eq!(decoder.decode(bytes).unwrap_err().number(), number);
    }
    assert_eq!(decoder.decode(b"text\x1bP1;2").unwrap_err().number(), 8);
}

#[test]
fn limits_out_of_range() {
    let house = Limits::HOUSE;
    let wrong = [
        Limits { width: 0, ..house },
        Limits { width: 1_000_001, ..house },
        Limits { height: 0, ..house },
        Limits { height: usize::MAX, ..house },
        Limits { width: 0, height: usize::MAX, ..house },
        Limits { repeats: 0, ..house },
        Limits { repeats: 1_000_000_000_001, ..house },
        Limits { pixels: 0, ..house },
        Limits { pixels: usize::MAX, ..house },
    ];
    for limits in wrong {
        let mut decoder = SixelDecoder::with_limits(limits);
        let refused = Some(SixelError::InvalidData(Refusal::Opening.into()));
        // Before whatever else would be refused: a header, a repeat, a raster that no memory has room for.
        for data in [&b"~"[..], b"", b"\x90\x1b", b"\x90", b"!9999999~", b"\"1;1;1000000;1000000~"] {
            assert_eq!(decoder.decode(data).err(), refused);
            assert_eq!(decoder.decode_from_dcs(data, DcsSettings::default()).err(), refused);
        }
        assert_eq!(decoder.begin_frame(DcsSettings::default()).err(), refused);
        assert_eq!(decoder.begin_dcs().feed(b"").err(), refused);
        assert_eq!(decoder.begin_dcs().finish().err(), refused);
    }
}

#[test]
fn limits_at_the_ends_of_their_range() {
    let million = 1_000_000;
    let most = Limits { width: million, height: million, repeats: million * million, pixels: million * million };
    let least = Limits { width: 1, height: 6, repeats: 1, pixels: 6 };
    for limits in [most, least] {
        let mut decoder = SixelDecoder::with_limits(limits);
        assert_eq!(decoder.decode(b"~").unwrap().dimensions(), (1, 6));
        assert_eq!(decoder.decode_from_dcs(b"~", DcsSettings::default()).unwrap().dimensions(), (1, 6));
        let mut frame = decoder.begin_frame(DcsSettings::default()).unwrap();
        let _ = frame.feed(b"~").unwrap();
        assert_eq!(frame.finish().unwrap().dimensions(), (1, 6));
        assert_eq!(decoder.decode(b"!1000000000001~").unwrap_err().number(), 4);
        assert_eq!(decoder.decode(b"\"1;1;1000001~").unwrap_err().number(), 5);
    }
}

#[test]
fn an_error_says_its_number() {
    let error = SixelDecoder::new().decode(b"!65536~").unwrap_err();
    assert_eq!(error.to_string(), "refused 4 at byte 6: a repeat of 65536, 65535 allowed");
    assert_eq!((SixelError::from(Refusal::Introducer).number(), SixelError::OutOfMemory.number()), (1, 0));
}

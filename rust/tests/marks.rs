//! Marks: which registers a picture defines, how many, and when a palette's owner learns of them.
mod common;
use common::{fresh_canvas, limits, pieces};
use owlgantry::{
    read, DcsSession, DcsSettings, Limits, Palette, PayloadSession, Picture, Refusal, SixelDcsFeedStatus, SixelDecoder,
};

const STRIDE: usize = 8;

/// Payloads, and the registers that each defines.
const PAYLOADS: [(&str, &[usize]); 18] = [
    ("", &[]),
    ("#1~", &[]),
    ("#1;2;100;0~", &[]),
    ("#1;2;100;0;~", &[1]),
    ("#1;2;100;0;0~", &[1]),
    ("#1;2;100;0;0;7;8~", &[1]),
    ("#1;3;100;0;0~", &[]),
    ("#1;;100;0;0~", &[]),
    ("#1;1;120;50;100~", &[1]),
    ("#255;2;1;2;3~", &[255]),
    ("#256;2;1;2;3#300;1;4;5;6~", &[255]),
    ("#;2;1;2;3~", &[0]),
    ("#0;2;1;2;3#255;2;1;2;3#1;2;1;2;3", &[0, 1, 255]),
    ("#7;2;1;2;3#7;1;4;5;6~#7;2;1;2;3-~", &[7]),
    // As it was already; marked already; pending at the finish; ended by a sixel that has to wait.
    ("#1;2;20;20;80~", &[1]),
    ("#9;2;1;2;3~", &[9]),
    ("~#1;2;100;0;0", &[1]),
    ("!8~$!8#1;2;100;0;0~", &[1]),
];

const ENDS: [&[u8]; 6] = [b"\x1b\\", b"\x9c", b"\x18", b"\x1a", b"\x1b[", b"\x84"];

fn small() -> Limits {
    limits(STRIDE, 12, 8, 96)
}

/// A palette of which register 9 is marked, by a picture that defines it as it was.
fn marked_palette() -> Palette {
    let mut palette = Palette::standard();
    let payload = b"#9;2;33;33;60";
    let reading = read(small(), STRIDE, &mut fresh_canvas([STRIDE, 12]), payload, &mut palette);
    assert_eq!(reading.picture.map(|picture| picture.defined), Ok(1));
    assert_eq!(palette, Palette::standard());
    palette
}

fn marks(palette: &Palette) -> Vec<usize> {
    (0..256).filter(|&register| palette.is_marked(register)).collect()
}

fn check(name: &str, defined: &[usize], picture: Result<Picture, Refusal>, palette: &Palette) {
    assert_eq!(picture.map(|picture| picture.defined), Ok(defined.len()), "{name:?}");
    let mut marked = [defined, &[9]].concat();
    marked.sort_unstable();
    marked.dedup();
    assert_eq!(marks(palette), marked, "{name:?}");
}

fn payload_in_pieces(payload: &[u8], size: usize, palette: &mut Palette) -> Result<Picture, Refusal> {
    let mut canvas = fresh_canvas([STRIDE, 12]);
    let mut session = PayloadSession::open(small(), STRIDE, DcsSettings::default(), &mut canvas, palette)?;
    for mut piece in pieces(payload, size) {
        while !piece.is_empty() {
            let fed = session.feed(&mut canvas, piece, small().least_allowance())?;
            piece = &piece[fed.consumed..];
        }
    }
    assert_eq!(marks(palette), [9]);
    session.finish(&mut canvas, palette)
}

fn dcs_at_once(sequence: &[u8], palette: &mut Palette) -> Result<Picture, Refusal> {
    let mut canvas = fresh_canvas([STRIDE, 12]);
    let mut session = DcsSession::open(small(), STRIDE, canvas.len(), palette)?;
    let _ = session.feed(&mut canvas, sequence, usize::MAX)?;
    assert_eq!(marks(palette), [9]);
    session.finish(&mut canvas, palette)
}

#[test]
fn what_defines_on_a_lent_canvas() {
    for (payload, defined) in PAYLOADS {
        let mut palette = marked_palette();
        let mut canvas = fresh_canvas([STRIDE, 12]);
        let reading = read(small(), STRIDE, &mut canvas, payload.as_bytes(), &mut palette);
        check(payload, defined, reading.picture, &palette);
        for size in [0, 1, 2, 7] {
            let mut palette = marked_palette();
            let picture = payload_in_pieces(payload.as_bytes(), size, &mut palette);
            check(payload, defined, picture, &palette);
        }
        for end in ENDS {
            let whole = [b"\x1bPq", payload.as_bytes(), end].concat();
            let mut palette = marked_palette();
            let picture = dcs_at_once(&whole, &mut palette);
            check(payload, defined, picture, &palette);
            let mut palette = marked_palette();
            let reading = read(small(), STRIDE, &mut fresh_canvas([STRIDE, 12]), &whole, &mut palette);
            check(payload, defined, reading.picture, &palette);
        }
    }
}

/// Each from the decoder's own palette, and from picture to picture.
#[test]
fn what_defines_by_the_names_of_icy_sixel() {
    for (payload, defined) in PAYLOADS {
        let mut decoder = SixelDecoder::new();
        decoder.decode(payload.as_bytes()).unwrap();
        assert_eq!(marks(decoder.palette()), defined, "{payload:?}");
        decoder.reset_palette();
        assert_eq!(marks(decoder.palette()), []);
        decoder.decode_from_dcs(payload.as_bytes(), DcsSettings::default()).unwrap();
        assert_eq!(marks(decoder.palette()), defined, "{payload:?}");
        decoder.reset_palette();
        let mut frame = decoder.begin_frame(DcsSettings::default()).unwrap();
        let _ = frame.feed(payload.as_bytes()).unwrap();
        frame.finish().unwrap();
        assert_eq!(marks(decoder.palette()), defined, "{payload:?}");
        decoder.reset_palette();
        for end in ENDS {
            let mut dcs = decoder.begin_dcs();
            let fed = dcs.feed(&[b"\x90q", payload.as_bytes(), end].concat()).unwrap();
            assert_ne!(fed.status, SixelDcsFeedStatus::NeedMoreData);
            dcs.finish().unwrap();
            assert_eq!(marks(decoder.palette()), defined, "{payload:?}");
        }
    }
}

/// A picture that outgrows its canvas is read again, from the same palette.
#[test]
fn a_larger_canvas_counts_nothing_twice() {
    let payload = format!("#1;2;1;2;3~#2;2;1;2;3!90~{}#3;2;1;2;3!200~#1;2;4;5;6", "-~".repeat(40));
    let mut decoder = SixelDecoder::new();
    let mut frame = decoder.begin_frame(DcsSettings::default()).unwrap();
    for piece in payload.as_bytes().chunks(9) {
        let _ = frame.feed(piece).unwrap();
    }
    assert_eq!(frame.finish().unwrap().dimensions(), (201, 246));
    assert_eq!(marks(decoder.palette()), [1, 2, 3]);
    decoder.reset_palette();
    decoder.decode(payload.as_bytes()).unwrap();
    assert_eq!(marks(decoder.palette()), [1, 2, 3]);
    let mut canvas = fresh_canvas([201, 246]);
    let reading = decoder.decode_onto(payload.as_bytes(), &mut canvas, 201);
    assert_eq!(reading.picture.map(|picture| picture.defined), Ok(3));
}

#[test]
fn marks_stay_from_picture_to_picture() {
    let mut palette = Palette::standard();
    let pictures: [(&[u8], usize, &[usize]); 5] = [
        (b"#1;2;1;2;3~", 1, &[1]),
        (b"#2;2;1;2;3#3;1;1;2;3~", 2, &[1, 2, 3]),
        (b"#1;2;4;5;6~", 1, &[1, 2, 3]),
        (b"#1~#4~", 0, &[1, 2, 3]),
        (b"#4;2;1;1;1", 1, &[1, 2, 3, 4]),
    ];
    for (payload, defined, marked) in pictures {
        let reading = read(small(), STRIDE, &mut fresh_canvas([STRIDE, 12]), payload, &mut palette);
        assert_eq!(reading.picture.map(|picture| picture.defined), Ok(defined));
        assert_eq!(marks(&palette), marked);
    }
    let every: String = (0..256).map(|register| format!("#{register};2;9;9;9")).collect();
    for _ in 0..2 {
        let reading = read(small(), STRIDE, &mut fresh_canvas([STRIDE, 12]), every.as_bytes(), &mut palette);
        assert_eq!(reading.picture.map(|picture| picture.defined), Ok(256));
        assert_eq!(marks(&palette).len(), 256);
    }
}

#[test]
fn what_is_refused_or_dropped_marks_nothing() {
    let mut palette = marked_palette();
    for payload in [&b"#1;2;1;2;3~!9~"[..], b"#1;2;1;2;3~!9", b"#1;2;1;2;3!8~~", b"#1;2;1;2;3~\"1;1;9"] {
        let mut canvas = fresh_canvas([STRIDE, 12]);
        assert!(read(small(), STRIDE, &mut canvas, payload, &mut palette).picture.is_err());
        let mut session = PayloadSession::open(small(), STRIDE, DcsSettings::default(), &mut canvas, &palette).unwrap();
        let _ = session.feed(&mut canvas, payload, usize::MAX);
        assert!(session.finish(&mut canvas, &mut palette).is_err());
        assert_eq!(marks(&palette), [9]);
    }
    let mut canvas = fresh_canvas([STRIDE, 12]);
    let mut session = DcsSession::open(small(), STRIDE, canvas.len(), &palette).unwrap();
    let _ = session.feed(&mut canvas, b"\x90q#1;2;1;2;3~", usize::MAX).unwrap();
    session.clone().abort();
    assert_eq!(session.finish(&mut canvas, &mut palette), Err(Refusal::Unfinished));
    assert_eq!(marks(&palette), [9]);
    let mut decoder = SixelDecoder::new();
    let mut frame = decoder.begin_frame(DcsSettings::default()).unwrap();
    let _ = frame.feed(b"#1;2;1;2;3~").unwrap();
    frame.abort();
    let mut dcs = decoder.begin_dcs();
    let _ = dcs.feed(b"\x90q#1;2;1;2;3~\x9c").unwrap();
    drop(dcs);
    assert!(decoder.decode(b"#1;2;1;2;3!99999~").is_err());
    assert_eq!(marks(decoder.palette()), []);
}

#[test]
fn a_palette_set_by_its_owner_keeps_its_marks() {
    let standard = Palette::standard();
    assert_eq!(marks(&standard), []);
    let mut palette = marked_palette();
    palette.set_color(9, [1, 2, 3]);
    palette.set_color(10, [4, 5, 6]);
    palette.set_color(256, [7, 8, 9]);
    palette.set_color(usize::MAX, [7, 8, 9]);
    assert_eq!([palette.color(9), palette.color(10), palette.color(255)], [[1, 2, 3], [4, 5, 6], [255; 3]]);
    assert_eq!(marks(&palette), [9]);
    assert_ne!(palette, standard);
    // Colours alone are compared and shown.
    palette.set_color(9, standard.color(9));
    palette.set_color(10, standard.color(10));
    assert_eq!(palette, standard);
    assert_eq!(format!("{palette:?}"), format!("{standard:?}"));
    // Above 255 it is 255's.
    let reading = read(small(), STRIDE, &mut fresh_canvas([STRIDE, 12]), b"#999;2;1;1;1", &mut palette);
    assert_eq!(reading.picture.map(|picture| picture.defined), Ok(1));
    assert!(palette.is_marked(255) && palette.is_marked(256) && palette.is_marked(usize::MAX));
    assert!(!standard.is_marked(256) && !palette.is_marked(254));
}

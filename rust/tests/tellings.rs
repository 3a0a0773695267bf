//! Where and why: the place, the need and the words of every refusal, on a canvas that is lent and in owned decoding.
mod common;
use common::{fresh_canvas, limits, pieces};
use owlgantry::{
    copy, explain_read, read, DcsSession, DcsSettings, Limits, Need, Palette, PayloadSession, Refusal, SixelDecoder,
    SixelError, Telling, Thing,
};

/// A canvas that has room for 6 of the 8 columns.
const CANVAS: [usize; 2] = [6, 13];

fn small() -> Limits {
    limits(8, 12, 8, 48)
}

fn text(telling: Option<Telling>) -> String {
    telling.map_or(String::new(), |telling| telling.to_string())
}

fn payload_session(canvas: &mut [u8]) -> PayloadSession {
    PayloadSession::open(small(), CANVAS[0], DcsSettings::default(), canvas, &Palette::standard()).unwrap()
}

fn dcs_session(canvas: &[u8]) -> DcsSession {
    DcsSession::open(small(), CANVAS[0], canvas.len(), &Palette::standard()).unwrap()
}

/// What was fed before, the bytes, and the line: its place is of the second bytes.
const PAYLOADS: [(&[u8], &[u8], &str); 17] = [
    (b"", b"~!9~", "refused 4 at byte 3: a repeat of 9, 8 allowed"),
    (b"~!", b"9~~~", "refused 4 at byte 1: a repeat of 9, 8 allowed"),
    (b"~!9", b"~", "refused 4 at byte 0: a repeat of 9, 8 allowed"),
    (b"~!9", b"\x1b", "refused 4 at byte 0: a repeat of 9, 8 allowed"),
    (b"", b"!1000000000000~", "refused 4 at byte 14: a repeat of 1000000000000, 8 allowed"),
    (b"", b"!1000000000001~", "refused 4 at byte 14: a repeat of more than 1000000000000, 8 allowed"),
    (b"!6~", b"!3~", "refused 5 at byte 2: 9 columns are needed, 8 allowed"),
    (b"", b"~\"1;1;9;1-", "refused 5 at byte 9: 9 columns are needed, 8 allowed"),
    (b"", b"\"1;1;1;13~", "refused 5 at byte 9: 13 rows are needed, 12 allowed"),
    (b"", b"--~", "refused 5 at byte 2: 18 rows are needed, 12 allowed"),
    (b"", b"\"1;1;1000001#", "refused 5 at byte 12: more than 1000000 columns are needed, 8 allowed"),
    (b"", b"\"1;1;1;9999999#", "refused 5 at byte 14: more than 1000000 rows are needed, 12 allowed"),
    (b"!5~", b"-~", "refused 6 at byte 1: 60 pixels are needed, 48 allowed"),
    (b"", b"\"1;1;5;10@", "refused 6 at byte 9: 50 pixels are needed, 48 allowed"),
    (b"", b"!7~", "refused 7 at byte 2: 7 columns are needed, the canvas has 6"),
    (b"", b"~!8", ""),
    (b"~", b"~\x1b~!9~", ""),
];

#[test]
fn feeds_of_a_payload() {
    for (first, bytes, line) in PAYLOADS {
        let mut canvas = fresh_canvas(CANVAS);
        let mut session = payload_session(&mut canvas);
        let _ = session.feed(&mut canvas, first, 48).unwrap();
        let before = session.clone();
        let told = before.explain(&canvas, bytes, 48);
        assert_eq!(text(told), line);
        assert_eq!(session.feed(&mut canvas, bytes, 48).err(), told.map(|telling| telling.refusal), "{line}");
        let Some(place) = told.and_then(|telling| telling.place) else { continue };
        assert_eq!(before.clone().feed(&mut canvas, &bytes[..place], 48).unwrap().consumed, place, "{line}");
        assert!(before.clone().feed(&mut canvas, &bytes[..=place], 48).is_err(), "{line}");
    }
}

const SEQUENCES: [(&[u8], &[u8], &str); 10] = [
    (b"", b"x", "refused 1 at byte 0: no DCS introducer"),
    (b"", b"\x1bX", "refused 1 at byte 1: no DCS introducer"),
    (b"\x1b", b"X", "refused 1 at byte 0: no DCS introducer"),
    (b"", b"\x1bP1\x1a", "refused 2 at byte 3: the header is cut off before its q"),
    (b"\x90", b" q", "refused 3 at byte 0: a byte that no header has"),
    (b"\x901;", b"2;p", "refused 3 at byte 2: a byte that no header has"),
    (b"", b"\x1bP7;1q~!9\x9c", "refused 4 at byte 9: a repeat of 9, 8 allowed"),
    (b"\x1bP7", b";1q~!9\x18", "refused 4 at byte 6: a repeat of 9, 8 allowed"),
    (b"\x90q~", b"\"1;1;7;6\x9c", "refused 7 at byte 8: 7 columns are needed, the canvas has 6"),
    (b"\x90q~", b"~\x9c!9~", ""),
];

#[test]
fn feeds_of_a_sequence() {
    for (first, bytes, line) in SEQUENCES {
        let mut canvas = fresh_canvas(CANVAS);
        let mut session = dcs_session(&canvas);
        let _ = session.feed(&mut canvas, first, 48).unwrap();
        let told = session.explain(&canvas, bytes, 48);
        assert_eq!(text(told), line);
        assert_eq!(session.feed(&mut canvas, bytes, 48).err(), told.map(|telling| telling.refusal), "{line}");
    }
}

/// A call that stops before the byte is not refused.
#[test]
fn a_stop_before_the_refused_byte() {
    let mut canvas = fresh_canvas(CANVAS);
    let session = payload_session(&mut canvas);
    assert_eq!(session.explain(&canvas, b"!6~$!6~!9~", 48), None);
    assert_eq!(session.explain(&canvas, b"!6~$!6~!9~", 72).unwrap().place, Some(9));
}

#[test]
fn finishes() {
    let ends: [(&[u8], &str); 4] = [
        (b"~!9", "refused 4 at byte 0: a repeat of 9, 8 allowed"),
        (b"~\"1;1;9", "refused 5 at byte 0: 9 columns are needed, 8 allowed"),
        (b"~\"1;1;7", "refused 7 at byte 0: 7 columns are needed, the canvas has 6"),
        (b"~!8", ""),
    ];
    for (bytes, line) in ends {
        let mut canvas = fresh_canvas(CANVAS);
        let mut session = payload_session(&mut canvas);
        let _ = session.feed(&mut canvas, bytes, 48).unwrap();
        let told = session.explain_finish(&canvas);
        assert_eq!(text(told), line);
        let finished = session.finish(&mut canvas, &mut Palette::standard());
        assert_eq!(finished.err(), told.map(|telling| telling.refusal), "{line}");
    }
    let mut canvas = fresh_canvas(CANVAS);
    let mut session = dcs_session(&canvas);
    let _ = session.feed(&mut canvas, b"\x90q~!9", 48).unwrap();
    let line = "refused 8 at byte 0: the sequence has not come to its end";
    assert_eq!(text(session.explain_finish(&canvas)), line);
}

/// 9, 11, 12 and 13 judge the call and no byte; 14 is a copy's.
#[test]
fn without_a_place() {
    let mut canvas = fresh_canvas(CANVAS);
    let mut session = dcs_session(&canvas);
    let other = "refused 12: not the canvas of the opening, or no such picture on it";
    assert_eq!(text(session.explain(&canvas[1..], b"x", 48)), other);
    assert_eq!(text(session.explain_finish(&canvas[1..])), other);
    let least = "refused 13: the allowance is below six times the width limit";
    assert_eq!(text(session.explain(&canvas, b"x", 47)), least);
    session.feed(&mut canvas, b"x", 48).unwrap_err();
    let failed = "refused 9: the session was refused before, or there is none";
    assert_eq!(text(session.explain(&canvas, b"x", 48)), failed);
    assert_eq!(text(session.explain_finish(&canvas)), failed);
    let opening = "refused 11: a limit or the stride is out of range, or the canvas has no whole row";
    assert_eq!(text(explain_read(small(), 0, &canvas, b"~", &Palette::standard())), opening);
    let buffer = copy(&canvas, 6, 2, 2, &mut [0; 15]).unwrap_err();
    assert_eq!(buffer.to_string(), "refused 14: the buffer is shorter than the picture");
    assert_eq!(Refusal::FinalSize.to_string(), "refused 10: retired, nothing gives this number");
}

#[test]
fn reading_at_once() {
    let readings: [(&[u8], &str); 7] = [
        (b"\x901\x18", "refused 2 at byte 2: the header is cut off before its q"),
        (b"text \x1bP1$q~", "refused 3 at byte 8: a byte that no header has"),
        (b"some text \x1bPq~!9~", "refused 4 at byte 16: a repeat of 9, 8 allowed"),
        (b"text \x1bPq!9", "refused 4 at byte 10: a repeat of 9, 8 allowed"),
        (b"!7~", "refused 7 at byte 2: 7 columns are needed, the canvas has 6"),
        (b"text \x1bP1;", "refused 8 at byte 9: the sequence has not come to its end"),
        (b"text \x1bPq~", ""),
    ];
    for (bytes, line) in readings {
        let (mut canvas, mut palette) = (fresh_canvas(CANVAS), Palette::standard());
        let told = explain_read(small(), CANVAS[0], &canvas, bytes, &palette);
        assert_eq!(text(told), line);
        let picture = read(small(), CANVAS[0], &mut canvas, bytes, &mut palette).picture;
        assert_eq!(picture.err(), told.map(|telling| telling.refusal), "{line}");
    }
}

/// Limits that a stream keeps its bytes under.
fn wide() -> Limits {
    Limits { repeats: 5_000, pixels: 60_000_000, width: 10_000, height: 10_000 }
}

/// What is read of a payload, what is not, from the refused byte on, and what is said of it.
const OWNED: [[&str; 3]; 8] = [
    ["#1!64~-!300~-~!5001", "~~", "a repeat of 5001, 5000 allowed"],
    ["!5001", "", "a repeat of 5001, 5000 allowed"],
    ["#1!5000~!5000~$!5000~!5000~", "~", "10001 columns are needed, 10000 allowed"],
    ["\"1;1;10001;1", "#1~", "10001 columns are needed, 10000 allowed"],
    ["~\"1;1;1;10001", "", "10001 rows are needed, 10000 allowed"],
    ["\"1;1;1;1000001", "$", "more than 1000000 rows are needed, 10000 allowed"],
    ["!5000~!2000~\"1;1;9000;6667", "~", "60003000 pixels are needed, 60000000 allowed"],
    ["\"1;1;7000;8572", "", "60004000 pixels are needed, 60000000 allowed"],
];

fn number(sentence: &str) -> u8 {
    match sentence {
        _ if sentence.starts_with("a repeat") => 4,
        _ if sentence.contains("pixels") => 6,
        _ => 5,
    }
}

fn check(error: SixelError, before: usize, [read, _, sentence]: [&str; 3]) {
    let place = before + read.len();
    assert_eq!(error.to_string(), format!("refused {} at byte {place}: {sentence}", number(sentence)), "{read}");
    assert_eq!((error.place(), error.number()), (Some(place), number(sentence)), "{read}");
    assert!(error.need().is_some_and(|need| need.needed > need.allowed), "{read}");
}

#[test]
fn owned_decoding() {
    for case in OWNED {
        let mut decoder = SixelDecoder::with_limits(wide());
        let payload = case[..2].concat();
        check(decoder.decode(payload.as_bytes()).unwrap_err(), 0, case);
        let data = format!("some text \x1bP7;1q{payload}\x1b\\!9999~");
        check(decoder.decode(data.as_bytes()).unwrap_err(), 16, case);
        for payload in [format!("{payload}\x1b\\\x1bPq"), payload] {
            let error = decoder.decode_from_dcs(payload.as_bytes(), DcsSettings::default()).unwrap_err();
            check(error, 0, case);
        }
    }
}

fn payload_refusal(payload: &[u8], size: usize) -> SixelError {
    let mut decoder = SixelDecoder::with_limits(wide());
    let mut frame = decoder.begin_frame(DcsSettings::default()).unwrap();
    match pieces(payload, size).into_iter().find_map(|piece| frame.feed(piece).err()) {
        Some(error) => {
            assert_eq!(frame.feed(b"~").unwrap_err(), SixelError::from(Refusal::Failed));
            error
        }
        None => frame.finish().unwrap_err(),
    }
}

fn dcs_refusal(sequence: &[u8], size: usize) -> SixelError {
    let mut decoder = SixelDecoder::with_limits(wide());
    let mut dcs = decoder.begin_dcs();
    match pieces(sequence, size).into_iter().find_map(|piece| dcs.feed(piece).err()) {
        Some(error) => {
            assert_eq!(dcs.finish().unwrap_err(), SixelError::from(Refusal::Failed));
            error
        }
        None => dcs.finish().unwrap_err(),
    }
}

/// The place is of the whole stream, however it is cut.
#[test]
fn owned_streams() {
    for case in OWNED {
        let payload = case[..2].concat();
        let sequence = format!("\x1bP7;1q{payload}\x1b\\");
        for size in [0, 1, 2, 3, 7, 26] {
            check(payload_refusal(payload.as_bytes(), size), 0, case);
            check(dcs_refusal(sequence.as_bytes(), size), 6, case);
        }
    }
}

/// Far into a stream, and at its end.
#[test]
fn long_streams() {
    let read = "#1!9~$!3000~$-".repeat(1_500) + "#2!5001";
    for rest in ["~~", ""] {
        let case = [&*read, rest, "a repeat of 5001, 5000 allowed"];
        let payload = case[..2].concat();
        let sequence = format!("\x1bPq{payload}\x1b\\");
        let mut decoder = SixelDecoder::with_limits(wide());
        check(decoder.decode(format!("text {sequence}").as_bytes()).unwrap_err(), 8, case);
        check(decoder.decode_from_dcs(payload.as_bytes(), DcsSettings::default()).unwrap_err(), 0, case);
        for size in [0, 1_000, 4_097] {
            check(payload_refusal(payload.as_bytes(), size), 0, case);
            check(dcs_refusal(sequence.as_bytes(), size), 3, case);
        }
    }
    let open = format!("\x1bPq{}", "#1!9~$!3000~$-".repeat(1_500));
    assert_eq!(dcs_refusal(open.as_bytes(), 0).place(), Some(open.len()));
}

/// Payloads of parts by chance, each the same in every run.
fn payloads() -> impl Iterator<Item = String> {
    let parts = [
        "~",
        "A",
        "?",
        "!7@",
        "!29~",
        "!30",
        "!29~",
        "$",
        "-",
        "#1",
        "#2;2;9;9;9",
        "\"1;1;",
        "\"1;1;59;9",
        "5",
        ";",
        " ",
    ];
    let mut state = 1_u32;
    let mut below = move |end: usize| {
        state = state.wrapping_mul(1_664_525).wrapping_add(1_013_904_223);
        ((u64::from(state) * end as u64) >> 32) as usize
    };
    (0..4_000).map(move |_| (0..below(40)).map(|_| parts[below(parts.len())]).collect())
}

/// Every way tells the same; up to the place nothing is refused, and with one byte more it is.
#[test]
fn places_by_chance() {
    let limits = limits(60, 20_000, 60, 1_000);
    let mut numbers = [0; 8];
    for payload in payloads() {
        let bytes = payload.as_bytes();
        let mut decoder = SixelDecoder::with_limits(limits);
        let Err(error) = decoder.decode_from_dcs(bytes, DcsSettings::default()) else { continue };
        assert_eq!(decoder.decode(bytes), Err(error), "{payload}");
        for size in [0, 1, 5] {
            let mut frame = decoder.begin_frame(DcsSettings::default()).unwrap();
            let refused = pieces(bytes, size).into_iter().find_map(|piece| frame.feed(piece).err());
            assert_eq!(refused.unwrap_or_else(|| frame.finish().unwrap_err()), error, "{payload}, {size}");
        }
        let place = error.place().expect(&payload);
        let mut frame = decoder.begin_frame(DcsSettings::default()).unwrap();
        assert_eq!(frame.feed(&bytes[..place]).unwrap().consumed, place, "{payload}");
        let next = if place < bytes.len() { frame.feed(&bytes[place..=place]).err() } else { frame.finish().err() };
        assert_eq!(next, Some(error), "{payload}");
        numbers[usize::from(error.number())] += 1;
    }
    assert!(numbers[4..7].iter().all(|&count| count > 100), "{numbers:?}");
}

#[test]
fn owned_sequences() {
    let sequences: [(&[u8], &str); 6] = [
        (b"\x1bX", "refused 1 at byte 1: no DCS introducer"),
        (b"\x1bP12\x1b\\", "refused 2 at byte 4: the header is cut off before its q"),
        (b"\x90;$q~", "refused 3 at byte 2: a byte that no header has"),
        (b"", "refused 8 at byte 0: the sequence has not come to its end"),
        (b"\x901;1", "refused 8 at byte 4: the sequence has not come to its end"),
        (b"\x90q!100~-~!9", "refused 8 at byte 11: the sequence has not come to its end"),
    ];
    for (bytes, line) in sequences {
        for size in [0, 1, 3] {
            assert_eq!(dcs_refusal(bytes, size).to_string(), line);
        }
    }
    assert!(matches!(dcs_refusal(b"x", 0), SixelError::NoSixelData(Telling { place: Some(0), .. })));
}

/// Where no bytes are kept, what is known is the refusal.
#[test]
fn a_stream_that_keeps_no_bytes() {
    let mut decoder = SixelDecoder::with_limits(Limits::HOUSE);
    let mut frame = decoder.begin_frame(DcsSettings::default()).unwrap();
    let error = frame.feed(b"~!1025~").unwrap_err();
    assert_eq!(error, SixelError::from(Refusal::Repeat));
    assert_eq!(error.to_string(), "refused 4: a repeat above the limit");
    assert_eq!((error.place(), error.need()), (None, None));
}

#[test]
fn what_an_error_tells() {
    let error = SixelDecoder::with_limits(small()).decode(b"text \x90q!5~-~").unwrap_err();
    let need = Need { thing: Thing::Pixels, needed: 60, more: false, allowed: 48 };
    let telling = Telling { refusal: Refusal::Pixels, place: Some(11), need: Some(need) };
    assert_eq!(error, SixelError::InvalidData(telling));
    assert_eq!(error, telling.into());
    assert_eq!((error.refusal(), error.need()), (Some(Refusal::Pixels), Some(need)));
    let none = SixelError::OutOfMemory;
    assert_eq!((none.telling(), none.place(), none.to_string().as_str()), (None, None, "out of memory"));
    assert_eq!(format!("{:>30}|{:5}|", Refusal::Room, none), "refused 7: a size above the canvas|out of memory|");
}

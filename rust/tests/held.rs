//! Held values: how many definitions of a picture had a value outside 0 to 100.
mod common;
use common::{fresh_canvas, limits, pieces};
use owlgantry::{
    read, DcsSession, DcsSettings, DcsStatus, Limits, Palette, PayloadSession, PayloadStatus, Picture, Refusal,
    SixelDecoder,
};

const STRIDE: usize = 8;

/// Payloads, and how many of the definitions of each were held.
const PAYLOADS: [(&str, u64); 54] = [
    ("", 0),
    ("~", 0),
    // 0 and 100 are within.
    ("#1;2;0;0;0~", 0),
    ("#1;2;;;~", 0),
    ("#1;2;100;100;100~", 0),
    ("#1;2;000100;0;0~", 0),
    ("#1;1;0;0;0~", 0),
    ("#1;1;0;100;100~", 0),
    // Red, green or blue.
    ("#1;2;101;0;0~", 1),
    ("#1;2;0;101;0~", 1),
    ("#1;2;0;0;101~", 1),
    ("#1;2;100;100;101~", 1),
    ("#1;2;255;255;255~", 1),
    ("#1;2;2147483647;0;0~", 1),
    ("#1;2;0;0;99999999999999999999~", 1),
    ("#1;2;10\n1;0;0~", 1),
    // Lightness or saturation, also of a grey, and never the hue.
    ("#1;1;361;50;50~", 0),
    ("#1;1;2147483648;50;50~", 0),
    ("#1;1;0;101;50~", 1),
    ("#1;1;0;101;0~", 1),
    ("#1;1;0;50;101~", 1),
    ("#1;1;361;101;50~", 1),
    // A definition counts once, however many of its values are held.
    ("#1;2;101;101;0~", 1),
    ("#1;2;101;101;101~", 1),
    ("#1;1;101;101;101~", 1),
    // The same register counts again. Above 255 it is 255.
    ("#1;2;101;0;0#1;2;101;0;0~", 2),
    ("#1;2;101;0;0#1;2;100;0;0#1;1;0;101;0~", 2),
    ("#1;2;101;0;0#1~$#1~", 1),
    ("#;2;0;0;200#255;2;0;0;200#256;2;0;0;200~", 3),
    ("#300;1;0;0;255~#0;2;255;0;0-~#7;1;9;9;9", 2),
    // No definition: fewer than five values, another space, another command.
    ("#101~", 0),
    ("#101;2~", 0),
    ("#1;2;101~", 0),
    ("#1;2;101;101~", 0),
    ("#1;1;101;101~", 0),
    ("#1;0;101;101;101~", 0),
    ("#1;3;101;101;101~", 0),
    ("#1;;101;101;101~", 0),
    ("#1;2147483647;101;101;101~", 0),
    ("\"1;2;8;8;101~", 0),
    // A `;` at the end adds a 0; what comes after five values is dropped.
    ("#1;2;101;0;~", 1),
    ("#1;2;0;0;0;101~", 0),
    ("#1;2;1;2;3;101;101;101~", 0),
    ("#1;2;1;2;101;3;4~", 1),
    ("#1;1;1;101;2;;~", 1),
    // Pending at the finish.
    ("#1;2;101;0;0", 1),
    ("~#1;1;0;50;101", 1),
    ("~#1;1;0;50;100", 0),
    ("~#1;2;101;0", 0),
    ("~#1;2;101;0;", 1),
    ("#1;2;101;0;0~#2;2;0;0;101", 2),
    // Before a sixel that waits for ink, and between other commands.
    ("!8~$!8#1;2;101;0;0~", 1),
    ("!3#1;2;101;0;0~\"1;1;4;4#2;2;0;0;255-!2#1@$~", 2),
    ("#1;2;0;0;0~#2;2;0;0;101~#3;2;0;0;100~#4;1;0;0;101~", 2),
];

fn small() -> Limits {
    limits(STRIDE, 12, 8, 96)
}

fn held(picture: Result<Picture, Refusal>) -> Result<u64, Refusal> {
    picture.map(|picture| picture.held)
}

fn payload_in(pieces: &[&[u8]]) -> Result<Picture, Refusal> {
    let (mut canvas, mut palette) = (fresh_canvas([STRIDE, 12]), Palette::standard());
    let mut session = PayloadSession::open(small(), STRIDE, DcsSettings::default(), &mut canvas, &palette)?;
    for &(mut piece) in pieces {
        while !piece.is_empty() {
            let fed = session.feed(&mut canvas, piece, small().least_allowance())?;
            piece = if let PayloadStatus::Ended(_) = fed.status { &[] } else { &piece[fed.consumed..] };
        }
    }
    session.finish(&mut canvas, &mut palette)
}

fn dcs_in(pieces: &[&[u8]]) -> Result<Picture, Refusal> {
    let (mut canvas, mut palette) = (fresh_canvas([STRIDE, 12]), Palette::standard());
    let mut session = DcsSession::open(small(), STRIDE, canvas.len(), &palette)?;
    for &(mut piece) in pieces {
        while !piece.is_empty() {
            let fed = session.feed(&mut canvas, piece, small().least_allowance())?;
            let goes_on = matches!(fed.status, DcsStatus::AllRead | DcsStatus::StoppedForInk);
            piece = if goes_on { &piece[fed.consumed..] } else { &[] };
        }
    }
    session.finish(&mut canvas, &mut palette)
}

fn read_at_once(bytes: &[u8]) -> Result<Picture, Refusal> {
    read(small(), STRIDE, &mut fresh_canvas([STRIDE, 12]), bytes, &mut Palette::standard()).picture
}

#[test]
fn what_is_held() {
    for (payload, count) in PAYLOADS {
        let bytes = payload.as_bytes();
        assert_eq!(held(read_at_once(bytes)), Ok(count), "{payload:?}");
        let mut decoder = SixelDecoder::with_limits(small());
        let reading = decoder.decode_onto(bytes, &mut fresh_canvas([STRIDE, 12]), STRIDE);
        assert_eq!(held(reading.picture), Ok(count), "{payload:?}");
        for size in [0, 1, 2, 7] {
            assert_eq!(held(payload_in(&pieces(bytes, size))), Ok(count), "{payload:?} in pieces of {size}");
        }
        for cut in 0..=bytes.len() {
            let (first, second) = bytes.split_at(cut);
            assert_eq!(held(payload_in(&[first, second])), Ok(count), "{payload:?} cut at {cut}");
        }
        let ended = [bytes, b"\x9c#1;2;101;0;0"].concat();
        assert_eq!(held(payload_in(&[&ended])), Ok(count), "{payload:?}");
    }
}

/// What follows the end counts nothing.
#[test]
fn what_is_held_of_a_sequence() {
    for (payload, count) in PAYLOADS {
        for end in [&b"\x1b\\"[..], b"\x9c", b"\x18", b"\x1a", b"\x1b", b"\x84"] {
            let sequence = [b"\x1bP101;1;101q", payload.as_bytes(), end, b"#1;2;101;0;0"].concat();
            assert_eq!(held(read_at_once(&sequence)), Ok(count), "{payload:?}");
            for size in [0, 1, 2, 7] {
                assert_eq!(held(dcs_in(&pieces(&sequence, size))), Ok(count), "{payload:?} in pieces of {size}");
            }
            for cut in 0..=sequence.len() {
                let (first, second) = sequence.split_at(cut);
                assert_eq!(held(dcs_in(&[first, second])), Ok(count), "{payload:?} cut at {cut}");
            }
        }
    }
}

/// Two finishes of one session: a pending definition counts as it stands, and once more digits have come, as those say. At a
/// stop for ink the command before the sixel that waits is carried out.
#[test]
fn what_is_pending_at_the_finish() {
    let cases: [(&[u8], &[u8], [u64; 2]); 8] = [
        (b"#1;2;0;0;10", b"1~", [0, 1]),
        (b"#1;2;0;0;101", b"~", [1, 1]),
        (b"#1;2;101;0", b";0~", [0, 1]),
        (b"#1;2;101;0;0", b";7;8~", [1, 1]),
        (b"#1;1;0;101;0", b"#1~", [1, 1]),
        (b"~#1;2;101;0;0", b"#1;2;0;0;101", [1, 2]),
        (b"!8~$!8#1;2;0;0;101~", b"~", [1, 1]),
        (b"!8~$!8~#1;2;0;0;101", b"~#1;2;0;0;101", [0, 1]),
    ];
    for (first, second, counts) in cases {
        let (mut canvas, mut palette) = (fresh_canvas([STRIDE, 12]), Palette::standard());
        let mut session = PayloadSession::open(small(), STRIDE, DcsSettings::default(), &mut canvas, &palette).unwrap();
        let _ = session.feed(&mut canvas, first, 48).unwrap();
        assert_eq!(held(session.clone().finish(&mut canvas, &mut palette)), Ok(counts[0]), "{first:?}");
        let _ = session.feed(&mut canvas, second, 48).unwrap();
        assert_eq!(held(session.finish(&mut canvas, &mut palette)), Ok(counts[1]), "{first:?}");
    }
}

/// Nothing is refused for a held value, and what is refused reports no count.
#[test]
fn what_is_held_where_a_picture_is_refused() {
    for (payload, number) in
        [("#1;2;101;0;0~!9~", 4), ("#1;2;101;0;0~!9", 4), ("#1;2;101;0;0!8~~", 5), ("#1;2;101;0;0\"1;1;9", 5)]
    {
        let bytes = payload.as_bytes();
        assert_eq!(held(read_at_once(bytes)).map_err(|refusal| refusal.number()), Err(number), "{payload:?}");
        for size in [0, 1] {
            let picture = payload_in(&pieces(bytes, size));
            assert_eq!(held(picture).map_err(|refusal| refusal.number()), Err(number), "{payload:?}");
        }
    }
    assert_eq!(held(dcs_in(&[b"\x90q#1;2;101;0;0~"])), Err(Refusal::Unfinished));
}

/// Each picture counts its own, and a palette keeps nothing of it: a held value is 100.
#[test]
fn what_is_held_from_picture_to_picture() {
    let mut palette = Palette::standard();
    let pictures: [(&[u8], u64); 5] = [
        (b"#1;2;255;0;0#2;2;0;0;255~", 2),
        (b"#1~#2~", 0),
        (b"#1;2;100;0;0~", 0),
        (b"#1;1;0;0;200~", 1),
        (b"#1;2;101;0;0#2;1;0;101;0#3;1;120;50;101", 3),
    ];
    for (payload, count) in pictures {
        let reading = read(small(), STRIDE, &mut fresh_canvas([STRIDE, 12]), payload, &mut palette);
        assert_eq!(held(reading.picture), Ok(count));
    }
    let mut within = Palette::standard();
    let payload = b"#1;2;100;0;0#2;1;0;100;0#3;1;120;50;100";
    let reading = read(small(), STRIDE, &mut fresh_canvas([STRIDE, 12]), payload, &mut within);
    assert_eq!(held(reading.picture), Ok(0));
    assert_eq!(palette, within);
}

/// Two out of three definitions of many, all of few registers.
#[test]
fn what_is_held_of_many() {
    let many: String = (0..1_000).map(|at| format!("#{};2;0;0;{}", at % 5, 100 + at % 3)).collect();
    assert_eq!(held(read_at_once(many.as_bytes())), Ok(666));
    for size in [0, 1, 2, 7] {
        let picture = payload_in(&pieces(many.as_bytes(), size)).unwrap();
        assert_eq!((picture.held, picture.defined), (666, 5));
    }
}

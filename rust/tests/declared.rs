//! The declared size: what raster commands have kept when a picture is finished, beside the size that is drawn.
mod common;
use common::{fresh_canvas, limits, pieces};
use owlgantry::{read, DcsSession, DcsSettings, Limits, Palette, PayloadSession, Picture, Refusal};

const STRIDE: usize = 8;

/// Payloads, the size that each declares, and the size of its picture.
const PAYLOADS: [(&str, [usize; 2], [usize; 2]); 15] = [
    ("", [0, 0], [1, 1]),
    ("!5~", [0, 0], [5, 6]),
    ("\"2;1~", [0, 0], [1, 6]),
    ("\"1;1;3;2", [3, 2], [3, 2]),
    ("\"1;1;3;2~", [3, 2], [3, 6]),
    ("\"1;1;3", [3, 0], [3, 1]),
    ("\"1;1;;2", [0, 2], [1, 2]),
    // Pending at the finish, after a sixel.
    ("~\"1;1;3;8", [3, 8], [3, 8]),
    // More is drawn than was declared.
    ("\"1;1;2;2!5~", [2, 2], [5, 6]),
    ("!5~\"1;1;2;2~", [2, 2], [6, 6]),
    // A later raster declares anew, one side or none.
    ("\"1;1;7;8\"1;1;4;5", [4, 5], [7, 8]),
    ("\"1;1;7;8\"1;1;4", [4, 8], [7, 8]),
    ("\"1;1;7;8\"1;1;0;5~", [7, 5], [7, 8]),
    ("\"1;1;7;8\"2;1", [7, 8], [7, 8]),
    // Of a photo of ten rows, drawn in two bands.
    ("\"1;1;8;10!8~-!8N", [8, 10], [8, 12]),
];

fn small() -> Limits {
    limits(STRIDE, 12, 8, 96)
}

fn check(name: &str, declared: [usize; 2], size: [usize; 2], picture: Result<Picture, Refusal>) {
    let picture = picture.expect(name);
    assert_eq!([picture.declared_width, picture.declared_height], declared, "{name:?}");
    assert_eq!([picture.width, picture.height], size, "{name:?}");
}

fn payload_in_pieces(payload: &[u8], size: usize) -> Result<Picture, Refusal> {
    let (mut canvas, mut palette) = (fresh_canvas([STRIDE, 12]), Palette::standard());
    let mut session = PayloadSession::open(small(), STRIDE, DcsSettings::default(), &mut canvas, &palette)?;
    for mut piece in pieces(payload, size) {
        while !piece.is_empty() {
            let fed = session.feed(&mut canvas, piece, small().least_allowance())?;
            piece = &piece[fed.consumed..];
        }
    }
    session.finish(&mut canvas, &mut palette)
}

fn dcs_at_once(sequence: &[u8]) -> Result<Picture, Refusal> {
    let (mut canvas, mut palette) = (fresh_canvas([STRIDE, 12]), Palette::standard());
    let mut session = DcsSession::open(small(), STRIDE, canvas.len(), &palette)?;
    let _ = session.feed(&mut canvas, sequence, usize::MAX)?;
    session.finish(&mut canvas, &mut palette)
}

fn read_at_once(bytes: &[u8]) -> Result<Picture, Refusal> {
    read(small(), STRIDE, &mut fresh_canvas([STRIDE, 12]), bytes, &mut Palette::standard()).picture
}

#[test]
fn what_a_raster_declares() {
    for (payload, declared, size) in PAYLOADS {
        let bytes = payload.as_bytes();
        check(payload, declared, size, read_at_once(bytes));
        for piece in [0, 1, 2, 7] {
            check(payload, declared, size, payload_in_pieces(bytes, piece));
        }
        // What follows the end declares nothing.
        for end in [&b"\x1b\\"[..], b"\x9c\"1;1;5;5", b"\x18\"1;1;5;5", b"\x1b\"1;1;5;5", b"\x84\"1;1;5;5"] {
            let sequence = [b"\x1bPq", bytes, end].concat();
            check(payload, declared, size, dcs_at_once(&sequence));
            check(payload, declared, size, read_at_once(&sequence));
        }
    }
}

/// A refused raster declares nothing: the finish is refused with it.
#[test]
fn what_a_refused_raster_declares() {
    for payload in ["\"1;1;3;2\"1;1;9", "\"1;1;3;2\"1;1;9;2~"] {
        assert_eq!(read_at_once(payload.as_bytes()).map_err(|refusal| refusal.number()), Err(5), "{payload:?}");
        assert!(payload_in_pieces(payload.as_bytes(), 0).is_err(), "{payload:?}");
    }
}

//! The examples on a canvas that is lent, with the smallest allowance, and each refusal of the lent calls.
mod common;
use common::{examples, fresh_canvas, limits, pieces, sequence, untouched_outside, Example};
use owlgantry::{
    copy, read, DcsSession, DcsSettings, DcsStatus, Limits, Palette, PayloadSession, PayloadStatus, Picture, Ratio,
    Refusal, SixelDecoder,
};

fn check(example: &Example, canvas: &[u8], picture: Result<Picture, Refusal>) {
    let (name, stride) = (example.payload, example.canvas[0]);
    match (picture, &example.outcome) {
        (Ok(picture), Ok(outcome)) => {
            assert_eq!([picture.width, picture.height], outcome.size, "{name:?}");
            assert_eq!([picture.right, picture.bottom], outcome.extent, "{name:?}");
            assert_eq!(picture.ratio, outcome.ratio, "{name:?}");
            let mut out = vec![0xa5; outcome.pixels.len() + 1];
            copy(canvas, stride, picture.width, picture.height, &mut out).unwrap();
            assert_eq!(out.pop(), Some(0xa5), "{name:?}");
            assert_eq!(out, outcome.pixels, "{name:?}");
            assert!(untouched_outside(canvas, stride, outcome.size), "{name:?}");
        }
        (Err(refusal), Err(number)) => assert_eq!(refusal.number(), *number, "{name:?}"),
        (picture, _) => panic!("{name:?}: {picture:?}"),
    }
}

/// Feeds a piece to its end, and adds the ink up.
fn feed_payload(
    session: &mut PayloadSession,
    canvas: &mut [u8],
    mut piece: &[u8],
    limits: Limits,
) -> Result<u64, Refusal> {
    let mut ink = 0;
    loop {
        let fed = session.feed(canvas, piece, limits.least_allowance())?;
        ink += fed.ink;
        piece = &piece[fed.consumed..];
        match fed.status {
            PayloadStatus::StoppedForInk => assert!(fed.consumed > 0),
            PayloadStatus::AllRead => return Ok(ink),
            PayloadStatus::Ended(byte) => panic!("ended by {byte}"),
        }
    }
}

fn feed_dcs(session: &mut DcsSession, canvas: &mut [u8], mut piece: &[u8], limits: Limits) -> Result<u64, Refusal> {
    let mut ink = 0;
    loop {
        let fed = session.feed(canvas, piece, limits.least_allowance())?;
        ink += fed.ink;
        piece = &piece[fed.consumed..];
        match fed.status {
            DcsStatus::StoppedForInk => assert!(fed.consumed > 0),
            _ => {
                assert!(piece.is_empty());
                return Ok(ink);
            }
        }
    }
}

fn payload_in_pieces(example: &Example, canvas: &mut [u8], size: usize) -> Result<Picture, Refusal> {
    let (limits, mut palette) = (example.limits, Palette::standard());
    let mut session = PayloadSession::open(limits, example.canvas[0], DcsSettings::default(), canvas, &palette)?;
    let mut ink = 0;
    for piece in pieces(example.payload.as_bytes(), size) {
        ink += feed_payload(&mut session, canvas, piece, limits)?;
    }
    assert_eq!(Some(ink), example.outcome.as_ref().ok().map(|outcome| outcome.ink), "{:?}", example.payload);
    session.finish(canvas, &mut palette)
}

fn dcs_in_pieces(example: &Example, canvas: &mut [u8], size: usize) -> Result<Picture, Refusal> {
    let (limits, mut palette) = (example.limits, Palette::standard());
    let mut session = DcsSession::open(limits, example.canvas[0], canvas.len(), &palette)?;
    let mut ink = 0;
    for piece in pieces(&sequence(example.payload), size) {
        ink += feed_dcs(&mut session, canvas, piece, limits)?;
    }
    assert_eq!(Some(ink), example.outcome.as_ref().ok().map(|outcome| outcome.ink), "{:?}", example.payload);
    session.finish(canvas, &mut palette)
}

#[test]
fn examples_in_every_way() {
    for example in examples() {
        let whole = sequence(example.payload);
        let mut canvas = fresh_canvas(example.canvas);
        let reading = read(example.limits, example.canvas[0], &mut canvas, &whole, &mut Palette::standard());
        assert_eq!(reading.payload, 3..whole.len());
        check(&example, &canvas, reading.picture);
        for size in [0, 1, 2, 7] {
            let mut canvas = fresh_canvas(example.canvas);
            let picture = payload_in_pieces(&example, &mut canvas, size);
            check(&example, &canvas, picture);
            let mut canvas = fresh_canvas(example.canvas);
            let picture = dcs_in_pieces(&example, &mut canvas, size);
            check(&example, &canvas, picture);
        }
    }
}

#[test]
fn a_stop_for_ink() {
    let limits = limits(8, 768, 1_024, 786_432);
    let mut canvas = fresh_canvas([8, 6]);
    let mut session =
        PayloadSession::open(limits, 8, DcsSettings::default(), &mut canvas, &Palette::standard()).unwrap();
    assert_eq!(session.feed(&mut canvas, b"!8~$!8~", 47), Err(Refusal::Allowance));
    let fed = session.feed(&mut canvas, b"!8~$!8~", 48).unwrap();
    assert_eq!((fed.status, fed.consumed, fed.ink), (PayloadStatus::StoppedForInk, 6, 48));
    let fed = session.feed(&mut canvas, b"~", 48).unwrap();
    assert_eq!((fed.status, fed.consumed, fed.ink), (PayloadStatus::AllRead, 1, 48));
    let fed = session.feed(&mut canvas, b"\x1b", 48).unwrap();
    assert_eq!((fed.status, fed.consumed, fed.ink), (PayloadStatus::Ended(0x1b), 0, 0));
}

/// Two finishes of one session, before and after the sixel is read that a stop left waiting.
#[test]
fn the_extent_at_a_stop() {
    let limits = limits(8, 12, 8, 96);
    let (mut canvas, mut palette) = (fresh_canvas([8, 12]), Palette::standard());
    let mut session = PayloadSession::open(limits, 8, DcsSettings::default(), &mut canvas, &palette).unwrap();
    let fed = session.feed(&mut canvas, b"!7~-!8N", 48).unwrap();
    assert_eq!((fed.status, fed.consumed), (PayloadStatus::StoppedForInk, 6));
    let picture = session.clone().finish(&mut canvas, &mut palette).unwrap();
    assert_eq!([picture.right, picture.bottom], [7, 6]);
    let fed = session.feed(&mut canvas, b"N", 48).unwrap();
    assert_eq!((fed.status, fed.ink), (PayloadStatus::AllRead, 32));
    let picture = session.finish(&mut canvas, &mut palette).unwrap();
    assert_eq!([picture.right, picture.bottom], [8, 10]);
}

#[test]
fn a_canvas_too_small() {
    let mut canvas = fresh_canvas([4, 6]);
    let mut palette = Palette::standard();
    let reading = read(Limits::HOUSE, 4, &mut canvas, b"~!4~", &mut palette);
    assert_eq!((reading.picture, reading.payload), (Err(Refusal::Room), 0..4));
    assert!(untouched_outside(&canvas, 4, [1, 6]));
    let mut decoder = SixelDecoder::with_limits(Limits::HOUSE);
    let reading = decoder.decode_onto(b"\x90q~\x9c", &mut canvas, 4);
    assert_eq!(reading.picture.map(|picture| (picture.width, picture.height)), Ok((1, 6)));
    assert_eq!(reading.payload, 2..4);
}

#[test]
fn refusals_of_lent_calls() {
    let palette = Palette::standard();
    let mut canvas = fresh_canvas([8, 6]);
    let open = |stride: usize, canvas: &mut [u8]| {
        PayloadSession::open(Limits::HOUSE, stride, DcsSettings::default(), canvas, &palette)
    };
    for stride in [0, 49, 1_000_001, usize::MAX] {
        assert_eq!(open(stride, &mut canvas).err(), Some(Refusal::Opening));
        assert_eq!(DcsSession::open(Limits::HOUSE, stride, 192, &palette).err(), Some(Refusal::Opening));
    }
    assert!(untouched_outside(&canvas, 8, [0, 0]));
    let mut session = open(8, &mut canvas).unwrap();
    assert_eq!(session.feed(&mut canvas[..191], b"~", 6_144), Err(Refusal::Canvas));
    assert_eq!(session.feed(&mut [], b"~", 6_144), Err(Refusal::Canvas));
    assert_eq!(session.feed(&mut canvas, b"", 0), Err(Refusal::Allowance));
    assert_eq!(session.feed(&mut canvas, b"!2000~", 6_144), Err(Refusal::Repeat));
    assert_eq!(session.feed(&mut canvas, b"~", 6_144), Err(Refusal::Failed));
    let mut after = palette.clone();
    assert_eq!(session.finish(&mut canvas, &mut after), Err(Refusal::Failed));
    assert_eq!(after, palette);
    let mut out = [0xa5; 24];
    assert_eq!(copy(&canvas, 8, 3, 2, &mut out[..23]), Err(Refusal::Buffer));
    assert_eq!(copy(&canvas, 8, 9, 1, &mut out), Err(Refusal::Canvas));
    assert_eq!(copy(&canvas, 8, 1, 7, &mut out), Err(Refusal::Canvas));
    assert_eq!(copy(&[], 8, 1, 1, &mut out), Err(Refusal::Canvas));
    assert_eq!(out, [0xa5; 24]);
}

#[test]
fn a_report_in_full() {
    let mut canvas = fresh_canvas([8, 6]);
    let mut palette = Palette::standard();
    palette.set_color(1, [1, 2, 3]);
    let reading = read(Limits::HOUSE, 8, &mut canvas, b"\x1bP2;1q#2;2;101;0;0#1@", &mut palette);
    let picture = reading.picture.unwrap();
    assert_eq!(picture.ratio, Ratio::LeftToP1(Some(2)));
    assert!(picture.background_mode.is_transparent());
    assert_eq!([picture.width, picture.height, picture.right, picture.bottom], [1, 6, 1, 1]);
    assert_eq!([picture.defined, picture.declared_width, picture.declared_height], [1, 0, 0]);
    assert_eq!(picture.held, 1);
    assert_eq!(canvas[..4], [1, 2, 3, 255]);
    assert_eq!(canvas[32..36], [0, 0, 0, 0]);
}

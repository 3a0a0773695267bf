//! Small pictures, each read many times over: owned, and lent and copied.
use super::Run;
use crate::canvas::Canvas;
use crate::clock::{done, race};
use crate::exports::{Lent, Size, ROWS, STRIDE, UNREAD};
use crate::inputs::{framed, small, Input};
use crate::picture::Picture;
use crate::readers::{ours, rust};
use crate::table::{grouped, heading, over, row};
use owlgantry::{copy, read, DcsSettings, Limits, Palette, PayloadSession};

const TIMES: usize = 100_000;
/// A round is long, so that a few will do.
const MOST_ROUNDS: usize = 5;

pub fn run(run: Run) {
    heading(
        &format!("{} pictures of 16 x 12, nanoseconds a picture", grouped(TIMES as u64)),
        &["input and call", "bytes", "Rust", "ours", "ours over the Rust"],
    );
    for input in small::all(run.seed) {
        rows(run.rounds.min(MOST_ROUNDS), &input);
    }
}

fn rows(rounds: usize, Input { name, payload }: &Input) {
    let sequence = framed(payload);
    let picture = Picture::from(rust::payload(payload, 0));
    let mut lent = Lent::house();
    assert_eq!(lent.picture(|lent| lent.decode(payload, 0)), picture, "{name}");
    compare(rounds, name, payload, || done(rust::payload(payload, 0)), || done(lent.decode(payload, 0)));
    owned(rounds, name, &sequence, &picture);
    let mut room = Room::new(&picture);
    check(name, &picture, &mut room, |room| room.read(&sequence));
    let lent = format!("{name}, lent and copied");
    compare(rounds, &lent, &sequence, || done(rust::decode(&sequence)), || done(room.read(&sequence)));
    check(name, &picture, &mut room, |room| room.session(payload));
    let session = format!("{name}, lent session and copied");
    compare(rounds, &session, payload, || done(rust::payload(payload, 0)), || done(room.session(payload)));
}

/// A decoder for each picture, and one decoder for all of them.
fn owned(rounds: usize, name: &str, sequence: &[u8], picture: &Picture) {
    assert_eq!(Picture::from(ours::decode(sequence)), *picture, "{name}");
    let alone = format!("{name}, owned");
    compare(rounds, &alone, sequence, || done(rust::decode(sequence)), || done(ours::decode(sequence)));
    let (mut theirs, mut mine) = (oracle::SixelDecoder::new(), owlgantry::SixelDecoder::new());
    assert_eq!(Picture::from(mine.decode(sequence).expect("the sequence is read")), *picture, "{name}");
    let kept = format!("{name}, owned, one decoder");
    compare(rounds, &kept, sequence, || done(theirs.decode(sequence)), || done(mine.decode(sequence)));
}

/// A canvas and a buffer that are lent to every reading, as a program that shows many pictures has them.
struct Room {
    canvas: Canvas,
    out: Vec<u8>,
}

impl Room {
    fn new(picture: &Picture) -> Self {
        Self { canvas: Canvas::new(4 * STRIDE * ROWS), out: vec![0; picture.pixels.len()] }
    }

    fn read(&mut self, sequence: &[u8]) -> Size {
        let mut palette = Palette::standard();
        let read = read(Limits::HOUSE, STRIDE, &mut self.canvas, sequence, &mut palette);
        let picture = read.picture.expect("the sequence is read");
        copy(&self.canvas, STRIDE, picture.width, picture.height, &mut self.out).expect("the picture is copied");
        (picture.width, picture.height)
    }

    fn session(&mut self, payload: &[u8]) -> Size {
        let mut palette = Palette::standard();
        let settings = DcsSettings::default();
        let mut session = PayloadSession::open(Limits::HOUSE, STRIDE, settings, &mut self.canvas, &palette)
            .expect("the session opens");
        let _ = session.feed(&mut self.canvas, payload, usize::MAX).expect("the payload is read");
        let picture = session.finish(&mut self.canvas, &mut palette).expect("the payload is finished");
        copy(&self.canvas, STRIDE, picture.width, picture.height, &mut self.out).expect("the picture is copied");
        (picture.width, picture.height)
    }
}

fn check(name: &str, picture: &Picture, room: &mut Room, call: impl Fn(&mut Room) -> Size) {
    room.canvas.fill(UNREAD);
    room.out.fill(UNREAD);
    assert_eq!(call(room), (picture.width, picture.height), "{name}");
    assert!(room.out == picture.pixels, "{name}: a pixel differs");
}

fn compare(rounds: usize, name: &str, bytes: &[u8], mut theirs: impl FnMut(), mut mine: impl FnMut()) {
    let times = race(rounds, [&mut || (0..TIMES).for_each(|_| theirs()), &mut || (0..TIMES).for_each(|_| mine())]);
    let [theirs, mine] = times.map(|time| grouped((time * 1e9 / TIMES as f64).round() as u64));
    row(name, &[grouped(bytes.len() as u64), theirs, mine, over(times[0], times[1])]);
}

//! The list of cases under one set of limits: written by hand, exhaustive, at the limits, random and damaged.
use crate::colours;
use crate::decoder::SixelDecoder;
use crate::grammar;
use crate::random::Random;
use crate::record;
use crate::run::{run, Case, Entry};
use crate::text;
use crate::LIMITS;

const PLAIN: Entry = Entry::Payload([None; 3]);
/// The largest picture that the replaying program has room for, in pixels.
const ROOM: usize = 262_144;
/// Pictures of hand-written cases up to this many pixels are stored whole.
const SHOWN: usize = 96;

/// The records of a set; `hand` are its hand-written cases and `share` says how many random ones it has.
pub fn records(name: &str, hand: &str, share: u64) -> Vec<u8> {
    let mut out = Vec::new();
    if name == "own" {
        out.extend(plain_records());
    }
    let written = hand_written(hand);
    let mut decoder = SixelDecoder::new();
    for (at, case) in written.iter().cloned().chain(made(name, share)).enumerate() {
        let before = decoder.clone();
        let answer = run(&mut decoder, &case);
        let pixels = answer.size[0] * answer.size[1];
        if pixels > ROOM {
            decoder = before;
            continue;
        }
        out.extend(record::session(&case, &answer, at < written.len() && pixels <= SHOWN));
    }
    out
}

fn plain_records() -> Vec<u8> {
    let mut out = record::standard_registers();
    out.extend((-5..=105).chain([i32::MIN, i32::MAX]).flat_map(record::percent));
    out.extend([None, Some(u16::MAX)].into_iter().chain((0..=300).map(Some)).flat_map(record::ratio));
    out.extend(colours::samples().into_iter().step_by(7).flat_map(record::hls));
    out
}

/// The text form's cases; the first of a file starts from the standard registers.
fn hand_written(hand: &str) -> Vec<Case> {
    let mut reset = true;
    let mut all = Vec::new();
    for line in hand.lines().filter(|line| !line.is_empty() && !line.starts_with("//")) {
        if line == "reset" {
            reset = true;
            continue;
        }
        let mut case = text::case(line).unwrap_or_else(|| panic!("no case: {line}"));
        case.reset = std::mem::take(&mut reset);
        all.push(case);
    }
    all
}

fn made(name: &str, share: u64) -> Vec<Case> {
    let mut all = at_limits();
    if name == "own" {
        all.extend(every_split());
        all.extend(past_numbers());
        all.extend(ties());
        all.extend(settings());
    }
    if name == "small" {
        all.extend(every_byte());
        all.extend(every_short(b"~@?!029#\";$-\n\x1b", 3));
        all.extend(every_short(b"~!2#\";-", 4));
    }
    all.extend(random_cases(name, share));
    all
}

fn fresh(entry: Entry, bytes: &[u8]) -> Case {
    Case { reset: true, entry, abort: false, pieces: vec![bytes.to_vec()] }
}

/// Every stream of up to `longest` bytes of the alphabet.
fn every_short(alphabet: &[u8], longest: usize) -> Vec<Case> {
    let mut streams = vec![Vec::new()];
    let mut from = 0;
    for _ in 0..longest {
        let upto = streams.len();
        for at in from..upto {
            for &byte in alphabet {
                let mut longer = streams[at].clone();
                longer.push(byte);
                streams.push(longer);
            }
        }
        from = upto;
    }
    streams.iter().map(|stream| fresh(PLAIN, stream)).collect()
}

/// Every byte value in every state of the reader, with something after it that shows what it did.
fn every_byte() -> Vec<Case> {
    let payload: [&[u8]; 12] =
        [b"", b"~", b"!", b"!1", b"#", b"#1", b"#1;", b"#1;2;9;9;9;", b"\"", b"\"2", b"\"2;1;", b"!3#1;2;100;0;0"];
    let framed: [(&[u8], &[u8]); 9] = [
        (b"", b"Pq~\x9c"),
        (b"\x1b", b"q~\x9c"),
        (b"\x1bP", b"q~\x9c"),
        (b"\x90", b"q~\x9c"),
        (b"\x902", b"q~\x9c"),
        (b"\x902;1", b"q~\x9c"),
        (b"\x901;1;1;", b"q~\x9c"),
        (b"\x90q#1", b"5~\x9c"),
        (b"\x90q~\x1b", b"\\~"),
    ];
    let mut all = Vec::new();
    for byte in 0..=255 {
        all.extend(payload.iter().map(|before| fresh(PLAIN, &[before, &[byte][..], b"5~"].concat())));
        all.extend(framed.iter().map(|(before, after)| fresh(Entry::Dcs, &[before, &[byte][..], after].concat())));
        all.push(fresh(Entry::OneShot, &[&b"~"[..], &[byte], b"Pq#2~"].concat()));
    }
    all
}

/// Each split in two of a dozen streams, and each of them byte by byte.
fn every_split() -> Vec<Case> {
    let payload: [&[u8]; 6] = [
        b"#1;2;100;0;0!12~-!3?$#2A",
        b"\"2;1;7;9#3!2~$#4;1;120;50;100@-?~\x1b\\",
        b"!1\n2~#300~#\x00!\x7f3\"\r1;1;3;3~",
        b"!5#1\"1;2$-~!0@\x18~",
        b"#0;2;100;100;100~-~#0;1;0;50;100;~\x85",
        b"\"2;1\"1;2;;4#;;;;~;5~",
    ];
    let framed: [&[u8]; 6] = [
        b"\x1bP9;1q#1;2;100;0;0!12~\x1b\\terminal text",
        b"\x90;;q#1!2~\x9crest",
        b"\x1bP2;0;10q\"1;1;4;4~-~\x1b[1m",
        b"\x1bP\x00q#2~\x1a~",
        b"\x90 3q~\x1b\\",
        b"\x9099999;1;q~!3\x9b",
    ];
    let mut all = Vec::new();
    for (entry, stream) in payload.map(|s| (PLAIN, s)).into_iter().chain(framed.map(|s| (Entry::Dcs, s))) {
        let halves = (0..=stream.len()).map(|at| vec![stream[..at].to_vec(), stream[at..].to_vec()]);
        let bytes = stream.iter().map(|&byte| vec![byte]).collect();
        all.extend(halves.chain([bytes]).map(|pieces| Case { reset: true, entry, abort: false, pieces }));
    }
    all
}

/// Streams that come to each limit and one past it, alone and after something was drawn.
fn at_limits() -> Vec<Case> {
    let [w, h, r, m] = LIMITS;
    let mut streams = Vec::new();
    for step in 0..2 {
        streams.push(format!("!{}~", r + step));
        streams.push(format!("!{}?", w + step));
        streams.push(format!("~$!{}", r + step));
        streams.push(format!("\"1;1;{};1", w + step));
        streams.push(format!("\"1;1;1;{}", h + step));
        streams.push(format!("\"1;1;0;{}~", h + step));
        streams.push(format!("~\"1;1;{}~", w + step));
        streams.push(format!("\"1;1;{};1~", (m + step).min(w + 1)));
        streams.push(format!("\"1;1;{};{}@", w.min(m), (m / w.min(m) + step).min(h + 1)));
        streams.push(format!("!{}~-!{}?", (m / 6).min(w).min(r).max(1), 1 + step));
        streams.push(format!("{}@", "-".repeat(((h / 6).min(400) + step).saturating_sub(1))));
        streams.push(format!("!{}?!{}@", (w - 1).clamp(1, r), 1 + step));
        streams.push(format!("!{}?!{}@", (w / 2).clamp(1, r), (w - w / 2 + step).clamp(1, r)));
        streams.push("-".repeat((h / 6).min(400) + 3 * step));
    }
    let drawn = streams.iter().map(|stream| fresh(PLAIN, format!("#1@$#2;2;9;9;9{stream}").as_bytes()));
    let framed = streams.iter().map(|stream| fresh(Entry::Dcs, format!("\x1bPq{stream}\x1b\\").as_bytes()));
    let once = streams.iter().map(|stream| fresh(Entry::OneShot, format!("\x1bP1;1q{stream}").as_bytes()));
    streams.iter().map(|stream| fresh(PLAIN, stream.as_bytes())).chain(drawn).chain(framed).chain(once).collect()
}

/// Numbers about and past 2,147,483,647 and 65,535 in every place that holds a number.
fn past_numbers() -> Vec<Case> {
    let numbers = "255 256 65535 65536 99999 100000 2147483646 2147483647 2147483648 4294967295 4294967296 4294967297 \
                   9999999999 9223372036854775808 18446744073709551615 18446744073709551616 18446744073709551617 \
                   99999999999999999999999999 00000000000000000000000000000002";
    let forms = r#"!@~ !2!@~ #@~ #@;2;100;0;0~ #1;@;100;50;50~ #1;2;@;0;0~ #1;2;0;@;0~ #1;2;0;0;@~ #1;1;@;50;100~
                   #1;1;120;@;100~ #1;1;120;50;@~ #1;2;9;9;9;@~ "@;1~ "@;2147483647~ "1;@~ "4294967294;@~ "1;1;@;1~
                   "1;1;1;@~ "1;1;2;2;@~"#;
    let headers = ["\x1bP@q~\x1b\\", "\x1bP;@q~\x1b\\", "\x1bP;;@q~\x1b\\", "\x1bP;;;@q~\x1b\\"];
    let mut all = Vec::new();
    for number in numbers.split_whitespace() {
        all.extend(forms.split_whitespace().map(|form| fresh(PLAIN, form.replacen('@', number, 1).as_bytes())));
        all.extend(headers.map(|form| fresh(Entry::Dcs, form.replacen('@', number, 1).as_bytes())));
        all.extend(headers.map(|form| fresh(Entry::OneShot, form.replacen('@', number, 1).as_bytes())));
    }
    all
}

/// Colours half way between two bytes, drawn.
fn ties() -> Vec<Case> {
    colours::ties().iter().step_by(4).map(|[h, l, s]| fresh(PLAIN, format!("#1;1;{h};{l};{s}~").as_bytes())).collect()
}

/// P1, P2 and P3 with and without a number.
fn settings() -> Vec<Case> {
    let ones = [None].into_iter().chain((0..=10).map(Some)).chain([Some(65_535)]);
    let twos = [None, Some(0), Some(1), Some(2), Some(3), Some(65_535)];
    let mut all = Vec::new();
    for p1 in ones {
        for p2 in twos {
            for p3 in [None, Some(0), Some(65_535)] {
                all.push(fresh(Entry::Payload([p1, p2, p3]), b"#0;2;100;0;0?@-"));
            }
        }
    }
    all
}

/// Random sessions, one after another on the same registers, each now and then again with damage.
fn random_cases(name: &str, share: u64) -> Vec<Case> {
    let seed = name.bytes().fold(0x5349_5845_4c02, |seed, byte| seed * 31 % 1_000_000_007 + u64::from(byte));
    let mut random = Random::new(seed);
    let mut all = Vec::new();
    for _ in 0..share {
        let parts = 1 + random.below(10);
        let (entry, stream) = match random.below(6) {
            0 => (Entry::OneShot, grammar::one_shot(&mut random, parts)),
            1..=2 => (Entry::Dcs, grammar::dcs(&mut random, parts)),
            _ => {
                (Entry::Payload([p(&mut random), p(&mut random), p(&mut random)]), grammar::payload(&mut random, parts))
            }
        };
        let stream = if random.below(3) == 0 { grammar::damaged(&mut random, &stream) } else { stream };
        let whole = entry == Entry::OneShot;
        let pieces = if whole { vec![stream] } else { grammar::split(&mut random, &stream) };
        all.push(Case { reset: random.below(5) == 0, entry, abort: !whole && random.below(12) == 0, pieces });
    }
    all
}

fn p(random: &mut Random) -> Option<u16> {
    random.pick(&[None, None, Some(0), Some(1), Some(1), Some(2), Some(9), Some(400)])
}

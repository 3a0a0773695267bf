//! Grammar-based random streams, and mutated copies of streams.
use crate::random::Random;
use crate::LIMITS;

/// A payload of `parts` commands, runs and odd bytes.
pub fn payload(random: &mut Random, parts: u64) -> Vec<u8> {
    let mut out = Vec::new();
    for _ in 0..parts {
        out.extend(part(random));
    }
    if random.below(4) == 0 {
        out.push(random.pick(&[0x18, 0x1a, 0x1b, 0x80, 0x9c, 0x9f]));
    }
    out
}

/// A DCS sequence, most of them whole.
pub fn dcs(random: &mut Random, parts: u64) -> Vec<u8> {
    let mut out = random.pick(&[&b"\x1bP"[..], b"\x1bP", b"\x90"]).to_vec();
    for _ in 0..random.below(4) {
        out.extend(value(random));
        out.push(b';');
    }
    if random.below(2) == 0 {
        out.extend(random.pick(&[&b"0"[..], b"1", b"2", b"9", b"65536"]));
    }
    out.push(b'q');
    out.extend(payload(random, parts));
    out.extend(random.pick(&[&b"\x1b\\"[..], b"\x1b\\", b"\x9c", b"\x18", b"\x1a", b"\x1b[", b"\x85", b"\x1b", b""]));
    if random.below(4) == 0 {
        out.extend(b"~rest");
    }
    out
}

/// What one-shot reading may be handed: a sequence in other text, cut, or a bare payload.
pub fn one_shot(random: &mut Random, parts: u64) -> Vec<u8> {
    let mut out = random.pick(&[&b""[..], b"", b"text\x1b[1m", b"\x1b", b"!3~\x18", b"\x1bp"]).to_vec();
    out.extend(if random.below(3) == 0 { payload(random, parts) } else { dcs(random, parts) });
    out
}

/// A mutated copy, with one to three bytes changed, left out, put in or doubled, or with its end cut off.
pub fn damaged(random: &mut Random, stream: &[u8]) -> Vec<u8> {
    let mut out = stream.to_vec();
    for _ in 0..=random.below(3) {
        if out.is_empty() {
            return out;
        }
        let at = random.below(out.len() as u64) as usize;
        match random.below(5) {
            0 => out[at] ^= 1 << random.below(8),
            1 => out[at] = random.any() as u8,
            2 => drop(out.remove(at)),
            3 => out.insert(at, random.any() as u8),
            _ => out.truncate(at),
        }
    }
    out
}

/// The stream in one to four pieces, some of them empty.
pub fn split(random: &mut Random, stream: &[u8]) -> Vec<Vec<u8>> {
    let mut pieces = Vec::new();
    let mut rest = stream;
    for _ in 0..random.below(4) {
        let at = random.below(rest.len() as u64 + 1) as usize;
        pieces.push(rest[..at].to_vec());
        rest = &rest[at..];
    }
    pieces.push(rest.to_vec());
    pieces
}

fn part(random: &mut Random) -> Vec<u8> {
    match random.below(16) {
        0..=4 => (0..=random.below(4)).map(|_| sixel(random)).collect(),
        5..=7 => [&b"!"[..], &count(random), &[sixel(random)]].concat(),
        8 => [&b"!"[..], &count(random)].concat(),
        9 => [&b"#"[..], &value(random)].concat(),
        10..=11 => colour(random),
        12 => raster(random),
        13 => b"$".to_vec(),
        14 => b"-".to_vec(),
        _ => vec![random
            .pick(&[0x00, 0x0a, 0x0d, 0x17, 0x19, 0x1c, 0x7f, b' ', b'%', b'/', b':', b'>', b';', b'5', 0xa0, 0xff])],
    }
}

fn sixel(random: &mut Random) -> u8 {
    match random.below(4) {
        0 => b'~',
        1 => b'?',
        _ => b'?' + random.below(64) as u8,
    }
}

/// A repeat's number: mostly small, else at one of the limits, or none at all.
fn count(random: &mut Random) -> Vec<u8> {
    let limit = LIMITS[random.below(3) as usize] as u64;
    match random.below(12) {
        0 => limit.to_string(),
        1 => (limit + 1).to_string(),
        2 => (limit - 1).to_string(),
        3 => String::new(),
        4 => format!("00{}", random.below(9)),
        _ => random.below(7).to_string(),
    }
    .into_bytes()
}

/// A value of a colour or raster command: mostly a percent, else an odd number or none.
fn value(random: &mut Random) -> Vec<u8> {
    match random.below(12) {
        0 => String::new(),
        1 => random
            .pick(&["255", "256", "300", "359", "360", "65535", "65536", "2147483647", "2147483648", "99999999999"])
            .into(),
        2 => format!("0{}", random.below(400)),
        3..=6 => random.below(4).to_string(),
        _ => random.below(101).to_string(),
    }
    .into_bytes()
}

fn colour(random: &mut Random) -> Vec<u8> {
    let register = if random.below(3) == 0 { value(random) } else { random.below(6).to_string().into_bytes() };
    let mut out = [&b"#"[..], &register, b";", random.pick(&[&b"1"[..], b"1", b"2", b"2", b"2", b"0", b"3"])].concat();
    for _ in 0..random.pick(&[3, 3, 3, 3, 3, 2, 4]) {
        out.push(b';');
        out.extend(value(random));
    }
    out
}

fn raster(random: &mut Random) -> Vec<u8> {
    let mut out = b"\"".to_vec();
    for place in 0..random.below(6) {
        if place > 0 {
            out.push(b';');
        }
        let side = LIMITS[(place % 2) as usize] as u64;
        let number = match random.below(10) {
            0 => side,
            1 => side + 1,
            2 => 0,
            _ => 1 + random.below(10),
        };
        out.extend(number.to_string().as_bytes());
    }
    out
}

//! Grammar-based random streams: mostly sound, near and past every limit, some of them mutated.
use oracle::grammar::damaged;
use oracle::random::Random;
use oracle::run::Entry;
use oracle::LIMITS;

const SKIPPED: [u8; 10] = [0x00, 0x07, 0x0a, 0x0d, 0x17, 0x19, 0x1c, 0x1e, 0x1f, 0x7f];
const ENDS: [u8; 12] = [0x18, 0x1a, 0x1b, 0x80, 0x84, 0x85, 0x8f, 0x90, 0x9b, 0x9c, 0x9d, 0x9f];
/// Bytes that do nothing but end a command.
const IDLE: [u8; 12] = [b' ', b'%', b'&', b'\'', b'(', b'*', b'/', b':', b'<', b'>', 0xa0, 0xff];
const WILD: [&str; 12] = [
    "255",
    "256",
    "65535",
    "65536",
    "2147483647",
    "2147483648",
    "4294967295",
    "4294967297",
    "9223372036854775808",
    "18446744073709551615",
    "18446744073709551617",
    "1000000000011",
];

pub fn any(random: &mut Random) -> (Entry, Vec<u8>) {
    let (entry, stream) = match random.below(8) {
        0..=3 => (Entry::Payload([p1(random), p2(random), p1(random)]), payload(random)),
        4..=6 => (Entry::Dcs, dcs(random)),
        _ => (Entry::OneShot, one_shot(random)),
    };
    let stream = if random.below(8) == 0 { with_skipped(random, &stream) } else { stream };
    (entry, if random.below(5) == 0 { damaged(random, &stream) } else { stream })
}

fn p1(random: &mut Random) -> Option<u16> {
    let small = random.below(11) as u16;
    random.pick(&[None, None, Some(0), Some(1), Some(2), Some(small), Some(small), Some(65_535)])
}

fn p2(random: &mut Random) -> Option<u16> {
    random.pick(&[None, None, Some(0), Some(1), Some(1), Some(2), Some(65_535)])
}

fn payload(random: &mut Random) -> Vec<u8> {
    let most = random.pick(&[1, 3, 6, 10, 16, 40]);
    let passes = random.below(3) == 0;
    let mut out = Vec::new();
    for _ in 0..random.below(most + 1) {
        // A pass stays in the picture, so that there is ink to stop for; a part may do anything.
        if passes && random.below(12) > 0 {
            pass(random, &mut out);
        } else {
            part(random, &mut out);
        }
    }
    if random.below(4) == 0 {
        out.push(random.pick(&ENDS));
    }
    out
}

fn dcs(random: &mut Random) -> Vec<u8> {
    let mut out = random.pick(&[&b"\x1bP"[..], b"\x1bP", b"\x90"]).to_vec();
    for _ in 0..random.pick(&[0, 0, 1, 1, 2, 3, 5]) {
        out.extend(setting(random));
        out.push(b';');
    }
    if random.below(2) == 0 {
        out.extend(setting(random));
    }
    out.push(b'q');
    out.extend(payload(random));
    out.extend(random.pick(&[
        &b"\x1b\\"[..],
        b"\x1b\\",
        b"\x9c",
        b"\x18",
        b"\x1a",
        b"\x1b[",
        b"\x1b\x1b",
        b"\x85",
        b"\x1b",
        b"",
    ]));
    if random.below(4) == 0 {
        out.extend(random.pick(&[&b"~rest"[..], b"\\", b"\x1b\\", b"\x90q~"]));
    }
    out
}

fn setting(random: &mut Random) -> Vec<u8> {
    match random.below(8) {
        0 => Vec::new(),
        1 => random.pick(&WILD).into(),
        _ => random.below(11).to_string().into_bytes(),
    }
}

/// A sequence in other text, a bare payload, or an introducer with nothing behind it.
fn one_shot(random: &mut Random) -> Vec<u8> {
    let mut out =
        random.pick(&[&b""[..], b"", b"", b"text\x1b[1m", b"\x1b", b"!3~\x18", b"\x1bp", b"\x1b\x1b"]).to_vec();
    match random.below(8) {
        0..=2 => out.extend(payload(random)),
        3 => out.extend(random.pick(&[&b"\x1bP"[..], b"\x90", b"\x901;2", b"\x1bP;", b"\x90\x1b", b"\x90P"])),
        _ => out.extend(dcs(random)),
    }
    out
}

/// A copy with skipped bytes put in, inside numbers too.
fn with_skipped(random: &mut Random, stream: &[u8]) -> Vec<u8> {
    let mut out = Vec::new();
    for &byte in stream {
        if random.below(6) == 0 {
            out.push(random.pick(&SKIPPED));
        }
        out.push(byte);
    }
    out
}

/// A run of columns from the left within all limits, mostly full, over what is there already or in the next band.
fn pass(random: &mut Random, out: &mut Vec<u8>) {
    let columns = (LIMITS[0].min(LIMITS[2]).min(LIMITS[3] / 6)).clamp(1, 100) as u64;
    out.push(if random.below(12) == 0 { b'-' } else { b'$' });
    match random.below(6) {
        0 => colour(random, out),
        1 => out.extend(format!("#{}", random.below(16)).into_bytes()),
        _ => {}
    }
    let full = random.below(3) > 0;
    let count = if full { columns } else { 1 + random.below(columns) };
    let bits = if random.below(3) > 0 { 63 } else { sixel(random) };
    out.extend(if count < 4 {
        vec![b'?' + bits; count as usize]
    } else {
        format!("!{count}{}", (b'?' + bits) as char).into_bytes()
    });
}

fn part(random: &mut Random, out: &mut Vec<u8>) {
    match random.below(20) {
        0..=4 => out.extend((0..=random.below(6)).map(|_| b'?' + sixel(random))),
        5..=9 => {
            repeat(random, out);
            out.push(b'?' + sixel(random));
        }
        10 => repeat(random, out),
        11 => {
            out.push(b'#');
            out.extend(value(random));
        }
        12..=13 => colour(random, out),
        14..=15 => raster(random, out),
        16 => out.push(b'$'),
        17 => out.push(b'-'),
        18 => {
            out.extend(random.pick(&[&b"$"[..], b"-", b"$-", b"--", b"!!", b"##", b"\"\"", b"!#", b"#\"", b";", b"5"]))
        }
        _ => {
            let idle = random.below(2) == 0;
            out.push(random.pick(if idle { &IDLE[..] } else { &SKIPPED }));
        }
    }
}

/// Bits of a sixel: often all or none.
fn sixel(random: &mut Random) -> u8 {
    match random.below(4) {
        0 => 63,
        1 if random.below(2) == 0 => 0,
        _ => random.below(64) as u8,
    }
}

fn repeat(random: &mut Random, out: &mut Vec<u8>) {
    let [w, h, r, m] = LIMITS.map(|limit| limit as u64);
    out.push(b'!');
    let number = match random.below(16) {
        0 => String::new(),
        1 => format!("000{}", random.below(9)),
        2..=3 => random.pick(&[w, h, r, r, m, m / 6, w / 2]).to_string(),
        4 => (random.pick(&[w, h, r, r, m]) + 1).to_string(),
        5 => (random.pick(&[w, h, r, r, m]) - 1).to_string(),
        6 if random.below(4) == 0 => random.pick(&WILD).into(),
        7 if random.below(4) == 0 => long_number(random),
        8..=10 => random.below(w.min(r).min(200) + 1).to_string(),
        _ => random.below(6).to_string(),
    };
    out.extend(number.into_bytes());
}

fn long_number(random: &mut Random) -> String {
    let lead = random.pick(&["", "0", "00000000000000000000000000"]);
    let digits: String = (0..random.below(200)).map(|_| (b'0' + random.below(10) as u8) as char).collect();
    let none: String = digits.chars().map(|_| '0').collect();
    format!("{lead}{}", if random.below(2) == 0 { digits } else { none + "3" })
}

/// A value of a colour command: mostly a percent, now and then the last or one above it, else an odd number or none.
fn value(random: &mut Random) -> Vec<u8> {
    match random.below(14) {
        0 => String::new(),
        1 => random.pick(&WILD).into(),
        2 => format!("0{}", random.below(800)),
        3 if random.below(4) == 0 => long_number(random),
        4..=6 => random.below(4).to_string(),
        7 => random.pick(&["100", "101"]).into(),
        _ => random.below(101).to_string(),
    }
    .into_bytes()
}

fn colour(random: &mut Random, out: &mut Vec<u8>) {
    out.push(b'#');
    out.extend(if random.below(3) == 0 { value(random) } else { random.below(4).to_string().into_bytes() });
    out.push(b';');
    out.extend(random.pick(&[&b"1"[..], b"1", b"1", b"2", b"2", b"2", b"0", b"3", b"2147483648"]));
    for _ in 0..random.pick(&[3, 3, 3, 3, 3, 2, 4, 6]) {
        out.push(b';');
        let hue = random.below(3) == 0;
        out.extend(if hue { random.below(721).to_string().into_bytes() } else { value(random) });
    }
    if random.below(12) == 0 {
        out.push(b';');
    }
}

/// Colour definitions alone, which leave other registers than the standard ones.
pub fn colours(random: &mut Random) -> Vec<u8> {
    let mut out = Vec::new();
    for _ in 0..=random.below(6) {
        colour(random, &mut out);
    }
    out
}

fn raster(random: &mut Random, out: &mut Vec<u8>) {
    out.push(b'"');
    for place in 0..random.pick(&[0, 1, 2, 2, 3, 4, 4, 4, 4, 6]) {
        if place > 0 {
            out.push(b';');
        }
        let side = LIMITS[(place % 2) as usize] as u64;
        let number = match random.below(14) {
            0 => side.to_string(),
            1 => (side + 1).to_string(),
            2 => "0".into(),
            3 => String::new(),
            4 if random.below(2) == 0 => random.pick(&WILD).into(),
            5 => random.below(side.min(300) + 1).to_string(),
            _ => (1 + random.below(10)).to_string(),
        };
        out.extend(number.into_bytes());
    }
}

/// A payload that comes to the crate's own limits: much ink on few columns, all columns, all rows, or a large area.
pub fn heavy(random: &mut Random) -> Vec<u8> {
    let near = random.below(5);
    match random.below(4) {
        0 => (0..20 + random.below(30)).flat_map(|pass| format!("#{pass}!65535~$").into_bytes()).collect(),
        1 => format!("{}!{}?-@", "!65535?".repeat(15), 16_973 + near).into_bytes(),
        2 => format!("{}~", "-".repeat(166_663 + near as usize)).into_bytes(),
        _ => random
            .pick(&[
                "\"1;1;2896;2896@",
                "\"1;1;1000000;8@",
                "\"1;1;8;1000000-~",
                "\"1;1;8193;8192@",
                "\"1;1;67;1000000@",
            ])
            .into(),
    }
}

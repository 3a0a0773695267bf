//! The same comparison under libFuzzer: the input's first bytes choose the setting, the rest is the stream.
#![no_main]
use compare::reader::Linked;
use compare::run::{difference, smallest};
use compare::show;
use compare::trial::{area, Trial, LEAST};
use oracle::run::Entry;

/// Streams that come to more pixels are left out, since they only take long.
const MOST_PIXELS: u64 = 1 << 16;
const HEAD: usize = 8;

/// # Safety
/// libFuzzer lends `size` bytes for the call; it may hand over a null pointer with none.
#[no_mangle]
pub unsafe extern "C" fn LLVMFuzzerTestOneInput(data: *const u8, size: usize) -> i32 {
    // SAFETY: as the caller promises.
    let input = if size == 0 { &[] } else { unsafe { std::slice::from_raw_parts(data, size) } };
    let Some(trial) = trial(input) else { return -1 };
    let mut reader = Linked::default();
    if let Some(found) = difference(&trial, &mut reader) {
        println!("a difference:\n{}{}", show::trial(&trial), show::difference(&found));
        println!("{}", smallest(&trial, &mut reader));
        std::process::abort();
    }
    0
}

/// The setting that eight bytes choose, for the stream behind them.
fn trial(input: &[u8]) -> Option<Trial> {
    let (head, stream) = input.split_at_checked(HEAD)?;
    let p =
        |byte: u8| [None, Some(0), Some(1), Some(2), Some(5), Some(9), Some(10), Some(65_535)][usize::from(byte % 8)];
    let entry = match head[0] % 4 {
        0 => Entry::Dcs,
        1 => Entry::OneShot,
        _ => Entry::Payload([p(head[1]), p(head[1] / 8), p(head[1] / 64)]),
    };
    let [width, height] = area(entry, stream);
    if width * height > MOST_PIXELS {
        return None;
    }
    let room = [head[4] % 3, head[4] / 4 % 3, head[4] / 16 % 5].map(usize::from);
    Some(Trial {
        entry,
        before: if head[0] & 4 == 4 { b"#0;2;9;50;91#1;1;7;50;60".to_vec() } else { Vec::new() },
        abort: entry != Entry::OneShot && head[0] & 0x18 == 0x18,
        pieces: pieces(stream, head[2], head[3]),
        allowances: head[5..7].iter().map(|&byte| LEAST + allowance(byte)).collect(),
        room,
        fill: u64::from(head[7]),
        poked: head[0] & 0xe0 == 0xe0,
        watched: head[4] & 0x80 == 0x80,
    })
}

/// One piece; or pieces of two sizes in turn, empty ones too.
fn pieces(stream: &[u8], first: u8, second: u8) -> Vec<Vec<u8>> {
    let sizes = [usize::from(first % 32), usize::from(second % 32)];
    if sizes == [0, 0] {
        return vec![stream.to_vec()];
    }
    let mut out = Vec::new();
    let mut rest = stream;
    for turn in 0.. {
        let (piece, after) = rest.split_at(sizes[turn % 2].min(rest.len()));
        out.push(piece.to_vec());
        rest = after;
        if rest.is_empty() {
            break;
        }
    }
    out
}

fn allowance(byte: u8) -> usize {
    match byte {
        0xff => 1 << 40,
        _ => usize::from(byte % 64),
    }
}

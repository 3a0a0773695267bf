//! The stored form of cases with their answers: records of fixed fields in blocks of fixed length. See `README.md`.
use crate::adler::adler32;
use crate::decoder::{peek_hls, peek_percent, SixelDecoder};
use crate::run::{Answer, Case, Entry, Status};
use crate::{PixelAspectRatio, LIMITS};

pub const BLOCK: usize = 65_536;
const BLOCK_HEAD: usize = 20;
const NONE: u32 = 65_536;

/// A case and its answer; `full` has the picture's bytes follow.
pub fn session(case: &Case, answer: &Answer, full: bool) -> Vec<u8> {
    let (kind, settings) = match case.entry {
        Entry::Payload(settings) => (1, settings),
        Entry::Dcs => (2, [None; 3]),
        Entry::OneShot => (3, [None; 3]),
    };
    let (status, byte) = match answer.status {
        Status::More => (0, 0),
        Status::Ended(byte) => (1, byte),
        Status::Complete => (2, 0),
        Status::Cancelled(byte) => (3, byte),
        Status::Interrupted(byte) => (4, byte),
    };
    let flags = u8::from(case.reset) + 2 * u8::from(case.abort) + 4 * u8::from(full);
    let background = match (answer.ratio, answer.opaque) {
        (0, _) => 0,
        (_, true) => 1,
        (_, false) => 2,
    };
    let mut body =
        vec![kind, flags, answer.refusal, u8::from(answer.at_finish), status, byte, answer.ratio, background];
    let mut numbers: Vec<u32> = LIMITS.iter().map(|&limit| limit as u32).collect();
    numbers.extend(settings.map(|setting| setting.map_or(NONE, u32::from)));
    numbers.extend([answer.consumed as u32, answer.part as u32]);
    numbers.extend(answer.size.map(|side| side as u32));
    numbers.extend(answer.reach.map(|side| side as u32));
    numbers.extend([adler32(&answer.pixels), adler32(&answer.registers)]);
    numbers.extend([case.pieces.len() as u32, case.pieces.concat().len() as u32]);
    numbers.extend(case.pieces.iter().map(|piece| piece.len() as u32));
    body.extend(numbers.iter().flat_map(|number| number.to_le_bytes()));
    body.extend(case.pieces.concat());
    if full {
        body.extend(&answer.pixels);
    }
    with_length(body)
}

pub fn hls([h, l, s]: [i32; 3]) -> Vec<u8> {
    let mut body = vec![4];
    body.extend(peek_hls(h, l, s));
    body.extend([h, l, s].iter().flat_map(|number| number.to_le_bytes()));
    with_length(body)
}

pub fn percent(value: i32) -> Vec<u8> {
    let mut body = vec![5, peek_percent(value), 0, 0];
    body.extend(value.to_le_bytes());
    with_length(body)
}

pub fn standard_registers() -> Vec<u8> {
    let mut body = vec![6, 0, 0, 0];
    body.extend(adler32(&SixelDecoder::new().registers()).to_le_bytes());
    with_length(body)
}

/// The ratio of a picture that leaves it to P1.
pub fn ratio(p1: Option<u16>) -> Vec<u8> {
    let ratio = p1.map(PixelAspectRatio::from_p1).unwrap_or_default();
    let mut body = vec![7, ratio.pad() as u8, 0, 0];
    body.extend(p1.map_or(NONE, u32::from).to_le_bytes());
    with_length(body)
}

fn with_length(body: Vec<u8>) -> Vec<u8> {
    let mut record = (body.len() as u32 + 4).to_le_bytes().to_vec();
    record.extend(body);
    record
}

/// Records one after another, put into blocks; none is cut.
pub fn pack(records: &[u8]) -> Vec<u8> {
    let mut blocks: Vec<(u32, Vec<u8>)> = Vec::new();
    let mut at = 0;
    while at < records.len() {
        let length = u32::from_le_bytes([records[at], records[at + 1], records[at + 2], records[at + 3]]) as usize;
        assert!(length <= BLOCK - BLOCK_HEAD, "a record fits a block");
        if blocks.last().is_none_or(|(_, block)| block.len() + length > BLOCK - BLOCK_HEAD) {
            blocks.push((0, Vec::new()));
        }
        let (count, block) = blocks.last_mut().expect("one was just made");
        *count += 1;
        block.extend(&records[at..at + length]);
        at += length;
    }
    let all = blocks.len() as u32;
    blocks
        .into_iter()
        .enumerate()
        .flat_map(|(number, (count, records))| block(number as u32, all, count, records))
        .collect()
}

fn block(number: u32, all: u32, count: u32, records: Vec<u8>) -> Vec<u8> {
    let mut rest: Vec<u8> = [number, all, count].iter().flat_map(|number| number.to_le_bytes()).collect();
    rest.extend(records);
    rest.resize(BLOCK - 8, 0);
    let mut block = b"SXLA".to_vec();
    block.extend(adler32(&rest).to_le_bytes());
    block.extend(rest);
    block
}

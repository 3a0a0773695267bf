//! One trial put to a reader, and every answer compared with the oracle's and with the count.
use crate::expected::{settings, Expected};
use crate::model::{Bounds, Marks, Model, ALL_READ, STOPPED};
use crate::reader::{Reader, Registers, FRAME, GUARD, MARK, SESSION, UNWRITTEN};
use crate::same::{differs, pixels, same, same_call, Difference, Same};
use crate::tally::{Calls, Tally};
use crate::trial::{Trial, LEAST};
use crate::values;
use oracle::decoder::peek_header;
use oracle::run::{Entry, Status};
use oracle::{DcsSettings, PixelAspectRatio, LIMITS};

/// Puts the trial to the reader.
pub fn judge(trial: &Trial, expected: &Expected, reader: &mut dyn Reader) -> Result<Tally, Difference> {
    let bounds = Bounds {
        limits: LIMITS.map(|limit| limit as u64),
        stride: expected.opening.stride as u64,
        rows: ((expected.opening.buffer.len() - 2 * GUARD) / (4 * expected.opening.stride)) as u64,
    };
    let mut calls = Calls::default();
    let defined = if trial.entry == Entry::OneShot {
        whole(trial, expected, reader, bounds)?
    } else {
        session(trial, expected, reader, bounds, &mut calls)?
    };
    memory(trial, expected, &defined, reader)?;
    if expected.answer.refusal == 0 && !trial.abort {
        copied(trial, expected, reader)?;
    }
    if trial.before.is_empty() && trial.fill.is_multiple_of(64) {
        same("standard palette", reader.standard_palette(), expected.before)?;
    }
    Ok(Tally::new(trial, &expected.answer, &calls))
}

/// Reading all at once. Answers the registers that were defined, by the count.
fn whole(trial: &Trial, expected: &Expected, reader: &mut dyn Reader, bounds: Bounds) -> Result<Marks, Difference> {
    let bytes = trial.stream();
    let (number, report) = reader.read(&expected.opening, &bytes);
    same("refusal", number, u64::from(expected.answer.refusal))?;
    let [finish @ .., place, size] = report;
    same("payload's length", size, expected.answer.part as u64)?;
    same("payload's place", place, (bytes.len() - expected.answer.part) as u64)?;
    let nothing = &mut |_| ();
    let mut defined = [false; 256];
    let counted = values::part(&bytes).and_then(|(settings, place)| {
        let mut model = Model::payload(bounds, settings, nothing);
        model.feed(&bytes[place..], u64::MAX, nothing)?;
        let report = model.finish(nothing);
        defined = model.defined;
        report
    });
    finished(expected, (number, finish), counted)?;
    Ok(defined)
}

/// A session to its end. Answers as `whole` does.
fn session(
    trial: &Trial,
    expected: &Expected,
    reader: &mut dyn Reader,
    bounds: Bounds,
    calls: &mut Calls,
) -> Result<Marks, Difference> {
    same("opening", reader.open(&expected.opening), 0)?;
    if trial.poked {
        same("registers of the session", reader.memory().registers, lasting(expected.opening.palette))?;
    }
    let nothing = &mut |_| ();
    let mut model = match trial.entry {
        Entry::Dcs => Model::dcs(bounds),
        _ => Model::payload(bounds, settings(trial.entry), nothing),
    };
    for piece in &trial.pieces {
        if calls.refused == 0 {
            feed_piece(trial, expected, reader, &mut model, calls, piece)?;
        }
    }
    counts(trial, calls, &model)?;
    let answer = &expected.answer;
    same("status in the end", status(trial.entry, calls.last), answer.status)?;
    same("bytes consumed in all", calls.by_pieces, answer.consumed as u64)?;
    if calls.refused != 0 {
        same("refusal", (calls.refused, false), (u64::from(answer.refusal), answer.at_finish))?;
        same("feed after a refusal", reader.feed(b"~", LEAST, 0), (9, [0; 4]))?;
        same("finish after a refusal", reader.finish(), (9, [0; 11]))?;
        return Ok(model.defined);
    }
    same("refusal in a feed", false, answer.refusal != 0 && !answer.at_finish)?;
    if trial.abort {
        return Ok(model.defined);
    }
    let (number, report) = reader.finish();
    same("refusal", number, u64::from(answer.refusal))?;
    finished(expected, (number, report), model.finish(nothing))?;
    Ok(model.defined)
}

/// A piece, and again what a stop left unread of it.
fn feed_piece(
    trial: &Trial,
    expected: &Expected,
    reader: &mut dyn Reader,
    model: &mut Model,
    calls: &mut Calls,
    piece: &[u8],
) -> Same {
    let mut rest = piece;
    loop {
        if trial.poked {
            poke(reader, rest)?;
        }
        let allowance = trial.allowances[calls.made as usize % trial.allowances.len()];
        calls.made += 1;
        calls.smallest = Some(calls.smallest.map_or(allowance, |smallest| smallest.min(allowance)));
        let counted = model.feed(rest, allowance as u64, &mut |_| ());
        let (number, report) = reader.feed(rest, allowance, 0);
        let at = calls.made;
        let (refused, counted) = counted.map_or_else(|number| (number, [0; 4]), |report| (0, report));
        same_call(at, "refusal", number, refused)?;
        for (place, name) in ["status", "bytes consumed", "ink", "ending byte"].into_iter().enumerate() {
            same_call(at, name, report[place], counted[place])?;
        }
        if number != 0 {
            calls.refused = number;
            return Ok(());
        }
        let [how, consumed, ink, _] = report;
        calls.consumed += consumed;
        calls.ink += u128::from(ink);
        if trial.watched {
            calls.glances += 1;
            glance(trial, expected, reader, calls.consumed as usize, how)?;
        }
        if how != STOPPED {
            calls.by_pieces = calls.consumed;
            calls.last = report;
            return Ok(());
        }
        calls.stops += 1;
        rest = &rest[consumed as usize..];
    }
}

/// The canvas after a call: the oracle's picture of the bytes consumed so far, a pending command carried out where the next byte
/// has ended it.
fn glance(trial: &Trial, expected: &Expected, reader: &mut dyn Reader, consumed: usize, how: u64) -> Same {
    let bytes = &trial.stream()[..consumed];
    let begun = match trial.entry {
        Entry::Payload([p1, p2, p3]) => Some((DcsSettings::new(p1, p2, p3), bytes)),
        _ => peek_header(bytes).map(|(settings, place)| (settings, &bytes[place..])),
    };
    let shown = begun.map(|(settings, payload)| expected.owner.follow(settings, payload, how != ALL_READ));
    let (size, theirs) = shown.map_or(([0, 0], Vec::new()), |shown| (shown.size, shown.pixels));
    let opening = &expected.opening;
    pixels(size, &theirs, opening.stride, &reader.memory().buffer, &opening.buffer)
}

/// Calls with too small an allowance and too short a canvas change nothing.
fn poke(reader: &mut dyn Reader, bytes: &[u8]) -> Same {
    let before = reader.memory().clone();
    same("allowance below 6W", reader.feed(bytes, LEAST - 1, 0), (13, [0; 4]))?;
    same("canvas one byte short", reader.feed(bytes, LEAST - 1, 1), (12, [0; 4]))?;
    let after = reader.memory();
    let kept = before.buffer == after.buffer && before.session == after.session && before.registers == after.registers;
    same("all kept by 12 and 13", kept, true)
}

/// Demand 3's bound on the calls, and the ink.
fn counts(trial: &Trial, calls: &Calls, model: &Model) -> Same {
    let spare = calls.smallest.map_or(1, |smallest| (smallest - LEAST) as u128 + 1);
    let bound = trial.pieces.len() as u128 + model.ink / spare;
    same("calls within the bound", u128::from(calls.made) <= bound, true)?;
    if calls.refused == 0 {
        same("ink in all", calls.ink, model.ink)?;
    }
    Ok(())
}

fn status(entry: Entry, [how, _, _, byte]: [u64; 4]) -> Status {
    let byte = byte as u8;
    match (how, entry) {
        (2, Entry::Dcs) => Status::Complete,
        (2, _) => Status::Ended(byte),
        (3, _) => Status::Cancelled(byte),
        (4, _) => Status::Interrupted(byte),
        _ => Status::More,
    }
}

/// A finish's numbers against the oracle's picture, and against the count.
///
/// The Rust has no extent to compare with: its reach counts blank columns and whole bands. But where the background is
/// clear, the opaque pixels of its picture are just the painted ones.
fn finished(expected: &Expected, ours: (u64, [u64; 11]), counted: Result<[u64; 11], u64>) -> Same {
    let (number, report) = ours;
    if number == 0 {
        let [width, height, right, bottom, kind, ratio, transparent, ..] = report;
        let answer = &expected.answer;
        same("size", [width, height], answer.size.map(|side| side as u64))?;
        if !answer.opaque {
            same("extent on a clear background", [right, bottom], opaque_box(answer.size, &answer.pixels))?;
        }
        let vertical = match kind {
            0 => PixelAspectRatio::default().pad(),
            1 => PixelAspectRatio::from_p1(ratio.min(65_535) as u16).pad(),
            _ => ratio as u16,
        };
        same("ratio", vertical, u16::from(answer.ratio))?;
        same("background", transparent, u64::from(!answer.opaque))?;
    }
    let counted = counted.map_or_else(|number| (number, [0; 11]), |report| (0, report));
    same("extent", &report[2..4], &counted.1[2..4])?;
    same("registers defined", report[7], counted.1[7])?;
    same("declared size", &report[8..10], &counted.1[8..10])?;
    same("definitions held", report[10], counted.1[10])?;
    same("finish's numbers", (number, report), counted)
}

/// One past the last column and the last row that hold an opaque pixel, or 0 x 0.
fn opaque_box([width, _]: [usize; 2], pixels: &[u8]) -> [u64; 2] {
    let mut sides = [0, 0];
    for (y, row) in pixels.chunks(4 * width).enumerate() {
        if let Some(x) = row.chunks(4).rposition(|pixel| pixel[3] != 0) {
            sides = [sides[0].max(x + 1), y + 1];
        }
    }
    sides.map(|side| side as u64)
}

fn lasting(registers: Registers) -> Registers {
    registers.map(|number| number % FRAME)
}

/// The palette's numbers: where a picture is committed, the oracle's colours, and the marks of before with those of the
/// registers that were defined; else what they were, whatever that was.
fn palette(trial: &Trial, expected: &Expected, defined: &Marks, ours: &Registers) -> Same {
    let before = expected.opening.palette;
    let committed = expected.answer.refusal == 0 && !trial.abort;
    if !committed {
        same("oracle's registers", expected.after, expected.before)?;
    }
    for (register, &number) in ours.iter().enumerate() {
        let mark = before[register] & MARK | if defined[register] { MARK } else { 0 };
        let theirs = if committed { expected.after[register] | mark } else { before[register] };
        let colour = number % MARK == theirs % MARK;
        if number != theirs {
            let what = if colour { "mark of register" } else { "palette, register" };
            return Err(differs(&format!("{what} {register}"), format!("{number:08X}"), format!("{theirs:08X}")));
        }
    }
    Ok(())
}

/// Every byte that was lent.
fn memory(trial: &Trial, expected: &Expected, defined: &Marks, reader: &mut dyn Reader) -> Same {
    let (answer, opening) = (&expected.answer, &expected.opening);
    let memory = reader.memory();
    palette(trial, expected, defined, &memory.palette)?;
    let (session, behind) = memory.session.split_at(SESSION);
    same("what lies behind the session", behind.iter().all(|&number| number == UNWRITTEN), true)?;
    if trial.entry != Entry::OneShot && !trial.abort {
        same("session after its finish", session, &[0; SESSION])?;
    }
    pixels(answer.size, &answer.pixels, opening.stride, &memory.buffer, &opening.buffer)
}

/// The picture's rows without gaps at the front of a buffer, whose later bytes stay; and 14 where it is too short.
fn copied(trial: &Trial, expected: &Expected, reader: &mut dyn Reader) -> Same {
    let answer = &expected.answer;
    let mut theirs = answer.pixels.clone();
    let size = theirs.len();
    theirs.resize(size + trial.room[2], trial.fill as u8);
    let (number, ours) = reader.copy(answer.size, vec![trial.fill as u8; theirs.len()]);
    same("refusal of the copy", number, 0)?;
    same("bytes of the copy", ours == theirs, true)?;
    let short = vec![trial.fill as u8; size - 1];
    let (number, ours) = reader.copy(answer.size, short.clone());
    same("refusal of a copy without room", number, 14)?;
    same("bytes of a copy without room", ours == short, true)
}

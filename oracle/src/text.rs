//! The text form: a line for each case, a line for each answer. `README.md` describes both.
use crate::adler::adler32;
use crate::decoder::SixelDecoder;
use crate::run::{run, Answer, Case, Entry, Status};

/// Answers each line of `input`; a line of another form is named by its number.
pub fn answers(input: &str) -> std::result::Result<String, String> {
    let mut decoder = SixelDecoder::new();
    let (mut full, mut reset) = (false, false);
    let mut out = String::new();
    for (at, line) in input.lines().enumerate() {
        match line {
            "" => {}
            "full" => full = true,
            "sums" => full = false,
            "reset" => reset = true,
            _ if line.starts_with("//") => {}
            _ => {
                let mut case = case(line).ok_or(format!("line {}: {line}", at + 1))?;
                case.reset = std::mem::take(&mut reset);
                out += &show(&run(&mut decoder, &case), full);
                out += "\n";
            }
        }
    }
    Ok(out)
}

pub fn case(line: &str) -> Option<Case> {
    let words: Vec<&str> = line.split(' ').collect();
    let (entry, rest) = match words[0] {
        "payload" => {
            (Entry::Payload([setting(words.get(1)?)?, setting(words.get(2)?)?, setting(words.get(3)?)?]), &words[4..])
        }
        "dcs" => (Entry::Dcs, &words[1..]),
        "oneshot" => {
            return Some(Case { reset: false, entry: Entry::OneShot, abort: false, pieces: pieces(&words[1..])? })
        }
        _ => return None,
    };
    let (end, rest) = rest.split_first()?;
    let abort = match *end {
        "finish" => false,
        "abort" => true,
        _ => return None,
    };
    Some(Case { reset: false, entry, abort, pieces: pieces(rest)? })
}

fn setting(word: &str) -> Option<Option<u16>> {
    if word == "-" {
        return Some(None);
    }
    word.parse().ok().map(Some)
}

fn pieces(words: &[&str]) -> Option<Vec<Vec<u8>>> {
    words.iter().map(|word| piece(word)).collect()
}

/// A lone point is a piece of no bytes; `'` starts plain text; all else is pairs of hex digits.
fn piece(word: &str) -> Option<Vec<u8>> {
    if word == "." {
        return Some(Vec::new());
    }
    match word.strip_prefix('\'') {
        Some(text) => plain(text),
        None => hex(word),
    }
}

/// Text as it stands; a backslash and two hex digits are that byte.
fn plain(text: &str) -> Option<Vec<u8>> {
    let mut parts = text.split('\\');
    let mut out = parts.next()?.as_bytes().to_vec();
    for part in parts {
        out.extend(hex(part.get(..2)?)?);
        out.extend(&part.as_bytes()[2..]);
    }
    Some(out)
}

fn hex(word: &str) -> Option<Vec<u8>> {
    if !word.is_ascii() || !word.len().is_multiple_of(2) {
        return None;
    }
    (0..word.len() / 2).map(|at| u8::from_str_radix(&word[2 * at..2 * at + 2], 16).ok()).collect()
}

pub fn show(answer: &Answer, full: bool) -> String {
    let outcome = match (answer.refusal, answer.ratio) {
        (0, 0) => "aborted".into(),
        (0, _) => "picture".into(),
        (number, _) => format!("refused {number} {}", if answer.at_finish { "finish" } else { "feed" }),
    };
    let status = match answer.status {
        Status::More => "more".into(),
        Status::Ended(byte) => format!("ended-{byte:02X}"),
        Status::Complete => "complete".into(),
        Status::Cancelled(byte) => format!("cancelled-{byte:02X}"),
        Status::Interrupted(byte) => format!("interrupted-{byte:02X}"),
    };
    let ratio = if answer.ratio == 0 { "-".into() } else { format!("{}:1", answer.ratio) };
    let background = match (answer.ratio, answer.opaque) {
        (0, _) => "-",
        (_, true) => "opaque",
        (_, false) => "transparent",
    };
    let ([w, h], [x, y]) = (answer.size, answer.reach);
    let (pixels, registers) = (bytes(&answer.pixels, full), bytes(&answer.registers, full));
    format!(
        "{outcome} status {status} consumed {} part {} size {w} {h} reach {x} {y} ratio {ratio} \
         background {background} pixels {pixels} registers {registers}",
        answer.consumed, answer.part
    )
}

fn bytes(bytes: &[u8], full: bool) -> String {
    if !full {
        return format!("{:08X}", adler32(bytes));
    }
    let digits: String = bytes.iter().map(|byte| format!("{byte:02X}")).collect();
    if digits.is_empty() {
        ".".into()
    } else {
        digits
    }
}

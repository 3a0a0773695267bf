//! A trial and a difference in words.
use crate::same::Difference;
use crate::trial::Trial;
use oracle::run::{Answer, Entry};
use oracle::LIMITS;

pub fn trial(trial: &Trial) -> String {
    let entry = match trial.entry {
        Entry::Payload(given) => {
            let [p1, p2, p3] = given.map(|p| p.map_or("none".into(), |number| number.to_string()));
            format!("payload, P1 {p1}, P2 {p2}, P3 {p3}")
        }
        Entry::Dcs => "DCS".into(),
        Entry::OneShot => "all at once".into(),
    };
    let mut out = format!("  limits {LIMITS:?}; {entry}{}\n", if trial.abort { "; dropped" } else { "" });
    if !trial.before.is_empty() {
        out += &format!("  after a payload of {}\n", text(&trial.before));
    }
    for piece in &trial.pieces {
        out += &format!("  piece {} | {}\n", hex(piece), text(piece));
    }
    let [columns, rows, bytes] = trial.room;
    out += &format!("  allowances {:?}; {columns} columns, {rows} rows, {bytes} bytes of room", trial.allowances);
    let said = [(trial.poked, "; poked"), (trial.watched, "; watched"), (trial.noisy(), "; noise in the palette")];
    said.iter().filter(|(so, _)| *so).for_each(|(_, words)| out += words);
    out + "\n"
}

pub fn difference(difference: &Difference) -> String {
    format!("  {}: ours {}, expected {}\n", difference.what, difference.ours, difference.theirs)
}

/// As `oracle/run answer` prints it, with checksums for the registers and for a large picture.
pub fn answer(answer: &Answer) -> String {
    let line = oracle::text::show(answer, false);
    if answer.pixels.is_empty() || answer.pixels.len() > 1_024 {
        return line;
    }
    let rows = answer.pixels.chunks(4 * answer.size[0]).map(|row| row.chunks(4).map(hex).collect::<Vec<_>>().join(" "));
    format!("{line}\n    {}", rows.collect::<Vec<_>>().join("\n    "))
}

fn hex(bytes: &[u8]) -> String {
    if bytes.is_empty() {
        return ".".into();
    }
    bytes.iter().map(|byte| format!("{byte:02X}")).collect()
}

/// Text as `oracle/run` reads it: a byte that does not print is a backslash and two hex digits.
fn text(bytes: &[u8]) -> String {
    let shown = bytes.iter().map(|&byte| match byte {
        b'!'..=b'~' if byte != b'\\' => (byte as char).to_string(),
        _ => format!("\\{byte:02X}"),
    });
    format!("'{}", shown.collect::<String>())
}

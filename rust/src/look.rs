//! A look ahead at the bytes: the size of the picture that they seem to make, for its canvas. It is a hint and nothing
//! else. Where it is too small the reader refuses the canvas, and where it is too large some of the canvas stays unused.
use crate::Limits;

/// Columns and rows.
pub type Size = [usize; 2];

const BAND: usize = 6;
/// So many bytes are looked at one by one, and on to the end of a band. Behind them the bands are only counted.
const CLOSELY: usize = 4_096;
/// So many bytes of colours are skipped at once.
const SKIPPED: usize = 16;
/// Above all limits: what follows of a number makes no difference.
const ENOUGH: usize = usize::MAX / 16;
/// So many bytes are searched at once for the payload's end.
const SEARCHED: usize = 128;

/// What stands behind the first DCS header; all bytes where there is no introducer (rule 8.1).
pub fn after_header(bytes: &[u8]) -> &[u8] {
    let Some(header) = after_introducer(bytes) else { return bytes };
    header.iter().position(|&byte| byte == b'q').map_or(&[], |place| &header[place + 1..])
}

fn after_introducer(mut bytes: &[u8]) -> Option<&[u8]> {
    loop {
        let place = bytes.iter().position(|&byte| byte == 0x1b || byte == 0x90)?;
        match &bytes[place..] {
            [0x90, header @ ..] | [_, b'P', header @ ..] => return Some(header),
            _ => bytes = &bytes[place + 1..],
        }
    }
}

/// A quick look: what a raster says that stands before all sixels, else what the first bands need and how many there are.
pub fn quick(payload: &[u8], limits: Limits) -> Size {
    let close = payload.len().saturating_sub(CLOSELY);
    let mut walk = Walk::new(payload, limits, Some(close));
    walk.walk();
    walk.count_bands();
    walk.size
}

/// A look at every command: what they need, up to the first that the limits refuse.
pub fn thorough(payload: &[u8], limits: Limits) -> Size {
    let mut walk = Walk::new(payload, limits, None);
    walk.walk();
    walk.size
}

/// Bytes that end a payload (rule 2.7).
pub fn ends(byte: u8) -> bool {
    matches!(byte, 0x18 | 0x1a | 0x1b | 0x80..=0x9f)
}

/// Bytes that change nothing, wherever they stand in a payload (rule 2.1).
fn skipped(byte: u8) -> bool {
    matches!(byte, 0..=0x1f | 0x7f) && !ends(byte)
}

fn is_sixel(byte: u8) -> bool {
    matches!(byte, b'?'..=b'~')
}

/// Where the pen stands and what the visible area has come to, without colours and pixels.
struct Walk<'a> {
    /// What is still to be looked at.
    rest: &'a [u8],
    limits: Limits,
    /// A quick look ends with a raster, or a band after which no more bytes are left than this.
    close: Option<usize>,
    size: Size,
    column: usize,
    row: usize,
    repeat: usize,
    /// What rasters have said (rule 3.8).
    raster: Size,
}

impl<'a> Walk<'a> {
    fn new(payload: &'a [u8], limits: Limits, close: Option<usize>) -> Self {
        Self { rest: payload, limits, close, size: [1, 1], column: 0, row: 0, repeat: 1, raster: [1, 1] }
    }

    fn walk(&mut self) {
        while let Some((&byte, rest)) = self.rest.split_first() {
            self.rest = rest;
            match byte {
                b'?'..=b'~' => {
                    self.column = self.column.saturating_add(self.repeat);
                    self.repeat = 1;
                }
                b'#' => self.skip_colours(),
                b'!' => self.take_repeat(),
                b'$' => self.end_line(),
                b'-' => {
                    self.end_line();
                    self.row += BAND;
                    if self.close.is_some_and(|close| self.rest.len() <= close) {
                        return;
                    }
                }
                b'"' => self.take_raster(),
                _ if ends(byte) => self.stop(),
                _ => {}
            }
        }
        self.end_line();
    }

    fn stop(&mut self) {
        self.rest = &[];
    }

    /// The digits of one number, wherever bytes are skipped between them.
    fn number(&mut self) -> usize {
        let mut number = 0_usize;
        while let Some((&byte, rest)) = self.rest.split_first() {
            match byte {
                b'0'..=b'9' if number < ENOUGH => number = 10 * number + usize::from(byte - b'0'),
                b'0'..=b'9' => {}
                _ if skipped(byte) => {}
                _ => break,
            }
            self.rest = rest;
        }
        number
    }

    /// Definitions stand one behind the other, hundreds of them: they are skipped many bytes at a time.
    fn skip_colours(&mut self) {
        let parts = self.rest.chunks_exact(SKIPPED).take_while(|part| {
            let others = part.iter().map(|&byte| u8::from(byte != b'#') & u8::from(byte.wrapping_sub(b'0') > 11));
            others.fold(0, |any, other| any | other) == 0
        });
        self.rest = &self.rest[SKIPPED * parts.count()..];
        self.skip_arguments();
    }

    fn skip_arguments(&mut self) {
        while let Some((&byte, rest)) = self.rest.split_first() {
            if !matches!(byte, b'0'..=b'9' | b';') && !skipped(byte) {
                break;
            }
            self.rest = rest;
        }
    }

    fn take_repeat(&mut self) {
        self.repeat = self.number().max(1);
        if self.repeat > self.limits.repeats {
            self.stop();
        }
    }

    fn end_line(&mut self) {
        self.grow_to_line();
        self.column = 0;
    }

    /// Sixels are judged where their line ends or a raster follows. Of a line that the limits refuse, those before the
    /// refusal have room.
    fn grow_to_line(&mut self) {
        let rows = if self.column > 0 { self.size[1].max(self.row + BAND) } else { self.size[1] };
        if self.column <= self.size[0] && rows == self.size[1] {
            return;
        }
        let most = self.limits.width.min(self.limits.pixels / rows);
        if rows > self.limits.height || self.size[0] > most {
            return self.stop();
        }
        self.size = [self.size[0].max(self.column.min(most)), rows];
        if self.column > most {
            self.stop();
        }
    }

    fn take_raster(&mut self) {
        let mut values = [0; 4];
        for value in &mut values {
            *value = self.number();
            match self.rest {
                [b';', rest @ ..] => self.rest = rest,
                _ => break,
            }
        }
        self.skip_arguments();
        self.grow_to_line();
        let blank = self.size == [1, 1];
        let [_, _, width, height] = values;
        self.raster = [(width, 0), (height, 1)].map(|(side, old)| if side > 0 { side } else { self.raster[old] });
        self.grow_to_raster();
        if blank && self.close.is_some() && self.size != [1, 1] {
            self.make_whole_bands();
            self.stop();
        }
    }

    fn grow_to_raster(&mut self) {
        let [width, height] = [self.size[0].max(self.raster[0]), self.size[1].max(self.raster[1])];
        let allowed = width <= self.limits.width && height <= self.limits.height;
        if allowed && width <= self.limits.pixels / height {
            self.size = [width, height];
        } else {
            self.stop();
        }
    }

    /// A picture's sixels come to whole bands, whatever height its raster says.
    fn make_whole_bands(&mut self) {
        self.size[1] = self.allowed_rows(self.size[1].next_multiple_of(BAND));
    }

    fn allowed_rows(&self, rows: usize) -> usize {
        rows.min(self.limits.height).min(self.limits.pixels / self.size[0]).max(self.size[1])
    }

    /// Adds the bands that the walk has left out, up to the last that has a sixel.
    fn count_bands(&mut self) {
        let Some((mut count, length)) = lines(self.rest) else { return };
        let tail = self.rest[..length].iter().rev().take_while(|&&byte| !is_sixel(byte));
        count -= tail.filter(|&&byte| byte == b'-').count();
        self.size[1] = self.allowed_rows(self.row.saturating_add(BAND * (count + 1)));
    }
}

/// How many `-` stand before the payload's end, and where that is; none of an empty payload.
fn lines(payload: &[u8]) -> Option<(usize, usize)> {
    let (mut count, mut length) = (0, 0);
    for part in payload.chunks(SEARCHED) {
        let (lines, ended) = lines_of_part(part);
        if ended {
            let last = part.iter().position(|&byte| ends(byte)).unwrap_or(0);
            return Some((count + usize::from(lines_of_part(&part[..last]).0), length + last));
        }
        count += usize::from(lines);
        length += part.len();
    }
    (length > 0).then_some((count, length))
}

/// How many `-` there are, and whether the payload ends: without a branch, so that many bytes are looked at in one step.
fn lines_of_part(part: &[u8]) -> (u8, bool) {
    let (mut lines, mut ended) = (0, 0);
    for &byte in part {
        lines += u8::from(byte == b'-');
        ended |= u8::from(byte & 0xe0 == 0x80) | u8::from(byte == 0x18) | u8::from(byte & 0xfe == 0x1a);
    }
    (lines, ended > 0)
}

#[cfg(test)]
mod tests {
    use super::{after_header, quick, thorough};
    use crate::{read, DcsSettings, Limits, Palette, Refusal, SixelImage};

    const PARTS: [&str; 24] = [
        "~",
        "A",
        "?",
        "abc",
        "!7@",
        "!30",
        "!0~",
        "!2\n3B",
        "$",
        "$",
        "-",
        "-",
        "#1",
        "#2;2;9;9;9",
        "#;",
        "\"",
        "\"1;1",
        " ",
        "\"1;1;40;9",
        "\"2;1;;50",
        "\"1;1;33\x7f;2;8",
        "\"1;1;0;0;99",
        "5;6",
        "\u{a0}",
    ];

    /// Payloads of parts by chance, each the same in every run.
    fn payloads() -> impl Iterator<Item = String> {
        let mut state = 1_u32;
        let mut below = move |end: usize| {
            state = state.wrapping_mul(1_664_525).wrapping_add(1_013_904_223);
            ((u64::from(state) * end as u64) >> 32) as usize
        };
        (0..4_000).map(move |_| (0..below(25)).map(|_| PARTS[below(PARTS.len())]).collect())
    }

    #[test]
    fn a_thorough_look_sees_the_size() {
        for payload in payloads() {
            let image = SixelImage::decode_from_dcs(payload.as_bytes(), DcsSettings::default()).unwrap();
            assert_eq!(thorough(payload.as_bytes(), Limits::CRATE), [image.width, image.height], "{payload:?}");
        }
    }

    /// Whatever the limits refuse, it is not for want of room; and no look asks for more than they allow.
    #[test]
    fn a_look_keeps_to_the_limits() {
        let limits = Limits { width: 60, height: 48, repeats: 29, pixels: 1_000 };
        for payload in payloads() {
            let [width, height] = thorough(payload.as_bytes(), limits);
            let mut canvas = vec![0; 4 * width * height];
            let reading = read(limits, width, &mut canvas, payload.as_bytes(), &mut Palette::standard());
            assert_ne!(reading.picture, Err(Refusal::Room), "{payload:?}");
            for [width, height] in [[width, height], quick(payload.as_bytes(), limits)] {
                assert!(width <= 60 && height <= 48 && width * height <= 1_000, "{payload:?}: {width} x {height}");
            }
        }
    }

    #[test]
    fn a_quick_look_believes_the_raster_and_counts_the_bands() {
        let look = |payload: &str| quick(payload.as_bytes(), Limits::CRATE);
        assert_eq!(look("#1;2;1;1;1\"1;1;20;10!99~"), [20, 12]);
        assert_eq!(look("#1~\"1;1;20;10!99~"), [100, 10]);
        let many = "#1!9~-".repeat(2_000);
        assert_eq!(look(&(many.clone() + "!12~--\x1b\\-~-~")), [9, 12_006]);
        assert_eq!(look(&(many.clone() + "--")), [9, 12_000]);
        assert_eq!(thorough((many + "!12~").as_bytes(), Limits::CRATE), [12, 12_006]);
    }

    #[test]
    fn the_payload_is_found() {
        for (bytes, payload) in [("\x1bPq~", "~"), ("a\x1b[m\x1bP1;2q~q", "~q"), ("~-~", "~-~"), ("\x1bP12", "")] {
            assert_eq!(after_header(bytes.as_bytes()), payload.as_bytes());
        }
        assert_eq!(after_header(b"\x1b\x90q~\x9c"), b"~\x9c");
    }
}

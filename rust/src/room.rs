//! A growable canvas, as large as a picture turns out to need. The finished picture stays where it was drawn.
use crate::look::{self, Size};
use crate::{calls, Limits, Picture, Refusal, Result, SixelError, SixelImage};

/// Where the limits allow no more pixels than this, a stream's canvas has room for every picture from the start.
const WHOLE: usize = 1 << 20;
/// Else it starts with so many columns and rows.
const START: Size = [64, 6];
/// And becomes at least so many times as wide or tall. Rows are what most streams have too few of; and those that no sixel
/// reaches are memory that was never touched.
const WIDER: usize = 2;
const TALLER: usize = 4;

pub struct Room {
    limits: Limits,
    stride: usize,
    rows: usize,
    /// Whether bytes may follow that nobody has seen yet: then a larger canvas is larger than it need be.
    streamed: bool,
    /// What the picture is known to need, by refusals and not by a look: so its other side is at most the limit of pixels
    /// divided by this.
    width_known: usize,
    height_known: usize,
    canvas: Vec<u8>,
}

impl Room {
    /// For a payload that is all there: a look at it says how much is needed.
    pub fn for_payload(limits: Limits, payload: &[u8]) -> Result<Self> {
        let size = look::quick(payload, limits);
        // The look may be wrong: want of memory is an answer only where the reader needs as much.
        Self::new(limits, size, false).or_else(|_| Self::new(limits, START, false))
    }

    pub fn for_stream(limits: Limits) -> Result<Self> {
        let size = match limits.width.checked_mul(limits.height) {
            Some(1..=WHOLE) => [limits.width, limits.height],
            _ => START,
        };
        Self::new(limits, size, true)
    }

    /// Limits out of their range get a canvas too, so that it is the reader that refuses them.
    fn new(limits: Limits, [stride, rows]: Size, streamed: bool) -> Result<Self> {
        let (stride, rows) = (stride.min(limits.width).max(1), rows.min(limits.height).max(1));
        let canvas = zeros(stride, rows)?;
        Ok(Self { limits, stride, rows, streamed, width_known: 1, height_known: 1, canvas })
    }

    pub fn limits(&self) -> Limits {
        self.limits
    }

    pub fn stride(&self) -> usize {
        self.stride
    }

    pub fn canvas(&mut self) -> &mut [u8] {
        &mut self.canvas
    }

    /// Whether a refusal may yet have to be tried again. Once it has not, it never will.
    pub fn may_retry(&self) -> bool {
        self.stride < self.limits.width || self.rows < self.most_rows()
    }

    fn most_columns(&self) -> usize {
        self.limits.width.min(self.limits.pixels / self.height_known)
    }

    fn most_rows(&self) -> usize {
        self.limits.height.min(self.limits.pixels / self.width_known)
    }

    /// Tries, and makes room where it is missing.
    pub fn read<T>(
        &mut self,
        payload: &[u8],
        mut attempt: impl FnMut(Limits, usize, &mut [u8]) -> std::result::Result<T, Refusal>,
    ) -> Result<T> {
        match attempt(self.limits, self.stride, &mut self.canvas) {
            Err(Refusal::Room) => self.retry(payload, attempt),
            answer => Ok(answer?),
        }
    }

    /// After refusal 7: makes the room that a look at the payload asks for, and tries again.
    pub fn retry<T>(
        &mut self,
        payload: &[u8],
        mut attempt: impl FnMut(Limits, usize, &mut [u8]) -> std::result::Result<T, Refusal>,
    ) -> Result<T> {
        for look in [look::quick, look::thorough] {
            if !self.make_room(look(payload, self.limits))? {
                continue;
            }
            match attempt(self.limits, self.stride, &mut self.canvas) {
                Err(Refusal::Room) => {}
                answer => return Ok(answer?),
            }
        }
        self.retry_by_sides(attempt)
    }

    /// Without a look: makes room on the side that is refused, until there is an answer that more room would not change.
    fn retry_by_sides<T>(
        &mut self,
        mut attempt: impl FnMut(Limits, usize, &mut [u8]) -> std::result::Result<T, Refusal>,
    ) -> Result<T> {
        loop {
            // With a limit of width that is no wider than the canvas, 7 speaks of rows alone, and 5 of columns.
            let narrow = Limits { width: self.limits.width.min(self.stride), ..self.limits };
            match attempt(narrow, self.stride, &mut self.canvas) {
                Err(Refusal::Size) if self.stride < self.most_columns() => self.make_wider()?,
                Err(Refusal::Room) if self.rows < self.most_rows() => self.make_taller()?,
                answer => return Ok(answer?),
            }
            match attempt(self.limits, self.stride, &mut self.canvas) {
                Err(Refusal::Room) => {}
                answer => return Ok(answer?),
            }
        }
    }

    /// Whether there is more room now: the size is larger than the canvas, and memory for it can be had.
    fn make_room(&mut self, [width, height]: Size) -> Result<bool> {
        if width <= self.stride && height <= self.rows {
            return Ok(false);
        }
        if self.streamed {
            self.make_spare_room([width, height]);
        } else {
            (self.stride, self.rows) = (width, height);
        }
        if self.allocate().is_ok() {
            return Ok(true);
        }
        *self = Self::new(self.limits, START, self.streamed)?;
        Ok(false)
    }

    /// A stream may go on as it began, and so a side that is too short becomes much longer: at least twice, unless it comes to
    /// what the limits allow beside the other side. There are less than twice as many pixels as the limit.
    fn make_spare_room(&mut self, [width, height]: Size) {
        let longer = |old: usize, times: usize, needed: usize| if needed > old { needed.max(times * old) } else { old };
        let Limits { width: most_width, height: most_height, pixels, .. } = self.limits;
        self.stride = longer(self.stride, WIDER, width).min(most_width).min(pixels / height);
        let most_rows = (pixels / width).min((2 * pixels - 1) / self.stride);
        self.rows = longer(self.rows, TALLER, height).min(most_height).min(most_rows);
    }

    fn make_wider(&mut self) -> Result<()> {
        self.width_known = self.stride + 1;
        self.stride *= 2;
        self.allocate_needed()
    }

    fn make_taller(&mut self) -> Result<()> {
        self.height_known = self.rows + 1;
        self.rows *= 2;
        self.allocate_needed()
    }

    /// Neither side is larger than it can be needed, so that there are less than twice as many pixels as the limit.
    fn allocate_needed(&mut self) -> Result<()> {
        self.stride = self.stride.min(self.most_columns());
        self.rows = self.rows.min(self.most_rows());
        self.allocate()
    }

    fn allocate(&mut self) -> Result<()> {
        self.canvas = Vec::new();
        self.canvas = zeros(self.stride, self.rows)?;
        Ok(())
    }

    /// The picture in the canvas's own memory, its rows moved together.
    pub fn image(self, picture: Picture) -> SixelImage {
        let Picture { width, height, background_mode, .. } = picture;
        let (mut pixels, stride) = (self.canvas, self.stride);
        if width < stride {
            for row in 1..height {
                pixels.copy_within(4 * stride * row..4 * (stride * row + width), 4 * width * row);
            }
        }
        pixels.truncate(4 * width * height);
        pixels.shrink_to_fit();
        SixelImage { pixels, width, height, aspect_ratio: picture.aspect_ratio(), background_mode }
    }
}

fn zeros(width: usize, height: usize) -> Result<Vec<u8>> {
    let length = width.checked_mul(height).and_then(|pixels| pixels.checked_mul(4));
    length.and_then(calls::zeros).ok_or(SixelError::OutOfMemory)
}

#[cfg(test)]
mod tests {
    use super::Room;
    use crate::{read, Limits, Palette, Result, SixelDecoder, SixelError, SixelImage};

    /// Reads on a canvas of that size first. The look sees other bytes, and so it is wrong.
    fn misled(data: &str, seen: &str, limits: Limits, size: [usize; 2], streamed: bool) -> Result<SixelImage> {
        let mut room = Room::new(limits, size, streamed)?;
        let mut palette = Palette::standard();
        let answer = room.read(seen.as_bytes(), |limits, stride, canvas| {
            read(limits, stride, canvas, data.as_bytes(), &mut palette).picture
        });
        let most = (2 * limits.pixels).max(size[0] * size[1]);
        assert!(room.canvas.len() <= 4 * most, "{data:?}: {} x {}", room.stride, room.rows);
        Ok(room.image(answer?))
    }

    /// A hint that is too small, too large, or for another picture costs time and changes nothing.
    #[test]
    fn a_wrong_hint() {
        let limits = Limits { width: 3_000, height: 2_000, repeats: 3_500, pixels: 60_000 };
        let pictures = [
            "",
            "#1!16~-#2!16~",
            "#1!2999~-#2~--#3A",
            "\"1;1;29;2000#1~",
            "\"1;1;3000;20#1!3000~",
            "~!3000~",
            "!3501~",
            "\"1;1;30;2001",
            "\"1;1;3000;21",
            "\"1;1;20;1999!65~",
            "#1!64~-!65~-!130~-!259~$-~-~-~-~-~-~-~-~-~-~",
        ];
        for data in pictures {
            let refused = |error: SixelError| error.number();
            let wanted = SixelDecoder::with_limits(limits).decode(data.as_bytes()).map_err(refused);
            for seen in ["", data, "!100~", "-----~", "\"1;1;3000;20", "\"1;1;1;2000"] {
                for size in [[1, 1], [1, 2_000], [3_000, 1], [64, 6], [300, 200]] {
                    for streamed in [false, true] {
                        let got = misled(data, seen, limits, size, streamed).map_err(refused);
                        assert_eq!(got, wanted, "{data:?}, {seen:?}, {size:?}");
                    }
                }
            }
        }
    }
}

use crate::{Need, Telling};
use std::fmt;

/// Why a call was refused; each has its number (docs/RULES.md, section 5: rule 5.1 has the table, 5.2 and 5.3 the orders).
///
/// Its text is the reader's line of English, without a place (rule 5.11). [`Telling`] says where and why.
#[derive(Clone, Copy, Debug, PartialEq, Eq)]
#[non_exhaustive]
pub enum Refusal {
    /// A DCS sequence does not begin with 90, or with 1B and `P`.
    Introducer,
    /// 18, 1A, 1B or 80-9F stands in the header.
    HeaderEnded,
    /// Another byte stands in the header that does not belong there.
    HeaderByte,
    /// A repeat is above the limit.
    Repeat,
    /// A sixel or raster needs more than the limit of width or height.
    Size,
    /// The visible area would have more pixels than the limit.
    Pixels,
    /// A sixel or raster needs more than the canvas's stride or rows.
    Room,
    /// A DCS sequence has not come to its end; read all at once, it has an introducer but no `q`.
    Unfinished,
    /// 1 to 7 refused this session before, or there is none.
    Failed,
    /// Retired: nothing gives it.
    FinalSize,
    /// A limit or the stride is out of range, or the canvas has no whole row.
    Opening,
    /// The canvas has another length than at the opening, or no such picture.
    Canvas,
    /// The allowance is below six times the limit of width.
    Allowance,
    /// The copy's buffer is shorter than the picture.
    Buffer,
    /// A number that this version does not know. No reader of this version gives one.
    #[doc(hidden)]
    Other(u8),
}

impl Refusal {
    /// The refusal's number, 1 to 14.
    pub const fn number(self) -> u8 {
        match self {
            Self::Introducer => 1,
            Self::HeaderEnded => 2,
            Self::HeaderByte => 3,
            Self::Repeat => 4,
            Self::Size => 5,
            Self::Pixels => 6,
            Self::Room => 7,
            Self::Unfinished => 8,
            Self::Failed => 9,
            Self::FinalSize => 10,
            Self::Opening => 11,
            Self::Canvas => 12,
            Self::Allowance => 13,
            Self::Buffer => 14,
            Self::Other(number) => number,
        }
    }

    /// A call's answer: 0 is none. A feed may be of one byte, and so nothing is searched then.
    #[inline]
    pub(crate) fn judge(answer: u64) -> std::result::Result<(), Self> {
        if answer == 0 {
            return Ok(());
        }
        Err(Self::numbered(answer))
    }

    #[cold]
    pub(crate) fn numbered(answer: u64) -> Self {
        match answer {
            1 => Self::Introducer,
            2 => Self::HeaderEnded,
            3 => Self::HeaderByte,
            4 => Self::Repeat,
            5 => Self::Size,
            6 => Self::Pixels,
            7 => Self::Room,
            8 => Self::Unfinished,
            9 => Self::Failed,
            10 => Self::FinalSize,
            11 => Self::Opening,
            12 => Self::Canvas,
            13 => Self::Allowance,
            14 => Self::Buffer,
            other => Self::Other(u8::try_from(other).unwrap_or(u8::MAX)),
        }
    }
}

impl fmt::Display for Refusal {
    fn fmt(&self, f: &mut fmt::Formatter<'_>) -> fmt::Result {
        Telling::from(*self).fmt(f)
    }
}

impl std::error::Error for Refusal {}

/// Why there is no image.
///
/// A refusal comes with its place and its need where the bytes are still there to be asked: [`SixelDecoder`](crate::SixelDecoder)
/// says when.
#[derive(Clone, Copy, Debug, PartialEq, Eq)]
pub enum SixelError {
    /// Refusal 1: the bytes are no DCS sequence.
    NoSixelData(Telling),
    /// Any other refusal.
    InvalidData(Telling),
    /// The canvas or the kept bytes can't be allocated.
    OutOfMemory,
}

impl SixelError {
    /// What is told of the refusal, where the reader refused.
    pub const fn telling(self) -> Option<Telling> {
        match self {
            Self::NoSixelData(telling) | Self::InvalidData(telling) => Some(telling),
            Self::OutOfMemory => None,
        }
    }

    /// The refusal, where the reader refused.
    pub const fn refusal(self) -> Option<Refusal> {
        match self.telling() {
            Some(telling) => Some(telling.refusal),
            None => None,
        }
    }

    /// The offset of the refused byte among all bytes of the stream, where it is known.
    pub fn place(self) -> Option<usize> {
        self.telling().and_then(|telling| telling.place)
    }

    /// What the refused byte needed, where it is known.
    pub fn need(self) -> Option<Need> {
        self.telling().and_then(|telling| telling.need)
    }

    /// The refusal's number; 0 where memory ran out.
    pub fn number(self) -> u8 {
        self.refusal().map_or(0, Refusal::number)
    }

    /// With place and need, where they are told of the same refusal.
    #[cold]
    pub(crate) fn explained(self, tell: impl FnOnce() -> Option<Telling>) -> Self {
        let told = self.refusal().and_then(|refusal| tell().filter(|telling| telling.refusal == refusal));
        told.map_or(self, Self::from)
    }
}

impl From<Telling> for SixelError {
    fn from(telling: Telling) -> Self {
        match telling.refusal {
            Refusal::Introducer => Self::NoSixelData(telling),
            _ => Self::InvalidData(telling),
        }
    }
}

impl From<Refusal> for SixelError {
    /// Without a place.
    fn from(refusal: Refusal) -> Self {
        Telling::from(refusal).into()
    }
}

impl fmt::Display for SixelError {
    fn fmt(&self, f: &mut fmt::Formatter<'_>) -> fmt::Result {
        match self.telling() {
            Some(telling) => telling.fmt(f),
            None => f.pad("out of memory"),
        }
    }
}

impl std::error::Error for SixelError {}

/// An image or what else was asked for, or why there is none.
pub type Result<T> = std::result::Result<T, SixelError>;

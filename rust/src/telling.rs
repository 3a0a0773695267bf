use crate::ffi::{Told, LINE};
use crate::{calls, Refusal};
use std::fmt;

/// What a refused byte needed more of than there is.
#[derive(Clone, Copy, Debug, PartialEq, Eq)]
pub enum Thing {
    /// Repeats, for refusal 4.
    Repeats,
    /// Columns, for refusals 5 and 7.
    Columns,
    /// Rows, for refusals 5 and 7.
    Rows,
    /// Pixels of the visible area, for refusal 6.
    Pixels,
}

/// How much a refused byte needed, and how much there is (rule 5.10).
#[derive(Clone, Copy, Debug, PartialEq, Eq)]
pub struct Need {
    /// What there was too little of.
    pub thing: Thing,
    /// So much was needed.
    pub needed: u64,
    /// More than that, which is above every limit that can be set.
    pub more: bool,
    /// So much is allowed; for refusal 7 so much is on the canvas.
    pub allowed: u64,
}

/// Where and why a call was refused. Its text is the reader's line of English (rule 5.11).
///
/// ```
/// let error = owlgantry::SixelDecoder::new().decode(b"text \x1bPq!70000~").unwrap_err();
/// assert_eq!(error.to_string(), "refused 4 at byte 14: a repeat of 70000, 65535 allowed");
/// assert_eq!(error.place(), Some(14));
/// assert_eq!(error.need().map(|need| need.needed), Some(70_000));
/// ```
#[derive(Clone, Copy, Debug, PartialEq, Eq)]
pub struct Telling {
    /// Which refusal it is.
    pub refusal: Refusal,
    /// The offset of the refused byte: all before it were read. A command is refused at the byte that ends it, a finish at the
    /// end of what was given (rule 5.9). There is none where the call is refused and no byte, or where it is not known.
    pub place: Option<usize>,
    /// What the refused byte needed, for 4 to 7, where the place is known.
    pub need: Option<Need>,
}

impl Telling {
    /// What seven numbers tell; nothing where no call was refused.
    pub(crate) fn of(told: Told) -> Option<Self> {
        let [number, has_place, place, thing, needed, more, allowed] = told;
        let thing = match thing {
            1 => Some(Thing::Repeats),
            2 => Some(Thing::Columns),
            3 => Some(Thing::Rows),
            4 => Some(Thing::Pixels),
            _ => None,
        };
        Some(Self {
            refusal: Refusal::judge(number).err()?,
            place: (has_place == 1).then_some(place as usize),
            need: thing.map(|thing| Need { thing, needed, more: more == 1, allowed }),
        })
    }

    /// The same with so many bytes more before it.
    pub(crate) fn behind(self, before: usize) -> Self {
        Self { place: self.place.map(|place| place + before), ..self }
    }

    fn numbers(self) -> Told {
        let [has_place, place] = self.place.map_or([0, 0], |place| [1, place as u64]);
        let [thing, needed, more, allowed] =
            self.need.map_or([0; 4], |need| [need.thing as u64 + 1, need.needed, u64::from(need.more), need.allowed]);
        [u64::from(self.refusal.number()), has_place, place, thing, needed, more, allowed]
    }
}

impl From<Refusal> for Telling {
    /// The refusal alone.
    fn from(refusal: Refusal) -> Self {
        Self { refusal, place: None, need: None }
    }
}

impl fmt::Display for Telling {
    fn fmt(&self, f: &mut fmt::Formatter<'_>) -> fmt::Result {
        let mut line = [0; LINE];
        let length = calls::words(&self.numbers(), &mut line);
        match line.get(..length).map(std::str::from_utf8) {
            Some(Ok(words)) if length > 0 => f.pad(words),
            // A number that the reader has no words for.
            _ => write!(f, "refused {}", self.refusal.number()),
        }
    }
}

impl std::error::Error for Telling {}

#[cfg(test)]
mod tests {
    use super::{Need, Telling, Thing};
    use crate::Refusal;

    #[test]
    fn numbers_and_back() {
        let need = Need { thing: Thing::Pixels, needed: 60, more: true, allowed: 48 };
        for need in [None, Some(need), Some(Need { thing: Thing::Repeats, more: false, ..need })] {
            for place in [None, Some(0), Some(usize::MAX)] {
                let telling = Telling { refusal: Refusal::Pixels, place, need };
                assert_eq!(Telling::of(telling.numbers()), Some(telling));
            }
        }
        assert_eq!(Telling::of([0; 7]), None);
    }

    /// A reader may come to give numbers that this crate does not know.
    #[test]
    fn numbers_that_are_not_known() {
        for (number, text) in [(15, "refused 15"), (255, "refused 255"), (1_000, "refused 255")] {
            let telling = Telling::of([number, 0, 0, 9, 0, 0, 0]).unwrap();
            assert_eq!((telling.to_string().as_str(), telling.refusal.to_string().as_str()), (text, text));
        }
    }
}

use crate::{calls, ffi};

/// 256 registers, each a colour and a mark. A picture that is finished hands its registers on to the next.
///
/// A mark says that a colour command has defined the register, in a picture that was finished (rule 9.8). The standard
/// palette has none. A session that is open, aborted or refused leaves them as they were, and only
/// [`SixelDecoder::reset_palette`](crate::SixelDecoder::reset_palette) or another palette takes them away.
///
/// Two palettes are equal where their colours are. Marks do not count, since no picture looks another way for them, and
/// `Debug` shows colours alone; [`Self::is_marked`] is where they are told.
///
/// ```
/// use owlgantry::{Palette, SixelDecoder};
/// let mut decoder = SixelDecoder::new();
/// decoder.palette_mut().set_color(2, [255, 0, 0]);
/// decoder.decode(b"\x1bPq#1;2;20;20;80~#2~\x1b\\")?;
/// assert!(decoder.palette().is_marked(1));
/// assert!(!decoder.palette().is_marked(2));
/// decoder.palette_mut().set_color(2, Palette::standard().color(2));
/// assert_eq!(*decoder.palette(), Palette::standard());
/// # Ok::<(), owlgantry::SixelError>(())
/// ```
#[derive(Clone)]
pub struct Palette(pub(crate) ffi::Registers);

/// A register's number has its colour below this, and this bit where it is marked.
const MARK: u32 = 1 << 24;

impl Palette {
    /// The standard registers, none of them marked.
    pub fn standard() -> Self {
        Self(calls::standard_palette())
    }

    /// A register's red, green and blue; 255's above 255.
    pub fn color(&self, register: usize) -> [u8; 3] {
        let [_, red, green, blue] = self.0[register.min(255)].to_be_bytes();
        [red, green, blue]
    }

    /// Whether a colour command has defined a register, in a picture that was finished; above 255 whether one has 255.
    pub fn is_marked(&self, register: usize) -> bool {
        self.0[register.min(255)] & MARK != 0
    }

    /// Sets a register's red, green and blue, and leaves its mark as it is; above 255 there is none, and nothing changes.
    pub fn set_color(&mut self, register: usize, [red, green, blue]: [u8; 3]) {
        if let Some(number) = self.0.get_mut(register) {
            *number = *number & MARK | u32::from_be_bytes([0, red, green, blue]);
        }
    }

    fn colors(&self) -> impl Iterator<Item = u32> + '_ {
        self.0.iter().map(|number| number % MARK)
    }
}

impl Default for Palette {
    fn default() -> Self {
        Self::standard()
    }
}

impl PartialEq for Palette {
    fn eq(&self, other: &Self) -> bool {
        self.colors().eq(other.colors())
    }
}

impl Eq for Palette {}

impl std::fmt::Debug for Palette {
    fn fmt(&self, f: &mut std::fmt::Formatter<'_>) -> std::fmt::Result {
        f.debug_list().entries(self.colors().map(|color| format!("{color:06x}"))).finish()
    }
}

use crate::{BackgroundMode, PixelAspectRatio};

/// The parameters of a DCS header, for a payload whose header somebody else has read.
#[derive(Clone, Copy, Debug, Default)]
pub struct DcsSettings {
    aspect_ratio: Option<u16>,
    zero_color: Option<u16>,
    grid_size: Option<u16>,
}

impl DcsSettings {
    /// P1, P2 and P3; P3 reaches no answer.
    pub fn new(aspect_ratio: Option<u16>, zero_color: Option<u16>, grid_size: Option<u16>) -> Self {
        Self { aspect_ratio, zero_color, grid_size }
    }

    /// Sets P1 to a number that stands for the ratio.
    #[must_use]
    pub fn with_pixel_aspect_ratio(mut self, aspect_ratio: PixelAspectRatio) -> Self {
        self.aspect_ratio = Some(u16::from(aspect_ratio.to_p1_value()));
        self
    }

    /// Sets P2 to the number that stands for the background.
    #[must_use]
    pub fn with_background_mode(mut self, background_mode: BackgroundMode) -> Self {
        self.zero_color = Some(u16::from(background_mode.to_p2_value()));
        self
    }

    /// Sets P3.
    #[must_use]
    pub fn with_grid_size(mut self, grid_size: u16) -> Self {
        self.grid_size = Some(grid_size);
        self
    }

    /// P1 and P2 as the reader takes them: a number above 65,535 is none.
    pub(crate) fn numbers(self) -> [u32; 2] {
        [self.aspect_ratio, self.zero_color].map(|given| given.map_or(u32::MAX, u32::from))
    }
}

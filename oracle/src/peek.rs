// Part of the decoder's module, so that it may call and read what is private there.

/// The Rust's own conversion of one percent.
pub fn peek_percent(value: i32) -> u8 {
    percent_to_byte(value)
}

/// The Rust's own conversion from hue, lightness and saturation.
pub fn peek_hls(h: i32, l: i32, s: i32) -> [u8; 3] {
    hls_to_rgb(h, l, s)
}

impl SixelDecoder {
    /// The 256 registers as 1,024 bytes: red, green, blue, FF.
    pub fn registers(&self) -> Vec<u8> {
        (0..SIXEL_PALETTE_MAX).flat_map(|index| self.palette.rgb_bytes(index)).collect()
    }
}

/// Where a payload stands: what its canvas shows, and 4, 5 or 6 where a byte or command was refused.
pub struct Standing {
    pub refusal: u8,
    pub size: [usize; 2],
    pub reach: [usize; 2],
    pub pixels: Vec<u8>,
}

impl SixelDecoder {
    /// Reads a payload byte by byte, and at its end carries a pending command out where `finish` says so.
    ///
    /// A refused byte or command changes no pixel, so the canvas then shows what came before it.
    pub fn follow(&self, settings: DcsSettings, payload: &[u8], finish: bool) -> Standing {
        let mut frame = FrameDecoder::new(settings, self.palette.clone()).expect("a frame opens");
        for &byte in payload {
            let wild = frame.repeats_too_often();
            match frame.process(&[byte]) {
                Ok(progress) if progress.status != SixelFeedStatus::NeedMoreData => break,
                Ok(_) => {}
                Err(error) => return frame.standing(refusal(&error, wild)),
            }
        }
        let wild = frame.repeats_too_often();
        match if finish { frame.finish_command() } else { Ok(()) } {
            Ok(()) => frame.standing(0),
            Err(error) => frame.standing(refusal(&error, wild)),
        }
    }
}

impl FrameDecoder {
    fn repeats_too_often(&self) -> bool {
        matches!(self.command, PayloadCommand::Repeat(value) if value > SIXEL_REPEAT_MAX)
    }

    fn standing(mut self, refusal: u8) -> Standing {
        Standing {
            refusal,
            size: [self.canvas.width, self.canvas.height],
            reach: [self.max_x + 1, self.max_y + 1],
            pixels: self.canvas.take_pixels(),
        }
    }
}

/// The Rust has one text for a repeat and a size too large; what was pending tells the two apart.
fn refusal(error: &SixelError, wild: bool) -> u8 {
    match error {
        SixelError::InvalidData(text) if text == "image dimensions too large" => 6,
        SixelError::InvalidData(_) if wild => 4,
        _ => 5,
    }
}

/// The settings of a DCS sequence's header and the place after its `q`, where it has one.
pub fn peek_header(bytes: &[u8]) -> Option<(DcsSettings, usize)> {
    let start = match bytes {
        [0x90, ..] => 1,
        [0x1b, b'P', ..] => 2,
        _ => return None,
    };
    let mut header = DcsHeader::new();
    for (at, &byte) in bytes.iter().enumerate().skip(start) {
        if let Some(settings) = header.push(byte).ok()? {
            return Some((settings, at + 1));
        }
    }
    None
}

/// The settings that one-shot reading finds and the part of the input that it takes as payload.
pub fn peek_part(bytes: &[u8]) -> Option<(DcsSettings, &[u8])> {
    let found = AnsiPayload::parse(bytes).ok()?;
    Some((DcsSettings::new(found.aspect_ratio, found.zero_color, found.grid_size), found.payload))
}

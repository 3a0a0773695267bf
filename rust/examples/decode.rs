use owlgantry::{Limits, SixelDecoder, SixelError};

fn main() -> Result<(), SixelError> {
    let mut decoder = SixelDecoder::with_limits(Limits::HOUSE);
    let mut dcs = decoder.begin_dcs();
    for piece in [&b"\x1bPq#1;2;10"[..], b"0;0;0!2", b"B\x1b\\"] {
        println!("{:?}", dcs.feed(piece)?);
    }
    let image = dcs.finish()?;
    println!("{} x {}, first pixel {:?}", image.width, image.height, &image.pixels[..4]);
    Ok(())
}

//! Seeded streams put to both decoders through the same names, and every answer compared.
use oracle::grammar;
use oracle::random::Random;
use oracle::run::{Case, Entry};

/// What a stream came to: each feed's status and bytes, then the image or an error.
#[derive(Debug, PartialEq)]
struct Outcome {
    feeds: Vec<(usize, String)>,
    image: Result<Image, ()>,
}

#[derive(PartialEq)]
struct Image {
    size: (usize, usize),
    ratio: String,
    background: String,
    pixels: Vec<u8>,
}

impl std::fmt::Debug for Image {
    fn fmt(&self, f: &mut std::fmt::Formatter<'_>) -> std::fmt::Result {
        write!(f, "{:?} {} {} {:?}", self.size, self.ratio, self.background, self.pixels.get(..64))
    }
}

/// The same program over either crate.
macro_rules! reader {
    ($name:ident, $library:ident) => {
        mod $name {
            use super::{Case, Entry, Image, Outcome};
            use $library::{DcsSettings, SixelDecoder, SixelError, SixelImage};

            pub fn run(decoder: &mut SixelDecoder, case: &Case) -> (Outcome, Option<SixelError>) {
                if case.reset {
                    decoder.reset_palette();
                }
                let mut feeds = Vec::new();
                let answer = match case.entry {
                    Entry::OneShot => decoder.decode(&case.pieces.concat()).map(Some),
                    Entry::Payload([p1, p2, p3]) => payload(decoder, DcsSettings::new(p1, p2, p3), case, &mut feeds),
                    Entry::Dcs => dcs(decoder, case, &mut feeds),
                };
                let (image, error) = match answer {
                    Ok(Some(image)) => (Ok(shown(image)), None),
                    Ok(None) => (Err(()), None),
                    Err(error) => (Err(()), Some(error)),
                };
                (Outcome { feeds, image }, error)
            }

            type Feeds = Vec<(usize, String)>;

            fn payload(
                decoder: &mut SixelDecoder,
                settings: DcsSettings,
                case: &Case,
                feeds: &mut Feeds,
            ) -> Result<Option<SixelImage>, SixelError> {
                let mut frame = decoder.begin_frame(settings)?;
                for piece in &case.pieces {
                    let fed = frame.feed(piece)?;
                    feeds.push((fed.consumed, format!("{:?}", fed.status)));
                }
                if case.abort {
                    frame.abort();
                    return Ok(None);
                }
                frame.finish().map(Some)
            }

            fn dcs(
                decoder: &mut SixelDecoder,
                case: &Case,
                feeds: &mut Feeds,
            ) -> Result<Option<SixelImage>, SixelError> {
                let mut dcs = decoder.begin_dcs();
                for piece in &case.pieces {
                    let fed = dcs.feed(piece)?;
                    feeds.push((fed.consumed, format!("{:?}", fed.status)));
                }
                if case.abort {
                    dcs.abort();
                    return Ok(None);
                }
                dcs.finish().map(Some)
            }

            fn shown(image: SixelImage) -> Image {
                Image {
                    size: image.dimensions(),
                    ratio: format!("{:?} {:?}", image.aspect_ratio, image.corrected_dimensions()),
                    background: format!("{:?} {}", image.background_mode, image.has_transparency()),
                    pixels: image.pixels,
                }
            }
        }
    };
}

reader!(theirs, oracle);
reader!(ours, owlgantry);

fn case(random: &mut Random) -> Case {
    let parts = 1 + random.below(12);
    let (entry, stream) = match random.below(3) {
        0 => (Entry::OneShot, grammar::one_shot(random, parts)),
        1 => (Entry::Dcs, grammar::dcs(random, parts)),
        _ => {
            let mut p = || random.pick(&[None, None, Some(0), Some(1), Some(1), Some(2), Some(9), Some(400)]);
            (Entry::Payload([p(), p(), p()]), grammar::payload(random, parts))
        }
    };
    let stream = if random.below(3) == 0 { grammar::damaged(random, &stream) } else { stream };
    let pieces = if entry == Entry::OneShot { vec![stream] } else { grammar::split(random, &stream) };
    Case { reset: random.below(5) == 0, entry, abort: random.below(12) == 0, pieces }
}

/// The registers as the oracle shows them: red, green, blue, FF.
fn registers(decoder: &owlgantry::SixelDecoder) -> Vec<u8> {
    (0..256).flat_map(|index| decoder.palette().color(index).into_iter().chain([255])).collect()
}

#[test]
fn the_same_answers() {
    let mut random = Random::new(20);
    let (mut judge, mut reader) = (oracle::SixelDecoder::new(), owlgantry::SixelDecoder::new());
    let (mut images, mut errors) = (0, [0; 15]);
    for turn in 0..600 {
        let case = case(&mut random);
        let numbered = oracle::run::run(&mut judge.clone(), &case).refusal;
        let (wanted, refused) = theirs::run(&mut judge, &case);
        let (got, error) = ours::run(&mut reader, &case);
        assert_eq!(got, wanted, "turn {turn}: {:?}", case.pieces);
        assert_eq!(error.is_some(), refused.is_some(), "turn {turn}");
        assert_eq!(error.map_or(0, |error| error.number()), numbered, "turn {turn}: {:?}", case.pieces);
        assert_eq!(registers(&reader), judge.registers(), "turn {turn}: the registers");
        images += u32::from(got.image.is_ok());
        errors[usize::from(numbered)] += 1;
    }
    println!("{images} images, refusals by number {errors:?}");
    assert!(images > 100 && (1..=8).filter(|&number| number != 7).all(|number| errors[number] > 0), "{errors:?}");
}

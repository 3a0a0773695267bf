//! The owned decoders and the streams of both crates. The names are the same, and so the same program calls either.
use crate::exports::pieces;
use crate::picture::Picture;

macro_rules! readers {
    ($reader:ident, $library:ident) => {
        pub mod $reader {
            use super::{pieces, Picture};
            use $library::{DcsSettings, SixelDecoder, SixelImage};

            impl From<SixelImage> for Picture {
                fn from(SixelImage { width, height, pixels, .. }: SixelImage) -> Self {
                    Self { width, height, pixels }
                }
            }

            /// A sequence all at once, by a decoder for it alone.
            pub fn decode(sequence: &[u8]) -> SixelImage {
                SixelImage::decode(sequence).expect("the sequence is read")
            }

            /// A payload by a stream. `watch` is called before the finish, when all bytes have been read.
            pub fn payload_watched(payload: &[u8], piece: usize, watch: impl FnOnce()) -> SixelImage {
                let mut decoder = SixelDecoder::new();
                let mut frame = decoder.begin_frame(DcsSettings::new(None, None, None)).expect("a frame begins");
                for bytes in pieces(payload, piece) {
                    let _ = frame.feed(bytes).expect("the payload is read");
                }
                watch();
                frame.finish().expect("the payload is finished")
            }

            pub fn payload(payload: &[u8], piece: usize) -> SixelImage {
                payload_watched(payload, piece, || ())
            }

            /// A sequence by a stream, as [`payload_watched`].
            pub fn sequence_watched(sequence: &[u8], piece: usize, watch: impl FnOnce()) -> SixelImage {
                let mut decoder = SixelDecoder::new();
                let mut stream = decoder.begin_dcs();
                for bytes in pieces(sequence, piece) {
                    let _ = stream.feed(bytes).expect("the sequence is read");
                }
                watch();
                stream.finish().expect("the sequence is finished")
            }

            pub fn sequence(sequence: &[u8], piece: usize) -> SixelImage {
                sequence_watched(sequence, piece, || ())
            }
        }
    };
}

readers!(ours, owlgantry);
readers!(rust, oracle);

//! Nothing is here: `tests/` compares the crate with icy_sixel's own decoder.

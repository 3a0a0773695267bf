//! The memory that is lent to a reading.
use std::ops::{Deref, DerefMut};

const PAGE: usize = 4_096;
/// Where in a page a C library's allocator puts a large block. A fill takes up to twice as long there as at a cache line's
/// start, so that the place must not be left to chance.
const PLACE: usize = 16;

pub struct Canvas {
    memory: Vec<u8>,
    start: usize,
    length: usize,
}

impl Canvas {
    pub fn new(length: usize) -> Self {
        let memory = vec![0; length + PAGE];
        let start = (PAGE + PLACE - memory.as_ptr() as usize % PAGE) % PAGE;
        Self { memory, start, length }
    }
}

impl Deref for Canvas {
    type Target = [u8];

    fn deref(&self) -> &[u8] {
        &self.memory[self.start..][..self.length]
    }
}

impl DerefMut for Canvas {
    fn deref_mut(&mut self) -> &mut [u8] {
        &mut self.memory[self.start..][..self.length]
    }
}

#[cfg(test)]
mod tests {
    use super::{Canvas, PAGE, PLACE};

    #[test]
    fn every_canvas_has_its_place_in_a_page() {
        for length in [4, 1_536, 3_145_728] {
            let canvas = Canvas::new(length);
            assert_eq!((canvas.len(), canvas.as_ptr() as usize % PAGE), (length, PLACE));
        }
    }
}

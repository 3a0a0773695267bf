//! A reader whose calls and answers are logged in words, so that a difference can be read.
use crate::reader::{Memory, Opening, Reader, Registers};

pub struct Recorded<'a> {
    pub inner: &'a mut dyn Reader,
    pub lines: String,
}

impl Recorded<'_> {
    fn note<T: std::fmt::Debug>(&mut self, call: &str, answer: T) {
        self.lines += &format!("    {call}: {answer:?}\n");
    }
}

impl Reader for Recorded<'_> {
    fn open(&mut self, opening: &Opening) -> u64 {
        let number = self.inner.open(opening);
        self.note("open", number);
        number
    }

    fn feed(&mut self, bytes: &[u8], allowance: usize, short: usize) -> (u64, [u64; 4]) {
        let answer = self.inner.feed(bytes, allowance, short);
        self.note(&format!("feed {} bytes, allowance {allowance}, canvas {short} short", bytes.len()), answer);
        answer
    }

    fn finish(&mut self) -> (u64, [u64; 11]) {
        let answer = self.inner.finish();
        self.note("finish", answer);
        answer
    }

    fn read(&mut self, opening: &Opening, bytes: &[u8]) -> (u64, [u64; 13]) {
        let answer = self.inner.read(opening, bytes);
        self.note(&format!("read {} bytes", bytes.len()), answer);
        answer
    }

    fn copy(&mut self, size: [usize; 2], out: Vec<u8>) -> (u64, Vec<u8>) {
        let (number, out) = self.inner.copy(size, out);
        self.note(&format!("copy {size:?} to {} bytes", out.len()), number);
        (number, out)
    }

    fn standard_palette(&mut self) -> Registers {
        self.inner.standard_palette()
    }

    fn memory(&mut self) -> &Memory {
        self.inner.memory()
    }
}

//! The reader in a subprocess (`servant.c`), reached through pipes: its standard input and output.
use crate::reader::{Memory, Opening, Reader, Registers};
use std::io::{BufReader, BufWriter, Read, Write};
use std::process::{Child, ChildStdin, ChildStdout, Command, Stdio};

pub struct Servant {
    child: Child,
    to: BufWriter<ChildStdin>,
    from: BufReader<ChildStdout>,
    size: usize,
    memory: Memory,
}

impl Servant {
    /// Starts it; `command` is its words, one space apart.
    pub fn start(command: &str) -> Self {
        let mut words = command.split(' ');
        let mut child = Command::new(words.next().unwrap_or_default())
            .args(words)
            .stdin(Stdio::piped())
            .stdout(Stdio::piped())
            .spawn()
            .unwrap_or_else(|error| panic!("{command}: {error}"));
        let to = BufWriter::with_capacity(1 << 16, child.stdin.take().expect("its input is a pipe"));
        let from = BufReader::with_capacity(1 << 16, child.stdout.take().expect("its output is a pipe"));
        Self { child, to, from, size: 0, memory: Memory::empty() }
    }

    fn give(&mut self, bytes: &[u8]) {
        self.to.write_all(bytes).expect("the servant listens");
    }

    fn give_number(&mut self, number: u64) {
        self.give(&number.to_le_bytes());
    }

    fn give_bytes(&mut self, bytes: &[u8]) {
        self.give_number(bytes.len() as u64);
        self.give(bytes);
    }

    fn give_opening(&mut self, opening: &Opening) {
        let [w, h, r, m] = opening.limits;
        let numbers = [usize::from(opening.framed), w, h, r, m, opening.stride];
        numbers.iter().for_each(|&number| self.give_number(number as u64));
        self.give_number(u64::from(opening.p1));
        self.give_number(u64::from(opening.p2));
        self.size = opening.buffer.len();
        self.give_number(self.size as u64);
        opening.palette.iter().for_each(|colour| self.give(&colour.to_le_bytes()));
        self.give(&opening.buffer);
    }

    fn take_numbers<const N: usize>(&mut self) -> [u64; N] {
        self.to.flush().expect("the servant listens");
        let mut numbers = [0; N];
        for number in &mut numbers {
            let mut bytes = [0; 8];
            self.from.read_exact(&mut bytes).expect("the servant answers");
            *number = u64::from_le_bytes(bytes);
        }
        numbers
    }

    fn take_registers(&mut self) -> Registers {
        let mut bytes = [0; 1_024];
        self.from.read_exact(&mut bytes).expect("the servant answers");
        std::array::from_fn(|at| u32::from_le_bytes([0, 1, 2, 3].map(|byte| bytes[4 * at + byte])))
    }
}

impl Reader for Servant {
    fn open(&mut self, opening: &Opening) -> u64 {
        self.give(b"o");
        self.give_opening(opening);
        let [number] = self.take_numbers();
        number
    }

    fn feed(&mut self, bytes: &[u8], allowance: usize, short: usize) -> (u64, [u64; 4]) {
        self.give(b"f");
        self.give_number(allowance as u64);
        self.give_number(short as u64);
        self.give_bytes(bytes);
        let [number, report @ ..] = self.take_numbers::<5>();
        (number, report)
    }

    fn finish(&mut self) -> (u64, [u64; 11]) {
        self.give(b"x");
        let [number, report @ ..] = self.take_numbers::<12>();
        (number, report)
    }

    fn read(&mut self, opening: &Opening, bytes: &[u8]) -> (u64, [u64; 13]) {
        self.give(b"r");
        self.give_opening(opening);
        self.give_bytes(bytes);
        let [number, report @ ..] = self.take_numbers::<14>();
        (number, report)
    }

    fn copy(&mut self, [width, height]: [usize; 2], mut out: Vec<u8>) -> (u64, Vec<u8>) {
        self.give(b"c");
        self.give_number(width as u64);
        self.give_number(height as u64);
        self.give_bytes(&out);
        let [number] = self.take_numbers();
        self.from.read_exact(&mut out).expect("the servant answers");
        (number, out)
    }

    fn standard_palette(&mut self) -> Registers {
        self.give(b"p");
        let [] = self.take_numbers();
        self.take_registers()
    }

    fn memory(&mut self) -> &Memory {
        self.give(b"m");
        let [] = self.take_numbers();
        self.memory.palette = self.take_registers();
        self.memory.session = self.take_numbers();
        self.memory.registers = self.take_registers();
        self.memory.buffer.resize(self.size, 0);
        self.from.read_exact(&mut self.memory.buffer).expect("the servant answers");
        &self.memory
    }
}

impl Drop for Servant {
    /// A servant ends by itself on a byte that is no command.
    fn drop(&mut self) {
        let _ = self.to.write_all(b".").and_then(|()| self.to.flush());
        let _ = self.child.wait();
    }
}

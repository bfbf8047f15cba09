//! Lines that are printed.

use crate::moves::{Move, Verdict};
use std::io::Write;

/// Four digits for each number below 10,000.
static FOURS: [u32; 10_000] = {
    let mut all = [0; 10_000];
    let mut n = 0;
    while n < 10_000 {
        all[n] =
            u32::from_le_bytes([b'0'; 4]) + (n / 1_000 | n / 100 % 10 << 8 | n / 10 % 10 << 16 | n % 10 << 24) as u32;
        n += 1;
    }
    all
};

/// The end of a text to which one line is written.
struct Pen(*mut u8);

/// Bytes that a line has at most, with some that are written for nothing.
const LINE: usize = 512;

impl Pen {
    fn write<const N: usize>(&mut self, bytes: [u8; N], length: usize) {
        // SAFETY: a line has fewer bytes than LINE, and there is room for so many.
        unsafe {
            self.0.cast::<[u8; N]>().write_unaligned(bytes);
            self.0 = self.0.add(length);
        }
    }
    fn word<const N: usize>(&mut self, word: &[u8; N]) {
        self.write(*word, N);
    }
    fn small(&mut self, n: u32) {
        let length = 1 + u32::from(n > 9) + u32::from(n > 99) + u32::from(n > 999);
        self.write((FOURS[n as usize] >> (32 - 8 * length)).to_le_bytes(), length as usize);
    }
    fn four(&mut self, n: u64) {
        self.write(FOURS[n as usize].to_le_bytes(), 4);
    }
    fn long(&mut self, n: u64) {
        const E: u64 = 10_000;
        if n < E {
            self.small(n as u32);
        } else if n < E * E {
            self.small((n / E) as u32);
            self.four(n % E);
        } else if n < E * E * E {
            self.small((n / (E * E)) as u32);
            self.four(n / E % E);
            self.four(n % E);
        } else {
            self.huge(n.into());
        }
    }
    #[cold]
    fn huge(&mut self, n: i128) {
        n.to_string().bytes().for_each(|byte| self.word(&[byte]));
    }
    /// Numbers with a space before each.
    fn numbers(&mut self, numbers: &[i128]) {
        for &n in numbers {
            self.word(b" ");
            if n >> 64 == 0 { self.long(n as u64) } else { self.huge(n) }
        }
    }
    fn steps(&mut self, taken: &Move) {
        match taken.1 {
            1 => self.word(b" shift "),
            2 => self.word(b" swap "),
            _ => self.word(b" chain "),
        }
        for step in taken.all() {
            self.long(step.process.into());
            self.word(b":");
            self.small(step.from);
            self.word(b">");
            self.small(step.to);
            self.word(b" ");
        }
    }
    fn verdict(&mut self, verdict: &Verdict) {
        match verdict {
            Ok(cost) => {
                self.word(b"done");
                self.numbers(&[*cost]);
            }
            Err(cause) => {
                self.word(b"refused ");
                self.write(cause.word.0, cause.word.1);
                self.numbers(cause.numbers.all());
            }
        }
        self.word(b"\n");
    }
}

/// Text that grows by lines.
#[derive(Default)]
pub struct Text(pub Vec<u8>);

impl Text {
    fn line(&mut self, write: impl FnOnce(&mut Pen)) -> usize {
        self.0.reserve(LINE);
        let length = self.0.len();
        // SAFETY: there is room for LINE more bytes, and those up to the pen are written.
        unsafe {
            let mut pen = Pen(self.0.as_mut_ptr().add(length));
            write(&mut pen);
            let now = pen.0.offset_from(self.0.as_ptr()) as usize;
            self.0.set_len(now);
            now - length
        }
    }
    /// The line of an entry with its place, worker, number and the place of its plan. Gives the number of its bytes.
    pub fn entry(&mut self, place: u32, [worker, k, at]: [u32; 3], taken: &Move, verdict: &Verdict) -> usize {
        self.line(|pen| {
            let start = pen.0;
            pen.long(place.into());
            // SAFETY: there is room for LINE bytes, and a place has no more than eight.
            let (digits, length) = unsafe { (*start.cast::<[u8; 8]>(), pen.0.offset_from(start) as usize) };
            pen.numbers(&[worker.into()]);
            for n in [k, at] {
                pen.word(b" ");
                if n == place { pen.write(digits, length) } else { pen.long(n.into()) }
            }
            pen.steps(taken);
            pen.verdict(verdict);
        })
    }
    pub fn named(&mut self, name: &str, number: u128) {
        writeln!(self.0, "{name} {number}").expect("memory");
    }
    pub fn parts(&mut self, parts: &[u128; 5]) {
        self.named("cost", parts.iter().sum());
        for (name, &part) in ["load", "balance", "process", "service", "machine"].iter().zip(parts) {
            self.named(name, part);
        }
    }
    pub fn list(&mut self, list: &[u32]) {
        self.0.extend_from_slice(b"assignment");
        list.iter().for_each(|&m| _ = self.line(|pen| pen.numbers(&[m.into()])));
        self.0.push(b'\n');
    }
}

//! The numbers of a file. Most have at most four digits: a table says, for each pattern of digits and white bytes among
//! sixteen bytes, where the digits of its first four numbers are.

use crate::lanes::{Four, digits_of, four_numbers, padded};
use std::fs::File;
use std::io::Read;

const LONGEST: usize = 536_870_912;
/// Bytes that are read at once.
const PIECE: usize = 1 << 17;
/// White bytes behind the last number, so that a block may be read at each place.
const AFTER: usize = 128;

/// The patterns that were met: two words for each, first where the digits are (`four_numbers`), and then a byte each for how
/// many numbers there are, how many bytes are done with, 1, and whether a longer number begins there.
pub struct Patterns(Vec<[u128; 2]>);

impl Patterns {
    pub fn new() -> Patterns {
        // Zeros take memory only where they are looked at.
        Patterns(vec![[0; 2]; 1 << 16])
    }
    #[cold]
    fn meet(&mut self, bits: u16) -> u32 {
        let (mut places, mut count, mut from, mut passed, mut is_long) = ([128; 16], 0, 0, 16, false);
        while count < 4 {
            from += (u32::from(bits) >> from).trailing_zeros().min(16 - from);
            let length = (!(u32::from(bits) >> from)).trailing_zeros();
            passed = from;
            if from == 16 || length > 4 || from + length == 16 {
                is_long = from < 16 && count == 0 && (from == 0 || length > 4);
                break;
            }
            (0..length).for_each(|k| places[(4 * count + 4 - length + k) as usize] = (from + k) as u8);
            count += 1;
            from += length;
            passed = from;
        }
        let told = count | passed << 8 | 1 << 16 | u32::from(is_long) << 24;
        self.0[bits as usize] = [u128::from_le_bytes(places), told.into()];
        told
    }
    /// Gives the numbers of the first `end` bytes, which end with a white one. AFTER white bytes follow.
    fn read(&mut self, bytes: &[u8], end: usize, to: &mut Vec<u32>) -> Option<()> {
        to.clear();
        // Each number has two bytes at least, and four are written at once.
        to.reserve(end / 2 + 64);
        let out = to.as_mut_ptr();
        let (mut at, mut made) = (0, 0);
        while at < end {
            let block: &[u8; 64] = bytes[at..at + 64].try_into().expect("a block");
            let (digits, is_fine) = digits_of(block);
            if !is_fine {
                return None;
            }
            let mut from = 0;
            while from <= 48 {
                let bits = (digits >> from) as u16;
                let mut told = self.0[bits as usize][1] as u32;
                if told >> 16 != 1 {
                    told = if told == 0 { self.meet(bits) } else { told };
                    if told >> 24 == 1 {
                        at += from + (told >> 8 & 255) as usize;
                        from = 0;
                        // SAFETY: as below.
                        unsafe { *out.add(made) = long_number(bytes, &mut at)? };
                        made += 1;
                        break;
                    }
                }
                let sixteen: &[u8; 16] = block[from..from + 16].try_into().expect("sixteen");
                // SAFETY: there is room for a number for every two bytes, and 64 more.
                unsafe { *out.add(made).cast() = four_numbers(sixteen, self.0[bits as usize][0]) };
                made += (told & 255) as usize;
                from += (told >> 8 & 255) as usize;
            }
            at += from;
        }
        // SAFETY: these were written.
        unsafe { to.set_len(made) };
        Some(())
    }
}

/// The number that begins at a place, which goes behind its digits.
fn long_number(bytes: &[u8], place: &mut usize) -> Option<u32> {
    let end = *place + bytes[*place..].iter().position(|byte| !byte.is_ascii_digit())?;
    let digits = &bytes[std::mem::replace(place, end)..end];
    std::str::from_utf8(digits).ok()?.parse().ok()
}

/// The numbers of a file in their order, read in pieces. A fault is a status: 3 if reading fails, else the one that is told.
pub struct Numbers<'p> {
    file: Option<File>,
    /// How many bytes were read, and the last ones, which begin a number that may not be whole.
    length: usize,
    bytes: Vec<u8>,
    patterns: &'p mut Patterns,
    values: Vec<u32>,
    next: usize,
    pub bad: i32,
}

impl<'p> Numbers<'p> {
    pub fn open(name: &str, bad: i32, patterns: &'p mut Patterns) -> Result<Numbers<'p>, i32> {
        let file = File::open(name).map_err(|_| 3)?;
        let bytes = Vec::with_capacity(2 * PIECE);
        Ok(Numbers { file: Some(file), bytes, bad, ..Numbers::of(Vec::new(), patterns) })
    }
    pub fn of(values: Vec<u32>, patterns: &'p mut Patterns) -> Numbers<'p> {
        Numbers { file: None, length: 0, bytes: Vec::new(), patterns, values, next: 0, bad: 0 }
    }
    /// How many numbers are at hand: none only if there are no more.
    fn at_hand(&mut self) -> Result<usize, i32> {
        while self.next == self.values.len() && self.refill()? {}
        Ok(self.values.len() - self.next)
    }
    /// Reads a piece, if the file may have more.
    #[cold]
    fn refill(&mut self) -> Result<bool, i32> {
        let Some(file) = &mut self.file else { return Ok(false) };
        let got = file.take(PIECE as u64).read_to_end(&mut self.bytes).map_err(|_| 3)?;
        if got == 0 {
            self.file = None;
            self.bytes.push(b' ');
        }
        self.length += got;
        if self.length > LONGEST {
            return Err(self.bad);
        }
        let end = self.bytes.iter().rposition(|byte| !byte.is_ascii_digit()).map_or(0, |last| last + 1);
        let rest = self.bytes.split_off(end);
        self.bytes.resize(end + AFTER, b' ');
        self.patterns.read(&self.bytes, end, &mut self.values).ok_or(self.bad)?;
        self.bytes.clear();
        self.bytes.extend(rest);
        self.next = 0;
        Ok(true)
    }
    /// The next number. It is a fault if there is none.
    pub fn next(&mut self) -> Result<u32, i32> {
        Ok(self.some(1)?[0])
    }
    pub fn within(&mut self, least: usize, most: usize) -> Result<usize, i32> {
        let value = self.next()? as usize;
        if (least..=most).contains(&value) { Ok(value) } else { Err(self.bad) }
    }
    /// Some of the next numbers: at least one, at most so many.
    pub fn some(&mut self, most: usize) -> Result<&[u32], i32> {
        let count = most.min(self.at_hand()?);
        self.next += count;
        if count == 0 { Err(self.bad) } else { Ok(&self.values[self.next - count..self.next]) }
    }
    pub fn fill(&mut self, mut to: &mut [u32]) -> Result<(), i32> {
        while !to.is_empty() {
            let some = self.some(to.len())?;
            let (front, rest) = to.split_at_mut(some.len());
            front.copy_from_slice(some);
            to = rest;
        }
        Ok(())
    }
    /// Adds some numbers as a row of fours, with zeros after them.
    pub fn row(&mut self, count: usize, quads: usize, to: &mut Vec<Four>) -> Result<(), i32> {
        let mut numbers = [0; 20];
        self.fill(&mut numbers[..count])?;
        to.extend_from_slice(&padded(&numbers)[..quads]);
        Ok(())
    }
    pub fn has_ended(&mut self) -> Result<bool, i32> {
        Ok(self.at_hand()? == 0)
    }
}

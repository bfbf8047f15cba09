//! Numbers side by side, with the instructions of x86-64-v2.

use core::arch::x86_64::*;

/// Four numbers of 32 bits, or two of 64.
#[derive(Clone, Copy)]
#[repr(transparent)]
pub struct Four(__m128i);

/// Eight numbers of 16 bits. Sums and differences stop at the greatest number and at 0.
#[derive(Clone, Copy)]
#[repr(transparent)]
pub struct Eight(__m128i);

// SAFETY, for each `unsafe` here: x86-64-v2 has the instructions (main.rs refuses to be compiled for less), and an address
// that is read or written belongs to an array of that many bytes.
macro_rules! lanes {
    ($of:ident: $($(#[$doc:meta])* $name:ident($this:ident $(, $other:ident: $type:ty)*) -> $to:ty = $value:expr;)*) => {
        impl $of {
            $($(#[$doc])*             pub fn $name($this $(, $other: $type)*) -> $to {
                unsafe { $value }
            })*
        }
    };
}

lanes! { Four:
    plus(self, b: Four) -> Four = Four(_mm_add_epi32(self.0, b.0));
    minus(self, b: Four) -> Four = Four(_mm_sub_epi32(self.0, b.0));
    and(self, b: Four) -> Four = Four(_mm_and_si128(self.0, b.0));
    /// What each is above the other one, or 0.
    above(self, b: Four) -> Four = Four(_mm_sub_epi32(_mm_max_epu32(self.0, b.0), b.0));
    /// All ones where this one is at most the other one.
    within(self, b: Four) -> Four = Four(_mm_cmpeq_epi32(_mm_max_epu32(self.0, b.0), b.0));
    /// One bit for each number of which the highest bit is set.
    bits(self) -> u32 = _mm_movemask_ps(_mm_castsi128_ps(self.0)) as u32;
    /// Two sums of two products of 64 bits.
    products(self, b: Four) -> Four = Four(_mm_add_epi64(
        _mm_mul_epu32(self.0, b.0),
        _mm_mul_epu32(_mm_srli_epi64::<32>(self.0), _mm_srli_epi64::<32>(b.0)),
    ));
    plus_long(self, b: Four) -> Four = Four(_mm_add_epi64(self.0, b.0));
    sum_long(self) -> u64 = (_mm_cvtsi128_si64(self.0) as u64).wrapping_add(_mm_extract_epi64::<1>(self.0) as u64);
}

lanes! { Eight:
    plus(self, b: Eight) -> Eight = Eight(_mm_adds_epu16(self.0, b.0));
    above(self, b: Eight) -> Eight = Eight(_mm_subs_epu16(self.0, b.0));
    least(self, b: Eight) -> Eight = Eight(_mm_min_epu16(self.0, b.0));
    /// The high halves of the products.
    times(self, b: Eight) -> Eight = Eight(_mm_mulhi_epu16(self.0, b.0));
    shifted(self, by: u32) -> Eight = Eight(_mm_sll_epi16(self.0, _mm_cvtsi32_si128(by as i32)));
    store(self, to: &mut [u16]) -> () = _mm_storeu_si128(to[..8].as_mut_ptr().cast(), self.0);
    /// Two bits for each number that is that of the other one.
    same(self, b: Eight) -> u32 = _mm_movemask_epi8(_mm_cmpeq_epi16(self.0, b.0)) as u32;
    /// One bit for each number, first this one's and then the other one's, that is at most a limit.
    within(self, b: Eight, limit: Eight) -> u32 = {
        let is = |x: Eight| _mm_cmpeq_epi16(x.above(limit).0, _mm_setzero_si128());
        _mm_movemask_epi8(_mm_packs_epi16(is(self), is(b))) as u32
    };
}

impl Four {
    pub fn all(x: u32) -> Four {
        unsafe { Four(_mm_set1_epi32(x as i32)) }
    }
    pub fn of(x: [u32; 4]) -> Four {
        unsafe { Four(_mm_loadu_si128(x.as_ptr().cast())) }
    }
}

impl Eight {
    pub fn all(x: u16) -> Eight {
        unsafe { Eight(_mm_set1_epi16(x as i16)) }
    }
    /// The first eight numbers.
    pub fn load(from: &[u16]) -> Eight {
        unsafe { Eight(_mm_loadu_si128(from[..8].as_ptr().cast())) }
    }
}

/// The numbers one after another.
pub fn flat(rows: &[Four]) -> &[u32] {
    unsafe { std::slice::from_raw_parts(rows.as_ptr().cast(), rows.len() * 4) }
}

/// A row of numbers with zeros after them.
pub fn padded(numbers: &[u32]) -> [Four; 5] {
    let mut all = [0; 20];
    all[..numbers.len()].copy_from_slice(numbers);
    std::array::from_fn(|quad| Four::of(std::array::from_fn(|k| all[4 * quad + k])))
}

/// Which of 64 bytes are digits, and whether each of the others is white.
pub fn digits_of(bytes: &[u8; 64]) -> (u64, bool) {
    unsafe {
        // Each white byte is at the place of its own low half.
        let white = _mm_setr_epi8(32, 32, 32, 32, 32, 32, 32, 32, 32, 9, 10, 32, 32, 13, 32, 32);
        let (mut digits, mut fine) = (0, _mm_set1_epi8(-1));
        for k in 0..4 {
            let v = _mm_loadu_si128(bytes[16 * k..].as_ptr().cast());
            let t = _mm_xor_si128(v, _mm_set1_epi8(48));
            let digit = _mm_cmpeq_epi8(_mm_min_epu8(t, _mm_set1_epi8(9)), t);
            let blank = _mm_cmpeq_epi8(_mm_shuffle_epi8(white, v), v);
            fine = _mm_and_si128(fine, _mm_or_si128(digit, blank));
            digits |= u64::from(_mm_movemask_epi8(digit) as u32) << (16 * k);
        }
        (digits, _mm_movemask_epi8(fine) == 0xffff)
    }
}

/// Four numbers of at most four digits, whose places in sixteen bytes are told; 128 is no place.
pub fn four_numbers(bytes: &[u8; 16], places: u128) -> [u32; 4] {
    unsafe {
        let t = _mm_xor_si128(_mm_loadu_si128(bytes.as_ptr().cast()), _mm_set1_epi8(48));
        let t = _mm_shuffle_epi8(t, _mm_loadu_si128((&raw const places).cast()));
        let t = _mm_maddubs_epi16(t, _mm_set1_epi16(0x010a));
        std::mem::transmute(_mm_madd_epi16(t, _mm_set1_epi32(0x0001_0064)))
    }
}

/// Asks for memory that is read soon.
pub fn fetch<T>(all: &[T], at: usize) {
    unsafe { _mm_prefetch::<_MM_HINT_T0>(all.as_ptr().wrapping_add(at).cast()) }
}

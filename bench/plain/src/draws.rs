//! Words of a seed, lots, and by how much a proposal may raise the cost.

/// xoshiro256++, whose state is four words of splitmix64.
pub struct Stream([u64; 4]);

impl Stream {
    pub fn new(seed: u64) -> Stream {
        let mut at = seed;
        Stream(std::array::from_fn(|_| {
            at = at.wrapping_add(0x9e37_79b9_7f4a_7c15);
            let word = (at ^ at >> 30).wrapping_mul(0xbf58_476d_1ce4_e5b9);
            let word = (word ^ word >> 27).wrapping_mul(0x94d0_49bb_1331_11eb);
            word ^ word >> 31
        }))
    }
    pub fn next(&mut self) -> u64 {
        let [a, b, c, d] = self.0;
        let (x, y) = (c ^ a, d ^ b);
        self.0 = [a ^ y, b ^ x, x ^ b << 17, y.rotate_left(45)];
        a.wrapping_add(d).rotate_left(23).wrapping_add(a)
    }
}

/// So many proposals of a seed, or of eight written words each.
#[derive(Default)]
pub struct Lot {
    pub seed: u64,
    pub budget: u64,
    pub written: Vec<u64>,
}

impl Lot {
    /// The words of one proposal after another.
    pub fn draws(&self) -> impl Iterator<Item = [u64; 8]> {
        let (mut stream, mut written) = (Stream::new(self.seed), self.written.as_chunks().0.iter());
        (0..self.budget).map(move |_| written.next().copied().unwrap_or_else(|| std::array::from_fn(|_| stream.next())))
    }
}

pub struct Lots {
    pub slack: u64,
    pub is_first_drawing: bool,
    pub all: Vec<Lot>,
}

impl Lots {
    /// By how much proposal k of a budget may raise the cost.
    pub fn allowance(&self, budget: u64, k: u64) -> u64 {
        let long = || (u128::from(self.slack) * u128::from(budget - 1 - k) / u128::from(budget)) as u64;
        let product = self.slack.checked_mul(budget - 1 - k);
        product.map_or_else(long, |product| if product == 0 { 0 } else { product / budget })
    }
}

/// Remainders by one number, without a division.
pub struct Remainder {
    by: u64,
    share: u64,
}

impl Remainder {
    pub fn new(by: usize) -> Remainder {
        Remainder { by: by as u64, share: u64::MAX / by as u64 }
    }
    pub fn of(&self, word: u64) -> usize {
        // The quotient, or one less.
        let quotient = (u128::from(word) * u128::from(self.share) >> 64) as u64;
        let rest = word - quotient * self.by;
        rest.min(rest.wrapping_sub(self.by)) as usize
    }
}

//! Moves, causes, and how many processes of each service are moved.

use crate::instance::Instance;

#[derive(Clone, Copy, Default)]
pub struct Step {
    pub process: u32,
    pub from: u32,
    pub to: u32,
}

/// At most M values, and how many.
#[derive(Clone, Copy)]
pub struct Few<T, const M: usize>(pub [T; M], pub usize);

impl<T: Copy + Default, const M: usize> Few<T, M> {
    pub fn new<const N: usize>(some: [T; N]) -> Few<T, M> {
        Few(std::array::from_fn(|k| if k < N { some[k] } else { T::default() }), N)
    }
    pub fn all(&self) -> &[T] {
        &self.0[..self.1]
    }
}

/// A shift has one step, a swap two, and a chain three.
pub type Move = Few<Step, 3>;

/// Why a move isn't done: a word and numbers, as they are printed.
#[derive(Clone, Copy)]
pub struct Cause {
    pub word: Few<u8, 16>,
    pub numbers: Few<i128, 4>,
}

impl Cause {
    pub fn new<const N: usize, const K: usize>(word: &[u8; N], numbers: [impl Into<i128>; K]) -> Cause {
        Cause { word: Few::new(*word), numbers: Few::new(numbers.map(Into::into)) }
    }
}

/// The cost after a move that is done, or why it isn't.
pub type Verdict = Result<i128, Cause>;

/// What a move changes that breaks nothing: the cost without the service part, and of how many services which moved counts:
/// the service, the count before and the count after.
#[derive(Clone, Copy)]
pub struct Change {
    pub local: i128,
    pub moved: Few<(u32, u32, u32), 3>,
}

impl Change {
    /// The count of a service, which has this one before.
    pub fn moved_of(&mut self, service: u32, before: u32) -> &mut u32 {
        let Few(all, count) = &mut self.moved;
        let at = all[..*count].iter().position(|moved| moved.0 == service).unwrap_or(*count);
        if at == *count {
            all[at] = (service, before, before);
            *count += 1;
        }
        &mut all[at].2
    }
}

/// A move with what it changes or breaks.
pub type Plan = (Move, Result<Change, Cause>);

/// A cost of so many units of 64 bits.
pub fn product(weight: u32, units: u64) -> i128 {
    i128::from(weight) * i128::from(units)
}

/// The moved count of each service, how many services have each count, and the greatest count with its weight.
pub struct Greatest {
    count: Vec<u32>,
    having: Vec<u32>,
    most: u32,
    weight: u32,
}

impl Greatest {
    pub fn new(inst: &Instance) -> Greatest {
        let mut having = vec![0; inst.processes + 1];
        having[0] = inst.services as u32;
        Greatest { count: vec![0; inst.services], having, most: 0, weight: inst.weights[1] }
    }
    pub fn of(&self, service: u32) -> u32 {
        self.count[service as usize]
    }
    pub fn change(&mut self, service: u32, after: u32) {
        let before = self.of(service);
        self.most = (i64::from(self.most) + self.growth(&[(service, before, after)])) as u32;
        self.having[before as usize] -= 1;
        self.having[after as usize] += 1;
        self.count[service as usize] = after;
    }
    /// How much the greatest count grows by changes of different services.
    fn growth(&self, moved: &[(u32, u32, u32)]) -> i64 {
        let mut most = moved.iter().fold(self.most, |most, one| most.max(one.2));
        let counts =
            |most: u32| moved.iter().map(move |one| u32::from(one.2 == most).wrapping_sub(u32::from(one.1 == most)));
        while counts(most).fold(self.having[most as usize], u32::wrapping_add) == 0 {
            most -= 1;
        }
        i64::from(most) - i64::from(self.most)
    }
    /// How much the cost grows by a change, with the service part.
    pub fn whole(&self, change: &Change) -> i128 {
        change.local + i128::from(self.growth(change.moved.all())) * i128::from(self.weight)
    }
}

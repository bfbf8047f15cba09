//! The numbers of the instance of a trial, in the order of the model file, and its start.

use crate::draws::Stream;

const MACHINES: usize = 100;
const PROCESSES: usize = 1_000;
const SERVICES: usize = 250;
const RESOURCES: usize = 4;

pub fn model_of(number: u64) -> Vec<u32> {
    let mut stream = Stream::new(number);
    let drawn: Vec<u64> = (0..5_650).map(|_| stream.next()).collect();
    let within = |at: usize, most: u64| (drawn[at] % most) as u32;
    let required = |p: usize, r: usize| 1 + within(RESOURCES * p + r, 100);
    let mut all = vec![RESOURCES as u32, 1, 10, 0, 10, 0, 10, 0, 10, MACHINES as u32];
    for m in 0..MACHINES {
        all.extend([m as u32 / 20, m as u32 % 10]);
        let used = |r: usize| (m..PROCESSES).step_by(MACHINES).map(|p| required(p, r)).sum::<u32>();
        let capacity = |r: usize| used(r) + 100 + within(5_000 + RESOURCES * m + r, 200);
        all.extend((0..RESOURCES).map(capacity));
        all.extend((0..RESOURCES).map(|r| 3 * capacity(r) / 4));
        all.extend((0..MACHINES).map(|to| if m == to { 0 } else { 1 + (m + to) as u32 % 5 }));
    }
    all.push(SERVICES as u32);
    for s in 0..SERVICES {
        all.extend([1 + within(5_400 + s, 3), u32::from(s % 5 == 0)]);
        all.extend((s % 5 == 0).then_some((s as u32 + 25) % SERVICES as u32));
    }
    all.push(PROCESSES as u32);
    for p in 0..PROCESSES {
        all.push(p as u32 / 4);
        all.extend((0..RESOURCES).map(|r| required(p, r)));
        all.push(1 + within(4_000 + p, 10));
    }
    all.extend([1, 0, 1, 2, 10, 1, 10, 100]);
    all
}

pub fn start() -> Vec<u32> {
    (0..PROCESSES).map(|p| (p % MACHINES) as u32).collect()
}

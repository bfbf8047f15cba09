//! A worker's replica: a list with all that is kept for it.

use crate::draws::Remainder;
use crate::instance::{Ground, Instance, SMALL, Service};
use crate::lanes::{Eight, Four, flat, padded};
use crate::moves::{Greatest, Move, product};

/// One label of each process, in the order of the slots, and for large services how many have each label.
pub struct Places<'a> {
    label: &'a [u16],
    at: Vec<u16>,
    table: Vec<u16>,
}

impl<'a> Places<'a> {
    /// The labels of the machines of a list.
    fn new(ground: &Ground, label: &'a [u16], list: &[u32]) -> Places<'a> {
        let mut at: Vec<u16> = ground.members.all.iter().map(|&p| label[list[p as usize] as usize]).collect();
        let mut table = Vec::new();
        for service in ground.services.iter().filter(|service| service.large != SMALL) {
            let row = table.len();
            table.resize(row + label.len(), 0);
            at[service.slots()].iter().for_each(|&label| table[row + label as usize] += 1);
        }
        at.extend([0; 8]);
        Places { label, at, table }
    }
    pub fn label(&self, m: u32) -> u16 {
        self.label[m as usize]
    }
    /// How many processes of a service have a label.
    pub fn count(&self, service: &Service, label: u16) -> u32 {
        if service.large != SMALL {
            return self.table[service.large as usize * self.label.len() + label as usize].into();
        }
        let same = |first: usize| Eight::load(&self.at[first..]).same(Eight::all(label));
        let (mut first, mut left, mut count) = (service.first as usize, service.size, 0);
        while left > 8 {
            count += same(first).count_ones();
            (first, left) = (first + 8, left - 8);
        }
        (count + (same(first) & ((1 << (2 * left)) - 1)).count_ones()) / 2
    }
    fn change(&mut self, service: &Service, slot: u32, m: u32) {
        let label = self.label(m);
        let before = std::mem::replace(&mut self.at[slot as usize], label);
        if service.large != SMALL {
            let row = service.large as usize * self.label.len();
            self.table[row + before as usize] -= 1;
            self.table[row + label as usize] += 1;
        }
    }
}

pub struct State<'a, const Q: usize> {
    pub inst: &'a Instance,
    pub ground: &'a Ground,
    pub at: Vec<u32>,
    /// For each machine three rows: what is free; what is free beside those that left too, of transient resources, and the
    /// greatest number of the others; and by how much the capacity is above the safety capacity.
    pub rows: Vec<[[Four; Q]; 3]>,
    /// Load and balance cost of each machine.
    pub cost: Vec<i128>,
    weights: [Four; Q],
    /// Whether no load cost of a machine is above 2^64.
    is_narrow: bool,
    /// All ones for transient resources.
    pub transient: [Four; Q],
    pub has_transient: bool,
    /// For each resource, and twice for each balance objective, by machine going round: how much a machine takes before its
    /// cost rises, divided by 2^`power`, rounded up and cut to 16 bits.
    pub filters: Vec<u16>,
    pub power: u32,
    /// A way shifted by the first number, times the second one, is at most its cost divided by 2^`power`, times 2^16.
    pub way_share: (u32, u16),
    pub on: Places<'a>,
    pub locations: Places<'a>,
    pub hoods: Places<'a>,
    /// In how many locations each service is.
    pub spread: Vec<u32>,
    pub greatest: Greatest,
    pub by_process: Remainder,
    pub by_machine: Remainder,
}

impl<'a, const Q: usize> State<'a, Q> {
    pub fn new(inst: &'a Instance, ground: &'a Ground, initial: &[u32]) -> State<'a, Q> {
        let machines = inst.machines;
        let row = |numbers: Vec<u32>| *padded(&numbers).first_chunk().expect("a row");
        let transient: [Four; Q] = row(inst.transient.iter().map(|&is| if is { u32::MAX } else { 0 }).collect());
        let capacities = inst.capacity.as_chunks::<Q>().0.iter().zip(inst.safety.as_chunks::<Q>().0);
        let gap = |all: &[Four; Q], safe: &[Four; Q]| std::array::from_fn(|i| all[i].above(safe[i]));
        let mut rows: Vec<_> = capacities.map(|(all, safe)| [*all, *all, gap(all, safe)]).collect();
        for (&m, required) in initial.iter().zip(inst.requirement.as_chunks::<Q>().0) {
            let free = &mut rows[m as usize][0];
            (0..Q).for_each(|i| free[i] = free[i].minus(required[i]));
        }
        let others = transient.map(|transient| Four::all(u32::MAX).minus(transient));
        for [free, room, _] in &mut rows {
            *room = std::array::from_fn(|i| free[i].and(transient[i]).plus(others[i]));
        }
        let (power, locations) = (power_of(inst), Places::new(ground, &ground.location, initial));
        let spread_of = |service: &Service| {
            let labels = &locations.at[service.slots()];
            (0..labels.len()).filter(|&k| !labels[..k].contains(&labels[k])).count() as u32
        };
        let mut state = State {
            inst,
            ground,
            at: initial.to_vec(),
            rows,
            cost: vec![0; machines],
            weights: row(inst.load_weight.clone()),
            is_narrow: inst.load_weight.iter().map(|&weight| u64::from(weight)).sum::<u64>() < 1 << 32,
            transient,
            has_transient: inst.transient.contains(&true),
            filters: vec![0; (inst.resources + 2 * inst.balances.len()) * inst.stride],
            power,
            way_share: way_share(inst, power),
            on: Places::new(ground, &ground.machine, initial),
            hoods: Places::new(ground, &ground.hood, initial),
            spread: ground.services.iter().map(spread_of).collect(),
            locations,
            greatest: Greatest::new(inst),
            by_process: Remainder::new(inst.processes),
            by_machine: Remainder::new(machines),
        };
        (0..machines as u32).for_each(|m| state.renew(m));
        state
    }
    /// Load and balance cost of a machine with this free.
    pub fn cost_of(&self, m: u32, free: &[Four; Q]) -> i128 {
        let ([_, _, gap], numbers) = (&self.rows[m as usize], flat(free));
        let mut sum = 0;
        if self.is_narrow {
            let load = (0..Q).map(|i| gap[i].above(free[i]).products(self.weights[i]));
            sum += i128::from(load.fold(Four::all(0), Four::plus_long).sum_long());
        } else {
            for ((&gap, &free), &weight) in flat(gap).iter().zip(numbers).zip(&self.inst.load_weight) {
                sum += product(weight, gap.saturating_sub(free).into());
            }
        }
        for balance in &self.inst.balances {
            let wanted = u64::from(balance.target) * u64::from(numbers[balance.first]);
            sum += product(balance.weight, wanted.saturating_sub(numbers[balance.second].into()));
        }
        sum
    }
    /// Makes the cost and the filters of a machine anew.
    fn renew(&mut self, m: u32) {
        let (inst, free) = (self.inst, self.rows[m as usize][0]);
        self.cost[m as usize] = self.cost_of(m, &free);
        let (m, numbers) = (m as usize, flat(&free));
        let (power, mut filters) = (self.power, self.filters.chunks_exact_mut(inst.stride));
        let mut set = |weight: u32, value: u64| {
            let value = u64::from(weight).saturating_mul(value);
            let up = u64::from(value & ((1 << power) - 1) != 0);
            let filter = filters.next().expect("a filter")[m..].iter_mut();
            filter.step_by(inst.machines).for_each(|at| *at = ((value >> power) + up).min(65_535) as u16);
        };
        let (all, safe) = (inst.numbers(&inst.capacity, m), inst.numbers(&inst.safety, m));
        for (r, &weight) in inst.load_weight.iter().enumerate() {
            set(weight, (u64::from(numbers[r]) + u64::from(safe[r])).saturating_sub(all[r].into()));
        }
        for balance in &inst.balances {
            let wanted = u64::from(balance.target) * u64::from(numbers[balance.first]);
            let has = u64::from(numbers[balance.second]);
            set(balance.weight, wanted.saturating_sub(has));
            set(balance.weight, has.saturating_sub(wanted));
        }
    }
    /// Makes a move that breaks nothing.
    pub fn make(&mut self, done: &Move) {
        let (inst, ground) = (self.inst, self.ground);
        for step in done.all() {
            let p = step.process as usize;
            let process = &ground.processes[p];
            let service = &ground.services[process.service as usize];
            // Between the steps a row may be below zero, so numbers go round.
            let required: &[Four; Q] = &inst.requirement.as_chunks().0[p];
            let mut change = |m: u32, change: fn(Four, Four) -> Four| {
                let [free, room, _] = &mut self.rows[m as usize];
                for i in 0..Q {
                    free[i] = change(free[i], required[i]);
                    if m != process.home {
                        room[i] = change(room[i], required[i].and(self.transient[i]));
                    }
                }
            };
            change(step.from, Four::plus);
            change(step.to, Four::minus);
            let spread = &mut self.spread[process.service as usize];
            *spread -= u32::from(self.locations.count(service, self.locations.label(step.from)) == 1);
            for places in [&mut self.on, &mut self.hoods, &mut self.locations] {
                places.change(service, process.slot, step.to);
            }
            *spread += u32::from(self.locations.count(service, self.locations.label(step.to)) == 1);
            let moved = self.greatest.of(process.service) + u32::from(step.from == process.home);
            self.greatest.change(process.service, moved - u32::from(step.to == process.home));
            self.at[p] = step.to;
        }
        for step in done.all() {
            self.renew(step.from);
            self.renew(step.to);
        }
    }
}

/// By which power of two the filters are divided, so that what a usual process adds has a dozen bits.
fn power_of(inst: &Instance) -> u32 {
    let weighted = |(r, &weight): (usize, &u32)| u128::from(weight) * u128::from(inst.sum(&inst.requirement, r));
    let sum: u128 = inst.load_weight.iter().enumerate().map(weighted).sum();
    (sum / inst.processes as u128 / 4_096 + 1).ilog2()
}

fn way_share(inst: &Instance, power: u32) -> (u32, u16) {
    let share = u64::from(inst.weights[2]) << 16 >> power;
    let shift = (0..15).find(|shift| share >> shift < 65_536).unwrap_or(15);
    (shift, (share >> shift).min(65_535) as u16)
}

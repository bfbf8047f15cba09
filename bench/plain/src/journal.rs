//! What the workers have in common, and the workers.

use crate::draws::Lots;
use crate::instance::{Ground, Instance};
use crate::lines::Text;
use crate::moves::{Cause, Greatest, Move, Plan, Verdict};
use crate::state::State;
use std::io::{self, BufWriter, Write};
use std::sync::{Mutex, MutexGuard};
use std::thread;

/// The numbers of a journal, which has so many entries. Their lines are with the workers.
struct Journal<'a> {
    inst: &'a Instance,
    ground: &'a Ground,
    place: u32,
    /// The moves that were done, and how many entries there were then.
    done: Vec<(u32, Move)>,
    /// The version of each machine, then of each service.
    versions: Vec<u32>,
    greatest: Greatest,
    cost: i128,
    least: i128,
    best_at: u32,
}

/// What is kept of a run, and each worker's lines with the place and the bytes of each.
pub struct Run {
    pub best: Vec<u32>,
    pub best_at: u32,
    pub entries: u32,
    pub done: usize,
    lines: Vec<(Text, Vec<(u32, u32)>)>,
}

impl Journal<'_> {
    fn is_stale(&self, taken: &Move, planned: u32) -> bool {
        let (machines, services) = self.versions.split_at(self.inst.machines);
        taken.all().iter().any(|step| {
            let service = self.ground.processes[step.process as usize].service;
            let is_newer = |&service: &u32| services[service as usize] > planned;
            let mut related = self.ground.needs.of(service).iter().chain(self.ground.dependants.of(service));
            let newest = machines[step.from as usize].max(machines[step.to as usize]);
            newest > planned || is_newer(&service) || related.any(is_newer)
        })
    }
    /// Adds the entry of a plan whose guards are untouched.
    fn record(&mut self, (taken, weighed): &Plan, allowed: u64) -> Verdict {
        self.place += 1;
        let change = weighed.as_ref().map_err(|cause| *cause)?;
        let rise = self.greatest.whole(change);
        let after = self.cost + rise;
        if rise > allowed.into() {
            return Err(Cause::new(b"rise", [self.cost, after, allowed.into()]));
        }
        for step in taken.all() {
            let service = self.ground.processes[step.process as usize].service as usize;
            let guards = [step.from as usize, step.to as usize, self.inst.machines + service];
            guards.into_iter().for_each(|guard| self.versions[guard] = self.place);
        }
        change.moved.all().iter().for_each(|&(service, _, after)| self.greatest.change(service, after));
        self.done.push((self.place, *taken));
        self.cost = after;
        if after < self.least {
            (self.least, self.best_at) = (after, self.place);
        }
        Ok(after)
    }
}

/// A run of one worker.
fn alone<const Q: usize>(mut state: State<'_, Q>, journal: &mut Journal<'_>, lots: &Lots) -> Text {
    let (lot, mut draws) = (&lots.all[0], lots.all[0].draws().peekable());
    let mut text = Text(Vec::with_capacity(lot.budget as usize * 88));
    while let Some(words) = draws.next() {
        draws.peek().into_iter().for_each(|coming| state.fetch(coming));
        let k = journal.place;
        let allowed = lots.allowance(lot.budget, k.into());
        let plan = state.plan(&words, lots.is_first_drawing, allowed.into());
        let verdict = journal.record(&plan, allowed);
        text.entry(k, [0, k, k], &plan.0, &verdict);
        if verdict.is_ok() {
            state.make(&plan.0);
        }
    }
    text
}

/// Takes a turn. Looks some times before it waits.
fn turn<T>(shared: &Mutex<T>) -> MutexGuard<'_, T> {
    let pause = |look: u32| if look % 64 == 0 { thread::yield_now() } else { std::hint::spin_loop() };
    let look = |look: u32| shared.try_lock().map_err(|_| pause(look)).ok();
    (1..400).find_map(look).unwrap_or_else(|| shared.lock().expect("no worker fails"))
}

/// One of several workers. It plans some proposals at one state, the last of which alone may be done there, and hands them
/// in in one turn. If nothing was done meanwhile the state is the same at each place where one is recorded.
fn work<const Q: usize>(
    number: usize, mut state: State<'_, Q>, shared: &Mutex<Journal<'_>>, lots: &Lots, most: u64,
) -> (Text, Vec<(u32, u32)>) {
    let (budget, mut draws) = (lots.all[number].budget, lots.all[number].draws().peekable());
    let (mut text, mut lines) = (Text(Vec::with_capacity(budget as usize * 96)), Vec::new());
    let (mut words, mut plans, mut verdicts, mut news) = (Vec::new(), Vec::new(), Vec::new(), Vec::new());
    let (mut k, mut planned, mut known, mut size) = (0, 0, 0, most.min(4));
    while k < budget {
        plans.clear();
        for at in k..budget.min(k + size) {
            if words.len() == plans.len() {
                words.extend(draws.next());
                draws.peek().into_iter().for_each(|coming| state.fetch(coming));
            }
            let allowed = lots.allowance(budget, at);
            let plan = state.plan(&words[plans.len()], lots.is_first_drawing, allowed.into());
            let is_done = plan.1.is_ok_and(|change| state.greatest.whole(&change) <= allowed.into());
            plans.push((plan, allowed));
            if is_done {
                break;
            }
        }
        let mut journal = turn(shared);
        let is_behind = journal.done.last().is_some_and(|(place, _)| *place > planned);
        let holds = |(taken, _): &Plan| usize::from(!journal.is_stale(taken, planned));
        let count = if is_behind { holds(&plans[0].0) } else { plans.len() };
        for (plan, allowed) in &plans[..count] {
            let place = journal.place;
            verdicts.push((place, if is_behind { planned } else { place }, journal.record(plan, *allowed)));
        }
        news.extend(journal.done[known..].iter().map(|(_, done)| *done));
        planned = journal.place;
        drop(journal);
        known += news.len();
        size = if count == plans.len() { (size + 1).min(most) } else { (size / 2).max(1) };
        words.drain(..count);
        for (((taken, _), _), (place, at, verdict)) in plans.iter().zip(verdicts.drain(..)) {
            let length = text.entry(place, [number as u32, k as u32, at], taken, &verdict);
            lines.push((place, length as u32));
            k += 1;
        }
        news.drain(..).for_each(|done| state.make(&done));
    }
    (text, lines)
}

/// A run from a feasible list of this cost. A worker of several hands in at most so many plans in one turn.
pub fn run<const Q: usize>(
    inst: &Instance, ground: &Ground, initial: &[u32], lots: &Lots, cost: u128, most: u64,
) -> Run {
    let (versions, cost) = (vec![0; inst.machines + inst.services], cost as i128);
    let (place, done, greatest, least, best_at) = (0, Vec::new(), Greatest::new(inst), cost, 0);
    let mut journal = Journal { inst, ground, place, done, versions, greatest, cost, least, best_at };
    let state = || State::<Q>::new(inst, ground, initial);
    let lines = if lots.all.len() == 1 {
        vec![(alone(state(), &mut journal, lots), Vec::new())]
    } else {
        let shared = Mutex::new(journal);
        let lines = thread::scope(|scope| {
            let (shared, state) = (&shared, &state);
            let start = |number| scope.spawn(move || work(number, state(), shared, lots, most));
            let workers: Vec<_> = (0..lots.all.len()).map(start).collect();
            workers.into_iter().map(|worker| worker.join().expect("no worker fails")).collect()
        });
        journal = shared.into_inner().expect("no worker fails");
        lines
    };
    let (best_at, mut best) = (journal.best_at, initial.to_vec());
    let before = journal.done.iter().take_while(|(place, _)| *place <= best_at);
    before.flat_map(|(_, done)| done.all()).for_each(|step| best[step.process as usize] = step.to);
    Run { best, best_at, entries: journal.place, done: journal.done.len(), lines }
}

impl Run {
    /// Prints the lines of all entries in order.
    pub fn print(&self, to: &mut impl Write) -> io::Result<()> {
        if let [(text, _)] = &self.lines[..] {
            return to.write_all(&text.0);
        }
        let mut all = vec![&[][..]; self.entries as usize];
        for (text, lines) in &self.lines {
            let mut rest = &text.0[..];
            for &(place, length) in lines {
                (all[place as usize], rest) = rest.split_at(length as usize);
            }
        }
        let mut out = BufWriter::with_capacity(1 << 16, to);
        all.iter().try_for_each(|line| out.write_all(line))?;
        out.flush()
    }
}

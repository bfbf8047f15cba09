//! Plans. Of the machines of a shift those that may cost little enough are found side by side, by a cost that is never above
//! the true one; they alone are weighed. Of other options the cost comes first too. The exact cause of a refusal is found for
//! the first option alone, and only if none is done.

use crate::instance::{Process, Service, WINDOW};
use crate::lanes::{Eight, Four, fetch, flat};
use crate::moves::{Cause, Change, Few, Move, Plan, Step, product};
use crate::state::{Places, State};

/// A step with what is known of its process.
#[derive(Clone, Copy)]
struct Leg<'s, const Q: usize> {
    step: Step,
    process: &'s Process,
    service: &'s Service,
    required: &'s [Four; Q],
}

/// No machine.
const NOWHERE: u32 = u32::MAX;
/// For each filter that counts where its row begins, and what a process asks of it.
type Terms = Few<(usize, u16), 31>;

impl<const Q: usize> State<'_, Q> {
    fn legs<const N: usize>(&self, steps: [Step; N]) -> [Leg<'_, Q>; N] {
        steps.map(|step| {
            let process = &self.ground.processes[step.process as usize];
            let required = &self.inst.requirement.as_chunks().0[step.process as usize];
            Leg { step, process, service: &self.ground.services[process.service as usize], required }
        })
    }
    /// How many processes of a service have a label after the steps.
    fn count_after<const N: usize>(&self, legs: &[Leg<'_, Q>; N], places: &Places, number: u32, wanted: u16) -> u32 {
        let mut count = places.count(&self.ground.services[number as usize], wanted);
        for step in legs.iter().filter(|leg| leg.process.service == number).map(|leg| leg.step) {
            count = count.wrapping_add(u32::from(places.label(step.to) == wanted));
            count = count.wrapping_sub(u32::from(places.label(step.from) == wanted));
        }
        count
    }
    /// What is free on a machine after the steps, and whether there is enough of it; or, of transient resources, between them.
    /// Those that leave do so first.
    fn after<const N: usize>(&self, legs: &[Leg<'_, Q>; N], m: u32, is_transient: bool) -> ([Four; Q], bool) {
        let [free, room, _] = &self.rows[m as usize];
        let (mut left, mut fits) = (if is_transient { *room } else { *free }, Four::all(u32::MAX));
        let cut = |i: usize, asked: Four| if is_transient { asked.and(self.transient[i]) } else { asked };
        let asked = |leg: &Leg<'_, Q>, i: usize| cut(i, leg.required[i]);
        let counted = || legs.iter().filter(|leg| !is_transient || leg.process.home != m);
        for leg in counted().filter(|leg| leg.step.from == m) {
            (0..Q).for_each(|i| left[i] = left[i].plus(asked(leg, i)));
        }
        for leg in counted().filter(|leg| leg.step.to == m) {
            for i in 0..Q {
                fits = fits.and(asked(leg, i).within(left[i]));
                left[i] = left[i].minus(asked(leg, i));
            }
        }
        (left, fits.bits() == 15)
    }
    /// The first resource of which a machine has too much.
    fn over<const N: usize>(&self, legs: &[Leg<'_, Q>; N], m: u32, is_transient: bool) -> Option<Cause> {
        let (inst, row) = (self.inst, flat(&self.rows[m as usize][usize::from(is_transient)]));
        let counted = || legs.iter().filter(|leg| !is_transient || leg.process.home != m);
        let change = |leg: &Leg<'_, Q>| i64::from(leg.step.to == m) - i64::from(leg.step.from == m);
        (0..inst.resources).filter(|&r| !is_transient || inst.transient[r]).find_map(|r| {
            let capacity = inst.numbers(&inst.capacity, m as usize)[r];
            let added: i64 = counted().map(|leg| change(leg) * i64::from(flat(leg.required)[r])).sum();
            let used = i64::from(capacity) - i64::from(row[r]) + added;
            let told = [m.into(), r as i64, used, capacity.into()];
            let cause = if is_transient { Cause::new(b"transient", told) } else { Cause::new(b"capacity", told) };
            (used > capacity.into()).then_some(cause)
        })
    }
    /// In how many locations the service of a step is after the steps.
    fn spread_after<const N: usize>(&self, legs: &[Leg<'_, Q>; N], of: &Leg<'_, Q>) -> u32 {
        let number = of.process.service;
        let (mut has, mut seen) = (self.spread[number as usize], [u16::MAX; 6]);
        for (j, leg) in legs.iter().enumerate().filter(|(_, leg)| leg.process.service == number) {
            let labels = [self.locations.label(leg.step.from), self.locations.label(leg.step.to)];
            for (i, label) in (2 * j..).zip(labels).take(if labels[0] == labels[1] { 0 } else { 2 }) {
                if !seen[..i].contains(&label) {
                    has += u32::from(self.count_after(legs, &self.locations, number, label) > 0);
                    has -= u32::from(self.locations.count(of.service, label) > 0);
                }
                seen[i] = label;
            }
        }
        has
    }
    /// The least service of which the steps break a dependency.
    fn least_broken<const N: usize>(&self, legs: &[Leg<'_, Q>; N]) -> Option<u32> {
        let has = |number: u32, hood: u16| self.count_after(legs, &self.hoods, number, hood) > 0;
        let broken = |leg: &Leg<'_, Q>| {
            let (left, entered) = (self.hoods.label(leg.step.from), self.hoods.label(leg.step.to));
            let (number, is_same) = (leg.process.service, left == entered);
            let lacks = !is_same && !self.ground.needs.of(number).iter().all(|&need| has(need, entered));
            let dependants = self.ground.dependants.of(number);
            let alone = if is_same || dependants.is_empty() || has(number, left) { &[] } else { dependants };
            let other = alone.iter().copied().find(|&other| has(other, left));
            other.into_iter().chain(lacks.then_some(number)).min()
        };
        legs.iter().filter_map(broken).min()
    }
    /// The first broken dependency of a service that has one.
    fn broken_of<const N: usize>(&self, legs: &[Leg<'_, Q>; N], number: u32) -> Option<Cause> {
        self.ground.needs.of(number).iter().find_map(|&need| {
            let mut last = u16::MAX;
            self.ground.members.of(number).iter().find_map(|&p| {
                let leg = legs.iter().find(|leg| leg.step.process == p);
                let m = leg.map_or(self.at[p as usize], |leg| leg.step.to);
                let hood = self.hoods.label(m);
                let is_new = std::mem::replace(&mut last, hood) != hood;
                let is_broken = is_new && self.count_after(legs, &self.hoods, need, hood) == 0;
                is_broken.then(|| Cause::new(b"dependency", [number, need, self.inst.hood_label[m as usize]]))
            })
        })
    }
    /// Whether conflict, spread, dependencies and closed machines allow the steps.
    fn allows<const N: usize>(&self, legs: &[Leg<'_, Q>; N]) -> bool {
        legs.iter().all(|leg| {
            (leg.step.to == leg.process.home || !self.inst.closed[leg.step.to as usize])
                && self.count_after(legs, &self.on, leg.process.service, leg.step.to as u16) == 1
                && self.spread_after(legs, leg) >= leg.service.spread
        }) && self.least_broken(legs).is_none()
    }
    /// The change of load and balance cost of a machine with this free after the steps.
    fn cost_change(&self, m: u32, free: &[Four; Q]) -> i128 {
        self.cost_of(m, free) - self.cost[m as usize]
    }
    /// The cost of the way from the initial machine of a process.
    fn way(&self, process: &Process, to: u32) -> i128 {
        product(self.inst.weights[2], self.inst.way(process.home as usize, to as usize).into())
    }
    /// The change by moved processes and ways, and the moved counts. There is no way to nowhere.
    fn moved_by<const N: usize>(&self, legs: &[Leg<'_, Q>; N]) -> Change {
        let mut change = Change { local: 0, moved: Few::new([]) };
        for Leg { step, process, .. } in legs {
            let moved = change.moved_of(process.service, self.greatest.of(process.service));
            let cost = product(self.inst.weights[0], process.cost.into());
            if step.from == process.home {
                *moved += 1;
                change.local += cost;
            } else if step.to == process.home {
                *moved -= 1;
                change.local -= cost;
            }
            change.local +=
                if step.to == NOWHERE { 0 } else { self.way(process, step.to) } - self.way(process, step.from);
        }
        change
    }
    /// What steps of different processes between different machines break, in the order of the causes.
    fn broken_by<const N: usize>(&self, legs: &[Leg<'_, Q>; N]) -> Option<Cause> {
        // Of a machine that nothing enters nothing breaks.
        let mut entered = legs.map(|leg| leg.step.to);
        entered.sort_unstable();
        if let Some(&m) = entered.iter().find(|&&m| !self.after(legs, m, false).1) {
            return self.over(legs, m, false);
        }
        if let Some(&m) = entered.iter().find(|&&m| self.has_transient && !self.after(legs, m, true).1) {
            return self.over(legs, m, true);
        }
        let stands = legs.iter().map(|leg| (leg.process.service, leg.step.to));
        let meets = |&(s, m): &(u32, u32)| self.count_after(legs, &self.on, s, m as u16) > 1;
        if let Some((service, m)) = stands.filter(meets).min() {
            return Some(Cause::new(b"conflict", [service, m]));
        }
        let spread = legs.iter().map(|leg| [leg.process.service, self.spread_after(legs, leg), leg.service.spread]);
        if let Some(numbers) = spread.filter(|[_, has, wants]| has < wants).min() {
            return Some(Cause::new(b"spread", numbers));
        }
        if let Some(service) = self.least_broken(legs) {
            return self.broken_of(legs, service);
        }
        let away = legs.iter().filter(|leg| leg.process.home != leg.step.to).map(|leg| leg.step);
        let closed = away.filter(|step| self.inst.closed[step.to as usize]).min_by_key(|step| step.process);
        closed.map(|step| Cause::new(b"closed", [step.process, step.to]))
    }
    /// What a move breaks, or what it changes.
    fn weigh<const N: usize>(&self, all: [Step; N]) -> Result<Change, Cause> {
        let is_earlier = |k: usize| all[..k].iter().any(|earlier| earlier.process == all[k].process);
        if let Some(k) = (1..N).find(|&k| is_earlier(k)) {
            return Err(Cause::new(b"repeat", [all[k].process]));
        }
        if let Some(step) = all.iter().find(|step| step.from == step.to) {
            return Err(Cause::new(b"same", [step.process]));
        }
        let legs = self.legs(all);
        self.broken_by(&legs).map_or(Ok(()), Err)?;
        let mut change = self.moved_by(&legs);
        let touched = all.iter().flat_map(|step| [step.from, step.to]);
        for (k, m) in touched.clone().enumerate() {
            if !touched.clone().take(k).any(|earlier| earlier == m) {
                change.local += self.cost_change(m, &self.after(&legs, m, false).0);
            }
        }
        Ok(change)
    }
    /// The change of steps that touch these machines, if they break nothing and raise the cost by no more than this. The
    /// change without load and balance cost is told.
    fn within<const N: usize, const T: usize>(
        &self, legs: &[Leg<'_, Q>; N], mut change: Change, touched: [u32; T], most: i128,
    ) -> Option<(i128, Change)> {
        for m in touched {
            let (free, fits) = self.after(legs, m, false);
            if !fits {
                return None;
            }
            change.local += self.cost_change(m, &free);
        }
        let whole = self.greatest.whole(&change);
        let fits = |&m: &u32| !self.has_transient || self.after(legs, m, true).1;
        (whole <= most && touched.iter().all(fits) && self.allows(legs)).then_some((whole, change))
    }
    /// Divided as the filters are, and cut to 16 bits.
    fn scaled(&self, cost: i128) -> u16 {
        (cost >> self.power).min(65_535) as u16
    }
    fn plan_shift(&self, words: &[u64; 8], is_first_drawing: bool, allowed: i128) -> Plan {
        let (p, machines) = (self.by_process.of(words[1]), self.inst.machines);
        let step = |to: u32| Step { process: p as u32, from: self.at[p], to };
        let away = self.legs([step(NOWHERE)]);
        let (from, home) = (self.at[p], away[0].process.home);
        // The change of another machine, with its way, comes on top of this; on the initial one other costs hold.
        let leaving = self.cost_change(from, &self.after(&away, from, false).0);
        let mut base = self.moved_by(&away);
        base.local += leaving;
        let start = self.by_machine.of(words[2]);
        let round = |m: usize| if m < machines { m } else { m - machines };
        let target =
            |i: usize| if is_first_drawing { self.by_machine.of(words[2 + i]) } else { round(start + i) } as u32;
        let homes = match is_first_drawing {
            _ if from == home => 0,
            true => (0..4).fold(0, |bits, i| bits | u64::from(target(i) == home) << i),
            false => 1u64.checked_shl(round(home as usize + machines - start) as u32).unwrap_or(0),
        };
        let (mut sums, mut limit, mut most, mut best) = ([0; WINDOW], 0, allowed, None);
        let (terms, floor) = self.terms_of(away[0].required, self.greatest.whole(&base));
        let mut mask = homes;
        if floor <= most {
            limit = self.scaled(most - floor);
            let mut window = || self.window(&terms, home as usize, start, limit, &mut sums);
            mask |= if is_first_drawing { 15 } else { window() & u64::MAX >> (64 - machines.min(WINDOW)) };
        }
        while mask != 0 {
            let (i, bit) = (mask.trailing_zeros() as usize, mask & mask.wrapping_neg());
            mask &= !bit;
            let to = target(i);
            if (sums[i] > limit && bit & homes == 0) || to == from {
                continue;
            }
            let legs = [Leg { step: step(to), ..away[0] }];
            let mut change = if to == home { self.moved_by(&legs) } else { base };
            change.local += if to == home { leaving } else { self.way(away[0].process, to) };
            if let Some((whole, change)) = self.within(&legs, change, [to], most) {
                (best, most) = (Some(([step(to)], change)), whole - 1);
                mask &= if floor > most { homes } else { u64::MAX };
                limit = self.scaled(most - floor);
            }
        }
        let first = [step(target(0))];
        let (steps, weighed) = best.map_or_else(|| (first, self.weigh(first)), |(shift, change)| (shift, Ok(change)));
        (Move::new(steps), weighed)
    }
    /// The terms of a process, and what the cost is at least: if it has more of the second resource of a balance objective the
    /// lack shrinks by so much, but for the filter.
    fn terms_of(&self, required: &[Four; Q], mut floor: i128) -> (Terms, i128) {
        let (inst, asked) = (self.inst, flat(required));
        let Few(mut all, mut count) = Terms::new([]);
        let mut add = |row: usize, weight: u32, amount: u64| {
            let amount = (u64::from(weight).saturating_mul(amount) >> self.power).min(65_535) as u16;
            all[count] = (row * inst.stride, amount);
            count += usize::from(amount > 0);
        };
        inst.load_weight.iter().zip(asked).enumerate().for_each(|(r, (&weight, &asked))| add(r, weight, asked.into()));
        for (row, balance) in (inst.resources..).step_by(2).zip(&inst.balances) {
            let wanted = u64::from(balance.target) * u64::from(asked[balance.first]);
            let has = u64::from(asked[balance.second]);
            floor -= product(balance.weight, wanted.saturating_sub(has));
            add(row + usize::from(wanted < has), balance.weight, wanted.abs_diff(has));
        }
        // The greatest first, so that the others are often not needed.
        for at in 0..if count > 4 { 3 } else { 0 } {
            let greatest = (at..count).max_by_key(|&i| all[i].1).unwrap_or(at);
            all.swap(at, greatest);
        }
        (Few(all, count), floor)
    }
    /// For each of 64 machines what the way and the filters add, at most, and one bit if that is within the limit.
    fn window(&self, terms: &Terms, home: usize, start: usize, limit: u16, sums: &mut [u16; WINDOW]) -> u64 {
        const PART: usize = WINDOW / 2;
        let (shift, share) = (self.way_share.0, Eight::all(self.way_share.1));
        let ((first, ways), limits) = (self.inst.window(home, start), Eight::all(limit));
        let mut mask = 0;
        for part in (0..WINDOW).step_by(PART) {
            let ways = &ways[first + part..][..PART];
            let mut sum: [Eight; 4] = std::array::from_fn(|k| Eight::load(&ways[8 * k..]).shifted(shift).times(share));
            for (j, &(row, amount)) in terms.all().iter().enumerate() {
                let least = || sum[0].least(sum[1]).least(sum[2].least(sum[3]));
                if (j == 3 || j == 6) && least().within(Eight::all(u16::MAX), limits) == 0 {
                    break;
                }
                let (row, amount) = (&self.filters[row + start + part..][..PART], Eight::all(amount));
                sum = std::array::from_fn(|k| sum[k].plus(amount.above(Eight::load(&row[8 * k..]))));
            }
            (0..4).for_each(|k| sum[k].store(&mut sums[part + 8 * k..]));
            let bits = sum[0].within(sum[1], limits) | sum[2].within(sum[3], limits) << 16;
            mask |= u64::from(bits) << part;
        }
        mask
    }
    fn plan_swap(&self, words: &[u64; 8], allowed: i128) -> Plan {
        let p = self.by_process.of(words[1]);
        let swap_of = |word: u64| {
            let q = self.by_process.of(word);
            let (from, to) = (self.at[p], self.at[q]);
            [Step { process: p as u32, from, to }, Step { process: q as u32, from: to, to: from }]
        };
        let first = swap_of(words[2]);
        let alone = self.weigh(first);
        let done = alone.ok().map(|change| (self.greatest.whole(&change), first, change));
        let mut best = done.filter(|(whole, ..)| *whole <= allowed);
        for swap in words[3..6].iter().map(|&word| swap_of(word)) {
            if swap[0].process != swap[1].process && swap[0].from != swap[0].to {
                let (legs, most) = (self.legs(swap), best.map_or(allowed, |(whole, ..)| whole - 1));
                let within = self.within(&legs, self.moved_by(&legs), [swap[0].from, swap[0].to], most);
                best = within.map(|(whole, change)| (whole, swap, change)).or(best);
            }
        }
        let (steps, weighed) = best.map_or((first, alone), |(_, swap, change)| (swap, Ok(change)));
        (Move::new(steps), weighed)
    }
    fn plan_chain(&self, words: &[u64; 8]) -> Plan {
        let [p, q, r] = [words[1], words[2], words[3]].map(|word| self.by_process.of(word));
        let step = |p: usize, to: u32| Step { process: p as u32, from: self.at[p], to };
        let all = [step(p, self.at[q]), step(q, self.at[r]), step(r, self.by_machine.of(words[4]) as u32)];
        (Move::new(all), self.weigh(all))
    }
    /// Asks for the memory that a plan with these words needs first.
    pub fn fetch(&self, words: &[u64; 8]) {
        let p = self.by_process.of(words[1]);
        fetch(&self.inst.requirement, p * Q);
        let (place, ways) = self.inst.window(self.ground.processes[p].home as usize, self.by_machine.of(words[2]));
        (0..4).for_each(|line| fetch(ways, place + 32 * line));
    }
    /// The first option of least cost among those that are done, or else the first one.
    pub fn plan(&self, words: &[u64; 8], is_first_drawing: bool, allowed: i128) -> Plan {
        match words[0] % 8 {
            0..5 => self.plan_shift(words, is_first_drawing, allowed),
            5 | 6 => self.plan_swap(words, allowed),
            _ => self.plan_chain(words),
        }
    }
}

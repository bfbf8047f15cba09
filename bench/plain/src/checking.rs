//! Costs and constraints summed from nothing, and the lower bound.

use crate::instance::{Balance, Ground, Instance};
use crate::lanes::{Four, flat};
use std::collections::HashSet;

/// The use by machine, then resource, with a number for each of its `inst.quads * 4` places.
fn use_of(inst: &Instance, list: &[u32]) -> Vec<u64> {
    let width = inst.quads * 4;
    let mut used = vec![0; inst.machines * width];
    for (row, &m) in flat(&inst.requirement).chunks_exact(width).zip(list) {
        add(&mut used[m as usize * width..], row);
    }
    used
}

fn add(sums: &mut [u64], row: &[u32]) {
    sums.iter_mut().zip(row).for_each(|(sum, &number)| *sum += u64::from(number));
}

pub fn is_feasible(inst: &Instance, ground: &Ground, initial: &[u32], list: &[u32]) -> bool {
    let (width, mut used) = (inst.quads * 4, use_of(inst, list));
    for (p, (&m, &home)) in list.iter().zip(initial).enumerate().filter(|(_, (m, home))| m != home) {
        if inst.closed[m as usize] {
            return false;
        }
        let required = inst.numbers(&inst.requirement, p);
        for r in (0..inst.resources).filter(|&r| inst.transient[r]) {
            used[home as usize * width + r] += u64::from(required[r]);
        }
    }
    if used.iter().zip(flat(&inst.capacity)).any(|(&used, &capacity)| used > capacity.into()) {
        return false;
    }
    // Each service with its labels of one kind, both ascending, and different.
    let labels = |label: &[u16]| {
        let key = |&p: &u32| (inst.service_of[p as usize], label[list[p as usize] as usize]);
        let mut keys: Vec<(u32, u16)> = ground.members.all.iter().map(key).collect();
        ground.services.iter().for_each(|service| keys[service.slots()].sort_unstable());
        keys.dedup();
        keys
    };
    if labels(&ground.machine).len() < list.len() {
        return false;
    }
    let mut missing = inst.spread.clone();
    for (s, _) in labels(&ground.location) {
        missing[s as usize] = missing[s as usize].saturating_sub(1);
    }
    let hoods = labels(&ground.hood);
    let is_near =
        |&(s, hood): &(u32, u16)| ground.needs.of(s).iter().all(|&need| hoods.binary_search(&(need, hood)).is_ok());
    missing.iter().all(|&missing| missing == 0) && hoods.iter().all(is_near)
}

/// Load, balance, process, service and machine cost of a feasible list.
pub fn parts_of(inst: &Instance, initial: &[u32], list: &[u32]) -> [u128; 5] {
    let mut parts = [0; 5];
    let [of_processes, of_services, of_ways] = inst.weights.map(u128::from);
    for (m, used) in use_of(inst, list).chunks_exact(inst.quads * 4).enumerate() {
        let (capacity, safety) = (inst.numbers(&inst.capacity, m), inst.numbers(&inst.safety, m));
        for (r, &weight) in inst.load_weight.iter().enumerate() {
            parts[0] += u128::from(weight) * u128::from(used[r].saturating_sub(safety[r].into()));
        }
        for balance in &inst.balances {
            let left = |r: usize| u64::from(capacity[r]) - used[r];
            let lack = (u64::from(balance.target) * left(balance.first)).saturating_sub(left(balance.second));
            parts[1] += u128::from(balance.weight) * u128::from(lack);
        }
    }
    let mut moved = vec![0u32; inst.services];
    for (p, (&m, &home)) in list.iter().zip(initial).enumerate() {
        if m != home {
            parts[2] += of_processes * u128::from(inst.process_cost[p]);
            moved[inst.service_of[p] as usize] += 1;
        }
        parts[4] += of_ways * u128::from(inst.way(home as usize, m as usize));
    }
    parts[3] = of_services * u128::from(moved.into_iter().max().unwrap_or(0));
    parts
}

/// The load and the balance of the bound, with what is pinned from a start if there is one.
pub fn bound_of(inst: &Instance, initial: Option<&[u32]>) -> [u128; 2] {
    let (width, pinned) = (inst.quads * 4, initial.map_or(Vec::new(), |initial| pinned_load(inst, initial)));
    let mut load = 0;
    for (r, &weight) in inst.load_weight.iter().enumerate() {
        let above = |(load, safety): (&u64, &u32)| load.saturating_sub((*safety).into());
        let all = pinned.iter().zip(flat(&inst.safety)).skip(r).step_by(width).map(above).sum();
        let over = inst.sum(&inst.requirement, r).saturating_sub(inst.sum(&inst.safety, r)).max(all);
        load += u128::from(weight) * u128::from(over);
    }
    let spare = |r: usize| i128::from(inst.sum(&inst.capacity, r)) - i128::from(inst.sum(&inst.requirement, r));
    let lack = |b: &Balance| (i128::from(b.target) * spare(b.first) - spare(b.second)).max(0) as u128;
    [load, inst.balances.iter().map(|b| u128::from(b.weight) * lack(b)).sum()]
}

/// What pinned processes use of each machine. Each process waits at the first machine from which it isn't blocked; it is
/// pinned if there is none, and then those that wait at its machine look on.
fn pinned_load(inst: &Instance, initial: &[u32]) -> Vec<u64> {
    let (width, machines) = (inst.quads * 4, inst.machines);
    let (mut load, mut room) = (vec![0; machines * width], vec![0; machines * width]);
    let (start, mut is_shut) = (use_of(inst, initial), inst.closed.clone());
    // Of a transient resource the start leaves no more room, of another one pinned processes.
    let renew = |m: usize, load: &[u64], room: &mut [u32], is_shut: &mut [bool]| {
        for (r, &capacity) in inst.numbers(&inst.capacity, m).iter().enumerate() {
            let used = if inst.transient[r] { start[m * width + r] } else { load[m * width + r] };
            is_shut[m] |= used > capacity.into();
            room[m * width + r] = capacity.wrapping_sub(used as u32);
        }
    };
    (0..machines).for_each(|m| renew(m, &load, &mut room, &mut is_shut));
    let mut held = HashSet::new();
    let mut waiting: Vec<Vec<u32>> = vec![Vec::new(); machines];
    let mut passed = vec![0; inst.processes];
    let mut looking: Vec<u32> = (0..inst.processes as u32).rev().collect();
    while let Some(p) = looking.pop() {
        let (home, s) = (initial[p as usize] as usize, inst.service_of[p as usize]);
        let row = inst.row(&inst.requirement, p as usize);
        let fits = |(required, room): (&Four, &[u32; 4])| required.within(Four::of(*room)).bits() == 15;
        let is_open = |m: usize| {
            !is_shut[m] && row.iter().zip(room[m * width..].as_chunks().0).all(fits) && !held.contains(&(s, m))
        };
        let mut others = (home + 1..machines).chain(0..home).skip(passed[p as usize]);
        if let Some(ahead) = others.clone().position(is_open) {
            passed[p as usize] += ahead;
            waiting[others.nth(ahead).expect("a machine")].push(p);
            continue;
        }
        held.insert((s, home));
        add(&mut load[home * width..], inst.numbers(&inst.requirement, p as usize));
        renew(home, &load, &mut room, &mut is_shut);
        looking.append(&mut waiting[home]);
    }
    load
}

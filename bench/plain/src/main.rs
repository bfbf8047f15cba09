//! The work of `reassign` in plain Rust, without a proof: a mark for its speed, and a third opinion on its bytes.
//!
//! It does `check`, `bound`, `solve` and `trial` with the words of docs/FORMATS.md, and prints the same bytes for input
//! that is accepted. A refusal has the status alone: 2 of the words, 3 of reading, 4 of the model, 5 of a list, 6 of a
//! list that breaks a rule, 7 of writing, 10 of the closed list. Each of several workers hands in up to 32 plans a
//! turn, and one with the first word `--each`. Their report is one legal journal of many.
//!
//! It is written to be quick. Windows of machines are filtered by numbers of 16 bits that are never above the true
//! costs (plans.rs), a table finds the numbers in sixteen bytes at once (numbers.rs), and a line is written as soon as
//! its verdict is known (lines.rs). It is compiled for x86-64-v2, as the proved program is.
#![deny(warnings)]

#[cfg(not(all(target_feature = "sse4.1", target_feature = "popcnt")))]
compile_error!("plain is for x86-64-v2: call cargo in bench/plain, whose .cargo/config.toml says so");

mod checking;
mod draws;
mod instance;
mod journal;
mod lanes;
mod lines;
mod moves;
mod numbers;
mod plans;
mod state;
mod trial;
mod words;

use crate::checking::{bound_of, is_feasible, parts_of};
use crate::instance::{Ground, Instance};
use crate::journal::{Run, run};
use crate::lines::Text;
use crate::numbers::{Numbers, Patterns};
use crate::words::{Job, job_of};
use std::{fs::File, io::Write, os::fd::AsFd, process::exit};

/// The instance and the lists of a job. The initial one is the first.
fn input_of(job: &Job) -> Result<(Instance, Vec<Vec<u32>>), i32> {
    let patterns = &mut Patterns::new();
    if job.command == "trial" {
        let numbers = trial::model_of(job.lots.all[0].seed);
        return Ok((Instance::read(&mut Numbers::of(numbers, patterns))?, vec![trial::start()]));
    }
    let mut inst = Instance::read(&mut Numbers::open(&job.files[0], 4, patterns)?)?;
    if let Some(closed) = &job.closed {
        inst.close(&mut Numbers::open(closed, 10, patterns)?)?;
    }
    let list = |name: &String| inst.read_list(&mut Numbers::open(name, 5, patterns)?);
    let lists = job.files[1..].iter().map(list).collect::<Result<_, _>>()?;
    Ok((inst, lists))
}

/// The text of a job, and a run whose journal follows it. A worker of several hands in at most so many plans a turn.
fn answer(job: &Job, most: u64) -> Result<(Text, Option<Run>), i32> {
    let (inst, lists) = input_of(job)?;
    let mut text = Text::default();
    if job.command == "bound" {
        let [load, balance] = bound_of(&inst, lists.first().map(Vec::as_slice));
        let told = [("bound", load + balance), ("load", load), ("balance", balance)];
        told.iter().for_each(|(name, number)| text.named(name, *number));
        return Ok((text, None));
    }
    let initial = &lists[0][..];
    let ground = Ground::new(&inst, initial);
    if !lists.iter().all(|list| is_feasible(&inst, &ground, initial, list)) {
        return Err(6);
    }
    if job.command == "check" {
        text.parts(&parts_of(&inst, initial, &lists[1]));
        return Ok((text, None));
    }
    let cost = parts_of(&inst, initial, initial).iter().sum();
    let by = [run::<1>, run::<2>, run::<3>, run::<3>, run::<5>][inst.quads - 1];
    let run = by(&inst, &ground, initial, &job.lots, cost, most);
    text.parts(&parts_of(&inst, initial, &run.best));
    text.named("bound", bound_of(&inst, Some(initial)).iter().sum());
    text.named("best_at", run.best_at.into());
    if job.command == "trial" {
        text.named("done", run.done as u128);
        text.named("refused", run.entries as u128 - run.done as u128);
        return Ok((text, None));
    }
    text.list(&run.best);
    text.named("draws", if job.lots.is_first_drawing { 1 } else { 2 });
    Ok((text, Some(run)))
}

fn main() {
    let words: Option<Vec<String>> = std::env::args_os().skip(1).map(|word| word.into_string().ok()).collect();
    let words = words.unwrap_or_default();
    let is_each = words.first().is_some_and(|word| word == "--each");
    let job = job_of(&words[usize::from(is_each)..]).ok_or(2);
    let status = job.and_then(|job| answer(&job, if is_each { 1 } else { 32 })).and_then(|(text, run)| {
        // Without the buffer that standard output has.
        let mut out = std::io::stdout().as_fd().try_clone_to_owned().map(File::from).map_err(|_| 7)?;
        out.write_all(&text.0).and_then(|()| run.map_or(Ok(()), |run| run.print(&mut out))).map_err(|_| 7)
    });
    exit(status.err().unwrap_or(0));
}

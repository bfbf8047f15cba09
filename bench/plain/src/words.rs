//! What the command words ask for.

use crate::draws::{Lot, Lots};

pub struct Job {
    pub command: String,
    /// The names of the model and then of the lists.
    pub files: Vec<String>,
    pub closed: Option<String>,
    pub lots: Lots,
}

const MOST_PROPOSALS: u64 = 1_000_000;

fn name(word: &str) -> Option<String> {
    (!word.is_empty() && !word.starts_with('-')).then(|| word.into())
}

fn number(word: &str) -> Option<u64> {
    let is_number = (1..=20).contains(&word.len()) && word.bytes().all(|byte| byte.is_ascii_digit());
    is_number.then(|| word.parse().ok()).flatten()
}

fn lot(word: &str) -> Option<Lot> {
    if let Some(list) = word.strip_prefix("w:") {
        let written: Vec<u64> = list.split(',').map(number).collect::<Option<_>>()?;
        let budget = written.len() as u64 / 8;
        return written.len().is_multiple_of(8).then_some(Lot { seed: 0, budget, written });
    }
    let (seed, budget) = word.split_once(':')?;
    let lot = Lot { seed: number(seed)?, budget: number(budget)?, ..Lot::default() };
    (lot.budget <= MOST_PROPOSALS).then_some(lot)
}

/// The value of an option that may stand in front, by what it has to be; the outer None if it isn't that.
fn option<T>(rest: &mut &[String], flag: &str, read: impl Fn(&str) -> Option<T>) -> Option<Option<T>> {
    if rest.first().is_none_or(|word| word != flag) {
        return Some(None);
    }
    let value = read(rest.get(1)?)?;
    *rest = &rest[2..];
    Some(Some(value))
}

pub fn job_of(words: &[String]) -> Option<Job> {
    let (command, mut rest) = words.split_first()?;
    let count = match command.as_str() {
        "check" => 3,
        "bound" => rest.len().clamp(1, 2),
        "solve" => 2,
        "trial" if rest.len() == 1 => {
            let all = vec![Lot { seed: number(&rest[0])?, budget: 2_000, ..Lot::default() }];
            let lots = Lots { slack: 1_000, is_first_drawing: false, all };
            return Some(Job { command: command.clone(), files: Vec::new(), closed: None, lots });
        }
        _ => return None,
    };
    let files = rest.get(..count)?.iter().map(|word| name(word)).collect::<Option<_>>()?;
    rest = &rest[count..];
    let slack = option(&mut rest, "--slack", number)?;
    let closed = option(&mut rest, "--closed", name)?;
    let drawing = option(&mut rest, "--draws", |word| ["1", "2"].iter().position(|drawing| *drawing == word))?;
    let all: Vec<Lot> = rest.iter().map(|word| lot(word)).collect::<Option<_>>()?;
    let is_fine = match command.as_str() {
        "solve" => (1..=16).contains(&all.len()) && all.iter().map(|lot| lot.budget).sum::<u64>() <= MOST_PROPOSALS,
        _ => slack.is_none() && drawing.is_none() && all.is_empty(),
    };
    let lots = Lots { slack: slack.unwrap_or(0), is_first_drawing: drawing == Some(0), all };
    is_fine.then_some(Job { command: command.clone(), files, closed, lots })
}

//! The search compared with the definition, on small random histories.

use super::{
    check, has_linearization, is_linearization, made_history, read_history, Answer, History, Shape, Way,
    NEVER,
};
use crate::random::Dice;

/// Compares one answer with the definition: what is wrong with it, or nothing.
fn fault_of(history: &History, first_bad: Option<u32>, fewer: bool) -> Option<String> {
    let answer = check(history, Way { most: usize::MAX, fewer });
    let is_right = match (&answer, first_bad) {
        (Answer::Yes(order), None) => is_linearization(history, order, NEVER - 1),
        (Answer::No { line, exact: true, .. }, Some(first)) => *line == first,
        _ => false,
    };
    (!is_right).then(|| format!("{answer:?}, and the first prefix without a linearization is {first_bad:?}"))
}

/// Draws a small history, and says what is wrong with the answers to it; or whether it is linearizable.
fn compare(seed: u64) -> Result<bool, String> {
    let mut dice = Dice::start(seed ^ 0x6869_7374_6f72_7921);
    let shape = Shape {
        requests: dice.from_to(2, 6),
        processes: dice.from_to(2, 5),
        keys: dice.from_to(1, 2),
        lost: dice.below(300),
        fail: dice.below(200),
        wrong: dice.below(400),
        untold: dice.below(400),
    };
    let text = made_history(seed, shape);
    let history = read_history(text.as_bytes()).map_err(|bad| format!("{bad:?} is refused\n{text}"))?;
    let lines = text.lines().count() as u32;
    let first_bad = (1..=lines).find(|line| !has_linearization(&history, *line));
    for fewer in [true, false] {
        if let Some(fault) = fault_of(&history, first_bad, fewer) {
            return Err(format!("{fault}\n{text}"));
        }
    }
    Ok(first_bad.is_none())
}

/// Compares the search, with and without fewer places, with all lists of requests, at each prefix of COUNT histories.
pub fn histories(seed: u64, count: u64) -> (bool, Vec<String>) {
    let (mut yes, mut no, mut faults) = (0, 0, Vec::new());
    for seed in (0..count).map(|n| seed.wrapping_add(n)) {
        match compare(seed) {
            Ok(true) => yes += 1,
            Ok(false) => no += 1,
            Err(fault) => faults.push(format!("seed {seed}: {fault}")),
        }
    }
    let counted = format!("{yes} linearizable, {no} not, {} wrong", faults.len());
    let mut lines: Vec<String> = faults.iter().take(3).cloned().collect();
    lines.push(counted);
    (faults.is_empty(), lines)
}

//! What stands before the line `inputs`: a scenario without clients and schedule.

use super::{Ended, Line, Lines};
use crate::scenario::{read_scenario, Scenario, MOST_BYTES};
use std::io::Read;

/// A scenario without clients and schedule, and the number of the line `inputs`.
pub struct Head {
    pub scenario: Scenario,
    pub line: u32,
}

/// Why an input has no such scenario: the line, and the cause.
#[derive(Clone, PartialEq, Eq, Debug)]
pub struct HeadError {
    pub line: u32,
    pub why: &'static str,
}

impl std::fmt::Display for HeadError {
    fn fmt(&self, f: &mut std::fmt::Formatter) -> std::fmt::Result {
        write!(f, "line {}: {}", self.line, self.why)
    }
}

fn scenario_of(text: &[u8], line: u32) -> Result<Head, HeadError> {
    let scenario = read_scenario(text).map_err(|bad| HeadError { line: bad.line, why: bad.why.reason() })?;
    if scenario.clients.is_empty() && scenario.lines.is_empty() {
        Ok(Head { scenario, line })
    } else {
        Err(HeadError { line, why: "out of place" })
    }
}

/// Reads the lines up to the line `inputs`.
pub(super) fn read<R: Read>(lines: &mut Lines<R>) -> Result<Head, Ended> {
    let (mut text, mut count) = (Vec::new(), 0);
    loop {
        count += 1;
        let too_large = HeadError { line: count, why: "too large" };
        match lines.next().map_err(|_| Ended::Read)? {
            None => return Err(Ended::Head(HeadError { line: count, why: "missing inputs" })),
            Some(Line::Whole(b"inputs")) => return scenario_of(&text, count).map_err(Ended::Head),
            Some(Line::Whole(line)) => {
                text.extend_from_slice(line);
                text.push(b'\n');
            }
            Some(Line::TooLong) => return Err(Ended::Head(too_large)),
        }
        if text.len() > MOST_BYTES {
            return Err(Ended::Head(too_large));
        }
    }
}

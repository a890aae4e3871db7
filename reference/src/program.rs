//! The subcommands over one scenario or one stored journal.

use crate::scenario::*;
use crate::values::*;
use crate::world::*;
use crate::{audit, explain, report, sound, text};

/// The line that is printed where the subcommand is none.
pub const USAGE: &str =
    "usage: reference [--dials UNIT PATIENCE CROWD HEAP] run | journal | make N S | audit \
    | explain | sound | node N | client C | batch | gen SEED | fuzz SEED COUNT | budget SEED COUNT | plain SEED COUNT | calm SEED COUNT \
    | recover SEED COUNT | settled SEED COUNT | orders SEED COUNT | linear [order] [MOST] | histories SEED COUNT \
    | history SEED REQUESTS PROCESSES KEYS LOST FAIL WRONG UNTOLD";
/// The line that is printed where reading failed.
pub const READ_FAULT: &str = "read fault";
/// The most bytes of a scenario that are read: one more than it may have.
pub const SCENARIO_BYTES: u64 = 16_777_217;

/// An exit status and what is printed.
pub struct Done {
    pub status: u8,
    pub output: Vec<u8>,
}

impl Done {
    /// Returns lines to print.
    pub fn lines(status: u8, lines: &[String]) -> Done {
        let mut output = Vec::new();
        for l in lines {
            output.extend_from_slice(l.as_bytes());
            output.push(b'\n');
        }
        Done { status, output }
    }

    fn line(status: u8, line: impl ToString) -> Done {
        Done::lines(status, &[line.to_string()])
    }

    /// Returns the usage line.
    pub fn usage() -> Done {
        Done::line(2, USAGE)
    }

    /// Returns the lines of a check, which fails where it found a fault.
    pub fn check((ok, lines): (bool, Vec<String>)) -> Done {
        Done::lines(u8::from(!ok), &lines)
    }
}

/// What is printed of a run.
enum Printed<'a> {
    Report,
    /// The journal, behind this input.
    Journal(&'a [u8]),
}

fn play(s: &Scenario, dials: &Dials, printed: Printed) -> Done {
    let mut world = World::start(s, dials, JOURNAL_LIMIT);
    if world.run().is_err() {
        return Done::line(7, format!("journal full after {} rows", world.rows.len()));
    }
    let status = if world.unsettled { 6 } else { 0 };
    match printed {
        Printed::Journal(input) => Done { status, output: text::file(input, &world.rows) },
        Printed::Report => Done::lines(status, &report::lines(s, &world, &world.decided())),
    }
}

/// Runs a scenario and prints its report.
pub fn run(input: &[u8], dials: &Dials) -> Done {
    match read_scenario(input) {
        Err(bad) => Done::line(3, bad),
        Ok(s) => play(&s, dials, Printed::Report),
    }
}

/// Runs a scenario and prints its journal.
pub fn journal(input: &[u8], dials: &Dials) -> Done {
    match read_scenario(input) {
        Err(bad) => Done::line(3, bad),
        Ok(s) => play(&s, dials, Printed::Journal(input)),
    }
}

/// Runs the made scenario of these two numbers.
pub fn make(n: &str, s: &str, dials: &Dials) -> Done {
    match (read_number(n.as_bytes(), 1000), read_number(s.as_bytes(), u64::MAX)) {
        (Some(n), Some(s)) if n >= 1 => play(&made_scenario(n as u32, s), dials, Printed::Report),
        _ => Done::usage(),
    }
}

/// Says of a stored journal what this does where its rows are lawful, and else which is not.
fn audited(input: &[u8], dials: &Dials, lawful: impl Fn(&text::Stored) -> Done) -> Done {
    let stored = match text::read_file(input) {
        Err(bad) => return Done::line(3, bad),
        Ok(stored) => stored,
    };
    match audit::unlawful_row(&stored, dials) {
        Some(row) => Done::line(9, format!("unlawful row {row}")),
        None => lawful(&stored),
    }
}

/// Says whether the rows of a stored journal are lawful.
pub fn audit(input: &[u8], dials: &Dials) -> Done {
    audited(input, dials, |stored| Done::line(0, format!("lawful rows {}", stored.rows.len())))
}

/// Says what the rows of a stored journal decided.
pub fn explain(input: &[u8], dials: &Dials) -> Done {
    audited(input, dials, |stored| Done { status: 0, output: explain::lines(stored) })
}

/// Checks that every prefix of a scenario's run keeps what it must.
pub fn sound(input: &[u8], dials: &Dials) -> Done {
    match read_scenario(input) {
        Err(bad) => Done::line(3, bad),
        Ok(s) => match sound::check(&s, dials) {
            Ok(_) => Done::line(0, "sound"),
            Err(e) => Done::line(1, e),
        },
    }
}

//! Random scenarios, and what their rows have shown.

use super::marks::*;
use super::rows::check;
use crate::random::*;
use crate::scenario::*;
use crate::values::Dials;
use crate::world::*;
use std::collections::BTreeMap;
use std::panic::{catch_unwind, AssertUnwindSafe};

/// The first counterexample of a statement.
struct Shown {
    row: u32,
    what: String,
    seed: u64,
    dials: Dials,
    scenario: Scenario,
}

/// What many scenarios have shown.
#[derive(Default)]
struct Seen {
    looked: BTreeMap<&'static str, u64>,
    failed: BTreeMap<&'static str, u64>,
    first: BTreeMap<&'static str, Shown>,
    counts: BTreeMap<String, u64>,
    panics: Vec<String>,
}

/// Looks at one scenario.
fn marks_of(s: &Scenario, dials: &Dials) -> Marks {
    let mut world = World::start(s, dials, JOURNAL_LIMIT);
    let _ = world.run();
    check(s, &world, dials, dials.patience)
}

impl Seen {
    fn add(&mut self, seed: u64, dials: &Dials, scenario: &Scenario, marks: Marks) {
        for (name, n) in marks.looked {
            *self.looked.entry(name).or_default() += n;
        }
        for (what, n) in marks.counts {
            *self.counts.entry(what).or_default() += n;
        }
        for (name, Failure { times, row, what }) in marks.faults {
            *self.failed.entry(name).or_default() += times;
            let (dials, scenario) = (*dials, scenario.clone());
            self.first.entry(name).or_insert(Shown { row, what, seed, dials, scenario });
        }
    }

    fn one(&mut self, seed: u64) {
        let dials = some_dials(seed);
        let run = || drawn(seed, &dials, |s, w| (s.clone(), check(s, w, &dials, dials.patience)));
        match catch_unwind(AssertUnwindSafe(run)) {
            Ok((s, marks)) => self.add(seed, &dials, &s, marks),
            Err(_) => self.panics.push(format!("seed {seed}: a panic")),
        }
    }

    /// Returns lines about each statement.
    fn lines(&self) -> Vec<String> {
        let mut lines: Vec<String> = self.counts.iter().map(|(what, n)| format!("  {what}: {n}")).collect();
        for (name, n) in &self.looked {
            let failed = self.failed.get(name).copied().unwrap_or(0);
            lines.push(format!("  {name}: looked at {n}, does not hold {failed}"));
        }
        for (name, shown) in &self.first {
            lines.extend(shown.lines(name));
        }
        lines.extend(self.panics.iter().cloned());
        lines
    }
}

impl Shown {
    /// Returns lines that show the counterexample in a smaller scenario.
    fn lines(&self, name: &'static str) -> Vec<String> {
        let Dials { unit, patience, crowd, heap } = self.dials;
        let mut lines = vec![
            format!("{name}: seed {} --dials {unit} {patience} {crowd} {heap}", self.seed),
            format!("row {}: {}", self.row, self.what),
        ];
        let is_bad = |s: &Scenario| {
            let run = || marks_of(s, &self.dials).faults.contains_key(name);
            catch_unwind(AssertUnwindSafe(run)).unwrap_or(false)
        };
        let small = smaller(&self.scenario, &is_bad);
        match marks_of(&small, &self.dials).faults.get(name) {
            Some(fault) => lines.push(format!("smaller: row {}: {}", fault.row, fault.what)),
            None => lines.push("smaller: not the same".to_string()),
        }
        lines.push(text(&small));
        lines
    }
}

/// Looks at `count` scenarios from `seed` on. The lines say what was looked at, and show the first counterexample of
/// each statement.
pub fn orders(seed: u64, count: u64) -> (bool, Vec<String>) {
    std::panic::set_hook(Box::new(|_| {}));
    let mut seen = Seen::default();
    for k in seed..seed.saturating_add(count) {
        seen.one(k);
    }
    let broken = seen.failed.keys().filter(|name| is_claimed(name)).count() + seen.panics.len();
    let mut lines =
        vec![format!("scenarios {count} from {seed}, claimed statements that do not hold: {broken}")];
    lines.extend(seen.lines());
    (broken == 0, lines)
}

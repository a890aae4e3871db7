//! Random scenarios with lines of all kinds, each checked row by row while it is made.

use super::seen::Seen;
use super::*;
use crate::scenario::*;
use crate::sound::{check, Checker};
use crate::values::*;
use crate::world::*;
use std::panic::{catch_unwind, AssertUnwindSafe};

/// So many faults end a search.
const MOST_FAULTS: u32 = 5;

/// A scenario in the making: its run and the checker of its rows.
struct Checked<'a> {
    world: World<'a>,
    checker: Checker<'a>,
    fed: usize,
    lines: &'a std::cell::RefCell<Vec<SchedLine>>,
}

impl<'a> Making<'a> for Checked<'a> {
    fn world(&self) -> &World<'a> {
        &self.world
    }

    fn play(&mut self, line: SchedLine) -> Result<bool, String> {
        self.lines.borrow_mut().push(line.clone());
        if self.world.line(&line).is_err() {
            return Ok(false);
        }
        while self.fed < self.world.rows.len() {
            let row = &self.world.rows[self.fed];
            self.checker.feed(row).map_err(|e| format!("row {}: {e}", self.fed + 1))?;
            self.fed += 1;
        }
        Ok(goes_on(&self.world))
    }
}

/// Makes the lines of one scenario, and checks its rows.
fn make(d: &mut Dice, head: &Scenario, rivals: bool, making: &mut Checked) -> Result<(), String> {
    making.checker.first()?;
    draw_lines(d, head, rivals, making)?;
    if making.checker.actors != making.world.actors {
        return Err("(law) an actor is not the replay of its rows".to_string());
    }
    Ok(())
}

/// Makes one random scenario, checked while it is made. `Err` is what is wrong after the lines so far.
fn one(seed: u64, dials: &Dials, seen: &mut Seen) -> (Scenario, Result<(), String>) {
    let mut d = Dice::start(seed);
    let (rivals, head) = some_start(&mut d);
    let lines = std::cell::RefCell::new(Vec::new());
    let result = catch_unwind(AssertUnwindSafe(|| {
        let world = World::start(&head, dials, JOURNAL_LIMIT);
        let checker = Checker::start(&head, dials);
        let mut making = Checked { world, checker, fed: 0, lines: &lines };
        make(&mut d, &head, rivals, &mut making)?;
        seen.journal(&making.world, &making.checker, &head);
        Ok(())
    }));
    let made = Scenario { lines: lines.into_inner(), ..head };
    (made, result.unwrap_or_else(|panic| Err(panic_text(panic.as_ref()))))
}

fn panic_text(panic: &(dyn std::any::Any + Send)) -> String {
    let what = match (panic.downcast_ref::<&str>(), panic.downcast_ref::<String>()) {
        (Some(s), _) => s.to_string(),
        (_, Some(s)) => s.clone(),
        _ => "?".to_string(),
    };
    format!("panic: {what}")
}

/// Returns what is wrong with a scenario.
fn wrong(s: &Scenario, dials: &Dials) -> Option<String> {
    match catch_unwind(AssertUnwindSafe(|| check(s, dials))) {
        Ok(Ok(_)) => None,
        Ok(Err(e)) => Some(e),
        Err(_) => Some("panic".to_string()),
    }
}

/// Returns the kind of a fault: the part that was broken, or a panic.
fn kind(e: &str) -> String {
    match e.find('(') {
        Some(at) if !e.starts_with("panic") => e[at..].split(')').next().unwrap_or("").to_string(),
        _ => "panic".to_string(),
    }
}

/// Returns the text of the random scenario with this seed.
pub fn generate(seed: u64, dials: &Dials) -> String {
    text(&one(seed, dials, &mut Seen::default()).0)
}

/// Checks `count` scenarios from `seed` on. The lines say what was seen, and each fault with its scenario.
pub fn fuzz(seed: u64, count: u64) -> (bool, Vec<String>) {
    std::panic::set_hook(Box::new(|_| {}));
    let mut seen = Seen::default();
    let mut lines = Vec::new();
    let mut faults = 0;
    for k in seed..seed.saturating_add(count) {
        let dials = some_dials(k);
        if let (s, Err(e)) = one(k, &dials, &mut seen) {
            faults += 1;
            let Dials { unit, patience, crowd, heap } = dials;
            lines.push(format!("seed {k} --dials {unit} {patience} {crowd} {heap}: {e}"));
            let small = smaller(&s, &|s| wrong(s, &dials).is_some_and(|other| kind(&other) == kind(&e)));
            lines.push(format!("smaller: {}", wrong(&small, &dials).unwrap_or("not the same".to_string())));
            lines.push(text(&small));
            if faults == MOST_FAULTS {
                break;
            }
        }
    }
    lines.push(format!("scenarios {} rows {} faults {faults}", seen.scenarios, seen.rows));
    lines.extend(seen.counts.iter().map(|(what, n)| format!("  {what}: {n}")));
    (faults == 0, lines)
}

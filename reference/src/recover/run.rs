//! Random scenarios of recovery.

use super::checks::*;
use super::prefix::some_prefix;
use super::sweep::*;
use crate::random::*;
use crate::scenario::*;
use crate::values::Dials;
use crate::world::World;
use std::collections::BTreeMap;

/// So many faults are shown with a smaller scenario.
const MOST_SHOWN: u32 = 3;

/// What many scenarios have shown.
#[derive(Default)]
struct Seen {
    ends: BTreeMap<String, u64>,
    faults: u32,
    rows: u64,
    others: u64,
    looked: BTreeMap<&'static str, u64>,
    lines: Vec<String>,
}

fn end_name(end: &End, crashes: bool) -> String {
    match end {
        End::Answered(need) if crashes => format!("answered, client ticks {need}, crashes"),
        End::Answered(need) => format!("answered, client ticks {need}"),
        End::Left(cause) => cause.to_string(),
        End::Fault(e) => format!("FAULT {}", fault_name(e)),
    }
}

fn fault_name(e: &str) -> &str {
    e.split(':').next().unwrap_or("")
}

impl Seen {
    fn one(&mut self, s: &Scenario, plan: &Plan, crashes: bool) {
        let mut checks = Checks::of_ticks(plan.ticks);
        let (mut rows, mut others) = (0, 0);
        let end = trial(s, plan, &mut |w: &World, at, who| {
            *if at == Moment::Row { &mut rows } else { &mut others } += 1;
            checks.view(w, at, who)
        });
        self.rows += rows;
        self.others += others;
        for (name, n) in checks.looked.0 {
            *self.looked.entry(name).or_default() += n;
        }
        *self.ends.entry(end_name(&end, crashes)).or_default() += 1;
        if let End::Fault(e) = end {
            self.faults += 1;
            if self.faults <= MOST_SHOWN {
                self.show(s, plan, &e);
            }
        }
    }

    /// Shows a fault with a smaller scenario that has it too.
    fn show(&mut self, s: &Scenario, plan: &Plan, fault: &str) {
        let still = |s: &Scenario| {
            let mut checks = Checks::of_ticks(plan.ticks);
            let end = trial(s, plan, &mut |w, at, who| checks.view(w, at, who));
            matches!(end, End::Fault(e) if fault_name(&e) == fault_name(fault))
        };
        let small = smaller(s, &still);
        self.lines.push(format!("seed {} unit {} {:?}: {fault}", plan.seed, plan.dials.unit, plan.order));
        self.lines.push(text(&small));
    }
}

/// Checks scenarios with turns of so many ticks, half of them with crashes.
fn with_ticks(seed: u64, count: u64, ticks: usize, dials: &Dials) -> (bool, Vec<String>) {
    let mut seen = Seen::default();
    for k in seed..seed.saturating_add(count) {
        let mut d = Dice::start(!k);
        let crashes = d.chance(50);
        let dials = Dials { unit: d.pick(&[64, 64, 8, 3, 1]), ..*dials };
        let order = d.pick(&[Order::Up, Order::Down, Order::Mixed]);
        if let Some(s) = some_prefix(k, &dials, crashes) {
            seen.one(&s, &Plan { dials, ticks, order, seed: k }, crashes);
        }
    }
    let mut lines = seen.lines;
    lines.push(format!(
        "ticks {ticks}: scenarios {count}, rows {}, other states {}, faults {}",
        seen.rows, seen.others, seen.faults
    ));
    lines.extend(seen.ends.iter().map(|(end, n)| format!("  {end}: {n}")));
    lines.extend(seen.looked.iter().map(|(name, n)| format!("  looked at {name}: {n}")));
    (seen.faults == 0, lines)
}

/// Checks `count` random scenarios with turns of one tick, and as many with turns of two.
pub fn recover(seed: u64, count: u64, dials: &Dials) -> (bool, Vec<String>) {
    let (one, mut lines) = with_ticks(seed, count, 1, dials);
    let (two, more) = with_ticks(seed.wrapping_add(1 << 50), count, 2, dials);
    lines.extend(more);
    (one && two, lines)
}

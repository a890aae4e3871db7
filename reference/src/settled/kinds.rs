//! The kinds of random scenarios, and how each is drawn.

use super::checks::{holds, scenario, End};
use super::crashes::some_crashes;
use super::forms::budget_of;
use super::heavy::*;
use super::made::{Making, Sizes};
use super::plan::*;
use super::seen::Seen;
use crate::calm::some_mood;
use crate::plain::plain_head;
use crate::random::Dice;
use crate::scenario::*;
use crate::values::*;
use crate::world::*;

/// A kind of scenarios.
#[derive(Clone, Copy, PartialEq, Eq, Debug)]
pub enum Kind {
    /// Calm or plain ones, with lines of any number of deliveries.
    Any,
    /// The same, each line with the budget, and with deliveries of first mail.
    Budget,
    /// Plain ones, where the last line alone has the budget.
    Last,
    /// Plain ones at their budget, with crashed nodes.
    Crashed,
    /// Calm ones with large keys and values.
    Heavy,
}

/// Leaves, in some scenarios, fewer than so many clients.
fn fewer_clients(d: &mut Dice, head: &mut Scenario, most: u64) {
    if d.chance(60) {
        let keep = d.below(most) as usize;
        head.clients = std::mem::take(&mut head.clients).into_iter().take(keep).collect();
    }
}

impl Kind {
    /// All kinds.
    pub const ALL: [Kind; 5] = [Kind::Any, Kind::Budget, Kind::Last, Kind::Crashed, Kind::Heavy];

    /// Returns the name of the kind.
    pub fn name(self) -> &'static str {
        match self {
            Kind::Any => "any",
            Kind::Budget => "budget",
            Kind::Last => "last",
            Kind::Crashed => "crashed",
            Kind::Heavy => "heavy",
        }
    }

    /// Draws a scenario without schedule, how many orders it shall have, and the nodes that shall crash.
    fn head(self, d: &mut Dice) -> (Scenario, u64, Vec<u16>) {
        let mut head = if self == Kind::Heavy { heavy_head(d) } else { plain_head(d) };
        let mut orders = match self {
            Kind::Last | Kind::Crashed => 0,
            Kind::Heavy => d.pick(&[1, 2, 4, 8, 16, 40]),
            _ => d.pick(&[0, 0, 0, 1, 2, 3, 5, 8, 12, 20, 40]),
        };
        if self != Kind::Heavy {
            fewer_clients(d, &mut head, if orders > 0 { 4 } else { 9 });
        }
        while budget_of(&head, orders) > 1_000_000 {
            orders /= 2;
        }
        let mut crashes = Vec::new();
        while self == Kind::Crashed && crashes.is_empty() {
            head = plain_head(d);
            fewer_clients(d, &mut head, 9);
            crashes = some_crashes(d, &head);
        }
        (head, orders, crashes)
    }

    /// Draws what the schedule is drawn by.
    fn plan(self, d: &mut Dice, head: &Scenario, orders: u64) -> Plan {
        let budget = budget_of(head, orders).max(1);
        let sizes = match self {
            Kind::Any if d.chance(55) => Sizes::Enough,
            Kind::Any => Sizes::Mixed(d.pick(&[3, 15, 70])),
            Kind::Last => Sizes::Mixed(d.pick(&[15, 70, 100])),
            Kind::Budget | Kind::Crashed => Sizes::Budget(budget),
            Kind::Heavy => Sizes::Enough,
        };
        let firsts = match self {
            Kind::Budget => d.pick(&[2, 10, 60]),
            Kind::Heavy => 0,
            _ => d.pick(&[0, 2, 10, 60]),
        };
        let drawn = match self {
            Kind::Heavy => Orders::Heavy(heavy_weights(d)),
            _ => Orders::Calm(some_mood(d, head)),
        };
        Plan { sizes, firsts, left: orders, orders: drawn, waiting: head.clients.keys().copied().collect() }
    }
}

/// Plays crash lines, with other lines between them.
fn crash(d: &mut Dice, m: &mut Making, plan: &Plan, crashes: &[u16]) -> Result<(), Full> {
    for node in crashes {
        m.play(SchedLine::Crash { node: *node })?;
        if d.chance(10) {
            m.deliver(d, &plan.sizes)?;
        }
    }
    Ok(())
}

/// Plays a plain schedule whose last `settle` or `free` line has the budget, and no such line behind it. Some
/// clients go behind it.
fn last_with_budget(d: &mut Dice, m: &mut Making, plan: &mut Plan) -> Result<(), Full> {
    let late = if d.chance(20) { d.below(plan.waiting.len() as u64 + 1) } else { 0 };
    let later = plan.waiting.split_off(plan.waiting.len() - late as usize);
    plan.play(d, m)?;
    let budget = budget_of(m.head, 0).max(1);
    m.deliver(d, &Sizes::Budget(budget))?;
    m.take_firsts(d, plan.firsts)?;
    for client in later {
        m.play(SchedLine::Go { client })?;
        m.take_firsts(d, plan.firsts)?;
    }
    Ok(())
}

/// Makes and checks one scenario of a kind. `Err` is what is wrong with which.
pub fn one(kind: Kind, seed: u64, dials: &Dials, seen: &mut Seen) -> Result<(), (Scenario, String)> {
    let mut d = Dice::start(seed.wrapping_mul(Kind::ALL.len() as u64).wrapping_add(kind as u64));
    let (head, orders, crashes) = kind.head(&mut d);
    let mut plan = kind.plan(&mut d, &head, orders);
    let mut m = Making::start(&head, dials);
    let played = crash(&mut d, &mut m, &plan, &crashes).and_then(|()| match kind {
        Kind::Last => last_with_budget(&mut d, &mut m, &mut plan),
        _ => plan.play(&mut d, &mut m),
    });
    let status = match played {
        Err(Full) => 7,
        Ok(()) if m.world.unsettled => 6,
        Ok(()) => 0,
    };
    seen.add(&format!("{}: scenarios", kind.name()), 1);
    seen.add(&format!("{}: rows", kind.name()), m.world.rows.len() as u64);
    holds(&m, kind, &End { seed, status }, seen).map_err(|e| (scenario(&m), e))
}

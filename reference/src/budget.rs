//! Random scenarios without loss, crash, tick and storm lines: within the budget every request is answered.

use crate::mail::*;
use crate::random::*;
use crate::scenario::*;
use crate::values::*;
use crate::world::*;
use std::collections::BTreeSet;

/// Returns the deliveries that a line may make in a scenario with these clients, groups and orders.
pub fn limit(head: &Scenario, orders: u64) -> u64 {
    let requests = head.requests();
    let (groups, clients) = (head.groups.len() as u64, head.clients.len() as u64);
    let limit = if orders == 0 {
        requests * (32 + 4 * groups)
    } else {
        (requests + orders * clients) * (32 + 8 * (groups + orders)) + 512 * orders
    };
    limit.clamp(1, 1_000_000)
}

/// A scenario in the making: what is left to do, and who was told to go.
struct Making<'a> {
    world: World<'a>,
    head: &'a Scenario,
    waiting: Vec<u16>,
    told: BTreeSet<u16>,
    left: u64,
    number: u32,
    limit: u32,
}

impl Making<'_> {
    /// Draws the next lines: an order, or clients that go, and the deliveries behind them.
    fn some_lines(&mut self, d: &mut Dice) -> Vec<SchedLine> {
        let mut lines = Vec::new();
        if self.left > 0 && (self.waiting.is_empty() || d.chance(60)) {
            self.left -= 1;
            self.number += 1;
            lines.push(some_order(d, &self.world, self.head, self.number));
        } else {
            for _ in 0..d.from_to(1, self.waiting.len() as u64) {
                let client = self.waiting.swap_remove(d.below(self.waiting.len() as u64) as usize);
                self.told.insert(client);
                lines.push(SchedLine::Go { client });
            }
        }
        lines.push(if d.chance(50) {
            SchedLine::Settle { most: self.limit }
        } else {
            SchedLine::Free { most: self.limit, workers: d.from_to(1, 16) as u32 }
        });
        lines
    }

    /// Plays lines, and returns how many deliveries they made.
    fn play(&mut self, lines: &[SchedLine]) -> Result<usize, String> {
        let before = self.world.rows.len();
        for line in lines {
            self.world.line(line).map_err(|_| "full".to_string())?;
        }
        let rows = &self.world.rows[before..];
        Ok(rows.iter().filter(|r| matches!(r.event, Event::Deliver(_))).count())
    }

    /// Checks that the line was not cut off, and that everybody who was told to go has all replies.
    fn check(&self) -> Result<(), String> {
        if self.world.unsettled {
            return Err("unsettled within the budget".to_string());
        }
        for c in &self.told {
            let client = self.world.client(client_actor(*c)).expect("it was told to go");
            if client.replies.len() < client.requests.len() {
                return Err(format!("client {c} has {} replies", client.replies.len()));
            }
        }
        Ok(())
    }
}

/// Makes one scenario. `used` is the greatest share of a budget so far; `Err` is what is wrong.
fn one(d: &mut Dice, dials: &Dials, used: &mut f64) -> Result<(), (Scenario, String)> {
    let head = wide_head(d);
    let mut made = head.clone();
    let left = if d.chance(25) { 0 } else { d.pick(&[1, 2, 3, 5, 8, 16, 30]) };
    let mut world = World::start(&head, dials, JOURNAL_LIMIT);
    world.chooser = Some(Dice::start(d.below(u64::MAX)));
    let waiting = head.clients.keys().copied().collect();
    let limit = limit(&head, left) as u32;
    let mut making = Making { world, head: &head, waiting, told: BTreeSet::new(), left, number: 0, limit };
    while making.left > 0 || !making.waiting.is_empty() {
        let lines = making.some_lines(d);
        made.lines.extend(lines.iter().cloned());
        match making.play(&lines) {
            Err(e) => return Err((made, e)),
            Ok(delivered) if head.requests() > 0 => *used = used.max(delivered as f64 / f64::from(limit)),
            Ok(_) => {}
        }
        making.check().map_err(|e| (made.clone(), e))?;
    }
    Ok(())
}

/// Checks `count` scenarios from `seed` on.
pub fn budget(seed: u64, count: u64, dials: &Dials) -> (bool, Vec<String>) {
    let mut lines = Vec::new();
    let mut used = 0.0;
    let mut faults = 0;
    for k in seed..seed.saturating_add(count) {
        if let Err((s, e)) = one(&mut Dice::start(k), dials, &mut used) {
            faults += 1;
            lines.push(format!("seed {k}: {e}"));
            lines.push(text(&s));
            if faults >= 3 {
                break;
            }
        }
    }
    lines.push(format!("budgets {count} faults {faults}, most used {used:.3} of one"));
    (faults == 0, lines)
}

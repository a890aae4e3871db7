//! Random calm runs: each order in a quiet journal, with what holds in quiet checked behind each line.

use super::orders::*;
use super::potential::{potential, Bounds};
use super::quiet::quiet_holds;
use super::rows::row_holds;
use super::seen::Seen;
use crate::plain::*;
use crate::random::Dice;
use crate::scenario::*;
use crate::values::*;
use crate::world::*;
use std::collections::BTreeMap;

/// A run in the making.
struct Making<'a> {
    head: &'a Scenario,
    world: World<'a>,
    seed: u64,
    mood: Mood,
    bounds: Bounds,
    budget: u64,
    orders: u64,
    /// The orders that are left, and the clients.
    left: u64,
    waiting: Vec<u16>,
    /// Whether all is checked at each row.
    deep: bool,
    owed: u64,
    rounds: BTreeMap<Draw, u32>,
    lines: Vec<SchedLine>,
}

/// Returns the highest round of each group.
fn rounds_of(w: &World) -> BTreeMap<Draw, u32> {
    let round = |g: &GroupReplicas| g.values().map(|r| r.top.round).max().unwrap_or(1);
    w.replicas().iter().map(|(g, x)| (*g, round(x))).collect()
}

/// Returns the deliveries that each line of a calm scenario may make.
fn budget_of(head: &Scenario, orders: u64) -> u64 {
    let (groups, clients) = (head.groups.len() as u64, head.clients.len() as u64);
    (head.requests() + orders * clients) * (32 + 8 * (groups + orders)) + 512 * orders
}

impl Making<'_> {
    fn play(&mut self, line: SchedLine) -> Result<(), String> {
        self.lines.push(line.clone());
        self.world.line(&line).map_err(|_| "full".to_string())
    }

    fn order(&mut self, d: &mut Dice, seen: &mut Seen) -> Result<SchedLine, String> {
        self.left -= 1;
        let number = (self.orders - self.left) as u32;
        let line = calm_order(d, &self.world, self.head, &self.mood, number);
        self.play(line.clone())?;
        let now = potential(&self.world, self.bounds)?;
        if now > self.owed + 242 + 4 * self.bounds.far || now > self.owed + 512 * self.orders {
            return Err(format!("an order raises {} to {now}", self.owed));
        }
        seen.raise = seen.raise.max(now.saturating_sub(self.owed));
        self.owed = now;
        Ok(line)
    }

    fn goes(&mut self, d: &mut Dice) -> Result<(), String> {
        let n = if d.chance(60) { 1 } else { d.from_to(1, self.waiting.len() as u64) };
        for _ in 0..n {
            let client = self.waiting.swap_remove(d.below(self.waiting.len() as u64) as usize);
            self.play(SchedLine::Go { client })?;
            let now = potential(&self.world, self.bounds)?;
            if now > self.owed {
                return Err(format!("a go raises {} to {now}", self.owed));
            }
            self.owed = now;
        }
        Ok(())
    }

    /// Delivers until the journal is quiet. Returns how many deliveries it took.
    fn deliver(&mut self, d: &mut Dice, seen: &mut Seen) -> Result<u64, String> {
        let way = if d.chance(35) { None } else { Some(some_way(d, &self.world)) };
        let most = self.budget as u32;
        self.lines.push(match way {
            None => SchedLine::Settle { most },
            Some(_) => SchedLine::Free { most, workers: 4 },
        });
        let (mut used, mut last) = (0, 0);
        while let Some(number) = chosen(d, &self.world, &way, &mut last) {
            if used == self.budget {
                return Err("unsettled within the budget".to_string());
            }
            self.world.deliver(number).map_err(|_| "full".to_string())?;
            used += 1;
            if self.deep {
                self.check_row()?;
                seen.deep += 1;
            }
        }
        self.owed = potential(&self.world, self.bounds)?;
        Ok(used)
    }

    fn check_row(&mut self) -> Result<(), String> {
        row_holds(&self.world)?;
        let now = potential(&self.world, self.bounds)?;
        if now + 1 > self.owed {
            return Err(format!("owed {} to {now} by {:?}", self.owed, self.world.rows.last()));
        }
        self.owed = now;
        Ok(())
    }

    /// Checks that at most one group was polled for, and only by an order.
    fn check_rounds(&mut self, ordered: bool) -> Result<(), String> {
        let now = rounds_of(&self.world);
        let risen: u32 = now.iter().map(|(g, n)| n - self.rounds.get(g).copied().unwrap_or(1)).sum();
        if risen > u32::from(ordered) {
            return Err(format!("rounds rose by {risen}"));
        }
        self.rounds = now;
        Ok(())
    }

    /// Plays an order, or clients that go, and the deliveries behind.
    fn turn(&mut self, d: &mut Dice, seen: &mut Seen) -> Result<(), String> {
        let before = self.world.rows.len();
        let clients = self.waiting.len() as u64;
        let orders = self.left > 0 && (clients == 0 || d.chance(100 * self.left / (self.left + 1 + clients)));
        let ordered = if orders { Some(self.order(d, seen)?) } else { None };
        if ordered.is_none() {
            self.goes(d)?;
        }
        let used = self.deliver(d, seen)?;
        let share = used as f64 / self.budget as f64;
        if share > seen.share && (self.head.requests() > 0 || ordered.is_some()) {
            (seen.share, seen.share_at) = (share, self.seed);
        }
        let rows = &self.world.rows[before..];
        match &ordered {
            Some(SchedLine::Told { line, .. }) => seen.order(line, rows, used, self.seed)?,
            _ => seen.requests(rows, self.seed),
        }
        quiet_holds(&self.world, &mut seen.most)?;
        self.check_rounds(ordered.is_some())
    }

    fn all(&mut self, d: &mut Dice, seen: &mut Seen) -> Result<(), String> {
        quiet_holds(&self.world, &mut seen.most)?;
        self.owed = potential(&self.world, self.bounds)?;
        if self.owed > budget_of(self.head, self.orders) - 512 * self.orders {
            return Err("the first owed is above the budget".to_string());
        }
        while self.left > 0 || !self.waiting.is_empty() {
            self.turn(d, seen)?;
        }
        Ok(())
    }
}

/// Makes and checks one scenario. `Err` is what is wrong after the lines so far.
fn one(seed: u64, dials: &Dials, seen: &mut Seen) -> Result<(), (Scenario, String)> {
    let mut d = Dice::start(seed);
    let mut head = plain_head(&mut d);
    if d.chance(50) {
        // fewer clients
        let keep = d.below(4) as usize;
        head.clients = head.clients.into_iter().take(keep).collect();
    }
    let orders = d.pick(&[1u64, 2, 3, 5, 8, 12, 20, 40, 80]);
    let mood = some_mood(&mut d, &head);
    let mut making = Making {
        head: &head,
        world: World::start(&head, dials, JOURNAL_LIMIT),
        seed,
        mood,
        bounds: Bounds { groups: head.groups.len() as u64 + orders, far: orders + 1 },
        budget: budget_of(&head, orders).clamp(1, 1_000_000),
        orders,
        left: orders,
        waiting: head.clients.keys().copied().collect(),
        deep: d.chance(30),
        owed: 0,
        rounds: head.groups.iter().map(|g| (g.core.id, 1)).collect(),
        lines: Vec::new(),
    };
    let result = making.all(&mut d, seen);
    seen.scenarios += 1;
    seen.rows += making.world.rows.len() as u64;
    let lines = making.lines;
    result.map_err(|e| (Scenario { lines, ..head.clone() }, e))
}

/// Checks `count` random calm scenarios from `seed` on.
pub fn calm(seed: u64, count: u64, dials: &Dials) -> (bool, Vec<String>) {
    let mut seen = Seen::default();
    let mut lines = Vec::new();
    let mut faults = 0;
    for k in seed..seed.saturating_add(count) {
        if let Err((s, e)) = one(k, dials, &mut seen) {
            faults += 1;
            lines.push(format!("seed {k}: {e}"));
            if faults <= 2 {
                lines.push(text(&s));
            }
            if faults >= 5 {
                break;
            }
        }
    }
    lines.extend(seen.lines(faults));
    (faults == 0, lines)
}

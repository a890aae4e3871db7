//! Random plain runs, checked after each row.

use super::actors::{plain_client, plain_replica};
use super::between::between;
use super::mails::plain_mail;
use super::potential::{owed, REQUEST};
use super::*;
use crate::budget;
use crate::mail::*;
use crate::random::*;
use crate::scenario::*;
use crate::values::*;
use crate::world::*;
use std::collections::BTreeMap;

/// What many runs have shown.
#[derive(Default)]
struct Seen {
    scenarios: u64,
    rows: u64,
    delivered: u64,
    /// The greatest share of a budget that a scenario used, and its seed.
    share: f64,
    share_at: u64,
    /// The same of a line.
    line_share: f64,
    lag: u64,
    cut_off_lines: u64,
    quiet_lines: u64,
    requests: u64,
    answered: u64,
    mails: BTreeMap<&'static str, u64>,
}

fn kind(m: &Mail) -> &'static str {
    match &m.body {
        MailBody::Request { .. } => "request",
        MailBody::Answer { answer: AnswerBody::NotMine { .. }, .. } => "not mine",
        MailBody::Answer { .. } => "value",
        MailBody::Accept { .. } => "accept",
        MailBody::Accepted { .. } => "accepted",
        MailBody::Learn { .. } => "learn",
        _ => "other",
    }
}

/// A run in the making, with what was owed after its last row.
struct Making<'a> {
    scenario: &'a Scenario,
    world: World<'a>,
    requests: u64,
    first_owed: u64,
    owed: u64,
    delivered: u64,
    checked: usize,
    /// What holds between actors is checked at each so many deliveries.
    every: u64,
}

impl<'a> Making<'a> {
    fn start(s: &'a Scenario, dials: &Dials) -> Making<'a> {
        let (requests, groups) = (s.requests(), s.groups.len() as u64);
        let first_owed = requests * (REQUEST + 2 * groups);
        let size = s.clients.len() as u64 + 3 * groups;
        let w = World::start(s, dials, JOURNAL_LIMIT);
        let every = if size > 60 { 5 } else { 1 };
        Making {
            scenario: s,
            world: w,
            requests,
            first_owed,
            owed: first_owed,
            delivered: 0,
            checked: 0,
            every,
        }
    }

    /// Checks the last row, and all that holds after it.
    fn check(&mut self, seen: &mut Seen) -> Result<(), String> {
        let now = owed(self.scenario, &self.world)?;
        self.check_rows(now, seen)?;
        self.check_sums(now)?;
        self.check_actors()?;
        if self.every == 1 || self.delivered.checked_rem(self.every) == Some(0) || self.world.quiet() {
            seen.lag = seen.lag.max(between(self.scenario, &self.world)?);
        }
        if self.world.quiet() && !self.world.answered() {
            return Err("quiet and a client waits".to_string());
        }
        Ok(())
    }

    /// Checks that each delivery lets the potential fall, and that the new mail is plain.
    fn check_rows(&mut self, now: u64, seen: &mut Seen) -> Result<(), String> {
        for row in &self.world.rows[self.checked..] {
            let delivers = u64::from(matches!(row.event, Event::Deliver(_)));
            self.delivered += delivers;
            if now + delivers > self.owed {
                return Err(format!("owed {} -> {now} by {row:?}", self.owed));
            }
            for m in &row.sent {
                *seen.mails.entry(kind(m)).or_default() += 1;
                if !plain_mail(self.scenario, m) {
                    return Err(format!("mail of another kind: {m:?}"));
                }
            }
        }
        if self.world.rows.len() > self.checked + 1 {
            return Err("more than one row".to_string());
        }
        self.checked = self.world.rows.len();
        self.owed = now;
        Ok(())
    }

    fn check_sums(&self, now: u64) -> Result<(), String> {
        if now + self.delivered > self.first_owed {
            return Err("owed and delivered above the beginning".to_string());
        }
        if !self.world.quiet() && now == 0 {
            return Err("pending and nothing owed".to_string());
        }
        if u64::from(self.world.sent()) > now + self.delivered {
            return Err("more mail than owed and delivered".to_string());
        }
        if self.world.bytes > 64 * self.world.rows.len() as u128 + 832 * u128::from(self.world.sent()) {
            return Err("bytes".to_string());
        }
        Ok(())
    }

    fn check_actors(&self) -> Result<(), String> {
        for n in self.world.nodes() {
            if n.draws != Draws::start(n.me) {
                return Err("draws".to_string());
            }
            let own = self.scenario.groups.iter().filter(|g| g.core.members.contains(&n.me));
            if !n.replicas.keys().copied().eq(own.map(|g| g.core.id)) {
                return Err("replicas".to_string());
            }
            for (id, r) in &n.replicas {
                let b = self.scenario.group_at(*id).expect("it is one of its own");
                plain_replica(self.scenario, b, n.me, r, self.requests)?;
            }
        }
        self.world
            .clients()
            .try_for_each(|c| plain_client(self.scenario, c, self.world.has_gone(client_actor(c.me))))
    }

    fn go(&mut self, client: u16, made: &mut Scenario, seen: &mut Seen) -> Result<(), String> {
        let line = SchedLine::Go { client };
        made.lines.push(line.clone());
        self.world.line(&line).map_err(|_| "full".to_string())?;
        self.check(seen)
    }

    /// Delivers up to so many mails. Returns how many there were.
    fn deliver(
        &mut self,
        d: &mut Dice,
        way: &Option<Way>,
        most: u64,
        seen: &mut Seen,
    ) -> Result<u64, String> {
        let (mut used, mut last) = (0, 0);
        while used < most {
            let Some(number) = chosen(d, &self.world, way, &mut last) else { break };
            self.world.deliver(number).map_err(|_| "full".to_string())?;
            used += 1;
            self.check(seen)?;
        }
        Ok(used)
    }

    /// Notes how a line ended: within the budget none is cut off.
    fn end_line(&self, used: u64, most: u64, budget: u64, seen: &mut Seen) -> Result<(), String> {
        if budget > 0 {
            seen.line_share = seen.line_share.max(used as f64 / budget as f64);
        }
        if self.world.quiet() {
            seen.quiet_lines += 1;
            return Ok(());
        }
        seen.cut_off_lines += 1;
        if most >= budget {
            Err("unsettled within the budget".to_string())
        } else {
            Ok(())
        }
    }
}

/// Plays the lines of one scenario: clients that go, and deliveries.
fn play(d: &mut Dice, m: &mut Making, made: &mut Scenario, seen: &mut Seen) -> Result<(), String> {
    m.check(seen)?;
    let budget = if m.requests == 0 { 0 } else { budget::limit(m.scenario, 0) };
    let all: Vec<u16> = m.scenario.clients.keys().copied().collect();
    let mut waiting = all.clone();
    let small = d.chance(50);
    for left in (0..=d.from_to(1, 8)).rev() {
        let last_line = left == 0;
        if !waiting.is_empty() {
            let n = waiting.len() as u64;
            for _ in 0..if last_line { n } else { d.from_to(0, n) } {
                let c = waiting.swap_remove(d.below(waiting.len() as u64) as usize);
                m.go(c, made, seen)?;
            }
        }
        if !all.is_empty() && d.chance(10) {
            // once more: skipped or early
            let c = d.pick(&all);
            waiting.retain(|x| *x != c);
            m.go(c, made, seen)?;
        }
        let most = if !last_line && small { d.from_to(1, 40) } else { budget.max(1) };
        let way = if d.chance(35) { None } else { Some(some_way(d, &m.world)) };
        made.lines.push(match way {
            None => SchedLine::Settle { most: most as u32 },
            Some(_) => SchedLine::Free { most: most as u32, workers: 4 },
        });
        let used = m.deliver(d, &way, most, seen)?;
        m.end_line(used, most, budget, seen)?;
    }
    Ok(())
}

/// Makes and checks one scenario. `Err` is what is wrong after the lines so far.
fn one(seed: u64, dials: &Dials, seen: &mut Seen) -> Result<(), (Scenario, String)> {
    let mut d = Dice::start(seed);
    let head = plain_head(&mut d);
    let mut made = head.clone();
    let mut m = Making::start(&head, dials);
    let result = play(&mut d, &mut m, &mut made, seen);
    seen.scenarios += 1;
    seen.rows += m.world.rows.len() as u64;
    seen.delivered += m.delivered;
    seen.requests += m.requests;
    seen.answered += m.world.clients().map(|c| c.replies.len() as u64).sum::<u64>();
    if m.requests > 0 {
        let share = m.delivered as f64 / budget::limit(&head, 0) as f64;
        if share > seen.share {
            (seen.share, seen.share_at) = (share, seed);
        }
    }
    result.map_err(|e| (made, e))
}

impl Seen {
    fn lines(&self, faults: u32) -> Vec<String> {
        vec![
            format!(
                "plain scenarios {} rows {} delivered {} faults {faults}; requests {} answered {}; lines quiet {} \
                 cut off {}; most of a budget {:.4} (seed {}), of a line {:.4}; most slots behind {}",
                self.scenarios,
                self.rows,
                self.delivered,
                self.requests,
                self.answered,
                self.quiet_lines,
                self.cut_off_lines,
                self.share,
                self.share_at,
                self.line_share,
                self.lag
            ),
            format!("mails {:?}", self.mails),
        ]
    }
}

/// Checks `count` random plain scenarios from `seed` on.
pub fn plain(seed: u64, count: u64, dials: &Dials) -> (bool, Vec<String>) {
    let mut seen = Seen::default();
    let mut lines = Vec::new();
    let mut faults = 0;
    for k in seed..seed.saturating_add(count) {
        if let Err((s, e)) = one(k, dials, &mut seen) {
            faults += 1;
            lines.push(format!("seed {k}: {e}"));
            if faults <= 2 {
                lines.push(text(&s));
            }
            if faults >= 5 {
                break;
            }
        }
    }
    lines.extend(seen.lines(faults));
    (faults == 0, lines)
}

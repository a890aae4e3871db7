//! Random schedules without orders and policy, with any loss and, where asked for, crashes.

use crate::mail::client_actor;
use crate::plain::plain_head;
use crate::random::*;
use crate::scenario::*;
use crate::values::*;
use crate::world::*;
use std::collections::BTreeSet;

/// A run longer than this is ended.
const MOST_ROWS: usize = 5000;

/// Draws a scenario of few nodes and few groups.
fn small_head(d: &mut Dice) -> Scenario {
    let nodes = d.pick(&[1, 2, 2, 3, 3, 4, 5, 6, 8]);
    let mut los: Vec<u32> = Vec::new();
    for _ in 0..d.pick(&[1, 1, 2, 2, 3, 3, 4]) {
        los.push(d.pick(&places()));
    }
    los.sort();
    los.dedup();
    let set = |d: &mut Dice| {
        let n = d.from_to(1, nodes.min(3));
        some_set(d, nodes, n)
    };
    let groups: Vec<(u32, Members)> = los.iter().map(|lo| (*lo, set(d))).collect();
    let mut head = Scenario::of_groups(1, nodes as u16, &groups);
    for c in 1..=d.from_to(0, 4) {
        let count = d.from_to(1, 3);
        head.clients.insert(c as u16, (0..count).map(|_| some_op(d, 1)).collect());
    }
    head.policy = d.chance(15);
    head
}

fn head_of(d: &mut Dice) -> Scenario {
    let head = match d.below(4) {
        0 => some_head(d, true),
        1 => wide_head(d),
        2 => plain_head(d),
        _ => small_head(d),
    };
    Scenario { policy: false, ..head }
}

/// A schedule in the making.
struct Making<'a> {
    world: World<'a>,
    lines: Vec<SchedLine>,
    nodes: u64,
    clients: Vec<u16>,
    crashes: bool,
    /// A node that gets hardly any mail.
    hermit: Option<u32>,
}

impl Making<'_> {
    /// Plays a line. None where the journal is full.
    fn play(&mut self, line: SchedLine) -> Option<()> {
        self.lines.push(line.clone());
        self.world.line(&line).ok()
    }

    fn everybody(&self) -> Vec<u32> {
        (1..=self.nodes as u32).chain(self.clients.iter().map(|c| client_actor(*c))).collect()
    }

    /// Draws some ticks, goes, repeats, storms and crashes.
    fn some_events(&mut self, d: &mut Dice) -> Vec<SchedLine> {
        let mut todo = Vec::new();
        for _ in 0..d.from_to(1, 4) {
            match d.below(12) {
                0..=3 if !self.clients.is_empty() => {
                    let client = d.pick(&self.clients);
                    let who = client_actor(client);
                    let gone = self.world.has_gone(who);
                    todo.push(if gone { SchedLine::Tick { who } } else { SchedLine::Go { client } });
                }
                4 => todo
                    .push(SchedLine::Again { mail: d.from_to(1, u64::from(self.world.sent()) + 1) as u32 }),
                5 => todo.push(SchedLine::Storm { number: d.below(1 << 40), most: d.from_to(3, 60) as u32 }),
                6 if self.crashes => todo.push(SchedLine::Crash { node: d.from_to(1, self.nodes) as u16 }),
                _ => {
                    let who = d.from_to(1, self.nodes) as u32;
                    let count = d.pick(&[1, 1, 1, 2, 3]);
                    todo.extend((0..count).map(|_| SchedLine::Tick { who }));
                }
            }
        }
        todo
    }

    /// Delivers and loses mail.
    fn weather(&mut self, d: &mut Dice) -> Option<()> {
        let deaf: BTreeSet<u32> = self.everybody().into_iter().filter(|_| d.chance(20)).collect();
        let parted = d.chance(50);
        let loss = d.pick(&[0, 0, 10, 30, 60, 90]);
        let in_order = d.chance(50);
        for _ in 0..d.pick(&[3, 8, 20, 60, 200, 600]) {
            let there: Vec<u32> =
                self.world.actors.keys().copied().filter(|a| self.world.first_of(*a).is_some()).collect();
            if there.is_empty() {
                break;
            }
            let (who, k) = if in_order {
                let number = self.world.lowest().expect("some mail is pending");
                (self.world.mail(number).expect("it was sent").to, 1)
            } else {
                let who = d.pick(&there);
                let most = u64::from(self.world.waiting(who).min(5));
                (who, if d.chance(70) { 1 } else { d.from_to(1, most) as u32 })
            };
            let lost = d.chance(loss)
                || (parted && deaf.contains(&who))
                || (self.hermit == Some(who) && d.chance(90));
            self.play(if lost { SchedLine::Drop { who, k } } else { SchedLine::Deliver { who, k } })?;
        }
        Some(())
    }

    /// Loses all mail, or delivers some of it.
    fn end_of_weather(&mut self, d: &mut Dice) -> Option<()> {
        if d.chance(30) {
            for who in self.everybody() {
                while self.world.first_of(who).is_some() {
                    self.play(SchedLine::Drop { who, k: 1 })?;
                }
            }
        } else if d.chance(20) {
            let line = if d.chance(50) {
                SchedLine::Settle { most: d.from_to(1, 60) as u32 }
            } else {
                SchedLine::Free { most: d.from_to(1, 60) as u32, workers: 2 }
            };
            self.play(line)?;
        }
        Some(())
    }
}

/// Draws a scenario, whose schedule has any lines but orders. None where its journal is full.
pub fn some_prefix(seed: u64, dials: &Dials, crashes: bool) -> Option<Scenario> {
    let mut d = Dice::start(seed ^ 0x6361_6c6c);
    let mut head = head_of(&mut d);
    if head.nodes > 12 && d.chance(70) {
        return some_prefix(seed.wrapping_add(1 << 40), dials, crashes);
    }
    if d.chance(15) && !head.clients.is_empty() {
        // a long log
        let c = *head.clients.keys().next().expect("there are some");
        let count = d.pick(&[40, 100, 200]);
        head.clients.insert(c, (0..count).map(|_| some_op(&mut d, 1)).collect());
    }
    let w = World::start(&head, dials, JOURNAL_LIMIT);
    let (nodes, clients) = (u64::from(head.nodes), head.clients.keys().copied().collect());
    let hermit = d.from_to(1, nodes) as u32;
    let hermit = d.chance(25).then_some(hermit);
    let mut making = Making { world: w, lines: Vec::new(), nodes, clients, crashes, hermit };
    for _ in 0..d.from_to(1, 10) {
        for line in making.some_events(&mut d) {
            making.play(line)?;
        }
        making.weather(&mut d)?;
        making.end_of_weather(&mut d)?;
        if making.world.rows.len() > MOST_ROWS {
            break;
        }
    }
    let lines = making.lines;
    Some(Scenario { lines, ..head })
}

//! Random lines of a schedule, drawn while it runs.

use super::{some_order, Dice};
use crate::mail::client_actor;
use crate::scenario::*;
use crate::world::*;

/// How often each kind of line comes in one scenario.
pub struct Mood {
    weights: [u64; 13],
    /// Whether the nodes are parted for some time, and then parted anew.
    pub parted: bool,
    /// The actors that hear each other now, and for how many lines.
    island: Vec<u32>,
    left: u64,
}

/// Draws which of the kinds comes, by their weights.
pub fn weighted(d: &mut Dice, weights: &[u64]) -> usize {
    let total: u64 = weights.iter().sum();
    let mut roll = d.below(total);
    let mut kind = 0;
    while roll >= weights[kind] {
        roll -= weights[kind];
        kind += 1;
    }
    kind
}

/// Draws the mood of a scenario.
pub fn some_mood(d: &mut Dice, rivals: bool) -> Mood {
    let mut mood = Mood { weights: [0; 13], parted: false, island: Vec::new(), left: 0 };
    if rivals {
        rivals_mood(d, &mut mood);
    } else {
        usual_mood(d, &mut mood);
    }
    mood
}

fn rivals_mood(d: &mut Dice, mood: &mut Mood) {
    let (drop, again, tick, storm) = (d.from_to(0, 8), d.from_to(0, 6), d.from_to(2, 14), d.below(3));
    let orders = d.from_to(0, 10);
    if d.chance(50) {
        // a duel: hardly anything is settled
        let orders = d.pick(&[0, 1, 2, 6]);
        mood.parted = d.chance(70);
        mood.weights = [8, orders, 0, 0, 70, d.below(5), d.below(4), 0, d.below(7), 0, 0, 0, d.from_to(1, 8)];
        return;
    }
    mood.weights = [12, orders, d.from_to(2, 8), 1, 40, drop, again, 3, tick, d.below(2), storm, 1, 3];
}

fn usual_mood(d: &mut Dice, mood: &mut Mood) {
    let crash = if d.chance(40) { 1 } else { 0 };
    let loss = d.pick(&[0, 1, 4]);
    let storm = d.pick(&[0, 1, 4]);
    mood.weights = [
        6,
        d.from_to(2, 12),
        d.from_to(2, 16),
        d.from_to(1, 6),
        d.from_to(0, 24),
        loss,
        loss + d.below(3),
        d.from_to(0, 4),
        d.from_to(0, 8),
        crash,
        storm,
        1,
        d.below(4),
    ];
    if d.chance(30) {
        // transactions among groups that do not all hear each other
        mood.parted = true;
        mood.weights[4] = 60;
        mood.weights[2] = d.below(3);
        mood.weights[3] = 0;
    }
}

impl Mood {
    /// Draws a mail between two actors of the island, as a line that delivers it.
    fn within(&mut self, d: &mut Dice, w: &World) -> Option<SchedLine> {
        if self.left == 0 {
            self.left = d.from_to(4, 30);
            let percent = d.pick(&[40, 60, 75, 90]);
            self.island = w.actors.keys().copied().filter(|a| *a > 32 || d.chance(percent)).collect();
        }
        self.left -= 1;
        let mut all = Vec::new();
        for who in &self.island {
            for (i, number) in w.spots(Some(*who)).into_iter().enumerate() {
                if self.island.contains(&w.mail(number).expect("it was sent").from) {
                    all.push((*who, i as u32 + 1));
                }
            }
        }
        if all.is_empty() {
            return None;
        }
        // mostly one of the first
        let n = if d.chance(60) { all.len().min(3) } else { all.len() };
        let (who, k) = all[d.below(n as u64) as usize];
        Some(SchedLine::Deliver { who, k })
    }

    /// Draws a mail of the island, or a tick of one of its nodes.
    fn island_line(&mut self, d: &mut Dice, w: &World, s: &Scenario) -> SchedLine {
        self.within(d, w).unwrap_or_else(|| {
            let nodes: Vec<u32> = self.island.iter().copied().filter(|a| *a <= 32).collect();
            let all = if nodes.is_empty() { vec![some_node(d, s)] } else { nodes };
            SchedLine::Tick { who: d.pick(&all) }
        })
    }
}

fn some_node(d: &mut Dice, s: &Scenario) -> u32 {
    d.from_to(1, u64::from(s.nodes)) as u32
}

fn some_actor(d: &mut Dice, w: &World) -> u32 {
    let all: Vec<u32> = w.actors.keys().copied().collect();
    d.pick(&all)
}

fn some_client(d: &mut Dice, s: &Scenario) -> u16 {
    let all: Vec<u16> = s.clients.keys().copied().collect();
    d.pick(&all)
}

/// Draws one of the first pending mails of an actor that has some, to be delivered or lost.
fn some_mail(d: &mut Dice, w: &World, lost: bool) -> SchedLine {
    let there: Vec<(u32, u32)> =
        w.actors.keys().map(|a| (*a, w.waiting(*a))).filter(|(_, n)| *n > 0).collect();
    if there.is_empty() {
        return SchedLine::Tick { who: some_actor(d, w) };
    }
    let (who, n) = d.pick(&there);
    let k = if d.chance(50) { 1 } else { d.from_to(1, u64::from(n.min(5))) as u32 };
    if lost {
        SchedLine::Drop { who, k }
    } else {
        SchedLine::Deliver { who, k }
    }
}

fn some_again(d: &mut Dice, w: &World) -> SchedLine {
    let sent = u64::from(w.sent()) + 1;
    let from = if d.chance(50) { sent.saturating_sub(20).max(1) } else { 1 };
    SchedLine::Again { mail: d.from_to(from, sent) as u32 }
}

/// Draws the next line. `orders` counts the orders so far.
pub fn some_line(d: &mut Dice, w: &World, s: &Scenario, orders: &mut u32, mood: &mut Mood) -> SchedLine {
    match weighted(d, &mood.weights) {
        0 if !s.clients.is_empty() => SchedLine::Go { client: some_client(d, s) },
        0 | 1 => {
            *orders += 1;
            some_order(d, w, s, *orders)
        }
        2 => SchedLine::Settle { most: d.from_to(1, 6) as u32 },
        3 => SchedLine::Settle { most: d.from_to(5, 60) as u32 },
        4 if mood.parted => mood.island_line(d, w, s),
        4 => some_mail(d, w, false),
        5 => some_mail(d, w, true),
        6 => some_again(d, w),
        7 => SchedLine::Tick { who: some_actor(d, w) },
        8 => SchedLine::Tick { who: some_node(d, s) },
        9 => SchedLine::Crash { node: some_node(d, s) as u16 },
        12 if !s.clients.is_empty() => SchedLine::Tick { who: client_actor(some_client(d, s)) },
        10 => SchedLine::Storm { number: d.below(1 << 40), most: d.from_to(3, 40) as u32 },
        _ => SchedLine::Free { most: d.from_to(1, 40) as u32, workers: d.from_to(1, 4) as u32 },
    }
}

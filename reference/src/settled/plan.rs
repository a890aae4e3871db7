//! What a schedule is drawn by, and the drawing of calm and plain ones.

use super::forms::Open;
use super::heavy::heavy_order;
use super::made::{Making, Sizes};
use crate::calm::{calm_order, Mood};
use crate::random::*;
use crate::scenario::*;
use crate::world::*;

/// Where orders come from.
pub enum Orders {
    Calm(Mood),
    Heavy([u64; 7]),
}

/// What a schedule is drawn by.
pub struct Plan {
    pub sizes: Sizes,
    /// The most lines that deliver a first mail in one place.
    pub firsts: u64,
    /// How many orders are left.
    pub left: u64,
    pub orders: Orders,
    /// The clients that are to go.
    pub waiting: Vec<u16>,
}

impl Plan {
    fn order(&mut self, d: &mut Dice, m: &Making) -> SchedLine {
        self.left -= 1;
        let number = m.lines.iter().filter(|l| matches!(l, SchedLine::Told { .. })).count() as u32 + 1;
        match &self.orders {
            _ if leaders(&m.world).is_empty() => some_order(d, &m.world, m.head, number),
            Orders::Calm(mood) => calm_order(d, &m.world, m.head, mood, number),
            Orders::Heavy(weights) => heavy_order(d, &m.world, m.head, weights, number),
        }
    }

    /// Lets some clients go.
    fn goes(&mut self, d: &mut Dice, m: &mut Making) -> Result<(), Full> {
        let n = self.waiting.len() as u64;
        for _ in 0..if d.chance(30) { n } else { d.from_to(1, n) } {
            let client = self.waiting.swap_remove(d.below(self.waiting.len() as u64) as usize);
            m.play(SchedLine::Go { client })?;
            if d.chance(40) {
                m.take_firsts(d, self.firsts)?;
            }
        }
        if d.chance(8) {
            // once more: skipped or early
            let all: Vec<u16> = m.head.clients.keys().copied().collect();
            let client = d.pick(&all);
            self.waiting.retain(|c| *c != client);
            m.play(SchedLine::Go { client })?;
        }
        Ok(())
    }

    /// Draws and plays a schedule of calm form, or of plain form where it has no orders.
    pub fn play(&mut self, d: &mut Dice, m: &mut Making) -> Result<(), Full> {
        let mut open = Open::Nothing;
        if d.chance(15) {
            m.deliver(d, &self.sizes)?;
        }
        while self.left > 0 || !self.waiting.is_empty() {
            let clients = self.waiting.len() as u64;
            let ordered =
                self.left > 0 && (clients == 0 || d.chance(100 * self.left / (self.left + 1 + clients)));
            let parted = if ordered { open == Open::Nothing } else { open != Open::Order };
            if !parted {
                m.deliver(d, &self.sizes)?;
            }
            if ordered {
                let line = self.order(d, m);
                m.play(line)?;
                open = Open::Order;
            } else {
                self.goes(d, m)?;
                open = Open::Goes;
            }
            m.take_firsts(d, self.firsts)?;
            if d.chance(70) {
                m.deliver(d, &self.sizes)?;
                open = Open::Nothing;
                m.take_firsts(d, self.firsts)?;
            }
        }
        if open == Open::Order || d.chance(85) {
            m.deliver(d, &self.sizes)?;
        }
        m.take_firsts(d, self.firsts)
    }
}

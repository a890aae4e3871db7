//! The lines of a schedule, and how each is played.

use super::{Full, World};
use crate::chacha::Words;
use crate::decided::Decided;
use crate::mail::*;
use crate::scenario::SchedLine;

impl World<'_> {
    /// Whether an Again of this mail makes a row.
    fn can_again(&self, number: u32) -> bool {
        match self.mail(number) {
            None => false,
            Some(m) => m.to != DESK && !self.crashed.contains(&m.to),
        }
    }

    /// Plays the whole schedule.
    pub fn run(&mut self) -> Result<(), Full> {
        for line in &self.scenario.lines {
            self.line(line)?;
        }
        Ok(())
    }

    /// Plays a line of the schedule.
    pub fn line(&mut self, line: &SchedLine) -> Result<(), Full> {
        match line {
            SchedLine::Go { client } => {
                let who = client_actor(*client);
                if self.told_go.insert(who) {
                    return self.act(who, Event::Go);
                }
                self.skipped += 1;
            }
            SchedLine::Deliver { who, k } => match self.kth(*who, *k) {
                Some(number) => return self.deliver(number),
                None => self.skipped += 1,
            },
            SchedLine::Drop { who, k } => match self.kth(*who, *k) {
                Some(number) => return self.append(0, Event::Drop(number), Vec::new()),
                None => self.skipped += 1,
            },
            SchedLine::Again { mail } => {
                if self.can_again(*mail) {
                    return self.append(0, Event::Again(*mail), Vec::new());
                }
                self.skipped += 1;
            }
            SchedLine::Tick { who } => return self.event(*who, Event::Tick),
            SchedLine::Crash { node } => return self.event(u32::from(*node), Event::Crash),
            SchedLine::Told { node, line } => return self.event(u32::from(*node), Event::Told(line.clone())),
            SchedLine::Settle { most } => return self.settle(*most),
            SchedLine::Free { most, .. } => return self.free(*most),
            SchedLine::Storm { number, most } => return self.storm(*number, *most),
        }
        Ok(())
    }

    /// An event of an actor, skipped where it has crashed.
    fn event(&mut self, who: u32, event: Event) -> Result<(), Full> {
        if self.crashed.contains(&who) {
            self.skipped += 1;
            return Ok(());
        }
        self.act(who, event)
    }

    fn settle(&mut self, most: u32) -> Result<(), Full> {
        let mut used = 0;
        while used < most {
            match self.lowest() {
                None => return Ok(()),
                Some(number) => self.deliver(number)?,
            }
            used += 1;
        }
        if !self.quiet() {
            self.unsettled = true;
        }
        Ok(())
    }

    /// Plays a `free` line on one thread: in rounds, where every actor in order takes one mail; or by the chooser.
    fn free(&mut self, most: u32) -> Result<(), Full> {
        let order: Vec<u32> = self.actors.keys().copied().collect();
        if self.chooser.is_some() {
            self.free_by_chooser(&order, most)?;
        } else {
            self.free_in_rounds(&order, most)?;
        }
        if !self.quiet() {
            self.unsettled = true;
        }
        Ok(())
    }

    fn free_in_rounds(&mut self, order: &[u32], most: u32) -> Result<(), Full> {
        let mut used = 0;
        while !self.quiet() && used < most {
            for who in order {
                if used == most {
                    break;
                }
                if let Some(number) = self.first_of(*who) {
                    self.deliver(number)?;
                    used += 1;
                }
            }
        }
        Ok(())
    }

    fn free_by_chooser(&mut self, order: &[u32], most: u32) -> Result<(), Full> {
        let mut used = 0;
        let mut last = 0;
        while !self.quiet() && used < most {
            let there: Vec<u32> = order.iter().copied().filter(|who| self.first_of(*who).is_some()).collect();
            let dice = self.chooser.as_mut().expect("tested");
            let who = if there.contains(&last) && dice.chance(50) { last } else { dice.pick(&there) };
            last = who;
            let number = self.first_of(who).expect("it has pending mail");
            self.deliver(number)?;
            used += 1;
        }
        Ok(())
    }

    /// Plays a storm: so many steps, each drawn by two words of the stream.
    fn storm(&mut self, seed: u64, most: u32) -> Result<(), Full> {
        let actors: Vec<u32> = self.actors.keys().copied().collect();
        let mut words = Words::start(seed);
        for _ in 0..most {
            let (w, v) = (words.next_word(), words.next_word());
            match w % 16 {
                1 => self.storm_again(v)?,
                2 => {
                    let who = actors[v as usize % actors.len()];
                    if !self.crashed.contains(&who) {
                        self.act(who, Event::Tick)?;
                    }
                }
                k => self.storm_mail(v, k == 0)?,
            }
        }
        Ok(())
    }

    /// Repeats one of all mails that were sent.
    fn storm_again(&mut self, v: u32) -> Result<(), Full> {
        if self.sent() > 0 {
            let number = 1 + v % self.sent();
            if self.can_again(number) {
                self.append(0, Event::Again(number), Vec::new())?;
            }
        }
        Ok(())
    }

    /// Loses or delivers one of all pending copies.
    fn storm_mail(&mut self, v: u32, lost: bool) -> Result<(), Full> {
        let spots = self.spots(None);
        if spots.is_empty() {
            return Ok(());
        }
        let number = spots[v as usize % spots.len()];
        if lost {
            self.append(0, Event::Drop(number), Vec::new())
        } else {
            self.deliver(number)
        }
    }

    /// Returns what the rows have decided.
    pub fn decided(&self) -> Decided {
        let mut d = Decided::start(&self.scenario.groups, false);
        for row in &self.rows {
            let delivered = match row.event {
                Event::Deliver(number) => self.mail(number),
                _ => None,
            };
            d.feed(row, delivered);
        }
        d
    }
}

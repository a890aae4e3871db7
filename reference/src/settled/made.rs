//! A schedule in the making, each of whose lines is played when it is drawn.

use crate::plain::*;
use crate::random::Dice;
use crate::scenario::*;
use crate::values::*;
use crate::world::*;

/// The most deliveries of a line.
const MOST: u64 = 1_000_000;

/// How many deliveries lines may make.
pub enum Sizes {
    /// Just as many as are needed, or many.
    Enough,
    /// Few in so many percent of the lines.
    Mixed(u64),
    /// At least so many.
    Budget(u64),
}

impl Sizes {
    /// Draws the deliveries of a line: none where they are to be just enough.
    pub fn most(&self, d: &mut Dice) -> Option<u64> {
        match self {
            Sizes::Budget(n) if d.chance(90) => Some(*n),
            Sizes::Budget(n) => Some(d.from_to(*n, 1_000_000)),
            Sizes::Mixed(percent) if d.chance(*percent) => {
                let most = d.pick(&[3, 40, 400]);
                Some(d.from_to(1, most))
            }
            _ if d.chance(60) => None,
            _ => Some(d.pick(&[100_000, 1_000_000])),
        }
    }
}

/// A run in the making, and its lines so far.
pub struct Making<'a> {
    pub head: &'a Scenario,
    pub world: World<'a>,
    pub lines: Vec<SchedLine>,
    /// How many lines that deliver a first mail were not skipped.
    pub firsts: u64,
    /// Whether no mail was pending behind the last line that delivers.
    pub rested: bool,
}

impl<'a> Making<'a> {
    /// Begins the run of a scenario.
    pub fn start(head: &'a Scenario, dials: &Dials) -> Making<'a> {
        let w = World::start(head, dials, JOURNAL_LIMIT);
        Making { head, world: w, lines: Vec::new(), firsts: 0, rested: true }
    }

    /// Plays a line.
    pub fn play(&mut self, line: SchedLine) -> Result<(), Full> {
        self.lines.push(line.clone());
        self.world.line(&line)
    }

    /// Plays up to so many lines that deliver a first mail, mostly one that is there.
    pub fn take_firsts(&mut self, d: &mut Dice, most: u64) -> Result<(), Full> {
        if most == 0 {
            return Ok(());
        }
        for _ in 0..d.from_to(0, most) {
            let all: Vec<u32> = self.world.actors.keys().copied().collect();
            let there: Vec<u32> =
                all.iter().copied().filter(|who| self.world.first_of(*who).is_some()).collect();
            let lost = there.is_empty() || d.chance(5);
            if lost && d.chance(70) {
                continue;
            }
            let who = d.pick(if lost { &all } else { &there });
            self.firsts += u64::from(self.world.first_of(who).is_some());
            self.play(SchedLine::Deliver { who, k: 1 })?;
        }
        Ok(())
    }

    /// Plays a `settle` or `free` line of so many deliveries.
    pub fn deliver(&mut self, d: &mut Dice, sizes: &Sizes) -> Result<(), Full> {
        let most = sizes.most(d);
        let way = if d.chance(35) { None } else { Some(some_way(d, &self.world)) };
        let workers = d.from_to(1, 16) as u32;
        let line = |most: u64| match way {
            None => SchedLine::Settle { most: most as u32 },
            Some(_) => SchedLine::Free { most: most as u32, workers },
        };
        let at = self.lines.len();
        self.lines.push(line(most.unwrap_or(MOST)));
        let (mut used, mut last) = (0, 0);
        while used < most.unwrap_or(MOST) {
            let Some(number) = chosen(d, &self.world, &way, &mut last) else { break };
            self.world.deliver(number)?;
            used += 1;
        }
        self.lines[at] = line(most.unwrap_or(used.max(1)));
        self.rested = self.world.quiet();
        self.world.unsettled |= !self.rested;
        Ok(())
    }
}

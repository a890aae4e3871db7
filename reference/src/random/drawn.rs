//! Random scenarios with lines of all kinds, drawn while they are played.

use super::*;
use crate::mail::client_actor;
use crate::scenario::*;
use crate::values::*;
use crate::world::*;

/// A run longer than this is ended.
const MOST_ROWS: usize = 6000;

/// A scenario in the making.
pub trait Making<'a> {
    /// Returns its run so far.
    fn world(&self) -> &World<'a>;
    /// Plays one line more. Returns whether the run goes on.
    fn play(&mut self, line: SchedLine) -> Result<bool, String>;
}

/// Returns whether a run is short enough to go on.
pub fn goes_on(world: &World) -> bool {
    world.rows.len() <= MOST_ROWS
}

/// Draws the end of some schedules: everybody ticks, and the mail is delivered.
fn some_healing(d: &mut Dice, head: &Scenario) -> Vec<SchedLine> {
    let mut healing = Vec::new();
    if !d.chance(70) {
        return healing;
    }
    for _ in 0..d.from_to(1, 5) {
        for n in 1..=head.nodes {
            if d.chance(60) {
                healing.push(SchedLine::Tick { who: u32::from(n) });
            }
            if d.chance(30) {
                healing.push(SchedLine::Settle { most: 200 });
            }
        }
        healing.extend(head.clients.keys().map(|c| SchedLine::Tick { who: client_actor(*c) }));
        healing.push(SchedLine::Settle { most: 300 });
    }
    healing
}

/// Draws the start of a random scenario: whether it has rivals, and what stands before its schedule.
pub fn some_start(d: &mut Dice) -> (bool, Scenario) {
    let rivals = d.chance(40);
    (rivals, some_head(d, rivals))
}

/// Draws and plays the schedule of a random scenario.
pub fn draw_lines<'a>(
    d: &mut Dice,
    head: &Scenario,
    rivals: bool,
    making: &mut impl Making<'a>,
) -> Result<(), String> {
    let mut orders = 0;
    let mut mood = some_mood(d, rivals);
    let plan = d.from_to(5, if rivals || mood.parted { 250 } else { 60 });
    let healing = some_healing(d, head);
    let mut goes_on = true;
    for _ in 0..plan {
        if goes_on {
            let line = some_line(d, making.world(), head, &mut orders, &mut mood);
            goes_on = making.play(line)?;
        }
    }
    for line in healing {
        goes_on = goes_on && making.play(line)?;
    }
    Ok(())
}

/// A scenario in the making whose rows nobody looks at yet.
struct Bare<'a> {
    world: World<'a>,
    lines: Vec<SchedLine>,
}

impl<'a> Making<'a> for Bare<'a> {
    fn world(&self) -> &World<'a> {
        &self.world
    }

    fn play(&mut self, line: SchedLine) -> Result<bool, String> {
        self.lines.push(line.clone());
        Ok(self.world.line(&line).is_ok() && goes_on(&self.world))
    }
}

/// Draws and plays the random scenario with this seed, and looks at it and at its run.
pub fn drawn<T>(seed: u64, dials: &Dials, look: impl FnOnce(&Scenario, &World) -> T) -> T {
    let mut d = Dice::start(seed);
    let (rivals, head) = some_start(&mut d);
    let mut bare = Bare { world: World::start(&head, dials, JOURNAL_LIMIT), lines: Vec::new() };
    draw_lines(&mut d, &head, rivals, &mut bare).expect("nobody looks");
    look(&Scenario { lines: bare.lines, ..head.clone() }, &bare.world)
}

/// Draws smaller dials for many scenarios.
pub fn some_dials(seed: u64) -> Dials {
    let mut d = Dice::start(!seed);
    Dials {
        unit: d.pick(&[64, 8, 3, 2, 1]),
        patience: d.pick(&[8, 8, 3, 2, 1]),
        crowd: d.pick(&[7, 4, 2]),
        heap: d.pick(&[128, 3, 1]),
    }
}

//! The sweep: each node ticks in its turn, each mail is delivered, and clients ask again.

use super::checks::Moment;
use crate::mail::client_actor;
use crate::random::Dice;
use crate::scenario::*;
use crate::values::*;
use crate::world::*;

/// A line of deliveries is cut off after so many.
const LONG: u32 = 30_000;

/// The order in which a sweep ticks nodes.
#[derive(Clone, Copy, PartialEq, Eq, Debug)]
pub enum Order {
    Up,
    Down,
    Mixed,
}

/// What looks at the run after each row.
pub type Viewer<'a> = &'a mut dyn FnMut(&World, Moment, Option<u32>) -> Result<(), String>;

/// How a run of recovery ended.
#[derive(Clone, PartialEq, Eq, Debug)]
pub enum End {
    /// All are answered, after so many ticks of the clients.
    Answered(usize),
    /// It was ended for this cause, and nothing is claimed.
    Left(&'static str),
    /// Something does not hold.
    Fault(String),
}

type Sweeping<T> = Result<T, End>;

/// A run of recovery.
struct Sweep<'a, 'b> {
    world: World<'a>,
    view: Viewer<'b>,
    dice: Dice,
    ticks: usize,
    order: Order,
}

impl Sweep<'_, '_> {
    fn play(&mut self, line: SchedLine) -> Sweeping<()> {
        self.world.line(&line).map_err(|_| End::Left("full"))
    }

    fn look(&mut self, at: Moment, who: Option<u32>) -> Sweeping<()> {
        (self.view)(&self.world, at, who).map_err(End::Fault)
    }

    /// Delivers all mail, and looks at each row.
    fn settle(&mut self, who: Option<u32>) -> Sweeping<()> {
        self.look(Moment::Begin, who)?;
        let mut used = 0;
        while self.deliver(&mut used)? {
            self.look(Moment::Row, who)?;
        }
        Ok(())
    }

    /// Delivers the lowest mail. Returns whether there was one.
    fn deliver(&mut self, used: &mut u32) -> Sweeping<bool> {
        let Some(n) = self.world.lowest() else { return Ok(false) };
        if *used == LONG {
            return Err(End::Left("cut off"));
        }
        *used += 1;
        self.world.deliver(n).map_err(|_| End::Left("full")).map(|()| true)
    }

    /// Returns the nodes in the order of their turns; with turns of one tick some may have several.
    fn turns(&mut self) -> Vec<u32> {
        let living = |a: &u32| *a <= 32 && !self.world.crashed.contains(a);
        let mut nodes: Vec<u32> = self.world.actors.keys().copied().filter(living).collect();
        match self.order {
            Order::Up => return nodes,
            Order::Down => nodes.reverse(),
            Order::Mixed => {
                for i in (1..nodes.len()).rev() {
                    nodes.swap(i, self.dice.below(i as u64 + 1) as usize);
                }
            }
        }
        if self.ticks == 1 && self.order == Order::Mixed && self.dice.chance(70) {
            let all = nodes.clone();
            for _ in 0..self.dice.from_to(1, 2 * all.len() as u64) {
                let at = self.dice.below(nodes.len() as u64 + 1) as usize;
                nodes.insert(at, self.dice.pick(&all));
            }
        }
        nodes
    }

    fn sweep(&mut self) -> Sweeping<()> {
        for who in self.turns() {
            for t in 1..=self.ticks {
                self.play(SchedLine::Tick { who })?;
                self.settle(Some(who))?;
                let at = if t == self.ticks { Moment::Turn } else { Moment::Tick };
                self.look(at, Some(who))?;
            }
        }
        self.settle(None)?;
        self.look(Moment::Swept, None)
    }

    /// Lets clients ask again until all are answered. Returns how often.
    fn ask(&mut self, most: usize) -> Sweeping<usize> {
        for k in 0..=most {
            if self.world.answered() {
                return Ok(k);
            }
            if k == most {
                break;
            }
            let clients: Vec<u32> = self.world.actors.keys().copied().filter(|a| *a > 32).collect();
            for who in clients {
                if self.world.has_gone(who) {
                    self.play(SchedLine::Tick { who })?;
                    self.settle(Some(who))?;
                    self.look(Moment::Quiet, Some(who))?;
                }
            }
        }
        Err(End::Fault("unanswered".to_string()))
    }

    /// Lets clients go that were not told to before.
    fn late(&mut self, late: &[u16]) -> Sweeping<()> {
        for client in late {
            self.play(SchedLine::Go { client: *client })?;
            self.settle(None)?;
            self.look(Moment::Quiet, None)?;
            if self.world.crashed.is_empty() && !self.world.answered() {
                return Err(End::Fault("a late client is unanswered".to_string()));
            }
        }
        Ok(())
    }

    fn all(&mut self, s: &Scenario) -> Sweeping<usize> {
        let gone = |w: &World, c: u16| w.has_gone(client_actor(c));
        let mut late = Vec::new();
        for c in s.clients.keys() {
            if !gone(&self.world, *c) && self.dice.chance(40) {
                late.push(*c);
            }
        }
        for client in s.clients.keys().filter(|c| !late.contains(c)) {
            self.play(SchedLine::Go { client: *client })?;
        }
        let mut used = 0;
        while self.deliver(&mut used)? {
            self.look(Moment::Row, None)?;
        }
        self.sweep()?;
        let need = self.ask(6 * s.groups.len() + 2)?;
        self.late(&late)?;
        Ok(need)
    }
}

/// Returns whether each group of the scenario has a majority of members that did not crash.
fn has_majorities(w: &World, s: &Scenario) -> bool {
    let alive = |m: &u16| !w.crashed.contains(&u32::from(*m));
    s.groups.iter().all(|g| {
        let living: Members = g.core.members.iter().copied().filter(alive).collect();
        is_majority(&g.core.members, &living)
    })
}

/// How a run of recovery is made.
#[derive(Clone, Copy)]
pub struct Plan {
    pub dials: Dials,
    /// The ticks of a turn.
    pub ticks: usize,
    pub order: Order,
    pub seed: u64,
}

/// Plays the schedule of a scenario, and then the sweep.
pub fn trial(s: &Scenario, plan: &Plan, view: Viewer) -> End {
    let mut w = World::start(s, &plan.dials, JOURNAL_LIMIT);
    if w.run().is_err() {
        return End::Left("full");
    }
    if !has_majorities(&w, s) {
        return End::Left("no majority");
    }
    let d = Dice::start(plan.seed ^ 77);
    let mut sweep = Sweep { world: w, view, dice: d, ticks: plan.ticks, order: plan.order };
    sweep.all(s).map_or_else(|end| end, End::Answered)
}

//! The rows of a run, one after another, with the node before and after each.

use super::happened;
use super::marks::Marks;
use super::patience::Patience;
use super::queue::Queue;
use super::results::Results;
use crate::decided::Decided;
use crate::mail::*;
use crate::node::Node;
use crate::scenario::*;
use crate::values::*;
use crate::world::*;
use std::collections::BTreeMap;

/// A row of a node, with the mail that it delivers, and the node before and after it.
pub struct Step<'a> {
    pub row: &'a Row,
    pub delivered: Option<&'a Mail>,
    pub before: &'a Node,
    pub after: &'a Node,
}

/// The rows read so far, and what is looked at.
pub struct Checker<'a> {
    rows: &'a [Row],
    /// Where each mail stands, by its number less 1: the row and the place in it.
    places: Vec<(usize, usize)>,
    actors: BTreeMap<u32, Party>,
    pub decided: Decided,
    /// The orders that were told, by number.
    asked: BTreeMap<u32, OrderLine>,
    results: Results,
    queue: Queue,
    patience: Patience,
    pub marks: Marks,
}

impl<'a> Checker<'a> {
    /// Returns the checker before the first of these rows. A coordinator is to give up at its `patience`-th tick.
    pub fn start(scenario: &Scenario, rows: &'a [Row], dials: &Dials, patience: u32) -> Checker<'a> {
        Checker {
            rows,
            places: Vec::new(),
            actors: births(scenario, dials),
            decided: Decided::start(&scenario.groups, true),
            asked: BTreeMap::new(),
            results: Results::default(),
            queue: Queue::default(),
            patience: Patience::start(patience),
            marks: Marks::default(),
        }
    }

    fn mail(&self, number: u32) -> &'a Mail {
        let (row, place) = self.places[number as usize - 1];
        &self.rows[row].sent[place]
    }

    /// Looks at the row with this place among the rows.
    pub fn feed(&mut self, at: usize) {
        let row = &self.rows[at];
        self.marks.row = at as u32 + 1;
        self.marks.count("rows", 1);
        let delivered = match row.event {
            Event::Deliver(number) => Some(self.mail(number)),
            _ => None,
        };
        self.places.extend((0..row.sent.len()).map(|place| (at, place)));
        if let Event::Told(line) = &row.event {
            self.asked.insert(line.number, line.clone());
            self.marks.count("orders", 1);
        }
        self.decided.feed(row, delivered);
        let before = match self.actors.get(&row.who) {
            Some(Party::Node(node)) => Some(node.clone()),
            _ => None,
        };
        self.play(row, delivered);
        let after = match self.actors.get(&row.who) {
            Some(Party::Node(node)) => Some(node),
            _ => None,
        };
        if let (Some(before), Some(after)) = (&before, after) {
            let step = Step { row, delivered, before, after };
            happened::look(&step, &self.asked, &self.decided, &mut self.marks);
            self.results.look(&step, &mut self.marks);
            self.queue.note(&step, &self.decided);
            self.patience.look(&step, &self.decided, &mut self.marks);
        }
        self.queue.look(&self.actors, &self.results, &mut self.marks);
    }

    /// Plays the row again.
    fn play(&mut self, row: &Row, delivered: Option<&Mail>) {
        let input = match &row.event {
            Event::Deliver(_) => Input::Got(delivered.expect("it delivers a mail").clone()),
            Event::Tick => Input::Tick,
            Event::Go => Input::Go,
            Event::Told(line) => Input::Told(line.clone()),
            Event::Crash | Event::Drop(_) | Event::Again(_) => return,
        };
        self.actors.get_mut(&row.who).expect("the actor is there").step(&input);
    }

    /// Looks at the report of the whole run, and returns what was looked at.
    pub fn end(mut self, report: &[String], orders: u32) -> Marks {
        self.results.end(report, orders, &mut self.marks);
        self.marks
    }
}

/// Looks at each row of a run, and at its report.
pub fn check(scenario: &Scenario, world: &World, dials: &Dials, patience: u32) -> Marks {
    let mut checker = Checker::start(scenario, &world.rows, dials, patience);
    for at in 0..world.rows.len() {
        checker.feed(at);
    }
    let report = crate::report::lines(scenario, world, &checker.decided);
    checker.end(&report, scenario.orders() as u32)
}

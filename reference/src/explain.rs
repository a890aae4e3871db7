//! What the rows of a stored journal decided, row by row, in lines of JSON.

use crate::decided::*;
use crate::mail::*;
use crate::text::*;
use crate::values::*;
use std::collections::BTreeMap;

/// What is said of a group's own record where it changes.
#[derive(Clone, PartialEq, Eq)]
struct Record {
    arc: RingArc,
    members: Members,
    succ: Draw,
    pred: Draw,
    lock: Hold,
    gone: Option<Draw>,
}

/// The part that a locked group has in which transaction.
#[derive(Clone, PartialEq, Eq)]
enum Hold {
    Free,
    Coordinating(Draw),
    Promised(Draw),
    Watching(Draw),
}

impl Hold {
    fn of(lock: &Lock) -> Hold {
        match lock {
            Lock::Free => Hold::Free,
            Lock::Coordinating { tx, .. } => Hold::Coordinating(*tx),
            Lock::Promised { tx, .. } => Hold::Promised(*tx),
            Lock::Watching { tx, .. } => Hold::Watching(*tx),
        }
    }

    fn json(&self) -> Json {
        match self {
            Hold::Free => name("Free"),
            Hold::Coordinating(tx) => variant("Coordinating", tx.to_json()),
            Hold::Promised(tx) => variant("Promised", tx.to_json()),
            Hold::Watching(tx) => variant("Watching", tx.to_json()),
        }
    }
}

impl Record {
    fn of(core: &Core) -> Record {
        Record {
            arc: core.arc,
            members: core.members.clone(),
            succ: core.succ.group,
            pred: core.pred.group,
            lock: Hold::of(&core.lock),
            gone: core.gone.as_ref().map(|into| into.group),
        }
    }

    fn json(&self, group: Draw) -> Json {
        fields([
            ("arc", self.arc.to_json()),
            ("gone", self.gone.to_json()),
            ("lock", self.lock.json()),
            ("members", self.members.to_json()),
            ("name", group.to_json()),
            ("pred", self.pred.to_json()),
            ("succ", self.succ.to_json()),
        ])
    }
}

/// What is said of a group of the ring where it changes, by its effective record.
#[derive(Clone, PartialEq, Eq)]
struct Part {
    arc: RingArc,
    succ: Draw,
    pred: Draw,
    pairs: u64,
}

impl Part {
    fn of(base: &Base) -> Part {
        let Base { core, pairs, .. } = base;
        Part { arc: core.arc, succ: core.succ.group, pred: core.pred.group, pairs: pairs.len() as u64 }
    }

    fn json(&self, group: Draw) -> Json {
        fields([
            ("arc", self.arc.to_json()),
            ("name", group.to_json()),
            ("pairs", num(self.pairs)),
            ("pred", self.pred.to_json()),
            ("succ", self.succ.to_json()),
        ])
    }
}

/// What was said last.
#[derive(Default)]
struct Said {
    /// How many groups were born.
    births: usize,
    /// How many entries each log had.
    logs: BTreeMap<Draw, usize>,
    /// How many entries the history had.
    history: usize,
    records: BTreeMap<Draw, Record>,
    parts: BTreeMap<Draw, Part>,
    ring: Vec<Cut>,
}

/// The rows read so far and the lines about them.
struct Explainer {
    decided: Decided,
    said: Said,
    lines: Vec<u8>,
}

impl Explainer {
    fn line(&mut self, kind: &'static str, fact: Json) {
        let row = num(self.decided.rows);
        self.lines.extend_from_slice(fields([(kind, fact), ("row", row)]).text().as_bytes());
        self.lines.push(b'\n');
    }

    /// Writes the lines of the last row, where it decided something.
    fn explain(&mut self) {
        let count = |(name, g): (&Draw, &GroupLog)| (*name, g.log.len());
        let logs: BTreeMap<Draw, usize> = self.decided.groups.iter().map(count).collect();
        if logs == self.said.logs {
            return;
        }
        self.births();
        self.entries();
        self.requests();
        self.records();
        self.parts();
        self.ring();
        self.said.logs = logs;
    }

    fn births(&mut self) {
        let one = |name: &Draw| {
            let members = self.decided.groups[name].members[0].to_json();
            fields([("group", name.to_json()), ("members", members)])
        };
        let facts: Vec<Json> = self.decided.born[self.said.births..].iter().map(one).collect();
        self.said.births += facts.len();
        facts.into_iter().for_each(|fact| self.line("birth", fact));
    }

    fn entries(&mut self) {
        let mut facts = Vec::new();
        for name in &self.decided.born {
            let told = self.said.logs.get(name).copied().unwrap_or(0);
            for (k, entry) in self.decided.groups[name].log.iter().enumerate().skip(told) {
                facts.push(fields([
                    ("command", entry.command.to_json()),
                    ("effect", entry.effect.to_json()),
                    ("group", name.to_json()),
                    ("slot", num(k as u64 + 1)),
                ]));
            }
        }
        facts.into_iter().for_each(|fact| self.line("entry", fact));
    }

    fn requests(&mut self) {
        let one = |e: &Entry| {
            fields([
                ("client", e.client.to_json()),
                ("op", e.op.to_json()),
                ("reply", e.reply.to_json()),
                ("seq", e.seq.to_json()),
            ])
        };
        let facts: Vec<Json> = self.decided.history[self.said.history..].iter().map(one).collect();
        self.said.history += facts.len();
        facts.into_iter().for_each(|fact| self.line("history", fact));
    }

    fn records(&mut self) {
        for name in self.decided.born.clone() {
            let record = Record::of(&self.decided.groups[&name].state.core);
            if self.said.records.get(&name) != Some(&record) {
                self.line("record", record.json(name));
                self.said.records.insert(name, record);
            }
        }
    }

    fn parts(&mut self) {
        let mut parts = BTreeMap::new();
        for Cut { group, .. } in self.decided.ring.clone() {
            let Some(base) = self.decided.effective(group) else { continue };
            let part = Part::of(&base);
            if self.said.parts.get(&group) != Some(&part) {
                self.line("group", part.json(group));
            }
            parts.insert(group, part);
        }
        self.said.parts = parts;
    }

    fn ring(&mut self) {
        if self.decided.ring != self.said.ring {
            let one = |cut: &Cut| Json::List(vec![cut.group.to_json(), cut.arc.to_json()]);
            self.line("ring", list(&self.decided.ring, one));
            self.said.ring = self.decided.ring.clone();
        }
    }
}

/// Returns the lines about the rows of a stored journal.
pub fn lines(stored: &Stored) -> Vec<u8> {
    let decided = Decided::start(&stored.scenario.groups, false);
    let mut e = Explainer { decided, said: Said::default(), lines: Vec::new() };
    e.explain();
    let mut sent: Vec<&Mail> = Vec::new();
    for row in &stored.rows {
        let delivered = match row.event {
            Event::Deliver(number) => (number as usize).checked_sub(1).and_then(|k| sent.get(k)).copied(),
            _ => None,
        };
        e.decided.feed(row, delivered);
        e.explain();
        sent.extend(&row.sent);
    }
    e.lines
}

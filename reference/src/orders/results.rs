//! What is reported of one order in all, and which nodes have put it back.

use super::causes::words;
use super::happened::{put_back, reported};
use super::marks::Marks;
use super::rows::Step;
use crate::values::*;
use std::collections::{BTreeMap, BTreeSet};

/// The results that were reported of each order, and the nodes that put it back into their queue.
#[derive(Default)]
pub struct Results {
    told: BTreeMap<u32, Vec<(ToldResult, u64)>>,
    back: BTreeMap<u32, BTreeSet<u16>>,
}

impl Results {
    /// Returns whether at most one node has put the order back so far.
    pub fn is_single(&self, n: u32) -> bool {
        self.back.get(&n).is_none_or(|nodes| nodes.len() < 2)
    }

    /// Looks at what a row reports.
    pub(super) fn look(&mut self, step: &Step, marks: &mut Marks) {
        for id in step.before.replicas.keys() {
            if let Some(n) = put_back(step, *id).and_then(|c| c.order()).filter(|n| *n > 0) {
                marks.count("orders put back", 1);
                self.back.entry(n).or_default().insert(step.after.me);
            }
        }
        for (n, result) in reported(step.row) {
            self.note(n, result, marks);
        }
    }

    fn note(&mut self, n: u32, result: ToldResult, marks: &mut Marks) {
        marks.count("results", 1);
        let single = self.is_single(n);
        let all = self.told.entry(n).or_default();
        match all.iter_mut().find(|(other, _)| *other == result) {
            Some((_, times)) => *times += 1,
            None => all.push((result, 1)),
        }
        let what = || format!("order {n}: {all:?}");
        let one = all.len() == 1;
        let one_word = all.iter().all(|(other, _)| words(other) == words(&all[0].0));
        marks.look("perhaps one result of an order", one, what);
        marks.look("perhaps one word for an order", one_word, what);
        if single {
            marks.look("one result of an order that at most one node put back", one, what);
        }
    }

    /// Looks at the report of a whole run.
    pub(super) fn end(&self, report: &[String], orders: u32, marks: &mut Marks) {
        for n in 1..=orders {
            let begin = format!("order {n} ");
            let line = report.iter().find_map(|l| l.strip_prefix(&begin)).unwrap_or("no line");
            let told = self.told.get(&n);
            let first = told.map_or("open".to_string(), |all| words(&all[0].0));
            marks.look("the line is the first result", line == first, || format!("order {n}: {line}"));
            let Some(all) = told else { continue };
            let same = all.iter().all(|(result, _)| words(result) == line);
            marks.look("perhaps the line is every result", same, || format!("order {n}: {line}, {all:?}"));
            if self.is_single(n) {
                let name = "the line is every result of an order that at most one node put back";
                marks.look(name, same, || format!("order {n}: {line}, {all:?}"));
            }
            let times: u64 = all.iter().map(|(_, times)| times).sum();
            marks.count("orders with a result", 1);
            marks.count("orders reported more than once", u64::from(times > 1));
            marks.count("orders with two results", u64::from(all.len() > 1));
        }
        marks.count(
            "orders that two nodes put back",
            self.back.values().filter(|b| b.len() > 1).count() as u64,
        );
    }
}

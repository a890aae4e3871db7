//! What many scenarios have shown.

use crate::machine::Effect;
use crate::mail::*;
use crate::scenario::Scenario;
use crate::sound::Checker;
use crate::values::*;
use crate::world::World;
use std::collections::BTreeMap;

/// How many scenarios and rows there were, and how often what came.
#[derive(Default)]
pub struct Seen {
    pub scenarios: u64,
    pub rows: u64,
    pub counts: BTreeMap<String, u64>,
}

impl Seen {
    fn add(&mut self, what: &str, n: u64) {
        *self.counts.entry(what.to_string()).or_default() += n;
    }

    /// Counts what a run has shown.
    pub fn journal(&mut self, w: &World, c: &Checker, s: &Scenario) {
        self.scenarios += 1;
        self.rows += w.rows.len() as u64;
        for entry in c.decided.groups.values().flat_map(|g| &g.log) {
            self.add(&entry_name(&entry.command, &entry.effect), 1);
        }
        for m in w.rows.iter().flat_map(|row| &row.sent) {
            if let Some(name) = mail_name(&m.body) {
                self.add(name, 1);
            }
        }
        self.add("requests", s.requests());
        self.add("answered", w.clients().map(|c| c.replies.len() as u64).sum());
    }
}

fn outcome_name(o: &Outcome) -> &'static str {
    match o {
        Outcome::Abort => "abort",
        Outcome::Merged { .. } => "merged",
        Outcome::Moved { gift: Some(_), .. } => "moved with gift",
        Outcome::Moved { gift: None, .. } => "moved without",
        Outcome::Migrated { .. } => "migrated",
        Outcome::Divided => "divided",
    }
}

fn vote_name(past: &Past) -> String {
    match past {
        Past::Yes => "vote yes".to_string(),
        Past::No(n) => {
            let words = format!("vote no {n:?}");
            words.split(' ').take(3).collect::<Vec<_>>().join(" ")
        }
        Past::Ended => "vote ended".to_string(),
    }
}

fn entry_name(command: &Command, effect: &Effect) -> String {
    let name = match (command, effect) {
        (Command::Finish { .. }, Effect::Decided(o)) => return format!("finish {}", outcome_name(o)),
        (_, Effect::Decided(o)) => return format!("decide {}", outcome_name(o)),
        (_, Effect::Refused(r)) => return format!("entry refused {}", r.code_and_name().1),
        (_, Effect::Voted(v)) => return vote_name(v),
        (Command::Call { .. }, Effect::NoEffect { .. }) => "call parked again",
        (_, Effect::NoEffect { .. }) => "no effect",
        (_, Effect::Done(_)) => "done",
        (_, Effect::Again(_)) => "again",
        (_, Effect::Stale { .. }) => "stale",
        (_, Effect::NotMine { .. }) => "entry not mine",
        (_, Effect::Gone { .. }) => "entry gone",
        (Command::Split { .. }, Effect::Changed) => "split",
        (Command::Join { .. }, _) => "join",
        (Command::Leave { .. }, _) => "leave",
        (Command::Begin { .. }, _) => "begin",
        _ => "other",
    };
    name.to_string()
}

fn mail_name(body: &MailBody) -> Option<&'static str> {
    Some(match body {
        MailBody::Install { .. } => "mail install",
        MailBody::Nack { .. } => "mail nack",
        MailBody::Promise { reports, .. } if !reports.is_empty() => "mail promise with reports",
        MailBody::TxElsewhere { .. } => "mail elsewhere",
        MailBody::TxWatched { .. } => "mail watched",
        _ => return None,
    })
}

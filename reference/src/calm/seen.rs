//! What many calm runs have shown.

use super::quiet::Most;
use crate::mail::*;
use crate::report::result_of;
use crate::values::*;
use std::collections::BTreeMap;

/// How an order of one kind and result ran.
#[derive(Default, Clone, Copy)]
struct Kind {
    count: u64,
    deliveries: u64,
    /// The most deliveries without those by hints, and their seed.
    bare: u64,
    seed: u64,
    /// The most deliveries by hints.
    hops: u64,
}

/// What many runs have shown.
#[derive(Default)]
pub struct Seen {
    pub scenarios: u64,
    pub rows: u64,
    pub orders: u64,
    /// The greatest share of a budget that a line used, and its seed.
    pub share: f64,
    pub share_at: u64,
    pub most: Most,
    kinds: BTreeMap<String, Kind>,
    /// The most answers in one line that turn a client away, and their seed.
    turned_away: u64,
    turned_away_at: u64,
    mails: BTreeMap<&'static str, u64>,
    request_mails: BTreeMap<&'static str, u64>,
    /// The most by which an order raised the potential.
    pub raise: u64,
    /// The rows at which all was checked.
    pub deep: u64,
}

fn name_of(m: &Mail) -> &'static str {
    match &m.body {
        MailBody::Request { .. } => "request",
        MailBody::Answer { answer, .. } => match answer {
            AnswerBody::Value(_) => "value",
            AnswerBody::NotLeader { hint: None } => "not leader, no hint",
            AnswerBody::NotLeader { .. } => "not leader",
            AnswerBody::NotMine { .. } => "not mine",
            AnswerBody::Gone { .. } => "gone",
            AnswerBody::Stale { .. } => "stale",
        },
        MailBody::Prepare { .. } => "prepare",
        MailBody::Promise { reports, .. } if reports.is_empty() => "promise",
        MailBody::Promise { .. } => "promise with reports",
        MailBody::Accept { .. } => "accept",
        MailBody::Accepted { .. } => "accepted",
        MailBody::Nack { .. } => "nack",
        MailBody::Learn { .. } => "learn",
        MailBody::Ask { .. } => "ask",
        MailBody::Install { .. } => "install",
        MailBody::TxPrepare { .. } => "tx prepare",
        MailBody::TxVote { .. } => "tx vote",
        MailBody::TxOutcome { .. } => "tx outcome",
        MailBody::TxElsewhere { hint: None, .. } => "tx elsewhere, no hint",
        MailBody::TxElsewhere { .. } => "tx elsewhere",
        MailBody::TxWatch { .. } => "tx watch",
        MailBody::TxWatched { .. } => "tx watched",
        MailBody::Told { .. } => "told",
    }
}

fn order_name(order: &Order, watched: bool) -> &'static str {
    match order {
        Order::Join { .. } => "join",
        Order::Leave { .. } => "leave",
        Order::Split { .. } if watched => "split watched",
        Order::Split { .. } => "split",
        Order::Merge { .. } if watched => "merge watched",
        Order::Merge { .. } => "merge",
        Order::Repart { .. } => "repart",
        Order::Migrate { .. } => "migrate",
    }
}

fn result_name(result: &ToldResult) -> String {
    match result {
        ToldResult::Done => "done".to_string(),
        ToldResult::Committed => "committed".to_string(),
        ToldResult::Aborted => "aborted".to_string(),
        ToldResult::Refused(r) => format!("refused {}", r.code_and_name().1),
    }
}

/// Counts the mail of rows by its names.
fn mail_names(rows: &[Row]) -> BTreeMap<&'static str, u64> {
    let mut names = BTreeMap::new();
    for m in rows.iter().flat_map(|r| &r.sent) {
        *names.entry(name_of(m)).or_default() += 1;
    }
    names
}

fn add_all(to: &mut BTreeMap<&'static str, u64>, names: &BTreeMap<&'static str, u64>) {
    for (name, n) in names {
        *to.entry(name).or_default() += n;
    }
}

impl Seen {
    /// Counts the rows of an order and of the deliveries behind it.
    pub fn order(&mut self, line: &OrderLine, rows: &[Row], used: u64, seed: u64) -> Result<(), String> {
        self.orders += 1;
        let names = mail_names(rows);
        add_all(&mut self.mails, &names);
        let result = result_of(rows, line.number).ok_or(format!("order {} has no result", line.number))?;
        let order = order_name(&line.order, names.contains_key("tx watch"));
        let elected = if names.contains_key("prepare") { " with election" } else { "" };
        let count = |name| names.get(name).copied().unwrap_or(0);
        let hops = count("tx elsewhere") + count("tx elsewhere, no hint");
        let kind = self.kinds.entry(format!("{order} {}{elected}", result_name(result))).or_default();
        kind.count += 1;
        kind.deliveries = kind.deliveries.max(used);
        if used - 2 * hops > kind.bare {
            (kind.bare, kind.seed) = (used - 2 * hops, seed);
        }
        kind.hops = kind.hops.max(hops);
        Ok(())
    }

    /// Counts the rows of clients that go and of the deliveries behind them.
    pub fn requests(&mut self, rows: &[Row], seed: u64) {
        add_all(&mut self.request_mails, &mail_names(rows));
        let mut by: BTreeMap<u32, u64> = BTreeMap::new();
        let is_value = |m: &Mail| matches!(&m.body, MailBody::Answer { answer: AnswerBody::Value(_), .. });
        for m in rows.iter().flat_map(|r| &r.sent).filter(|m| m.to > 32 && !is_value(m)) {
            *by.entry(m.to).or_default() += 1;
        }
        for n in by.into_values().filter(|n| *n > 0) {
            if n > self.turned_away {
                (self.turned_away, self.turned_away_at) = (n, seed);
            }
        }
    }

    /// Returns the lines of it.
    pub fn lines(&self, faults: u32) -> Vec<String> {
        let mut lines = vec![format!(
            "calm scenarios {} rows {} orders {} faults {faults}; most of a budget {:.4} (seed {}); a client turned \
             away most often {} (seed {}); most raised by an order {}; rows with the potential {}; {:?}",
            self.scenarios,
            self.rows,
            self.orders,
            self.share,
            self.share_at,
            self.turned_away,
            self.turned_away_at,
            self.raise,
            self.deep,
            self.most
        )];
        for (name, k) in &self.kinds {
            lines.push(format!(
                "  {name}: {}, most deliveries {}, without hints {} (seed {}), most by hints {}",
                k.count, k.deliveries, k.bare, k.seed, k.hops
            ));
        }
        lines.push(format!("mails of orders {:?}", self.mails));
        lines.push(format!("mails of requests {:?}", self.request_mails));
        lines
    }
}

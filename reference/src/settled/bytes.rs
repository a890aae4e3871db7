//! The counted bytes of a journal, and numbers of a scenario to compare them with.

use crate::mail::*;
use crate::scenario::*;
use crate::values::*;
use crate::weights::mail_weight;
use std::collections::BTreeMap;

/// The counted bytes of rows: those of rows, requests and replies, and those of what groups hold.
#[derive(Default, Clone, Copy, PartialEq, Eq, Debug)]
pub struct Bytes {
    /// The rows and the mails, with the weight of requests and replies.
    pub light: u128,
    /// The weight of the records that mails carry.
    pub heavy: u128,
    pub mails: u64,
    /// The mails that may carry what a group holds.
    pub laden: u64,
}

fn is_laden_command(c: &Command) -> bool {
    matches!(
        c,
        Command::RecordVote { vote: Vote::Yes(_), .. }
            | Command::Finish { outcome: Outcome::Moved { gift: Some(_), .. }, .. }
    )
}

/// Returns whether a mail may carry what a group holds.
fn is_laden(m: &Mail) -> bool {
    match &m.body {
        MailBody::Install { .. } => true,
        MailBody::TxVote { vote, .. } => matches!(vote, Vote::Yes(_)),
        MailBody::TxOutcome { outcome, .. } => matches!(outcome, Outcome::Moved { gift: Some(_), .. }),
        MailBody::Accept { command, .. } | MailBody::Learn { command, .. } => is_laden_command(command),
        MailBody::Promise { reports, .. } => !reports.is_empty(),
        _ => false,
    }
}

/// Returns the counted bytes of rows.
pub fn bytes_of(rows: &[Row]) -> Bytes {
    let mut all = Bytes { light: 64 * rows.len() as u128, ..Bytes::default() };
    for m in rows.iter().flat_map(|r| &r.sent) {
        let (weight, laden) = (mail_weight(m), is_laden(m));
        all.mails += 1;
        all.laden += u64::from(laden);
        all.light += 256 + if laden { 0 } else { weight };
        all.heavy += if laden { weight } else { 0 };
    }
    all
}

/// The numbers of a scenario from which a bound is computed.
#[derive(Clone, Copy, PartialEq, Eq, Debug)]
pub struct Numbers {
    pub requests: u128,
    pub clients: u128,
    pub groups: u128,
    pub orders: u128,
    /// The greatest weight of a request.
    pub request: u128,
    /// The weight of all pairs and of all entries of clients that there may be at once.
    pub held: u128,
}

fn lengths(op: &Op) -> (usize, usize) {
    match op {
        Op::Get { .. } | Op::Del { .. } => (0, 0),
        Op::Put { value, .. } | Op::Add { value, .. } => (value.0.len(), value.0.len()),
        Op::Cas { expect, value, .. } => (value.0.len(), expect.0.len() + value.0.len()),
    }
}

/// Returns the numbers of a scenario with so many orders.
pub fn numbers_of(s: &Scenario, orders: u64) -> Numbers {
    let ops = || s.clients.values().flatten();
    let mut pairs: BTreeMap<&Key, usize> = BTreeMap::new();
    for op in ops().filter(|op| lengths(op).0 > 0) {
        let longest = pairs.entry(op.key()).or_default();
        *longest = (*longest).max(lengths(op).0);
    }
    let reply = pairs.values().max().copied().unwrap_or(0);
    let asking = s.clients.values().filter(|ops| !ops.is_empty()).count();
    let all: usize = pairs.iter().map(|(key, value)| 32 + key.0.len() + value).sum();
    Numbers {
        requests: u128::from(s.requests()),
        clients: s.clients.len() as u128,
        groups: s.groups.len() as u128,
        orders: u128::from(orders),
        request: ops().map(|op| op.key().0.len() + lengths(op).1).max().unwrap_or(0) as u128,
        held: (all + asking * (32 + reply)) as u128,
    }
}

impl Numbers {
    /// Returns how many mails there may be: 16 (R + N C) (1 + G + N) + 512 N.
    pub fn mails(&self) -> u128 {
        let Numbers { requests, clients, groups, orders, .. } = *self;
        16 * (requests + orders * clients) * (1 + groups + orders) + 512 * orders
    }

    /// Returns the bound without the records that mails carry: 320 bytes and a request for each mail.
    pub fn light(&self) -> u128 {
        self.mails() * (320 + self.request)
    }

    /// Returns a bound of the records that mails carry: 32 for each order, each of what all groups may hold, and of a
    /// quarter of that for each order.
    pub fn heavy(&self) -> u128 {
        let Numbers { orders, held, .. } = *self;
        8 * orders * (4 + orders) * held
    }

    /// Returns the whole bound of the counted bytes; a client that goes counts a row even where it asks nothing.
    pub fn bound(&self) -> u128 {
        64 * self.clients + self.light() + self.heavy()
    }
}

//! The potential: what mail, replicas and clients still owe.

use crate::client::Client;
use crate::mail::*;
use crate::replica::*;
use crate::scenario::Scenario;
use crate::world::*;

/// What a request owes that is not sent.
pub const REQUEST: u64 = 29;
/// What a queued call owes.
const CALL: u64 = 28;
/// What a command in flight or ready owes.
const FLIGHT: u64 = 10;

/// Returns what a mail still owes; none of a mail that no plain run has.
fn mail_owes(m: &Mail) -> Option<u64> {
    Some(match &m.body {
        MailBody::Request { .. } => REQUEST,
        MailBody::Answer { answer: AnswerBody::NotMine { .. }, .. } => CALL,
        MailBody::Answer { answer: AnswerBody::Value(_), .. } => 1,
        MailBody::Accept { .. } => 2,
        MailBody::Accepted { .. } => 1,
        MailBody::Learn { .. } => 1,
        _ => return None,
    })
}

/// Returns what a replica owes: for queued calls, for commands in flight or ready, and, so that slots stay few, for
/// the executed ones at the leader.
fn replica_owes(r: &Replica) -> u64 {
    let calls = CALL * r.calls.len() as u64;
    match &r.leader {
        None => calls,
        Some(l) => calls + FLIGHT * (l.flights.len() + l.ready.len()) as u64 + u64::from(r.next - 1),
    }
}

/// Returns how many requests a client has begun.
pub fn begun(c: &Client) -> u64 {
    c.replies.len() as u64 + u64::from(c.waiting.is_some())
}

fn client_owes(c: &Client, groups: u64) -> u64 {
    let unsent = c.requests.len() as u64 - begun(c);
    let unknown = groups.checked_sub(c.routes.len() as u64).expect("no more routes than groups");
    REQUEST * unsent + if c.replies.len() < c.requests.len() { 2 * unknown } else { 0 }
}

/// Returns what all actors and all pending mail owe.
pub fn owed(s: &Scenario, w: &World) -> Result<u64, String> {
    let groups = s.groups.len() as u64;
    let replicas: u64 = w.nodes().flat_map(|n| n.replicas.values()).map(replica_owes).sum();
    let clients: u64 = w.clients().map(|c| client_owes(c, groups)).sum();
    let mut sum = replicas + clients;
    for number in w.spots(None) {
        let m = w.mail(number).expect("sent");
        sum += mail_owes(m).ok_or(format!("mail kind {:?}", m.body))?;
    }
    Ok(sum)
}

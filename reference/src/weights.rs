//! The bytes that a row counts, by the keys and values that its mail carries.

use crate::mail::*;
use crate::values::*;

fn op_weight(op: &Op) -> u128 {
    let n = match op {
        Op::Get { key } | Op::Del { key } => key.0.len(),
        Op::Put { key, value } | Op::Add { key, value } => key.0.len() + value.0.len(),
        Op::Cas { key, expect, value } => key.0.len() + expect.0.len() + value.0.len(),
    };
    n as u128
}

fn reply_weight(reply: &Reply) -> u128 {
    reply.old.as_ref().map_or(0, |v| v.0.len() as u128)
}

fn pairs_weight(pairs: &Pairs) -> u128 {
    pairs.iter().map(|(k, v)| 32 + k.0.len() as u128 + v.0.len() as u128).sum()
}

fn seen_weight(seen: &SeenList) -> u128 {
    seen.values().map(|(_, r)| 32 + reply_weight(r)).sum()
}

fn frozen_weight(f: &Frozen) -> u128 {
    pairs_weight(&f.pairs) + seen_weight(&f.clients)
}

fn vote_weight(v: &Vote) -> u128 {
    match v {
        Vote::Yes(f) => frozen_weight(f),
        Vote::No(_) => 0,
    }
}

fn outcome_weight(o: &Outcome) -> u128 {
    match o {
        Outcome::Moved { gift: Some(g), .. } => pairs_weight(&g.pairs) + seen_weight(&g.clients),
        _ => 0,
    }
}

fn command_weight(c: &Command) -> u128 {
    match c {
        Command::Call { op, .. } => op_weight(op),
        Command::RecordVote { vote, .. } => vote_weight(vote),
        Command::Finish { outcome, .. } => outcome_weight(outcome),
        _ => 0,
    }
}

fn base_weight(b: &Base) -> u128 {
    let heard = match &b.core.lock {
        Lock::Coordinating { heard: Some(h), .. } => frozen_weight(&h.frozen),
        _ => 0,
    };
    let decided: u128 = b.core.decided.iter().map(|(_, o)| outcome_weight(o)).sum();
    pairs_weight(&b.pairs) + seen_weight(&b.clients) + decided + heard
}

/// Returns the bytes that a mail counts by what it carries.
pub fn mail_weight(m: &Mail) -> u128 {
    match &m.body {
        MailBody::Request { op, .. } => op_weight(op),
        MailBody::Answer { answer: AnswerBody::Value(r), .. } => reply_weight(r),
        MailBody::Promise { reports, .. } => reports.iter().map(|r| 32 + command_weight(&r.value)).sum(),
        MailBody::Accept { command, .. } | MailBody::Learn { command, .. } => command_weight(command),
        MailBody::Install { base, .. } => base_weight(base),
        MailBody::TxVote { vote, .. } => vote_weight(vote),
        MailBody::TxOutcome { outcome, .. } => outcome_weight(outcome),
        _ => 0,
    }
}

/// Returns the bytes that a row with these mails counts.
pub fn row_bytes(sent: &[Mail]) -> u128 {
    64 + sent.iter().map(|m| 256 + mail_weight(m)).sum::<u128>()
}

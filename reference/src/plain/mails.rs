//! Which mail there is in a plain run.

use crate::mail::*;
use crate::scenario::Scenario;
use crate::values::*;

/// Returns whether a command is a call of the scenario.
fn is_asked(s: &Scenario, c: &Command) -> bool {
    match c {
        Command::Call { client, seq, op } => {
            s.clients.get(client).is_some_and(|ops| *seq >= 1 && ops.get(*seq as usize - 1) == Some(op))
        }
        _ => false,
    }
}

/// Returns whether a command is a call of the scenario whose key the group's arc holds.
pub fn own_call(s: &Scenario, b: &Base, c: &Command) -> bool {
    is_asked(s, c) && matches!(c, Command::Call { op, .. } if b.core.arc.holds(op.key().pos()))
}

fn is_leader(b: &Base, actor: u32) -> bool {
    u32::from(b.core.first) == actor
}

fn is_member(b: &Base, actor: u32) -> bool {
    b.core.members.iter().any(|x| u32::from(*x) == actor)
}

/// Returns whether an answer is a value, or names the successor to one who asked the wrong group.
fn plain_answer(s: &Scenario, b: &Base, m: &Mail, seq: u32, answer: &AnswerBody) -> bool {
    let client = m.to.wrapping_sub(32) as u16;
    let op = s.clients.get(&client).and_then(|o| o.get((seq as usize).wrapping_sub(1)));
    is_leader(b, m.from)
        && match (op, answer) {
            (Some(_), AnswerBody::Value(_)) => true,
            (Some(op), AnswerBody::NotMine { arc, succ }) => {
                *arc == b.core.arc && *succ == b.core.succ && !b.core.arc.holds(op.key().pos())
            }
            _ => false,
        }
}

/// Returns whether a plain run may have this mail of a group.
fn plain_body(s: &Scenario, b: &Base, m: &Mail) -> bool {
    match &m.body {
        MailBody::Request { client, seq, op, .. } => {
            let call = Command::Call { client: *client, seq: *seq, op: op.clone() };
            m.from == client_actor(*client) && is_leader(b, m.to) && is_asked(s, &call)
        }
        MailBody::Answer { seq, answer, .. } => plain_answer(s, b, m, *seq, answer),
        MailBody::Accept { ballot, slot, command, .. } => {
            let sent = is_leader(b, m.from) && is_member(b, m.to);
            sent && *ballot == b.core.first_ballot() && *slot >= 1 && own_call(s, b, command)
        }
        MailBody::Accepted { ballot, slot, .. } => {
            let sent = is_leader(b, m.to) && is_member(b, m.from);
            sent && *ballot == b.core.first_ballot() && *slot >= 1
        }
        MailBody::Learn { slot, command, .. } => {
            let sent = is_leader(b, m.from) && m.to != m.from && is_member(b, m.to);
            sent && *slot >= 1 && own_call(s, b, command)
        }
        _ => false,
    }
}

/// Returns whether a plain run may have this mail.
pub fn plain_mail(s: &Scenario, m: &Mail) -> bool {
    match &m.body {
        MailBody::Request { group, .. }
        | MailBody::Answer { group, .. }
        | MailBody::Accept { group, .. }
        | MailBody::Accepted { group, .. }
        | MailBody::Learn { group, .. } => s.group_at(*group).is_some_and(|b| plain_body(s, b, m)),
        _ => false,
    }
}

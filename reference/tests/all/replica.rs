//! One replica: promises, votes and old slots.

use reference::mail::*;
use reference::replica::*;
use reference::scenario::group_records;
use reference::values::*;

fn replica(me: u16, nodes: &[u16]) -> Replica {
    let base = group_records(&[(0, nodes.iter().copied().collect())]).remove(0);
    Replica::born(&Dials { unit: 2, ..Dials::RULES }, me, base)
}

fn ballot(round: u32, node: u16) -> Ballot {
    Ballot { round, node }
}

#[test]
fn a_replica_promises_only_greater_ballots() {
    let (mut r, mut out) = (replica(2, &[1, 2, 3]), Out::default());
    r.prepare(3, ballot(2, 3), 1, &mut out);
    r.prepare(1, ballot(2, 1), 1, &mut out);
    let bodies: Vec<&MailBody> = out.mails.iter().map(|m| &m.body).collect();
    assert!(matches!(bodies[0], MailBody::Promise { reports, .. } if reports.is_empty()));
    assert!(matches!(bodies[1], MailBody::Nack { promised, .. } if *promised == ballot(2, 3)));
    assert_eq!(r.hint, Some(3));
}

#[test]
fn a_promise_reports_what_was_accepted() {
    let (mut r, mut out) = (replica(2, &[1, 2, 3]), Out::default());
    r.accept(1, ballot(1, 1), 1, Command::Noop, &mut out);
    r.prepare(3, ballot(2, 3), 1, &mut out);
    let MailBody::Promise { reports, .. } = &out.mails[1].body else { panic!("a promise") };
    assert_eq!(reports[..], [Report { slot: 1, ballot: ballot(1, 1), value: Command::Noop }]);
}

#[test]
fn a_leader_of_one_executes_at_its_own_vote() {
    let (mut r, mut out) = (replica(1, &[1]), Out::default());
    let op = Op::Get { key: Key(b"a".to_vec()) };
    r.request(client_actor(1), 1, 1, op, &mut out);
    assert!(matches!(out.mails[0].body, MailBody::Accept { slot: 1, .. }));
    r.accepted(1, ballot(1, 1), 1, &mut out);
    assert_eq!(r.next, 2);
    assert!(matches!(&out.mails[1].body, MailBody::Answer { answer: AnswerBody::Value(_), .. }));
}

#[test]
fn old_slots_are_dropped_in_steps() {
    let (mut r, mut out) = (replica(2, &[1, 2]), Out::default());
    for slot in 1..=4 {
        r.accept(1, ballot(1, 1), slot, Command::Noop, &mut out);
        r.learn(1, slot, Command::Noop, &mut out);
    }
    assert_eq!((r.next, r.acceptor.floor), (5, 2));
    assert_eq!(r.log.keys().copied().collect::<Vec<u32>>(), [3, 4]);
    let mut out = Out::default();
    r.ask(1, 1, &mut out);
    assert!(matches!(out.mails[0].body, MailBody::Install { slot: 4, .. }));
}

#[test]
fn a_leader_stops_at_a_greater_ballot() {
    let (mut r, mut out) = (replica(1, &[1, 2]), Out::default());
    let op = Op::Get { key: Key(b"a".to_vec()) };
    r.request(client_actor(1), 1, 1, op, &mut out);
    let mut out = Out::default();
    r.nack(ballot(3, 2), &mut out);
    assert!(!r.running());
    let answer = &out.mails[0].body;
    assert!(matches!(answer, MailBody::Answer { answer: AnswerBody::NotLeader { hint: Some(2) }, .. }));
}

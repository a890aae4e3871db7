//! The group machine, one command at a time.

use reference::machine::*;
use reference::scenario::group_records;
use reference::values::*;

fn members(nodes: &[u16]) -> Members {
    nodes.iter().copied().collect()
}

fn group(count: u32) -> Draw {
    Draw { node: 0, count }
}

fn put(key: &str, text: &str) -> Op {
    Op::Put { key: key_of(key), value: value(text.as_bytes()).expect("a value") }
}

fn key_of(text: &str) -> Key {
    key(text.as_bytes()).expect("a key")
}

/// A group alone on the ring.
fn alone() -> Base {
    group_records(&[(0, members(&[1, 2, 3]))]).remove(0)
}

/// Two groups that share the ring at the position of `m`.
fn two() -> Vec<Base> {
    group_records(&[(0, members(&[1, 2])), (key_of("m").pos(), members(&[3]))])
}

const TX: Draw = Draw { node: 1, count: 1 };

fn merge() -> Command {
    Command::Begin { tx: TX, body: Body::Merge, order: 1 }
}

fn offer_of(base: &Base, body: Body) -> Offer {
    let core = &base.core;
    Offer { coord: core.id, part: core.succ.group, arc: core.arc, members: core.members.clone(), body, by: 1 }
}

#[test]
fn a_call_is_executed_once() {
    let mut base = alone();
    let call = Command::Call { client: 4, seq: 1, op: put("a", "x") };
    assert_eq!(base.apply(&call).effect, Effect::Done(Reply { old: None }));
    assert_eq!(base.apply(&call).effect, Effect::Again(Reply { old: None }));
    let later = Command::Call { client: 4, seq: 2, op: put("a", "y") };
    let old = value(b"x");
    assert_eq!(base.apply(&later).effect, Effect::Done(Reply { old }));
    assert_eq!(base.apply(&call).effect, Effect::Stale { last: 2 });
    assert_eq!(base.pairs[&key_of("a")], value(b"y").expect("a value"));
}

#[test]
fn conditional_writes_look_at_the_old_value() {
    let mut map = Pairs::new();
    let (x, y) = (Value(b"x".to_vec()), Value(b"y".to_vec()));
    let add = |v: &Value| Op::Add { key: key_of("a"), value: v.clone() };
    let cas = |e: &Value, v: &Value| Op::Cas { key: key_of("a"), expect: e.clone(), value: v.clone() };
    assert_eq!(apply_op(&mut map, &cas(&x, &y)).old, None);
    assert!(map.is_empty());
    assert_eq!(apply_op(&mut map, &add(&x)).old, None);
    assert_eq!(apply_op(&mut map, &add(&y)).old, Some(x.clone()));
    assert_eq!(apply_op(&mut map, &cas(&y, &y)).old, Some(x.clone()));
    assert_eq!(apply_op(&mut map, &cas(&x, &y)).old, Some(x));
    assert_eq!(map[&key_of("a")], y);
}

#[test]
fn a_key_of_another_group_is_not_mine() {
    let mut base = two().remove(0);
    let call = Command::Call { client: 1, seq: 1, op: put("z", "x") };
    let (arc, succ) = (base.core.arc, base.core.succ.clone());
    assert_eq!(base.apply(&call).effect, Effect::NotMine { arc, succ });
}

#[test]
fn a_lone_group_splits_at_once() {
    let mut base = alone();
    let child = Draw { node: 1, count: 1 };
    let split = Command::Split { at: 1 << 31, child, order: 1 };
    let theirs = base.child_of(&split).expect("a child");
    assert_eq!(base.apply(&split).effect, Effect::Changed);
    assert_eq!(base.core.members, members(&[1, 2]));
    assert_eq!(base.core.arc, RingArc { lo: 0, len: 1 << 31 });
    assert_eq!((theirs.core.id, theirs.core.first), (child, 3));
    assert_eq!(theirs.core.arc, RingArc { lo: 1 << 31, len: 1 << 31 });
    for link in [&base.core.succ, &base.core.pred] {
        assert_eq!((link.group, &link.members), (child, &members(&[3])));
    }
    assert_eq!((theirs.core.succ.group, theirs.core.pred.group), (group(1), group(1)));
    assert_eq!(base.apply(&split).effect, Effect::NoEffect { tx: child });
}

#[test]
fn orders_are_refused_by_the_first_cause() {
    let core = alone().core;
    let split = |at| Command::Split { at, child: TX, order: 1 };
    assert_eq!(check(&core, &merge()), Err(OrderRefusal::NoNeighbour));
    assert_eq!(check(&core, &split(0)), Err(OrderRefusal::BadBoundary));
    assert_eq!(check(&core, &split(1)), Ok(()));
    let leave = |node| Command::Leave { node, order: 1 };
    assert_eq!(check(&core, &leave(4)), Err(OrderRefusal::NotMember));
    assert_eq!(check(&core, &Command::Join { node: 3, order: 1 }), Err(OrderRefusal::IsMember));
    let lone = &two()[1].core;
    assert_eq!(check(lone, &leave(3)), Err(OrderRefusal::LastMember));
    let locked = Core { lock: Lock::Promised { tx: TX, offer: offer_of(&two()[0], Body::Merge) }, ..core };
    assert_eq!(check(&locked, &split(0)), Err(OrderRefusal::InTransaction { tx: TX }));
}

#[test]
fn two_groups_merge() {
    let mut both = two();
    let (mut part, mut coord) = (both.remove(1), both.remove(0));
    part.apply(&Command::Call { client: 1, seq: 1, op: put("z", "x") });
    assert_eq!(coord.apply(&merge()).effect, Effect::Changed);
    let prepared = Command::Prepared { tx: TX, offer: offer_of(&coord, Body::Merge) };
    assert_eq!(part.apply(&prepared).effect, Effect::Voted(Past::Yes));
    let vote = Command::RecordVote { tx: TX, vote: Vote::Yes(part.frozen()), by: 3 };
    let Effect::Decided(outcome) = coord.apply(&vote).effect else { panic!("it decides") };
    assert_eq!(coord.core.members, members(&[1, 2, 3]));
    assert_eq!(coord.core.arc.len, SPACE);
    assert_eq!((coord.core.succ.group, coord.core.pred.group), (group(1), group(1)));
    assert!(coord.pairs.contains_key(&key_of("z")));
    let finish = Command::Finish { tx: TX, outcome: outcome.clone() };
    assert_eq!(part.apply(&finish).effect, Effect::Decided(outcome));
    assert!(part.core.gone.is_some() && part.pairs.is_empty());
    assert_eq!(part.apply(&finish).effect, Effect::NoEffect { tx: TX });
}

#[test]
fn a_locked_group_votes_no_and_serves_nobody() {
    let mut base = two().remove(0);
    base.apply(&merge());
    let call = Command::Call { client: 1, seq: 1, op: put("a", "x") };
    assert_eq!(base.apply(&call).effect, Effect::NoEffect { tx: TX });
    let other = offer_of(&two()[1], Body::Merge);
    assert_eq!(vote(&base.core, &other), Err(No::Busy { tx: TX }));
    assert_eq!(base.apply(&Command::GiveUp { tx: TX }).effect, Effect::Decided(Outcome::Abort));
    assert_eq!(vote(&base.core, &other), Ok(()));
}

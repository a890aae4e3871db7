//! What is looked at of results of orders and of GiveUps: runs where it holds, and rows that were changed.

use reference::mail::*;
use reference::orders::*;
use reference::scenario::*;
use reference::values::*;
use reference::world::*;

const MERGE: &str = "scatter 1\nnodes 4\ngroup 0 1 2\ngroup 1000000 3\ngroup 2000000 4\n\
    order 1 join 3 0.1\nsettle 100\norder 1 merge 0.1\nsettle 100\norder 3 repart 0.2 9\norder 1 split 0.1 500\n\
    settle 100\norder 1 leave 4 0.1\norder 2 leave 1 0.1\n";

const WAITING: &str =
    "scatter 1\nnodes 2\ngroup 0 1\ngroup 1000000 2\norder 1 merge 0.1\ncrash 2\nsettle 9\n\
    tick n1\ntick n1\ntick n1\ntick n1\ntick n1\ntick n1\ntick n1\ntick n1\nsettle 9\n";

/// Reads a scenario.
fn scenario(text: &str) -> Scenario {
    read_scenario(text.as_bytes()).unwrap_or_else(|bad| panic!("{bad}"))
}

/// Plays a scenario, and looks at its rows after a change.
fn marks(text: &str, dials: &Dials, patience: u32, change: impl Fn(&mut Vec<Row>)) -> Marks {
    let s = scenario(text);
    let mut world = World::start(&s, dials, JOURNAL_LIMIT);
    assert!(world.run().is_ok());
    change(&mut world.rows);
    check(&s, &world, dials, patience)
}

/// Returns what is broken after the first result with this number has become another one.
fn changed(n: u32, other: ToldResult) -> Vec<&'static str> {
    let change = |rows: &mut Vec<Row>| {
        let mut all = rows.iter_mut().flat_map(|row| &mut row.sent);
        let mail = all.find(|m| matches!(&m.body, MailBody::Told { order, .. } if *order == n));
        mail.expect("it is reported").body = MailBody::Told { order: n, result: other.clone() };
    };
    marks(MERGE, &Dials::RULES, 8, change).broken()
}

#[test]
fn each_result_has_its_cause() {
    let m = marks(MERGE, &Dials::RULES, 8, |_| {});
    assert_eq!(m.broken(), Vec::<&str>::new());
    assert!(m.faults.is_empty());
    assert_eq!(m.counts["orders"], 6);
    assert_eq!(m.counts["orders with a result"], 6);
    assert!(m.looked["done"] > 1 && m.looked["committed"] > 0);
    assert_eq!(m.counts["refused 6 not-member when it is told"], 1);
    assert_eq!(m.counts["refused 1 not-leader when it is told"], 2);
}

#[test]
fn another_result_is_found() {
    let not_leader = ToldResult::Refused(OrderRefusal::NotLeader { hint: None });
    assert!(changed(1, ToldResult::Committed).contains(&"committed"));
    assert!(changed(1, not_leader.clone()).contains(&"refused"));
    assert!(changed(2, ToldResult::Aborted).contains(&"aborted"));
    assert!(changed(2, ToldResult::Done).contains(&"done"));
    assert!(changed(5, not_leader).contains(&"refused"));
    assert!(changed(5, ToldResult::Refused(OrderRefusal::LastMember)).contains(&"reports"));
}

#[test]
fn a_lost_report_and_a_strange_one_are_found() {
    let lost = marks(MERGE, &Dials::RULES, 8, |rows| {
        let told = |m: &&mut Mail| matches!(m.body, MailBody::Told { .. });
        let nack =
            MailBody::Nack { group: Draw { node: 0, count: 1 }, promised: Ballot { round: 1, node: 1 } };
        rows.iter_mut().flat_map(|row| &mut row.sent).filter(told).for_each(|m| m.body = nack.clone());
    });
    assert_eq!(lost.broken(), ["reports"]);
    let strange = marks(MERGE, &Dials::RULES, 8, |rows| {
        let body = MailBody::Told { order: 77, result: ToldResult::Done };
        rows.last_mut().expect("a row").sent.push(Mail { from: 1, to: DESK, body });
    });
    assert!(strange.broken().contains(&"asked"));
}

#[test]
fn a_coordinator_gives_up_at_its_eighth_tick() {
    let m = marks(WAITING, &Dials::RULES, 8, |_| {});
    assert!(m.faults.is_empty());
    assert_eq!(m.counts["GiveUps put at tick 8"], 1);
    assert_eq!(m.counts["ticks of coordinators"], 8);
    assert_eq!(m.looked["aborted"], 1);
}

#[test]
fn a_coordinator_that_gives_up_early_is_found() {
    for early in [1, 7] {
        let m = marks(WAITING, &Dials { patience: early, ..Dials::RULES }, 8, |_| {});
        assert!(m.broken().contains(&"a GiveUp was first put at the last tick of patience"));
        assert!(m.broken().contains(&"put at a tick: at the last tick of patience"));
    }
}

#[test]
fn the_first_cause_counts() {
    let s = scenario("scatter 1\nnodes 9\ngroup 0 1\n");
    let mut core = s.groups[0].core.clone();
    let draw = Draw { node: 1, count: 1 };
    let split = Command::Split { at: 0, child: draw, order: 1 };
    assert_eq!(first_cause(&core, &split), Some(OrderRefusal::BadBoundary));
    let leave = Command::Leave { node: 2, order: 1 };
    assert_eq!(first_cause(&core, &leave), Some(OrderRefusal::NotMember));
    let merge = Command::Begin { tx: draw, body: Body::Merge, order: 1 };
    assert_eq!(first_cause(&core, &merge), Some(OrderRefusal::NoNeighbour));
    let join = |node| Command::Join { node, order: 1 };
    assert_eq!(first_cause(&core, &join(2)), None);
    core.members = (1..=9).collect();
    assert_eq!(first_cause(&core, &join(2)), Some(OrderRefusal::IsMember));
    assert_eq!(first_cause(&core, &join(10)), Some(OrderRefusal::TooManyMembers { n: 10 }));
    core.lock = Lock::Coordinating { tx: draw, body: Body::Merge, order: 1, heard: None };
    assert_eq!(first_cause(&core, &join(2)), Some(OrderRefusal::InTransaction { tx: draw }));
    core.gone = Some(Route { group: draw, lo: 0, members: core.members.clone() });
    let gone = OrderRefusal::NotLeader { hint: None };
    assert_eq!(refused_at_entry(&core, &join(2)), Some(gone));
}

/// A scenario in the making, whose mail is found by what it says.
struct Script<'a> {
    world: World<'a>,
    lines: Vec<SchedLine>,
    orders: u32,
}

impl Script<'_> {
    /// Plays a line.
    fn play(&mut self, line: SchedLine) {
        assert!(self.world.line(&line).is_ok());
        self.lines.push(line);
    }

    /// Lets a node tick.
    fn tick(&mut self, who: u32) {
        self.play(SchedLine::Tick { who });
    }

    /// Tells a node an order.
    fn tell(&mut self, node: u16, order: Order) {
        self.orders += 1;
        self.play(SchedLine::Told { node, line: OrderLine { number: self.orders, order } });
    }

    /// Delivers the last pending mail of such a kind to each of these nodes in turn.
    fn give(&mut self, to: &[u32], is: impl Fn(&MailBody) -> bool) {
        for who in to {
            let spots = self.world.spots(Some(*who));
            let at = spots.iter().rposition(|n| is(&self.world.mail(*n).expect("it was sent").body));
            let k = at.unwrap_or_else(|| panic!("line {}: no such mail to n{who}", self.lines.len())) + 1;
            self.play(SchedLine::Deliver { who: *who, k: k as u32 });
        }
    }

    /// Delivers the last pending Accept, of this slot and by this node, to each of these nodes.
    fn accept(&mut self, to: &[u32], by: u16, at: u32) {
        self.give(
            to,
            |b| matches!(b, MailBody::Accept { ballot, slot, .. } if ballot.node == by && *slot == at),
        );
    }

    /// Delivers so many votes to a node.
    fn votes(&mut self, who: u32, count: usize, at: u32) {
        let to = vec![who; count];
        self.give(&to, |b| matches!(b, MailBody::Accepted { slot, .. } if *slot == at));
    }

    /// Delivers the last pending Learn of this slot to each of these nodes.
    fn learn(&mut self, to: &[u32], at: u32) {
        self.give(to, |b| matches!(b, MailBody::Learn { slot, .. } if *slot == at));
    }

    /// Lets a node tick, and elects it by the promises of these nodes.
    fn elect(&mut self, who: u32, by: &[u32]) {
        self.tick(who);
        self.give(by, |b| matches!(b, MailBody::Prepare { ballot, .. } if u32::from(ballot.node) == who));
        self.give(&vec![who; by.len()], |b| matches!(b, MailBody::Promise { .. }));
    }
}

/// Two leaders have an order in flight at a slot that a third one gives away, and both put it back: it is carried
/// out from the queue of one, and refused from that of the other.
#[test]
fn two_nodes_that_put_an_order_back_may_report_two_results() {
    let head = scenario("scatter 1\nnodes 6\ngroup 0 1 2 3 4 5\ngroup 1000000 6\ngroup 2000000 6\n");
    let group = Draw { node: 0, count: 1 };
    let last = Draw { node: 0, count: 3 };
    let world = World::start(&head, &Dials::RULES, JOURNAL_LIMIT);
    let mut s = Script { world, lines: Vec::new(), orders: 0 };
    let is_offer = |b: &MailBody| matches!(b, MailBody::TxPrepare { .. });
    // node 1 has order 1 in flight at slot 1, and node 2, which has accepted it, is elected and has it there too
    s.tell(1, Order::Leave { node: 5, group });
    s.accept(&[2], 1, 1);
    s.elect(2, &[2, 3, 4]);
    // node 2 is asked for a vote, which waits behind the order
    s.tell(6, Order::Repart { group: last, at: 1_500_000 });
    s.accept(&[6], 6, 1);
    s.votes(6, 1, 1);
    s.tick(6);
    s.give(&[2], is_offer);
    // node 3 is elected by nodes that know nothing of order 1, and slot 1 becomes that of order 3
    s.elect(3, &[3, 4, 5]);
    s.tell(3, Order::Join { node: 6, group });
    s.accept(&[3, 4, 5], 3, 1);
    s.votes(3, 3, 1);
    // both put order 1 back: node 1 offers it at slot 2, where node 2 offers its vote
    s.learn(&[1, 2, 4], 1);
    s.accept(&[1], 1, 2);
    // node 4 is elected, and has to offer order 1 at slot 2: it is done
    s.elect(4, &[1, 4, 5]);
    s.accept(&[1, 4, 5], 4, 2);
    s.votes(4, 3, 2);
    // node 2 executes it too, and has it in its queue
    s.learn(&[2, 1], 2);
    // the vote, a No, is decided at slot 3, and node 2 offers order 1 at slot 4
    s.give(&[4], is_offer);
    s.accept(&[1, 4, 5], 4, 3);
    s.votes(4, 3, 3);
    s.learn(&[2, 1], 3);
    s.accept(&[2], 2, 4);
    // node 1 is elected by node 2, and has to offer order 1 at slot 4: it is refused
    s.elect(1, &[1, 2, 3]);
    s.accept(&[1, 2, 3], 1, 4);
    s.votes(1, 3, 4);

    let made = Scenario { lines: s.lines, ..head.clone() };
    println!("{}", text(&made));
    let m = check(&made, &s.world, &Dials::RULES, 8);
    assert_eq!(m.broken(), Vec::<&str>::new());
    assert_eq!(m.counts["orders that two nodes put back"], 1);
    assert_eq!(m.counts["refused 6 not-member at its entry"], 1);
    assert!(m.faults["perhaps one result of an order"].what.contains("[(Done, "));
    assert!(m.faults.contains_key("perhaps queued: at no decided slot"));
    assert!(m.faults.contains_key("perhaps the line is every result"));
}

#[test]
fn random_scenarios_are_looked_at() {
    let (holds, lines) = orders(1, 20);
    assert!(holds, "{}", lines.join("\n"));
}

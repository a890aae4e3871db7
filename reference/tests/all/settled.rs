//! Forms of scenarios, how orders end, which nodes may crash, and counted bytes.

use reference::scenario::*;
use reference::settled::*;
use reference::values::*;
use reference::world::*;
use std::collections::BTreeSet;

const HEAD: &str = "scatter 1\nnodes 4\ngroup 0 1 2 3\ngroup 1700000000 4\nclient 1\nput a x\nget a\nend\nclient 2\nget z\nend\n";

fn scenario(lines: &str) -> Scenario {
    read_scenario(format!("{HEAD}{lines}").as_bytes()).expect("it is a scenario")
}

fn lines(text: &str) -> Vec<SchedLine> {
    scenario(text).lines
}

#[test]
fn plain_form_has_starts_and_deliveries() {
    assert!(is_plain(&lines("go 1\ndeliver n1 1\nsettle 9\nfree 3 2\ngo 2\n")));
    assert!(!is_plain(&lines("go 1\ndeliver n1 2\n")));
    assert!(!is_plain(&lines("tick n1\n")));
    assert!(!is_plain(&lines("order 1 merge 0.1\nsettle 9\n")));
}

#[test]
fn calm_form_has_orders_apart() {
    assert!(is_calm(&lines("go 1\ngo 2\nsettle 9\norder 1 merge 0.1\ndeliver n1 1\nfree 9 1\ngo 1\n")));
    assert!(!is_calm(&lines("order 1 merge 0.1\ndeliver n1 1\n")));
    assert!(!is_calm(&lines("order 1 merge 0.1\ndeliver n1 1\norder 1 merge 0.1\nsettle 9\n")));
    assert!(!is_calm(&lines("go 1\ndeliver n1 1\norder 1 merge 0.1\nsettle 9\n")));
    assert!(!is_calm(&lines("order 1 merge 0.1\ngo 1\nsettle 9\n")));
    assert!(!is_calm(&lines("crash 2\n")));
}

#[test]
fn clients_are_served_before_the_last_line_that_delivers() {
    assert_eq!(served(&lines("go 1\nsettle 9\ngo 2\ndeliver n1 1\n")), BTreeSet::from([1]));
    assert_eq!(served(&lines("go 1\ngo 2\nfree 9 1\n")), BTreeSet::from([1, 2]));
    assert!(served(&lines("settle 9\ngo 1\n")).is_empty());
    assert!(served(&lines("go 1\n")).is_empty());
}

#[test]
fn budgets_are_those_of_the_manual() {
    let s = scenario("");
    assert_eq!(budget_of(&s, 0), 3 * (32 + 4 * 2));
    assert_eq!(budget_of(&s, 2), (3 + 2 * 2) * (32 + 8 * 4) + 512 * 2);
    let first = "scatter 1\nnodes 3\ngroup 0 1 2 3\nclient 1\nput a x\nget a\nend\n";
    assert_eq!(budget_of(&read_scenario(first.as_bytes()).expect("a scenario"), 2), 1248);
}

/// Runs a schedule and returns what is said of its orders: the results, or what is wrong.
fn ends(schedule: &str) -> Result<Vec<ToldResult>, String> {
    let s = scenario(schedule);
    let mut w = World::start(&s, &Dials::RULES, JOURNAL_LIMIT);
    assert!(w.run().is_ok());
    orders_end(&s.lines, &w).map(|all| all.into_values().cloned().collect())
}

#[test]
fn orders_have_results() {
    assert_eq!(ends("order 1 merge 0.1\nsettle 999\n"), Ok(vec![ToldResult::Committed]));
    assert_eq!(ends("order 1 join 4 0.1\nsettle 999\n"), Ok(vec![ToldResult::Done]));
    // a boundary in neither arc is voted down
    let twice = "order 1 repart 0.1 1700000001\nsettle 999\norder 1 repart 0.1 1700000001\nsettle 999\n";
    assert!(matches!(ends(twice), Ok(all) if matches!(all[1], ToldResult::Refused(_))));
}

#[test]
fn an_order_is_open_where_its_mail_waits() {
    assert_eq!(ends("order 1 merge 0.1\nsettle 3\n"), Err("order 1 is open".to_string()));
}

#[test]
fn an_order_is_voted_down_by_a_no() {
    let full =
        "scatter 1\nnodes 12\ngroup 0 1 2 3 4 5 6\ngroup 9 7 8 9 10 11 12\norder 1 merge 0.1\nsettle 999\n";
    let s = read_scenario(full.as_bytes()).expect("a scenario");
    let mut w = World::start(&s, &Dials::RULES, JOURNAL_LIMIT);
    assert!(w.run().is_ok());
    let ended = orders_end(&s.lines, &w).map(|all| all.into_values().cloned().collect());
    assert_eq!(ended, Ok(vec![ToldResult::Aborted]));
}

#[test]
fn a_give_up_is_seen() {
    let waits = "crash 4\norder 1 merge 0.1\nsettle 999\n".to_string();
    let patient = "tick n1\nsettle 999\n".repeat(8);
    assert_eq!(ends(&(waits + &patient)), Err("a GiveUp stands in a log".to_string()));
}

#[test]
fn crashes_leave_the_least_and_a_majority() {
    let s = scenario("");
    let set = |nodes: &[u16]| nodes.iter().copied().collect::<BTreeSet<u16>>();
    assert!(may_crash(&s, &set(&[])) && may_crash(&s, &set(&[2])) && may_crash(&s, &set(&[3])));
    assert!(!may_crash(&s, &set(&[1])) && !may_crash(&s, &set(&[4])) && !may_crash(&s, &set(&[2, 3])));
}

#[test]
fn bytes_are_those_of_the_run() {
    let s = scenario("go 1\nsettle 99\norder 1 repart 0.1 1\nsettle 99\norder 1 merge 0.1\nsettle 999\n");
    let mut w = World::start(&s, &Dials::RULES, JOURNAL_LIMIT);
    assert!(w.run().is_ok());
    let bytes = bytes_of(&w.rows);
    assert_eq!(bytes.light + bytes.heavy, w.bytes);
    assert_eq!(bytes.mails, u64::from(w.sent()));
    assert!(bytes.heavy > 0 && bytes.laden > 0);
    let numbers = numbers_of(&s, 2);
    assert_eq!((numbers.requests, numbers.clients, numbers.groups, numbers.orders), (3, 2, 2, 2));
    // one pair of two letters, and two clients that each may have its value
    assert_eq!((numbers.request, numbers.held), (2, 34 + 2 * 33));
    assert!(w.bytes <= numbers.bound());
}

#[test]
fn the_bound_of_eight_orders_is_within_the_limit() {
    let file = concat!(env!("CARGO_MANIFEST_DIR"), "/../scenarios/budget_of_eight_orders.scatter");
    let s = read_scenario(&std::fs::read(file).expect("the file is there")).expect("a scenario");
    let numbers = numbers_of(&s, s.orders() as u64);
    assert!(numbers.light() * 9 < JOURNAL_LIMIT && numbers.bound() < JOURNAL_LIMIT);
}

#[test]
fn random_ones_hold() {
    let (holds, said) = settled(1, 10, &Dials::RULES);
    assert!(holds, "{}", said.join("\n"));
    assert_eq!(said[0], "settled 10 of each kind, faults 0");
}

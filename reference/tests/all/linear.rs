//! Histories: what is refused, worked answers, and the search compared with the definition.

use reference::linear::*;

const HEAD: &str = "scatter history 1\n";

fn said(lines: &str, most: usize) -> String {
    let done = linear(format!("{HEAD}{lines}").as_bytes(), false, most);
    String::from_utf8(done.output).expect("text").trim_end().replace('\n', "; ")
}

#[test]
fn each_reason_is_named_with_its_line() {
    let long = format!("1 get {}\n", "k".repeat(65));
    let cases = [
        ("1\n", "line 2: not a line of a history"),
        ("1 put x\n", "line 2: not a line of a history"),
        ("0 get x\n", "line 2: bad number"),
        ("1 put x \x7f\n", "line 2: bad value"),
        (&long, "line 2: bad key"),
        ("1 get x\n1 get x\n", "line 3: process has a request"),
        ("\n# none\n1 ok\n", "line 4: process has no request"),
        ("1 get x\n1 lost\n1 ok\n", "line 4: process is lost"),
        ("1 get x\n1 no\n", "line 3: not a line of a history"),
    ];
    for (text, reason) in cases {
        assert_eq!(said(text, MOST_PLACES), reason, "{text:?}");
    }
    assert_eq!(linear(b"scatter 1\n", false, MOST_PLACES).output, b"line 1: not a history\n");
}

#[test]
fn the_line_is_the_last_one_of_the_shortest_prefix() {
    // what process 1 is told comes after the read that needs its put
    let told_later = "1 put x 5\n2 get x\n2 value 5\n1 value 9\n";
    assert_eq!(said(told_later, MOST_PLACES), "not linearizable; line 5; key x");
    let failed_later = "1 put x 5\n2 get x\n2 value 5\n1 fail\n";
    assert_eq!(said(failed_later, MOST_PLACES), "not linearizable; line 5; key x");
}

#[test]
fn a_key_that_is_undecided_makes_the_line_a_bound() {
    let begun: String = (1..=12).map(|p| format!("{p} put x {p}\n")).collect();
    let ended: String = (1..=12).map(|p| format!("{p} ok\n")).collect();
    let other = "20 put y 1\n20 ok\n20 get y\n20 none\n";
    assert_eq!(said(&format!("{begun}{ended}"), 1000), "undecided; line 14; key x");
    let whole = format!("{begun}{other}{ended}");
    assert_eq!(said(&whole, 1000), "not linearizable; line at most 17; key y");
    assert_eq!(said(&whole, MOST_PLACES), "not linearizable; line 17; key y");
}

#[test]
fn more_than_128_requests_may_be_under_way() {
    let begun: String = (1..=200).map(|p| format!("{p} put x {p}\n")).collect();
    let told = |p| if p == 1 { "1 none\n".to_string() } else { format!("{p} value {}\n", p - 1) };
    let ended: String = (1..=200).rev().map(told).collect();
    assert_eq!(said(&format!("{begun}{ended}"), MOST_PLACES), "linearizable; requests 200; keys 1");
}

#[test]
fn the_search_answers_as_the_definition_at_each_prefix() {
    let (is_right, lines) = histories(1, 400);
    assert!(is_right, "{lines:?}");
}

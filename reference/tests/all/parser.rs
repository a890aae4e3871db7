//! The parser of scenarios: each cause of a refusal, and the text of what was read.

use reference::scenario::*;

const HEAD: &str = "scatter 1\nnodes 3\ngroup 5 1 2\n";

fn refused(text: &str) -> String {
    read_scenario(text.as_bytes()).expect_err("it is refused").to_string()
}

#[test]
fn each_cause_is_named_with_its_line() {
    let cases = [
        ("", "line 1: missing header"),
        ("scatter 3\n", "line 1: missing header"),
        ("scatter 1\nnodes 1\x7f\n", "line 2: bad byte"),
        ("scatter 1\nfoo\n", "line 2: unknown word"),
        ("scatter 1\ngroup 0 1\n", "line 2: out of place"),
        ("scatter 1\nnodes 1\nnodes 1\n", "line 3: out of place"),
        ("scatter 1\nnodes\n", "line 2: wrong count"),
        ("scatter 1\nnodes 01\n", "line 2: bad number"),
        ("scatter 1\nnodes 33\n", "line 2: bad number"),
        ("scatter 1\nnodes 1\ngroup 0 2\n", "line 3: unknown name"),
        ("scatter 1\nnodes 2\ngroup 0 1 1\n", "line 3: repeated"),
        ("scatter 1\nnodes 2\ngroup 5 1\ngroup 5 2\n", "line 4: bad boundary"),
        ("scatter 1\nnodes 2\n", "line 3: missing part"),
    ];
    for (text, said) in cases {
        assert_eq!(refused(text), said, "{text:?}");
    }
}

#[test]
fn requests_and_schedules_are_refused_behind_a_head() {
    let long = "k".repeat(65);
    let cases = [
        (format!("client 1\nget {long}\n"), "line 5: bad key"),
        (format!("client 1\nput a {}\n", "v".repeat(257)), "line 5: bad value"),
        ("client 1\nadd a x\n".to_string(), "line 5: unknown word"),
        ("client 1\nget a\n".to_string(), "line 6: unended client"),
        ("client 1\nend\nclient 1\n".to_string(), "line 6: repeated"),
        ("go 1\n".to_string(), "line 4: unknown name"),
        ("deliver x1 1\n".to_string(), "line 4: bad number"),
        ("order 1 join 4 0.1\n".to_string(), "line 4: unknown name"),
        ("order 1 split 0.1\n".to_string(), "line 4: wrong count"),
        ("order 1 grow 0.1\n".to_string(), "line 4: unknown word"),
        ("settle 0\n".to_string(), "line 4: bad number"),
        ("free 1 17\n".to_string(), "line 4: bad number"),
    ];
    for (text, said) in cases {
        assert_eq!(refused(&format!("{HEAD}{text}")), said, "{text:?}");
    }
}

#[test]
fn too_many_are_refused() {
    let group: String = (0..17).map(|k| format!("group {k} 1\n")).collect();
    assert_eq!(refused(&format!("scatter 1\nnodes 1\n{group}")), "line 19: too many");
    let lines = "#\n".repeat(20_000);
    assert_eq!(refused(&format!("{HEAD}{lines}")), "line 20001: too large");
}

#[test]
fn the_text_of_a_scenario_is_read_back() {
    let text = format!(
        "scatter 2\n# all kinds of lines\nnodes 3\ngroup 5 1 2\ngroup 9 3\npolicy\nclient 7\nget a\n\
         put a x\ndel a\nadd a x\ncas a x y\nend\ngo 7\ndeliver n1 2\ndrop c7 1\nagain 3\n\
         tick n2\ntick c7\ncrash 3\norder 1 join 3 0.1\norder 1 leave 2 0.1\norder 1 split 0.1 7\n\
         order 1 merge 0.1\norder 1 repart 0.1 6\norder 1 migrate 0.1 2\nsettle 100\nfree 10 4\nstorm {} 5\n",
        u64::MAX
    );
    let read = read_scenario(text.as_bytes()).expect("it is a scenario");
    let again = reference::scenario::text(&read);
    assert_eq!(again, text.replace("# all kinds of lines\n", ""));
    assert_eq!(read_scenario(again.as_bytes()), Ok(read));
}

#[test]
fn blanks_tabs_and_carriage_returns_are_loose() {
    let plain = read_scenario(HEAD.as_bytes());
    assert_eq!(read_scenario(b" scatter\t1\r\n\n  nodes   3 \r\n\t\ngroup 5 1 2"), plain);
    assert!(plain.is_ok());
}

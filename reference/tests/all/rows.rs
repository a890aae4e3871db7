//! Stored journals: their text, what is no row, and what rows decided.

use reference::program;
use reference::text::*;
use reference::values::Dials;

const SCENARIO: &[u8] =
    b"scatter 1\nnodes 2\ngroup 0 1 2\nclient 1\nput a x\\\nend\ngo 1\norder 1 split 0.1 9\nsettle 100";

fn stored() -> Vec<u8> {
    program::journal(SCENARIO, &Dials::RULES).output
}

fn fault(text: &[u8]) -> String {
    read_file(text).err().expect("it stores no journal").to_string()
}

#[test]
fn a_stored_journal_is_read_back() {
    let file = stored();
    let read = read_file(&file).unwrap_or_else(|e| panic!("{e}"));
    assert_eq!(text_of(&read), file);
    assert!(read.rows.len() > 10);
}

fn text_of(read: &Stored) -> Vec<u8> {
    let mut input = SCENARIO.to_vec();
    input.push(b'\n');
    file(&input, &read.rows)
}

#[test]
fn another_spelling_is_no_row() {
    let text = String::from_utf8(stored()).expect("printable");
    let spaced = text.replacen("{\"event\":\"Go\"", "{ \"event\":\"Go\"", 1);
    assert_eq!(fault(spaced.as_bytes()), "line 11: bad row");
    let cut = &text.as_bytes()[..text.len() - 1];
    assert!(fault(cut).ends_with(": bad row"));
    assert_eq!(fault(b"scatter 1\nnodes 1\n"), "line 3: missing journal");
    assert_eq!(fault(b"scatter 1\njournal\n"), "line 2: missing part");
}

#[test]
fn rows_are_explained() {
    let done = program::explain(&stored(), &Dials::RULES);
    let text = String::from_utf8(done.output).expect("printable");
    let lines: Vec<&str> = text.lines().collect();
    assert_eq!(done.status, 0);
    assert_eq!(lines[0], "{\"birth\":{\"group\":\"0.1\",\"members\":[1,2]},\"row\":0}");
    assert_eq!(lines[3], "{\"ring\":[[\"0.1\",[0,4294967296]]],\"row\":0}");
    let has = |part: &str| lines.iter().any(|line| line.contains(part));
    assert!(has("{\"birth\":{\"group\":\"1.1\",\"members\":[2]}"));
    assert!(has("\"effect\":{\"Done\":{\"old\":null}},\"group\":\"1.1\""));
    assert!(has("\"reply\":{\"old\":null},\"seq\":1}"));
    assert!(has("{\"ring\":[[\"0.1\",[0,9]],[\"1.1\",[9,4294967287]]]"));
    assert!(has("\"name\":\"1.1\",\"pairs\":1,\"pred\":\"0.1\",\"succ\":\"0.1\""));
}

#[test]
fn rows_are_audited() {
    let file = stored();
    let text = String::from_utf8(file.clone()).expect("printable");
    let rows = text.lines().skip_while(|line| *line != "journal").count() - 1;
    let audit = |text: &[u8]| {
        let done = program::audit(text, &Dials::RULES);
        (done.status, String::from_utf8(done.output).expect("printable"))
    };
    assert_eq!(audit(&file), (0, format!("lawful rows {rows}\n")));
    let end = text.trim_end().rfind('\n').expect("a row") + 1;
    assert_eq!(audit(&file[..end]), (0, format!("lawful rows {}\n", rows - 1)));
    let damaged = text.replacen("\"seq\":1", "\"seq\":2", 1);
    assert_eq!(audit(damaged.as_bytes()), (9, "unlawful row 1\n".to_string()));
    assert_eq!(program::explain(damaged.as_bytes(), &Dials::RULES).output, b"unlawful row 1\n");
    let doubled = format!("{text}{}", &text[end..]);
    assert_eq!(audit(doubled.as_bytes()), (9, format!("unlawful row {}\n", rows + 1)));
}

#[test]
fn a_batch_answers_each_text() {
    let scenario = b"scatter 1\nnodes 1\ngroup 0 1\n";
    let mut asked = format!("run {}\n", scenario.len()).into_bytes();
    asked.extend_from_slice(scenario);
    asked.extend_from_slice(b"audit 3\nabcnothing 0\n");
    let mut said = Vec::new();
    reference::batch::serve(&asked[..], &mut said, &Dials::RULES).expect("it is written");
    let report = program::run(scenario, &Dials::RULES).output;
    let said = String::from_utf8(said).expect("printable");
    let rest = said.strip_prefix(&format!("0 {}\n", report.len())).expect("the status of the run");
    let rest = rest.strip_prefix(&String::from_utf8(report).expect("printable")).expect("its report");
    assert!(rest.starts_with("3 24\nline 2: missing journal\n2 "), "{rest}");
}

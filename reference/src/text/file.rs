//! The file that stores a journal: the scenario, the line `journal`, and a line for each row.

use super::{parse, Coded};
use crate::mail::Row;
use crate::scenario::{read_scenario, Bad, Scenario};

/// The most bytes of a stored journal.
pub const MOST_STORED: usize = 268_435_456;
const MARK: &[u8] = b"journal\n";

/// Returns the text of a row.
pub fn row_text(row: &Row) -> String {
    row.to_json().text()
}

/// Returns the file of a scenario's text and its rows.
pub fn file(input: &[u8], rows: &[Row]) -> Vec<u8> {
    let mut out = input.to_vec();
    if out.last().is_some_and(|b| *b != b'\n') {
        out.push(b'\n');
    }
    out.extend_from_slice(MARK);
    for row in rows {
        out.extend_from_slice(row_text(row).as_bytes());
        out.push(b'\n');
    }
    out
}

/// A scenario and the rows that are stored with it.
pub struct Stored {
    pub scenario: Scenario,
    pub rows: Vec<Row>,
}

/// Why a text stores no journal: the first bad line, and the cause.
#[derive(Clone, Copy, PartialEq, Eq, Debug)]
pub struct Unstored {
    pub line: u32,
    pub why: &'static str,
}

impl std::fmt::Display for Unstored {
    fn fmt(&self, f: &mut std::fmt::Formatter) -> std::fmt::Result {
        write!(f, "line {}: {}", self.line, self.why)
    }
}

/// Reads a stored journal.
pub fn read_file(text: &[u8]) -> Result<Stored, Unstored> {
    if text.len() > MOST_STORED {
        return Err(Unstored { line: 0, why: "file too large" });
    }
    let mut lines = text.split_inclusive(|b| *b == b'\n');
    let (mut count, mut end) = (0, 0);
    loop {
        count += 1;
        match lines.next() {
            None => return Err(Unstored { line: count, why: "missing journal" }),
            Some(line) if line == MARK => break,
            Some(line) => end += line.len(),
        }
    }
    let bad = |b: Bad| Unstored { line: b.line, why: b.why.reason() };
    let scenario = read_scenario(&text[..end]).map_err(bad)?;
    let mut rows = Vec::new();
    for line in lines {
        count += 1;
        let row = line.split_last().filter(|(end, _)| **end == b'\n').and_then(|(_, row)| read::<Row>(row));
        rows.push(row.ok_or(Unstored { line: count, why: "bad row" })?);
    }
    Ok(Stored { scenario, rows })
}

/// Reads a value. It has one text, so any other spelling is refused.
pub fn read<T: Coded>(text: &[u8]) -> Option<T> {
    let value = T::from_json(&parse(text)?)?;
    (value.to_json().text().as_bytes() == text).then_some(value)
}

//! Many texts in one process: each with a subcommand, answered as by a process of its own.

use crate::linear::{self, MOST_PLACES};
use crate::program::{self, Done};
use crate::values::{read_number, Dials};
use std::io::{BufRead, Read, Write};
use std::panic::{catch_unwind, AssertUnwindSafe};

/// The status of an answer that is none: the subcommand stopped at a fault of its own.
const STOPPED: u8 = 101;

/// Answers a subcommand that reads a text, or none for another word.
pub fn answer(word: &str, text: &[u8], dials: &Dials) -> Option<Done> {
    match word {
        "run" => Some(program::run(text, dials)),
        "journal" => Some(program::journal(text, dials)),
        "audit" => Some(program::audit(text, dials)),
        "explain" => Some(program::explain(text, dials)),
        "sound" => Some(program::sound(text, dials)),
        "linear" => Some(linear::linear(text, false, MOST_PLACES)),
        _ => None,
    }
}

/// Reads a text with its subcommand: a line `WORD LENGTH`, and so many bytes. None at the end, and where they are none.
fn read(input: &mut impl BufRead) -> Option<(String, Vec<u8>)> {
    let mut head = String::new();
    input.read_line(&mut head).ok()?;
    let (word, length) = head.strip_suffix('\n')?.split_once(' ')?;
    let length = read_number(length.as_bytes(), u64::from(u32::MAX))?;
    let mut text = Vec::new();
    input.take(length).read_to_end(&mut text).ok()?;
    (text.len() as u64 == length).then(|| (word.to_string(), text))
}

/// Answers each text by a line `STATUS LENGTH` and so many bytes, as soon as it was read.
pub fn serve(mut input: impl BufRead, mut out: impl Write, dials: &Dials) -> std::io::Result<()> {
    while let Some((word, text)) = read(&mut input) {
        let done = catch_unwind(AssertUnwindSafe(|| answer(&word, &text, dials)))
            .unwrap_or(Some(Done { status: STOPPED, output: Vec::new() }))
            .unwrap_or_else(Done::usage);
        writeln!(out, "{} {}", done.status, done.output.len())?;
        out.write_all(&done.output)?;
        out.flush()?;
    }
    Ok(())
}

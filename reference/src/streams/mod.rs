//! One actor that runs for itself: it takes inputs from a stream, one a line, and prints what it sends, one line each.

mod client;
mod head;
mod lines;
mod node;

pub use client::ClientStream;
pub use head::{Head, HeadError};
pub use lines::{Line, Lines, LONGEST_LINE};
pub use node::NodeStream;

use crate::program::READ_FAULT;
use crate::text::Json;
use std::io::{Read, Write};

/// Why a line is no input.
#[derive(Clone, Copy, PartialEq, Eq, Debug)]
pub enum Bad {
    /// It has more bytes than a line may have.
    TooLong,
    /// It is no text of an input of this actor.
    BadInput,
    /// It is a mail to another actor.
    MailToAnother,
    /// It is an order that no line of a scenario may give.
    BadOrder,
    /// Its request is one of a later version of scenarios.
    BadRequest,
    /// It is a request while the one before has no reply.
    UnderWay,
    /// It is a request beyond the last number of a request.
    TooMany,
}

impl Bad {
    /// Returns the words of the cause.
    pub fn reason(self) -> &'static str {
        match self {
            Bad::TooLong => "too long",
            Bad::BadInput => "bad input",
            Bad::MailToAnother => "mail to another",
            Bad::BadOrder => "bad order",
            Bad::BadRequest => "bad request",
            Bad::UnderWay => "request under way",
            Bad::TooMany => "too many",
        }
    }
}

/// What answers the lines behind the line `inputs`.
pub trait Answers: Sized {
    /// Makes the actor at its birth, or none where the scenario has no such one.
    fn born(number: u16, head: &Head) -> Option<Self>;

    /// Answers a line.
    fn answer(&mut self, line: &[u8]) -> Result<Json, Bad>;
}

fn bad_line(why: Bad) -> String {
    format!("{{\"bad\":\"{}\"}}", why.reason())
}

fn answered(actor: &mut impl Answers, line: Line) -> String {
    let done = match line {
        Line::TooLong => Err(Bad::TooLong),
        Line::Whole(line) => actor.answer(line),
    };
    done.map_or_else(bad_line, |json| json.text())
}

/// How a stream ends, where it does not end with its input.
enum Ended {
    Head(HeadError),
    Read,
    Write,
}

fn played<A: Answers>(number: u16, input: impl Read, mut out: impl Write) -> Result<(), Ended> {
    let mut lines = Lines::start(input);
    let head = head::read(&mut lines)?;
    let unknown = HeadError { line: head.line, why: "unknown name" };
    let mut actor = A::born(number, &head).ok_or(Ended::Head(unknown))?;
    let mut answers = Vec::new();
    loop {
        // what was read is answered and printed before more is asked for
        if !lines.has_line() {
            out.write_all(&answers).and_then(|()| out.flush()).map_err(|_| Ended::Write)?;
            answers.clear();
        }
        let Some(line) = lines.next().map_err(|_| Ended::Read)? else { break };
        answers.extend_from_slice(answered(&mut actor, line).as_bytes());
        answers.push(b'\n');
    }
    out.write_all(&answers).and_then(|()| out.flush()).map_err(|_| Ended::Write)
}

/// Runs an actor over an input to its end, and returns the status.
pub fn run<A: Answers>(number: u16, input: impl Read, mut out: impl Write) -> u8 {
    match played::<A>(number, input, &mut out) {
        Ok(()) => 0,
        Err(Ended::Head(why)) => said(&mut out, &why.to_string(), 3),
        Err(Ended::Read) => said(&mut out, READ_FAULT, 4),
        Err(Ended::Write) => 5,
    }
}

fn said(out: &mut impl Write, line: &str, status: u8) -> u8 {
    let written = writeln!(out, "{line}").and_then(|()| out.flush());
    if written.is_ok() {
        status
    } else {
        5
    }
}

//! Mail, rows of the journal, and the inputs of actors.

use crate::values::*;

/// The actor number of the desk, where answers to orders go.
pub const DESK: u32 = 0;

/// The actor number of a client.
pub fn client_actor(client: u16) -> u32 {
    32 + u32::from(client)
}

#[derive(Clone, PartialEq, Eq, Debug)]
/// What a replica answers a request.
pub enum AnswerBody {
    Value(Reply),
    NotLeader { hint: Option<u16> },
    NotMine { arc: RingArc, succ: Link },
    Gone { into: Route },
    Stale { last: u32 },
}

/// What a node has accepted at a slot, as it reports it with a promise.
#[derive(Clone, PartialEq, Eq, Debug)]
pub struct Report {
    pub slot: u32,
    pub ballot: Ballot,
    pub value: Command,
}

/// What a mail says.
#[derive(Clone, PartialEq, Eq, Debug)]
#[allow(clippy::large_enum_variant)] // as the rules have it: mail is plain data
pub enum MailBody {
    Request { group: Draw, client: u16, seq: u32, op: Op },
    Answer { group: Draw, seq: u32, answer: AnswerBody },
    Prepare { group: Draw, ballot: Ballot, from_slot: u32 },
    Promise { group: Draw, ballot: Ballot, reports: Vec<Report> },
    Accept { group: Draw, ballot: Ballot, slot: u32, command: Command },
    Accepted { group: Draw, ballot: Ballot, slot: u32 },
    Nack { group: Draw, promised: Ballot },
    Learn { group: Draw, slot: u32, command: Command },
    Ask { group: Draw, from_slot: u32 },
    Install { group: Draw, slot: u32, base: Base, sets: Vec<Members> },
    TxPrepare { tx: Draw, offer: Offer },
    TxVote { tx: Draw, coord: Draw, part: Draw, vote: Vote },
    TxOutcome { tx: Draw, part: Draw, outcome: Outcome },
    TxElsewhere { tx: Draw, coord: Draw, hint: Option<u16> },
    TxWatch { tx: Draw, watch: Watch },
    TxWatched { tx: Draw, coord: Draw, part: Draw, vote: Past },
    Told { order: u32, result: ToldResult },
}

/// A mail, with the numbers of its actors.
#[derive(Clone, PartialEq, Eq, Debug)]
pub struct Mail {
    pub from: u32,
    pub to: u32,
    pub body: MailBody,
}

/// What happened in a row. Mail is named by its number.
#[derive(Clone, PartialEq, Eq, Debug)]
pub enum Event {
    Deliver(u32),
    Tick,
    Go,
    Told(OrderLine),
    Crash,
    Drop(u32),
    Again(u32),
}

/// A row of the journal: whose it is, what happened, and what it sends.
#[derive(Clone, PartialEq, Eq, Debug)]
pub struct Row {
    pub who: u32,
    pub event: Event,
    pub sent: Vec<Mail>,
}

/// What an actor is stepped with.
#[derive(Clone, PartialEq, Eq, Debug)]
#[allow(clippy::large_enum_variant)] // mail is plain data
pub enum Input {
    Got(Mail),
    Tick,
    Go,
    Told(OrderLine),
}

//! The words of a line: numbers and names.

use super::Fault;
use crate::mail::client_actor;
use crate::values::*;

/// Splits a line at its blanks and tabs.
pub fn words_of(line: &[u8]) -> Vec<&[u8]> {
    line.split(|b| *b == b' ' || *b == b'\t').filter(|w| !w.is_empty()).collect()
}

/// Reads a number of a range.
pub fn number(word: &[u8], least: u64, most: u64) -> Result<u64, Fault> {
    read_number(word, most).filter(|n| *n >= least).ok_or(Fault::BadNumber)
}

/// Reads a number of a range that has at most 32 bits.
pub fn number32(word: &[u8], least: u64, most: u64) -> Result<u32, Fault> {
    number(word, least, most).map(|n| n as u32)
}

/// Reads the number of a node.
pub fn node_number(word: &[u8]) -> Result<u16, Fault> {
    number(word, 1, 32).map(|n| n as u16)
}

/// Reads the number of a client.
pub fn client_number(word: &[u8]) -> Result<u16, Fault> {
    number(word, 1, 64).map(|n| n as u16)
}

/// Reads a position of the key space.
pub fn position(word: &[u8]) -> Result<u32, Fault> {
    number32(word, 0, u64::from(u32::MAX))
}

/// Reads a count from 1 on: a place among pending mail, or the number of a mail.
pub fn count(word: &[u8]) -> Result<u32, Fault> {
    number32(word, 1, u64::from(u32::MAX))
}

/// Reads how many deliveries or steps a line may make.
pub fn limit(word: &[u8]) -> Result<u32, Fault> {
    number32(word, 1, 1_000_000)
}

/// Reads the name of a group.
pub fn group_name(word: &[u8]) -> Result<Draw, Fault> {
    let dot = word.iter().position(|b| *b == b'.').ok_or(Fault::BadNumber)?;
    let node = number(&word[..dot], 0, 32)? as u16;
    Ok(Draw { node, count: count(&word[dot + 1..])? })
}

/// A node or a client, as a scenario names them.
#[derive(Clone, Copy, PartialEq, Eq, Debug)]
pub enum Who {
    Node(u16),
    Client(u16),
}

impl Who {
    /// Returns the number of the actor.
    pub fn actor(self) -> u32 {
        match self {
            Who::Node(n) => u32::from(n),
            Who::Client(c) => client_actor(c),
        }
    }
}

/// Reads the name of a node or of a client.
pub fn actor_name(word: &[u8]) -> Result<Who, Fault> {
    match word.split_first() {
        Some((b'n', rest)) => node_number(rest).map(Who::Node),
        Some((b'c', rest)) => client_number(rest).map(Who::Client),
        _ => Err(Fault::BadNumber),
    }
}

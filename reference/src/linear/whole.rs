//! The answer for a whole history: key by key, and the shortest prefix that is not linearizable.

use super::{one_key, read_history, Act, Call, End, History, Miss, Step, Way, NEVER};
use crate::program::Done;

/// What the search says of a history.
#[derive(Clone, PartialEq, Eq, Debug)]
pub enum Answer {
    /// It is linearizable: the requests in this order.
    Yes(Vec<usize>),
    /// It is not: the prefix up to this line is not, for this key. Where `exact`, those before it are.
    No { line: u32, key: u32, exact: bool },
    /// The search needed too many places.
    Undecided { line: u32, key: u32 },
}

/// Cuts the requests of a key after a line: what ends later is open.
fn cut(calls: &[Call], mine: &[usize], after: u32) -> Vec<Call> {
    let open = |call: &Call| match call.ended > after {
        true => Call { ended: NEVER, end: End::Lost, ..*call },
        false => *call,
    };
    mine.iter().map(|i| &calls[*i]).filter(|call| call.begun <= after).map(open).collect()
}

/// Finds the last line of the shortest prefix with no order, by halves, and whether it surely is that.
fn shortest(calls: &[Call], mine: &[usize], way: Way) -> (u32, bool) {
    let mut ends: Vec<u32> = mine.iter().map(|i| calls[*i].ended).filter(|end| *end != NEVER).collect();
    ends.sort_unstable();
    let (mut low, mut high) = (0, ends.len() - 1);
    while low < high {
        let middle = (low + high) / 2;
        let cut = cut(calls, mine, ends[middle]);
        match one_key(&cut, &(0..cut.len()).collect::<Vec<_>>(), way) {
            Ok(_) => low = middle + 1,
            Err(Miss::None(_)) => high = middle,
            Err(Miss::TooMany(_)) => return (ends[high], false),
        }
    }
    (ends[high], true)
}

/// Says whether a history is linearizable.
pub fn check(history: &History, way: Way) -> Answer {
    let mut by_key: Vec<Vec<usize>> = vec![Vec::new(); history.keys.len()];
    for (i, call) in history.calls.iter().enumerate() {
        by_key[call.key as usize].push(i);
    }
    let mut order: Vec<Step> = Vec::new();
    let mut bad: Option<(u32, u32)> = None;
    let mut unknown: Option<(u32, u32)> = None;
    // (a key of which not all is known may be at fault earlier)
    let mut exact = true;
    for (key, mine) in by_key.iter().enumerate() {
        match one_key(&history.calls, mine, way) {
            Ok(found) => order.extend(found),
            Err(Miss::TooMany(line)) => {
                exact = false;
                if unknown.is_none_or(|other| line < other.0) {
                    unknown = Some((line, key as u32));
                }
            }
            Err(Miss::None(_)) => {
                let (line, is_shortest) = shortest(&history.calls, mine, way);
                exact &= is_shortest;
                if bad.is_none_or(|other| line < other.0) {
                    bad = Some((line, key as u32));
                }
            }
        }
    }
    match (bad, unknown) {
        (Some((line, key)), _) => Answer::No { line, key, exact },
        (None, Some((line, key))) => Answer::Undecided { line, key },
        (None, None) => {
            order.sort_by_key(|(line, _)| *line);
            Answer::Yes(order.into_iter().map(|(_, i)| i).collect())
        }
    }
}

/// The exit statuses of the answers.
const NOT_LINEARIZABLE: u8 = 10;
const UNDECIDED: u8 = 11;

/// The most places at the end of a request, where no number is given.
pub const MOST_PLACES: usize = 10_000_000;

fn shown(history: &History, act: &Act, key: u32) -> Vec<u8> {
    let (word, values): (&str, &[u32]) = match act {
        Act::Get => ("get", &[]),
        Act::Put(value) => ("put", &[*value]),
        Act::Del => ("del", &[]),
        Act::Add(value) => ("add", &[*value]),
        Act::Cas(expect, value) => ("cas", &[*expect, *value]),
    };
    let mut text = [word.as_bytes(), b" ", history.keys.name(key)].concat();
    for value in values {
        text.push(b' ');
        text.extend_from_slice(history.values.name(*value));
    }
    text
}

/// Appends a line for each request of an order: where it began, its process, what it asked, and what it met.
fn show_order(history: &History, order: &[usize], output: &mut Vec<u8>) {
    let mut map = vec![None; history.keys.len()];
    for i in order {
        let call = &history.calls[*i];
        let old = map[call.key as usize];
        output.extend_from_slice(format!("{} {} ", call.begun, call.process).as_bytes());
        output.extend_from_slice(&shown(history, &call.act, call.key));
        match old {
            None => output.extend_from_slice(b" none"),
            Some(value) => output.extend_from_slice(&[b" value ", history.values.name(value)].concat()),
        }
        output.push(b'\n');
        map[call.key as usize] = call.act.after(old);
    }
}

/// Reads a history, and says whether it is linearizable; and by which order, where that is asked.
pub fn linear(input: &[u8], shows_order: bool, most: usize) -> Done {
    let history = match read_history(input) {
        Err((line, reason)) => return Done::lines(3, &[format!("line {line}: {reason}")]),
        Ok(history) => history,
    };
    let key = |key: u32| String::from_utf8_lossy(history.keys.name(key)).into_owned();
    match check(&history, Way { most, fewer: true }) {
        Answer::No { line, key: at, exact } => {
            let line = format!("line {}{line}", if exact { "" } else { "at most " });
            Done::lines(NOT_LINEARIZABLE, &["not linearizable".into(), line, format!("key {}", key(at))])
        }
        Answer::Undecided { line, key: at } => {
            Done::lines(UNDECIDED, &["undecided".into(), format!("line {line}"), format!("key {}", key(at))])
        }
        Answer::Yes(order) => {
            let (requests, keys) = (history.calls.len(), history.keys.len());
            let first = ["linearizable".into(), format!("requests {requests}"), format!("keys {keys}")];
            let mut done = Done::lines(0, &first);
            if shows_order {
                show_order(&history, &order, &mut done.output);
            }
            done
        }
    }
}

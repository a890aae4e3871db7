//! What a linearization is, by its definition alone, and the search through all lists of requests.

use super::{Call, End, History};
use std::collections::{HashMap, HashSet};

/// Returns whether each request that is done by this line is listed, none that failed or began later, and none twice.
fn has_requests(history: &History, order: &[usize], until: u32) -> bool {
    let listed: HashSet<usize> = order.iter().copied().collect();
    let is_right = |(i, call): (usize, &Call)| match call.end {
        _ if call.begun > until => !listed.contains(&i),
        _ if call.ended > until => true,
        End::Fail => !listed.contains(&i),
        _ => listed.contains(&i),
    };
    listed.len() == order.len() && history.calls.iter().enumerate().all(is_right)
}

/// Returns whether a request that ended before another began stands before it.
fn keeps_time(history: &History, order: &[usize]) -> bool {
    let mut latest = 0; // the latest beginning of those that stand before
    order.iter().map(|i| &history.calls[*i]).all(|call| {
        let keeps = call.ended > latest;
        latest = latest.max(call.begun);
        keeps
    })
}

/// Returns whether each request that is done by this line meets, in one map, what it was told.
fn has_replies(history: &History, order: &[usize], until: u32) -> bool {
    let mut map: HashMap<u32, u32> = HashMap::new();
    order.iter().map(|i| &history.calls[*i]).all(|call| {
        let old = map.get(&call.key).copied();
        match call.act.after(old) {
            Some(value) => map.insert(call.key, value),
            None => map.remove(&call.key),
        };
        call.ended > until || call.fits(old)
    })
}

/// Returns whether this list of requests is a linearization of the lines up to this one.
pub fn is_linearization(history: &History, order: &[usize], until: u32) -> bool {
    has_requests(history, order, until) && keeps_time(history, order) && has_replies(history, order, until)
}

/// Returns whether some list of requests, of all that there are, is a linearization of the lines up to this one.
pub fn has_linearization(history: &History, until: u32) -> bool {
    fn some(history: &History, order: &mut Vec<usize>, until: u32) -> bool {
        if is_linearization(history, order, until) {
            return true;
        }
        (0..history.calls.len()).any(|i| {
            if history.calls[i].begun > until || order.contains(&i) {
                return false;
            }
            order.push(i);
            let found = some(history, order, until);
            order.pop();
            found
        })
    }
    some(history, &mut Vec::new(), until)
}

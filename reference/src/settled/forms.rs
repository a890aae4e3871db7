//! The forms of scenarios, their budgets, and the clients that are served.

use crate::scenario::*;
use std::collections::BTreeSet;

/// Returns whether a line delivers pending mail of all actors: a `settle` or `free` line.
pub fn delivers(line: &SchedLine) -> bool {
    matches!(line, SchedLine::Settle { .. } | SchedLine::Free { .. })
}

/// Returns whether a line gives an order.
pub fn gives_order(line: &SchedLine) -> bool {
    matches!(line, SchedLine::Told { .. })
}

/// Returns whether a line delivers the first pending mail of one actor.
pub fn takes_first(line: &SchedLine) -> bool {
    matches!(line, SchedLine::Deliver { k: 1, .. })
}

/// Returns whether a line may stand in a schedule of plain form.
fn is_plain_line(line: &SchedLine) -> bool {
    delivers(line) || takes_first(line) || matches!(line, SchedLine::Go { .. })
}

/// Returns whether a schedule has plain form: `go`, `settle` and `free` lines, and deliveries of first mail.
pub fn is_plain(lines: &[SchedLine]) -> bool {
    lines.iter().all(is_plain_line)
}

/// What stands behind the last line that delivers.
#[derive(Clone, Copy, PartialEq, Eq, Debug)]
pub enum Open {
    Nothing,
    Goes,
    Order,
}

/// Returns whether a schedule has calm form: plain lines and orders, each order with a `settle` or `free` line
/// behind it, and with one between it and every other order or `go` line.
pub fn is_calm(lines: &[SchedLine]) -> bool {
    let mut open = Open::Nothing;
    for line in lines {
        open = match (line, open) {
            (SchedLine::Go { .. }, Open::Order) => return false,
            (SchedLine::Go { .. }, _) => Open::Goes,
            (SchedLine::Told { .. }, Open::Nothing) => Open::Order,
            (SchedLine::Told { .. }, _) => return false,
            (line, _) if delivers(line) => Open::Nothing,
            (line, _) if takes_first(line) => open,
            _ => return false,
        };
    }
    open != Open::Order
}

/// Returns the clients whose `go` line has a `settle` or `free` line behind it.
pub fn served(lines: &[SchedLine]) -> BTreeSet<u16> {
    let last = lines.iter().rposition(delivers).unwrap_or(0);
    let client = |line: &SchedLine| match line {
        SchedLine::Go { client } => Some(*client),
        _ => None,
    };
    lines[..last].iter().filter_map(client).collect()
}

/// Returns the budget of a scenario with so many orders: that of plain ones where there are none, and else that of
/// calm ones.
pub fn budget_of(head: &Scenario, orders: u64) -> u64 {
    let (requests, groups) = (head.requests(), head.groups.len() as u64);
    if orders == 0 {
        return requests * (32 + 4 * groups);
    }
    (requests + orders * head.clients.len() as u64) * (32 + 8 * (groups + orders)) + 512 * orders
}

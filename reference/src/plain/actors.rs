//! What replicas and clients are in a plain run.

use super::mails::own_call;
use crate::checks::all_hold;
use crate::client::Client;
use crate::replica::*;
use crate::scenario::Scenario;
use crate::values::*;
use std::collections::BTreeSet;

/// Checks what a replica is.
pub fn plain_replica(s: &Scenario, b: &Base, me: u16, r: &Replica, requests: u64) -> Result<(), String> {
    let first = b.core.first_ballot();
    let mut commands = r.log.values().chain(r.acceptor.accepted.values().map(|x| &x.1));
    let what = format!("replica {} at {me}", b.core.id);
    all_hold(
        &what,
        &[
            (r.me == me && r.base.core == b.core, "core"),
            (r.sets.len() == 4 && r.sets.iter().all(|x| *x == b.core.members), "sets"),
            (
                r.hint == Some(b.core.first) && r.top == first && r.acceptor.promised == first,
                "hint, top or promise",
            ),
            (r.acts.is_empty() && r.waits == 0, "acts or waits"),
            (u64::from(r.next) <= requests + 1, "next above the number of requests"),
            (commands.all(|c| own_call(s, b, c)), "a command that is no call of its own"),
        ],
    )?;
    match &r.leader {
        None => all_hold(
            &what,
            &[
                (me != b.core.first, "the first member does not run"),
                (r.calls.is_empty(), "calls without leader"),
            ],
        ),
        Some(l) => plain_leader(s, b, r, l).map_err(|e| format!("{what}{e}")),
    }
}

fn plain_leader(s: &Scenario, b: &Base, r: &Replica, l: &Leader) -> Result<(), String> {
    let first = b.core.first_ballot();
    let taken = l.taken_slots().len();
    let fresh = l.ballot == first && l.promised.is_empty() && l.reports.is_empty();
    let flies = |f: &Flight| !is_majority(&b.core.members, &f.voters) && f.voters.is_subset(&b.core.members);
    let client = |c: &Command| match c {
        Command::Call { client, .. } => Some(*client),
        _ => None,
    };
    let names: BTreeSet<u16> = r.calls.iter().filter_map(client).collect();
    all_hold(
        "",
        &[
            (r.me == b.core.first && fresh, "leader"),
            (
                l.commands().chain(r.calls.iter()).all(|c| own_call(s, b, c)),
                "a queued command that is no call of its own",
            ),
            (r.has_window(l) && taken <= 4, "taken slots are not the first open ones"),
            (l.flights.values().all(flies), "a flight with a majority"),
            (r.calls.is_empty() || taken == 4, "a call waits though a slot is open"),
            (names.len() == r.calls.len(), "two calls of one client wait"),
        ],
    )
}

/// Checks what a client is.
pub fn plain_client(s: &Scenario, c: &Client, gone: bool) -> Result<(), String> {
    let known = |(k, b): (&crate::client::Known, &Base)| {
        let core = &b.core;
        k.group == core.id && k.lo == core.arc.lo && k.members == core.members && k.preferred.is_none()
    };
    let what = format!("client {}", c.me);
    all_hold(
        &what,
        &[
            (!c.routes.is_empty() && c.routes.len() <= s.groups.len(), "number of routes"),
            (c.routes.iter().zip(&s.groups).all(known), "routes are not the first groups"),
            (gone || c.waiting.is_none() && c.replies.is_empty(), "not told to go"),
        ],
    )?;
    match c.waiting {
        None => all_hold(
            &what,
            &[(!gone || c.replies.len() == c.requests.len(), "none waits and not all are answered")],
        ),
        Some(seq) => {
            let seq = seq as usize;
            all_hold(&what, &[(c.replies.len() + 1 == seq && seq <= c.requests.len(), "number")])?;
            let p = c.requests[seq - 1].key().pos();
            let best = c.routes.iter().min_by_key(|r| p.wrapping_sub(r.lo)).expect("not empty");
            all_hold(&what, &[(c.asked == Some((best.group, least(&best.members))), "asked")])
        }
    }
}

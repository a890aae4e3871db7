//! Which actor a line of deliveries lets come next.

use crate::random::Dice;
use crate::world::*;
use std::collections::BTreeSet;

/// How a `free` line chooses, among the actors that have pending mail.
#[derive(Clone)]
pub enum Way {
    Any,
    /// Mostly the last one again.
    Sticky,
    /// These actors come last.
    Starve(BTreeSet<u32>),
    /// The actor whose first mail is the latest.
    Latest,
    /// Rounds in order.
    Rounds,
    /// The lowest actor first.
    Low,
    /// The highest actor first.
    High,
}

/// Draws a way to choose.
pub fn some_way(d: &mut Dice, w: &World) -> Way {
    match d.below(8) {
        0 | 1 => Way::Any,
        2 => Way::Sticky,
        3 | 4 => {
            let all: Vec<u32> = w.actors.keys().copied().collect();
            Way::Starve((0..d.from_to(1, 3)).map(|_| d.pick(&all)).collect())
        }
        5 => Way::Latest,
        6 => Way::Rounds,
        _ => d.pick(&[Way::Low, Way::High]),
    }
}

fn next_actor(d: &mut Dice, w: &World, way: &Way, last: &mut u32) -> Option<u32> {
    let there: Vec<u32> = w.actors.keys().copied().filter(|a| w.first_of(*a).is_some()).collect();
    if there.is_empty() {
        return None;
    }
    let who = match way {
        Way::Any => d.pick(&there),
        Way::Sticky if there.contains(last) && d.chance(80) => *last,
        Way::Sticky => d.pick(&there),
        Way::Starve(set) => {
            let rest: Vec<u32> = there.iter().copied().filter(|a| !set.contains(a)).collect();
            if rest.is_empty() {
                d.pick(&there)
            } else {
                d.pick(&rest)
            }
        }
        Way::Latest => *there.iter().max_by_key(|a| w.first_of(**a)).expect("not empty"),
        Way::Rounds => there.iter().copied().find(|a| *a > *last).unwrap_or(there[0]),
        Way::Low => there[0],
        Way::High => there[there.len() - 1],
    };
    *last = who;
    Some(who)
}

/// Returns the mail that is delivered next: the lowest of all where there is no way to choose, and else the first of
/// the chosen actor.
pub fn chosen(d: &mut Dice, w: &World, way: &Option<Way>, last: &mut u32) -> Option<u32> {
    match way {
        None => w.lowest(),
        Some(way) => next_actor(d, w, way, last).and_then(|who| w.first_of(who)),
    }
}

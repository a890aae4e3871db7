//! Sets of member nodes.

use std::collections::BTreeSet;

/// The most members of a group.
pub const MOST_MEMBERS: usize = 9;

/// A set of nodes.
pub type Members = BTreeSet<u16>;

/// Returns the least member greater than the node, or the least member where none is.
pub fn member_after(members: &Members, node: u16) -> u16 {
    match members.iter().find(|m| **m > node) {
        Some(m) => *m,
        None => least(members),
    }
}

/// Returns the least member.
pub fn least(members: &Members) -> u16 {
    *members.iter().next().expect("a member set is never empty")
}

/// Returns whether more than half of the members are among the voters.
pub fn is_majority(members: &Members, voters: &Members) -> bool {
    2 * members.iter().filter(|m| voters.contains(m)).count() > members.len()
}

/// Returns the members in ascending order, cut in two: the first `n - n/2`, and the rest.
pub fn halves(members: &Members) -> (Members, Members) {
    let n = members.len();
    let keep = n - n / 2;
    (members.iter().take(keep).copied().collect(), members.iter().skip(keep).copied().collect())
}

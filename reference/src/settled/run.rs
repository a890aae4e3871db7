//! The search: scenarios of all kinds, and what is said of them.

use super::bytes::Numbers;
use super::kinds::{one, Kind};
use super::seen::Seen;
use crate::scenario::text;
use crate::values::Dials;
use crate::world::JOURNAL_LIMIT;

/// So many faults of a kind are shown with their scenarios.
const SHOWN: u64 = 2;

/// Returns a line that says how far the bound of bytes is from the limit, for clients with the longest requests.
fn bound_line(clients: u128, each: u128, groups: u128, orders: u128, values: u128) -> String {
    let (requests, pair) = (clients * each, 32 + 64 + 256);
    let held = requests * pair + clients * (32 + 256);
    let numbers = Numbers { requests, clients, groups, orders, request: 64 + values * 256, held };
    format!(
        "{clients} clients with {each} requests, {groups} groups, {orders} orders, {values} values of 256 bytes: \
         bound {}, of mails alone {}, of N + 1 such {}, limit {JOURNAL_LIMIT}",
        numbers.bound(),
        numbers.light(),
        numbers.light() * (1 + orders)
    )
}

/// Checks `count` random scenarios of each kind from `seed` on, and a tenth as many of the heavy kind. The lines say
/// of how many what holds, and show the first scenarios of each kind where something does not.
pub fn settled(seed: u64, count: u64, dials: &Dials) -> (bool, Vec<String>) {
    let mut seen = Seen::default();
    let mut lines = Vec::new();
    let mut all = 0;
    for kind in Kind::ALL {
        let mut faults = 0;
        let count = if kind == Kind::Heavy { count.div_ceil(10) } else { count };
        for k in seed..seed.saturating_add(count) {
            let Err((s, e)) = one(kind, k, dials, &mut seen) else { continue };
            faults += 1;
            if faults <= SHOWN {
                lines.push(format!("{}, seed {k}: {e}", kind.name()));
                lines.push(text(&s));
            }
        }
        seen.add(&format!("{}: faults", kind.name()), faults);
        all += faults;
    }
    lines.push(format!("settled {count} of each kind, faults {all}"));
    lines.extend(seen.lines());
    lines.extend([1, 2].map(|values| bound_line(16, 50, 3, 8, values)));
    (all == 0, lines)
}

//! The made scenarios.

use super::*;
use crate::chacha::Words;

/// Returns the made scenario with `n` requests for each client, drawn by the number.
pub fn made_scenario(n: u32, number: u64) -> Scenario {
    let mut words = Words::start(number);
    let groups = [(0, [1, 2, 3]), (1342177280, [4, 5, 6]), (1744830464, [7, 8, 9])];
    let groups: Vec<(u32, Members)> =
        groups.iter().map(|(lo, m)| (*lo, m.iter().copied().collect())).collect();
    let mut made = Scenario { brief: true, ..Scenario::of_groups(1, 9, &groups) };
    for client in 1..=16u16 {
        made.clients.insert(client, (1..=n).map(|k| made_op(&mut words, client, k)).collect());
        made.lines.push(SchedLine::Go { client });
    }
    made.lines.push(SchedLine::Settle { most: 1_000_000 });
    made
}

/// Draws the request with this number of a client.
fn made_op(words: &mut Words, client: u16, request: u32) -> Op {
    let (a, b) = (words.next_word(), words.next_word());
    let mut bytes = vec![33 + (b % 94) as u8];
    bytes.extend(client.to_string().bytes());
    let key = Key(bytes);
    match a % 3 {
        0 => Op::Get { key },
        1 => Op::Put { key, value: Value(format!("v{request}").into_bytes()) },
        _ => Op::Del { key },
    }
}

//! The text of a report.

use crate::decided::Decided;
use crate::mail::*;
use crate::scenario::Scenario;
use crate::values::*;
use crate::world::*;

fn text(bytes: &[u8]) -> String {
    String::from_utf8(bytes.to_vec()).expect("keys and values are printable")
}

/// Returns the first result of an order that these rows send to the desk.
pub fn result_of(rows: &[Row], number: u32) -> Option<&ToldResult> {
    rows.iter().flat_map(|r| &r.sent).find_map(|m| match &m.body {
        MailBody::Told { order, result } if *order == number => Some(result),
        _ => None,
    })
}

fn result_text(result: Option<&ToldResult>) -> String {
    match result {
        None => "open".to_string(),
        Some(ToldResult::Done) => "done".to_string(),
        Some(ToldResult::Committed) => "committed".to_string(),
        Some(ToldResult::Aborted) => "aborted".to_string(),
        Some(ToldResult::Refused(r)) => {
            let (code, name) = r.code_and_name();
            format!("refused {code} {name}")
        }
    }
}

/// Returns the line of each request of a client.
fn request_lines(world: &World, c: u16, ops: &[Op]) -> Vec<String> {
    let client = world.client(client_actor(c)).expect("the client is there");
    let one = |(i, op): (usize, &Op)| {
        let (n, word) = (i as u32 + 1, op.word());
        match client.replies.get(i).map(|reply| &reply.old) {
            Some(None) => format!("reply {c} {n} {word} none"),
            Some(Some(v)) => format!("reply {c} {n} {word} value {}", text(&v.0)),
            None if client.waiting == Some(n) => format!("unanswered {c} {n} {word}"),
            None => format!("unsent {c} {n} {word}"),
        }
    };
    ops.iter().enumerate().map(one).collect()
}

fn ring_lines(decided: &Decided) -> Vec<String> {
    let one = |cut: &crate::decided::Cut| {
        let members = decided.groups.get(&cut.group).map(|g| g.state.core.members.clone());
        let names: Vec<String> = members.unwrap_or_default().iter().map(|m| m.to_string()).collect();
        format!("ring {} group {} members {}", cut.arc.lo, cut.group, names.join(" "))
    };
    decided.sorted_ring().iter().map(one).collect()
}

/// Returns the lines of the report, without their line feeds.
pub fn lines(scenario: &Scenario, world: &World, decided: &Decided) -> Vec<String> {
    let mut all = vec![format!("scatter report {}", scenario.version)];
    let requests: Vec<String> =
        scenario.clients.iter().flat_map(|(c, ops)| request_lines(world, *c, ops)).collect();
    if scenario.brief {
        let answered = requests.iter().filter(|line| line.starts_with("reply ")).count();
        all.push(format!("answered {answered} of {}", requests.len()));
    } else {
        all.extend(requests);
    }
    for i in 1..=scenario.orders() as u32 {
        all.push(format!("order {i} {}", result_text(result_of(&world.rows, i))));
    }
    all.extend(ring_lines(decided));
    all.push(format!("rows {}", world.rows.len()));
    all.push(format!("mail {}", world.sent()));
    let delivered = world.rows.iter().filter(|r| matches!(r.event, Event::Deliver(_))).count();
    all.push(format!("delivered {delivered}"));
    all.push(format!("skipped {}", world.skipped));
    all.push(format!("quiet {}", if world.quiet() { "yes" } else { "no" }));
    all
}

//! The text of a scenario.

use super::*;

fn word(bytes: &[u8]) -> String {
    String::from_utf8_lossy(bytes).to_string()
}

fn op_text(op: &Op) -> String {
    let key = word(&op.key().0);
    match op {
        Op::Get { .. } | Op::Del { .. } => format!("{} {key}\n", op.word()),
        Op::Put { value, .. } | Op::Add { value, .. } => {
            format!("{} {key} {}\n", op.word(), word(&value.0))
        }
        Op::Cas { expect, value, .. } => format!("cas {key} {} {}\n", word(&expect.0), word(&value.0)),
    }
}

/// Returns the name of an actor, as a scenario spells it.
pub fn actor_text(who: u32) -> String {
    if who <= 32 {
        format!("n{who}")
    } else {
        format!("c{}", who - 32)
    }
}

/// Returns the text of a line of the schedule, with its line feed.
pub fn line_text(line: &SchedLine) -> String {
    match line {
        SchedLine::Go { client } => format!("go {client}\n"),
        SchedLine::Deliver { who, k } => format!("deliver {} {k}\n", actor_text(*who)),
        SchedLine::Drop { who, k } => format!("drop {} {k}\n", actor_text(*who)),
        SchedLine::Again { mail } => format!("again {mail}\n"),
        SchedLine::Tick { who } => format!("tick {}\n", actor_text(*who)),
        SchedLine::Crash { node } => format!("crash {node}\n"),
        SchedLine::Settle { most } => format!("settle {most}\n"),
        SchedLine::Free { most, workers } => format!("free {most} {workers}\n"),
        SchedLine::Storm { number, most } => format!("storm {number} {most}\n"),
        SchedLine::Told { node, line } => format!("order {node} {}\n", order_text(&line.order)),
    }
}

fn order_text(order: &Order) -> String {
    match order {
        Order::Join { node, group } => format!("join {node} {group}"),
        Order::Leave { node, group } => format!("leave {node} {group}"),
        Order::Split { group, at } => format!("split {group} {at}"),
        Order::Merge { group } => format!("merge {group}"),
        Order::Repart { group, at } => format!("repart {group} {at}"),
        Order::Migrate { group, node } => format!("migrate {group} {node}"),
    }
}

/// Returns the text of a scenario.
pub fn text(s: &Scenario) -> String {
    let mut t = format!("scatter {}\nnodes {}\n", s.version, s.nodes);
    for g in &s.groups {
        let names: Vec<String> = g.core.members.iter().map(|m| m.to_string()).collect();
        t += &format!("group {} {}\n", g.core.arc.lo, names.join(" "));
    }
    if s.policy {
        t += "policy\n";
    }
    for (c, ops) in &s.clients {
        t += &format!("client {c}\n");
        ops.iter().for_each(|op| t += &op_text(op));
        t += "end\n";
    }
    s.lines.iter().for_each(|line| t += &line_text(line));
    t
}

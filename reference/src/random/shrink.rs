//! Smaller scenarios with the same fault.

use crate::scenario::*;

/// Numbers the orders of a schedule from 1 on.
pub fn renumber(lines: &mut [SchedLine]) {
    let mut n = 0;
    for l in lines {
        if let SchedLine::Told { line, .. } = l {
            n += 1;
            line.number = n;
        }
    }
}

/// Returns a smaller scenario that is still bad: lines, and then requests, are left out where they can be.
pub fn smaller(s: &Scenario, is_bad: &dyn Fn(&Scenario) -> bool) -> Scenario {
    let mut best = s.clone();
    if !is_bad(&best) {
        return best;
    }
    loop {
        let before = text(&best);
        without_lines(&mut best, is_bad);
        without_requests(&mut best, is_bad);
        shorter_lines(&mut best, is_bad);
        if text(&best) == before {
            return best;
        }
    }
}

/// Leaves out parts of the schedule, first long ones and then short ones.
fn without_lines(best: &mut Scenario, is_bad: &dyn Fn(&Scenario) -> bool) {
    let mut size = best.lines.len().max(1);
    while size > 0 {
        let mut at = 0;
        while at < best.lines.len() {
            let mut next = best.clone();
            next.lines.drain(at..(at + size).min(best.lines.len()));
            renumber(&mut next.lines);
            if is_bad(&next) {
                *best = next;
            } else {
                at += size;
            }
        }
        size /= 2;
    }
}

fn without_requests(best: &mut Scenario, is_bad: &dyn Fn(&Scenario) -> bool) {
    let names: Vec<u16> = best.clients.keys().copied().collect();
    for c in names {
        for k in (0..best.clients[&c].len()).rev() {
            let mut next = best.clone();
            next.clients.get_mut(&c).expect("there").remove(k);
            if is_bad(&next) {
                *best = next;
            }
        }
    }
}

/// Lets lines of several deliveries make fewer.
fn shorter_lines(best: &mut Scenario, is_bad: &dyn Fn(&Scenario) -> bool) {
    for i in 0..best.lines.len() {
        let mut next = best.clone();
        match &mut next.lines[i] {
            SchedLine::Settle { most } | SchedLine::Storm { most, .. } | SchedLine::Free { most, .. } => {
                while *most > 1 {
                    *most -= 1 + *most / 4;
                }
            }
            _ => continue,
        }
        if is_bad(&next) {
            *best = next;
        }
    }
}

//! What is checked of each kind of scenarios.

use super::bytes::*;
use super::forms::*;
use super::kinds::Kind;
use super::made::Making;
use super::orders::orders_end;
use super::seen::Seen;
use crate::mail::client_actor;
use crate::scenario::*;
use crate::values::*;

/// Returns the scenario that was made.
pub fn scenario(m: &Making) -> Scenario {
    Scenario { lines: m.lines.clone(), ..m.head.clone() }
}

/// Checks that the scenario has its form, and is what its text says.
fn is_formed(m: &Making) -> Result<(), String> {
    let s = scenario(m);
    if read_scenario(text(&s).as_bytes()) != Ok(s) {
        return Err("the text of another scenario".to_string());
    }
    let mut lines = m.lines.clone();
    lines.retain(|l| !matches!(l, SchedLine::Crash { .. }));
    let formed = if lines.iter().any(gives_order) { is_calm(&lines) } else { is_plain(&lines) };
    if formed {
        Ok(())
    } else {
        Err("drawn of another form".to_string())
    }
}

/// Checks that every client that was served has all replies.
fn are_answered(m: &Making) -> Result<(), String> {
    for c in served(&m.lines) {
        let client = m.world.client(client_actor(c)).expect("it was told to go");
        let (got, asked) = (client.replies.len(), m.head.clients[&c].len());
        if got != asked {
            return Err(format!("client {c} has {got} of {asked} replies"));
        }
    }
    Ok(())
}

/// The number of a scenario, and how its run ended.
pub struct End {
    pub seed: u64,
    pub status: u8,
}

fn result_word(result: &ToldResult) -> &'static str {
    match result {
        ToldResult::Done => "done",
        ToldResult::Committed => "committed",
        ToldResult::Aborted => "aborted",
        ToldResult::Refused(_) => "refused",
    }
}

fn order_word(order: &Order) -> &'static str {
    match order {
        Order::Join { .. } => "join",
        Order::Leave { .. } => "leave",
        Order::Split { .. } => "split",
        Order::Merge { .. } => "merge",
        Order::Repart { .. } => "repart",
        Order::Migrate { .. } => "migrate",
    }
}

/// Checks and counts what holds where no line was cut off.
fn settled_holds(m: &Making, kind: Kind, seen: &mut Seen) -> Result<(), String> {
    let name = kind.name();
    let taken = m.firsts > 0;
    are_answered(m)?;
    seen.add(&format!("{name}: answered"), 1);
    seen.add(&format!("{name}: answered, with first mail taken"), u64::from(taken));
    seen.add(&format!("{name}: replies"), m.world.clients().map(|c| c.replies.len() as u64).sum());
    if !m.lines.iter().any(gives_order) {
        return Ok(());
    }
    let results = orders_end(&m.lines, &m.world)?;
    for line in &m.lines {
        let SchedLine::Told { line, .. } = line else { continue };
        let result = results.get(&line.number).map_or("open", |r| result_word(r));
        seen.add(&format!("{name}: order {} {result}", order_word(&line.order)), 1);
    }
    seen.add(&format!("{name}: orders ended"), 1);
    seen.add(&format!("{name}: orders ended, with first mail taken"), u64::from(taken));
    Ok(())
}

/// Counts what came of a run with a line that was cut off.
fn count_cut_off(m: &Making, kind: Kind, end: &End, seen: &mut Seen) {
    let name = kind.name();
    let ordered = if m.lines.iter().any(gives_order) { "with orders" } else { "plain" };
    seen.add(&format!("{name}: cut off, {ordered}"), 1);
    if m.world.quiet() {
        let ended = are_answered(m).is_ok() && orders_end(&m.lines, &m.world).is_ok();
        let how = if ended { "answered" } else { "not answered or ended" };
        let what = format!("{name}: cut off, {ordered}, quiet in the end, {how}");
        seen.add(&what, 1);
        if !ended {
            seen.example(&what, text(&scenario(m)), end.seed);
        }
    }
}

/// Compares the counted bytes with the bound.
fn bytes_hold(m: &Making, kind: Kind, end: &End, seen: &mut Seen) -> Result<(), String> {
    let orders = m.lines.iter().filter(|l| gives_order(l)).count() as u64;
    let (numbers, bytes) = (numbers_of(m.head, orders), bytes_of(&m.world.rows));
    let all = bytes.light + bytes.heavy;
    if all != m.world.bytes {
        return Err(format!("{all} bytes counted, and not {}", m.world.bytes));
    }
    let bound = numbers.bound();
    let of = |part: u128, whole: u128| part as f64 / whole.max(1) as f64;
    let form = if orders == 0 { "plain" } else { "calm" };
    let name = kind.name();
    let mut note = |what: &str, x: f64| {
        if numbers.mails() > 0 {
            seen.greatest(&format!("{name}, {form}: {what}"), x, end.seed);
        }
    };
    note("bytes of the whole bound", of(all, bound));
    note("bytes of the bound of mails alone", of(all, numbers.light()));
    note("bytes of N + 1 such bounds", of(all, numbers.light() * (1 + numbers.orders)));
    note("mails of 16(R+NC)(1+G+N)+512N", of(u128::from(bytes.mails), numbers.mails()));
    note("light bytes of theirs", of(bytes.light, numbers.light()));
    if orders > 0 {
        note("laden mails of an order", of(u128::from(bytes.laden), numbers.orders));
        note("heavy bytes of theirs", of(bytes.heavy, numbers.heavy()));
        note("heavy bytes of N held", of(bytes.heavy, numbers.orders * numbers.held));
    }
    seen.add(&format!("{name}: bytes within the bound"), u64::from(all <= bound));
    if all > bound {
        return Err(format!("{all} bytes, above {bound}"));
    }
    Ok(())
}

/// Checks what is promised of a run of the kind.
pub fn holds(m: &Making, kind: Kind, end: &End, seen: &mut Seen) -> Result<(), String> {
    let ordered = m.lines.iter().any(gives_order);
    let name = kind.name();
    seen.add(&format!("{name}: status {}", end.status), 1);
    is_formed(m)?;
    match (kind, end.status) {
        (Kind::Last, 0 | 6) if !m.rested => return Err("mail is pending behind the last line".to_string()),
        (Kind::Last, 0 | 6) => {
            are_answered(m)?;
            seen.add("last: answered", 1);
            seen.add("last: answered, where another line was cut off", u64::from(end.status == 6));
            seen.add("last: answered, with first mail taken", u64::from(m.firsts > 0));
            seen.add("last: answered, and clients that go behind it", u64::from(late_goes(m)));
            return Ok(());
        }
        (Kind::Any | Kind::Heavy, 6) => {
            count_cut_off(m, kind, end, seen);
            return Ok(());
        }
        (_, 7) if ordered => return Ok(()),
        (_, 0) => {}
        (_, status) => return Err(format!("status {status}")),
    }
    settled_holds(m, kind, seen)?;
    if kind == Kind::Crashed {
        seen.add("crashed: nodes", m.world.crashed.len() as u64);
        return Ok(());
    }
    bytes_hold(m, kind, end, seen)
}

/// Returns whether a client goes behind the last line of deliveries.
fn late_goes(m: &Making) -> bool {
    let mut behind = m.lines.iter().rev().take_while(|l| !delivers(l));
    behind.any(|l| matches!(l, SchedLine::Go { .. }))
}

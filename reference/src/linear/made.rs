//! Random histories: of a map that is stepped at a random moment of each request.

use crate::random::Dice;
use std::collections::HashMap;
use std::fmt::Write;

/// What is drawn: how much of it, and how many of a thousand requests are lost, fail, are told another value than
/// they met, and are told none.
#[derive(Clone, Copy)]
pub struct Shape {
    pub requests: u64,
    pub processes: u64,
    pub keys: u64,
    pub lost: u64,
    pub fail: u64,
    pub wrong: u64,
    pub untold: u64,
}

#[derive(Clone, Copy)]
enum Process {
    Idle,
    Asked { kind: u64, key: u64, value: u64, expect: u64 },
    Done { kind: u64, old: Option<u64>, expect: u64 },
    Gone,
}

struct Maker {
    dice: Dice,
    shape: Shape,
    map: HashMap<u64, u64>,
    /// The requests that are left, and those that began.
    left: u64,
    begun: u64,
    values: u64,
    text: String,
}

impl Maker {
    fn of_1000(&mut self, count: u64) -> bool {
        self.dice.below(1000) < count
    }

    fn ask(&mut self, process: u64) -> Process {
        if self.left == 0 {
            return Process::Idle;
        }
        (self.left, self.begun) = (self.left - 1, self.begun + 1);
        let key = self.dice.below(self.shape.keys);
        let value = if self.values > 50 { self.begun } else { self.dice.below(self.values) };
        let expect = self.map.get(&key).copied().unwrap_or_else(|| self.dice.below(self.values));
        let kind = self.dice.below(10);
        let said = match kind {
            0..=3 => format!("get k{key}"),
            4..=6 => format!("put k{key} v{value}"),
            7 => format!("del k{key}"),
            8 => format!("add k{key} v{value}"),
            _ => format!("cas k{key} v{expect} v{value}"),
        };
        let _ = writeln!(self.text, "{process} {said}");
        Process::Asked { kind, key, value, expect }
    }

    fn step(&mut self, kind: u64, key: u64, value: u64, expect: u64) -> Option<u64> {
        let old = self.map.get(&key).copied();
        let writes = match kind {
            0..=3 | 7 => false,
            4..=6 => true,
            8 => old.is_none(),
            _ => old == Some(expect),
        };
        if writes {
            self.map.insert(key, value);
        } else if kind == 7 {
            self.map.remove(&key);
        }
        old
    }

    fn end(&mut self, process: u64, kind: u64, met: Option<u64>, expect: u64) -> Process {
        if self.of_1000(self.shape.lost) {
            let _ = writeln!(self.text, "{process} lost");
            return Process::Gone;
        }
        let is_wrong = self.of_1000(self.shape.wrong);
        let old = if is_wrong { Some(self.dice.below(self.values.max(self.begun))) } else { met };
        let is_no = (kind == 8 && old.is_some()) || (kind == 9 && old != Some(expect));
        let said = match old {
            _ if self.of_1000(self.shape.untold) => {
                if is_no {
                    "no".into()
                } else {
                    "ok".into()
                }
            }
            None => "none".into(),
            Some(value) => format!("value v{value}"),
        };
        let _ = writeln!(self.text, "{process} {said}");
        Process::Idle
    }

    fn go_on(&mut self, number: u64, process: Process) -> Process {
        match process {
            Process::Gone => Process::Gone,
            Process::Idle => self.ask(number),
            Process::Asked { kind, key, value, expect } => {
                if self.of_1000(self.shape.fail) {
                    let _ = writeln!(self.text, "{number} fail");
                    return Process::Idle;
                }
                let old = self.step(kind, key, value, expect);
                Process::Done { kind, old, expect }
            }
            Process::Done { kind, old, expect } => self.end(number, kind, old, expect),
        }
    }
}

/// Makes the history of this shape that a seed draws.
pub fn made_history(seed: u64, shape: Shape) -> String {
    let mut maker = Maker {
        dice: Dice::start(seed),
        shape,
        map: HashMap::new(),
        left: shape.requests,
        begun: 0,
        values: 3 + shape.requests / 4,
        text: String::from("scatter history 1\n"),
    };
    let mut processes = vec![Process::Idle; shape.processes as usize];
    loop {
        let works = |one: &Process| !matches!(one, Process::Idle | Process::Gone);
        let asks = maker.left > 0 && processes.iter().any(|one| matches!(one, Process::Idle));
        if !asks && !processes.iter().any(works) {
            return maker.text;
        }
        let at = maker.dice.below(shape.processes) as usize;
        processes[at] = maker.go_on(at as u64 + 1, processes[at]);
    }
}

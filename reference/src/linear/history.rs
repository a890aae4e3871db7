//! Histories as text: one event a line.

use std::collections::{HashMap, HashSet};

/// The words of the first line of a history.
const HEADER: [&[u8]; 3] = [b"scatter", b"history", b"1"];
/// The most bytes of a history.
pub const MOST_BYTES: usize = 268_435_456;
/// Behind the last line of any text: where a request ends that is open or lost.
pub const NEVER: u32 = u32::MAX;

/// An operation; keys and values are known by numbers.
#[derive(Clone, Copy, PartialEq, Eq, Debug)]
pub enum Act {
    Get,
    Put(u32),
    Del,
    Add(u32),
    Cas(u32, u32),
}

impl Act {
    /// Returns the value of the key afterwards.
    pub fn after(&self, old: Option<u32>) -> Option<u32> {
        match *self {
            Act::Get => old,
            Act::Put(value) => Some(value),
            Act::Del => None,
            Act::Add(value) => old.or(Some(value)),
            Act::Cas(expect, value) => {
                if old == Some(expect) {
                    Some(value)
                } else {
                    old
                }
            }
        }
    }
}

/// How a request ended.
#[derive(Clone, Copy, PartialEq, Eq, Debug)]
pub enum End {
    /// It is done, and this was the value before.
    Told(Option<u32>),
    /// It is done, and the value before is not told.
    Untold,
    /// It is done, met what it did not want, and changed nothing.
    No,
    /// It certainly has no effect.
    Fail,
    /// Nobody knows whether it has an effect.
    Lost,
}

/// A request: who asked what of which key, the lines on which it began and ended, and how it ended.
#[derive(Clone, Copy, PartialEq, Eq, Debug)]
pub struct Call {
    pub process: u32,
    pub key: u32,
    pub act: Act,
    pub begun: u32,
    pub ended: u32,
    pub end: End,
}

impl Call {
    /// Returns whether it may have met this value, by what it was told in the end.
    pub fn fits(&self, old: Option<u32>) -> bool {
        match self.end {
            End::Told(was) => was == old,
            End::No => match self.act {
                Act::Cas(expect, _) => old != Some(expect),
                Act::Add(_) => old.is_some(),
                _ => false,
            },
            End::Untold | End::Lost => true,
            End::Fail => false,
        }
    }
}

/// The requests of a history by their beginnings, and the names of its keys and values.
#[derive(Default)]
pub struct History {
    pub calls: Vec<Call>,
    pub keys: Names,
    pub values: Names,
}

/// Names by number, and numbers by name.
#[derive(Default)]
pub struct Names {
    names: Vec<Vec<u8>>,
    numbers: HashMap<Vec<u8>, u32>,
}

impl Names {
    /// Returns the number of a name, which is a new one where the name is.
    pub fn number(&mut self, name: &[u8]) -> u32 {
        if let Some(number) = self.numbers.get(name) {
            return *number;
        }
        let number = self.names.len() as u32;
        self.names.push(name.to_vec());
        self.numbers.insert(name.to_vec(), number);
        number
    }
    /// Returns the name of a number.
    pub fn name(&self, number: u32) -> &[u8] {
        &self.names[number as usize]
    }
    pub fn len(&self) -> usize {
        self.names.len()
    }
    pub fn is_empty(&self) -> bool {
        self.names.is_empty()
    }
}

/// Why a line is refused, and which.
pub type Bad = (usize, &'static str);

fn process(word: &[u8]) -> Option<u32> {
    let number = crate::values::read_number(word, u64::from(u32::MAX))?;
    (number > 0).then_some(number as u32)
}

fn is_text(word: &[u8], most: usize) -> bool {
    (1..=most).contains(&word.len()) && word.iter().all(|b| (33..=126).contains(b))
}

/// Returns how many words a line with this second word has, where it is one of a history.
fn word_count(kind: &[u8]) -> Option<usize> {
    match kind {
        b"none" | b"ok" | b"no" | b"fail" | b"lost" => Some(2),
        b"get" | b"del" | b"value" => Some(3),
        b"put" | b"add" => Some(4),
        b"cas" => Some(5),
        _ => None,
    }
}

/// Looks at the words behind the second: the first of them that is too long or has another byte.
fn fault_of_names(kind: &[u8], names: &[&[u8]]) -> Option<&'static str> {
    let has_key = kind != b"value";
    names.iter().enumerate().find_map(|(at, name)| match has_key && at == 0 {
        true => (!is_text(name, 64)).then_some("bad key"),
        false => (!is_text(name, 256)).then_some("bad value"),
    })
}

/// What is read line by line.
#[derive(Default)]
struct Reader {
    history: History,
    /// The request under way of each process.
    open: HashMap<u32, usize>,
    lost: HashSet<u32>,
}

impl Reader {
    fn act(&mut self, kind: &[u8], names: &[&[u8]]) -> Option<Act> {
        let values = &mut self.history.values;
        match kind {
            b"get" => Some(Act::Get),
            b"put" => Some(Act::Put(values.number(names[1]))),
            b"del" => Some(Act::Del),
            b"add" => Some(Act::Add(values.number(names[1]))),
            b"cas" => {
                let expect = values.number(names[1]);
                Some(Act::Cas(expect, values.number(names[2])))
            }
            _ => None,
        }
    }

    fn end(&mut self, kind: &[u8], names: &[&[u8]]) -> End {
        match kind {
            b"none" => End::Told(None),
            b"value" => End::Told(Some(self.history.values.number(names[0]))),
            b"no" => End::No,
            b"fail" => End::Fail,
            b"lost" => End::Lost,
            _ => End::Untold,
        }
    }

    fn line(&mut self, number: u32, words: &[&[u8]]) -> Result<(), &'static str> {
        if words.len() < 2 || word_count(words[1]) != Some(words.len()) {
            return Err("not a line of a history");
        }
        let (kind, names) = (words[1], &words[2..]);
        let process = process(words[0]).ok_or("bad number")?;
        if let Some(fault) = fault_of_names(kind, names) {
            return Err(fault);
        }
        if self.lost.contains(&process) {
            return Err("process is lost");
        }
        match self.act(kind, names) {
            Some(act) => self.begins(number, process, names[0], act),
            None => {
                let end = self.end(kind, names);
                self.ends(number, process, end)
            }
        }
    }

    fn begins(&mut self, number: u32, process: u32, key: &[u8], act: Act) -> Result<(), &'static str> {
        if self.open.contains_key(&process) {
            return Err("process has a request");
        }
        let key = self.history.keys.number(key);
        self.open.insert(process, self.history.calls.len());
        let call = Call { process, key, act, begun: number, ended: NEVER, end: End::Lost };
        self.history.calls.push(call);
        Ok(())
    }

    fn ends(&mut self, number: u32, process: u32, end: End) -> Result<(), &'static str> {
        let at = *self.open.get(&process).ok_or("process has no request")?;
        let call = &mut self.history.calls[at];
        if end == End::No && !matches!(call.act, Act::Cas(..) | Act::Add(_)) {
            return Err("not a line of a history");
        }
        self.open.remove(&process);
        call.end = end;
        if end == End::Lost {
            self.lost.insert(process);
        } else {
            call.ended = number;
        }
        Ok(())
    }
}

/// The words of a line, between blanks and tabs.
fn words_of(line: &[u8]) -> Vec<&[u8]> {
    let line = line.strip_suffix(b"\r").unwrap_or(line);
    line.split(|b| matches!(b, b' ' | b'\t')).filter(|word| !word.is_empty()).collect()
}

/// Reads a history, or says which line is the first bad one, and why.
pub fn read_history(text: &[u8]) -> Result<History, Bad> {
    if text.len() > MOST_BYTES {
        return Err((0, "file too large"));
    }
    let mut reader = Reader::default();
    let mut lines = text.split(|b| *b == b'\n');
    if words_of(lines.next().unwrap_or(&[])) != HEADER {
        return Err((1, "not a history"));
    }
    for (at, line) in lines.enumerate() {
        let words = words_of(line);
        if words.is_empty() || line[0] == b'#' {
            continue;
        }
        let number = at + 2;
        reader.line(number as u32, &words).map_err(|reason| (number, reason))?;
    }
    Ok(reader.history)
}

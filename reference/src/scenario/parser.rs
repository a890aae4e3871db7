//! The parser of scenarios.

use super::kinds::Kind;
use super::words::*;
use super::*;
use std::collections::BTreeSet;

/// The most bytes of an input.
pub const MOST_BYTES: usize = 16_777_216;
/// The most lines of an input.
const MOST_LINES: usize = 20_000;

/// A line of the text: its bytes without line feed and without the ignored carriage return, and whether it holds
/// the byte after the last one allowed.
struct TextLine<'a> {
    bytes: &'a [u8],
    too_far: bool,
}

fn split_lines(text: &[u8]) -> Vec<TextLine<'_>> {
    let mut lines = Vec::new();
    let mut start = 0;
    while start < text.len() {
        let (mut end, next) = match text[start..].iter().position(|b| *b == b'\n') {
            Some(k) => (start + k, start + k + 1),
            None => (text.len(), text.len()),
        };
        if end > start && text[end - 1] == b'\r' {
            end -= 1;
        }
        lines.push(TextLine { bytes: &text[start..end], too_far: start <= MOST_BYTES && MOST_BYTES < next });
        start = next;
    }
    lines
}

/// What was read so far.
struct Parser {
    version: u8,
    nodes: Option<u16>,
    groups: Vec<(u32, Members)>,
    policy: bool,
    clients: BTreeMap<u16, Vec<Op>>,
    /// The client whose section is open.
    inside: Option<u16>,
    lines: Vec<SchedLine>,
    orders: u32,
    phase: u8,
}

impl Parser {
    fn known_node(&self, n: u16) -> Result<(), Fault> {
        if n > self.nodes.expect("a nodes line came before") {
            Err(Fault::UnknownName)
        } else {
            Ok(())
        }
    }
    fn known_client(&self, c: u16) -> Result<(), Fault> {
        if self.clients.contains_key(&c) {
            Ok(())
        } else {
            Err(Fault::UnknownName)
        }
    }
    /// Reads the name of an actor that there is.
    fn actor(&self, word: &[u8]) -> Result<u32, Fault> {
        let who = actor_name(word)?;
        self.known(who)?;
        Ok(who.actor())
    }
    fn known(&self, who: Who) -> Result<(), Fault> {
        match who {
            Who::Node(n) => self.known_node(n),
            Who::Client(c) => self.known_client(c),
        }
    }

    /// Returns whether a line of this kind may stand here.
    fn in_place(&self, kind: Kind) -> bool {
        let phase = kind.phase();
        let twice = kind == Kind::Nodes && self.nodes.is_some() || kind == Kind::Policy && self.policy;
        let early = phase >= 2 && self.nodes.is_none() || phase >= 3 && self.groups.is_empty();
        kind.is_inside() == self.inside.is_some()
            && kind != Kind::Scatter
            && phase >= self.phase
            && !twice
            && !early
    }

    /// Reads one line from line 2 on that is not skipped. `Err` is the first cause that applies.
    fn line(&mut self, bytes: &[u8]) -> Result<(), Fault> {
        if bytes.iter().any(|b| !(32..=126).contains(b) && *b != b'\t') {
            return Err(Fault::BadByte);
        }
        let words = words_of(bytes);
        let kind = Kind::of(&words, self.version).ok_or(Fault::UnknownWord)?;
        if !self.in_place(kind) {
            return Err(Fault::OutOfPlace);
        }
        if !kind.has_words(words.len()) {
            return Err(Fault::WrongCount);
        }
        match kind {
            Kind::Nodes => self.nodes = Some(node_number(words[1])?),
            Kind::Group => self.group(&words)?,
            Kind::Policy => self.policy = true,
            Kind::Client => self.client(words[1])?,
            Kind::End => self.inside = None,
            Kind::Get | Kind::Put | Kind::Del | Kind::Add | Kind::Cas => self.request(kind, &words)?,
            _ => {
                let line = self.schedule_line(kind, &words)?;
                self.lines.push(line);
            }
        }
        self.phase = kind.phase();
        Ok(())
    }

    fn client(&mut self, word: &[u8]) -> Result<(), Fault> {
        let c = client_number(word)?;
        if self.clients.contains_key(&c) {
            return Err(Fault::Repeated);
        }
        self.clients.insert(c, Vec::new());
        self.inside = Some(c);
        Ok(())
    }

    fn group(&mut self, words: &[&[u8]]) -> Result<(), Fault> {
        let lo = position(words[1])?;
        let nodes = words[2..].iter().map(|w| node_number(w)).collect::<Result<Vec<u16>, Fault>>()?;
        for n in &nodes {
            self.known_node(*n)?;
        }
        let set: BTreeSet<u16> = nodes.iter().copied().collect();
        if set.len() < nodes.len() {
            return Err(Fault::Repeated);
        }
        if self.groups.last().is_some_and(|(before, _)| lo <= *before) {
            return Err(Fault::BadBoundary);
        }
        if self.groups.len() == 16 || nodes.len() > MOST_MEMBERS {
            return Err(Fault::TooMany);
        }
        self.groups.push((lo, set));
        Ok(())
    }

    fn request(&mut self, kind: Kind, words: &[&[u8]]) -> Result<(), Fault> {
        let key = key(words[1]).ok_or(Fault::BadKey)?;
        let mut values = Vec::new();
        for w in &words[2..] {
            values.push(value(w).ok_or(Fault::BadValue)?);
        }
        let client = self.inside.expect("inside a section");
        let list = self.clients.get_mut(&client).expect("its section was opened");
        if list.len() == 1000 {
            return Err(Fault::TooMany);
        }
        let mut values = values.into_iter();
        let mut one = || values.next().expect("the words were counted");
        list.push(match kind {
            Kind::Get => Op::Get { key },
            Kind::Del => Op::Del { key },
            Kind::Put => Op::Put { key, value: one() },
            Kind::Add => Op::Add { key, value: one() },
            _ => Op::Cas { key, expect: one(), value: one() },
        });
        Ok(())
    }

    fn schedule_line(&mut self, kind: Kind, words: &[&[u8]]) -> Result<SchedLine, Fault> {
        Ok(match kind {
            Kind::Go => {
                let client = client_number(words[1])?;
                self.known_client(client)?;
                SchedLine::Go { client }
            }
            Kind::Deliver | Kind::Drop => {
                let (who, k) = (actor_name(words[1])?, count(words[2])?);
                self.known(who)?;
                let who = who.actor();
                if kind == Kind::Drop {
                    SchedLine::Drop { who, k }
                } else {
                    SchedLine::Deliver { who, k }
                }
            }
            Kind::Again => SchedLine::Again { mail: count(words[1])? },
            Kind::Tick => SchedLine::Tick { who: self.actor(words[1])? },
            Kind::Crash => {
                let node = node_number(words[1])?;
                self.known_node(node)?;
                SchedLine::Crash { node }
            }
            Kind::Settle => SchedLine::Settle { most: limit(words[1])? },
            Kind::Free => SchedLine::Free { most: limit(words[1])?, workers: number32(words[2], 1, 16)? },
            Kind::Storm => {
                SchedLine::Storm { number: number(words[1], 0, u64::MAX)?, most: limit(words[2])? }
            }
            _ => self.order(kind, words)?,
        })
    }

    fn order(&mut self, kind: Kind, words: &[&[u8]]) -> Result<SchedLine, Fault> {
        let node = node_number(words[1])?;
        let (order, other) = order_of(kind, words)?;
        self.known_node(node)?;
        if let Some(other) = other {
            self.known_node(other)?;
        }
        self.orders += 1;
        Ok(SchedLine::Told { node, line: OrderLine { number: self.orders, order } })
    }

    fn end(self, line: u32) -> Result<Scenario, Bad> {
        if self.inside.is_some() {
            return Err(Bad { line, why: Fault::UnendedClient });
        }
        let (true, Some(nodes)) = (!self.groups.is_empty(), self.nodes) else {
            return Err(Bad { line, why: Fault::MissingPart });
        };
        Ok(Scenario {
            policy: self.policy,
            clients: self.clients,
            lines: self.lines,
            ..Scenario::of_groups(self.version, nodes, &self.groups)
        })
    }
}

/// Reads an order, and the other node that it names.
fn order_of(kind: Kind, words: &[&[u8]]) -> Result<(Order, Option<u16>), Fault> {
    Ok(match kind {
        Kind::OrderJoin | Kind::OrderLeave => {
            let (node, group) = (node_number(words[3])?, group_name(words[4])?);
            let join = kind == Kind::OrderJoin;
            (if join { Order::Join { node, group } } else { Order::Leave { node, group } }, Some(node))
        }
        Kind::OrderMerge => (Order::Merge { group: group_name(words[3])? }, None),
        Kind::OrderSplit => (Order::Split { group: group_name(words[3])?, at: position(words[4])? }, None),
        Kind::OrderRepart => (Order::Repart { group: group_name(words[3])?, at: position(words[4])? }, None),
        _ => {
            let (group, node) = (group_name(words[3])?, node_number(words[4])?);
            (Order::Migrate { group, node }, Some(node))
        }
    })
}

/// Reads the text of a scenario.
pub fn read_scenario(text: &[u8]) -> Result<Scenario, Bad> {
    let lines = split_lines(text);
    let mut parser = Parser {
        version: 1,
        nodes: None,
        groups: Vec::new(),
        policy: false,
        clients: BTreeMap::new(),
        inside: None,
        lines: Vec::new(),
        orders: 0,
        phase: 0,
    };
    if lines.is_empty() {
        return Err(Bad { line: 1, why: Fault::MissingHeader });
    }
    for (i, line) in lines.iter().enumerate() {
        let bad = |why| Bad { line: i as u32 + 1, why };
        if line.too_far || i >= MOST_LINES {
            return Err(bad(Fault::TooLarge));
        }
        if i == 0 {
            match words_of(line.bytes)[..] {
                [b"scatter", b"1"] => {}
                [b"scatter", b"2"] => parser.version = 2,
                _ => return Err(bad(Fault::MissingHeader)),
            }
            continue;
        }
        if line.bytes.first() == Some(&b'#') || words_of(line.bytes).is_empty() {
            continue;
        }
        parser.line(line.bytes).map_err(bad)?;
    }
    parser.end(lines.len() as u32 + 1)
}

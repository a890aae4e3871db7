//! A run of a scenario: its schedule, the actors, the mail and the rows of the journal.

mod schedule;

use crate::client::Client;
use crate::mail::*;
use crate::node::Node;
use crate::random::Dice;
use crate::replica::Replica;
use crate::scenario::*;
use crate::values::*;
use crate::weights::row_bytes;
use std::collections::{BTreeMap, BTreeSet};

/// An actor: a node or a client.
#[derive(Clone, PartialEq, Eq, Debug)]
pub enum Party {
    Node(Node),
    Client(Client),
}

impl Party {
    /// Takes an input, and returns what the actor sends.
    pub fn step(&mut self, input: &Input) -> Vec<Mail> {
        match self {
            Party::Node(n) => n.step(input),
            Party::Client(c) => c.step(input),
        }
    }
}

/// Returns the actors at their birth, by number.
pub fn births(s: &Scenario, dials: &Dials) -> BTreeMap<u32, Party> {
    let mut all = BTreeMap::new();
    for n in 1..=s.nodes {
        all.insert(u32::from(n), Party::Node(Node::born(dials, n, &s.groups, s.policy)));
    }
    for (c, ops) in &s.clients {
        all.insert(client_actor(*c), Party::Client(Client::born(*c, ops.clone(), &s.first_route())));
    }
    all
}

/// The most bytes that a journal counts.
pub const JOURNAL_LIMIT: u128 = 1 << 30;

/// The journal is full.
pub struct Full;

/// The replicas of one group, by node.
pub type GroupReplicas<'a> = BTreeMap<u16, &'a Replica>;
/// The replicas of all groups.
pub type Replicas<'a> = BTreeMap<Draw, GroupReplicas<'a>>;

/// Returns the replica that has executed most, and among equals one that runs.
pub fn newest<'a>(group: &GroupReplicas<'a>) -> &'a Replica {
    group.values().max_by_key(|r| (r.next, r.running())).expect("a group has a replica")
}

/// A run of a scenario so far.
#[derive(Clone)]
pub struct World<'a> {
    scenario: &'a Scenario,
    limit: u128,
    pub bytes: u128,
    pub actors: BTreeMap<u32, Party>,
    pub rows: Vec<Row>,
    /// Where each mail stands, by its number less 1: the row and the place in it.
    places: Vec<(usize, usize)>,
    /// The copies of the pending mail of each actor, by number.
    pending: BTreeMap<u32, BTreeMap<u32, u32>>,
    pub crashed: BTreeSet<u32>,
    told_go: BTreeSet<u32>,
    pub skipped: u32,
    pub unsettled: bool,
    /// Where it is there, `free` lines choose actors at random, as threads may.
    pub chooser: Option<Dice>,
}

impl<'a> World<'a> {
    /// Returns the run before its first row.
    pub fn start(scenario: &'a Scenario, dials: &Dials, limit: u128) -> World<'a> {
        World {
            scenario,
            limit,
            bytes: 0,
            actors: births(scenario, dials),
            rows: Vec::new(),
            places: Vec::new(),
            pending: BTreeMap::new(),
            crashed: BTreeSet::new(),
            told_go: BTreeSet::new(),
            skipped: 0,
            unsettled: false,
            chooser: None,
        }
    }

    /// Returns the node of an actor number.
    pub fn node(&self, who: u32) -> Option<&Node> {
        match self.actors.get(&who) {
            Some(Party::Node(n)) => Some(n),
            _ => None,
        }
    }
    /// Returns the client of an actor number.
    pub fn client(&self, who: u32) -> Option<&Client> {
        match self.actors.get(&who) {
            Some(Party::Client(c)) => Some(c),
            _ => None,
        }
    }
    /// Returns the replicas of each group by node.
    pub fn replicas(&self) -> Replicas<'_> {
        let mut all = Replicas::new();
        for n in self.nodes() {
            for (id, r) in &n.replicas {
                all.entry(*id).or_default().insert(n.me, r);
            }
        }
        all
    }
    /// Iterates over the nodes.
    pub fn nodes(&self) -> impl Iterator<Item = &Node> {
        self.actors.keys().filter_map(|who| self.node(*who))
    }
    /// Iterates over the clients.
    pub fn clients(&self) -> impl Iterator<Item = &Client> {
        self.actors.keys().filter_map(|who| self.client(*who))
    }
    /// Returns whether every client that was told to go has all replies.
    pub fn answered(&self) -> bool {
        let has_all = |c: &Client| c.replies.len() == c.requests.len();
        self.clients().all(|c| !self.has_gone(client_actor(c.me)) || has_all(c))
    }
    /// Returns whether a client was told to go.
    pub fn has_gone(&self, who: u32) -> bool {
        self.told_go.contains(&who)
    }
    /// Returns the number of mails sent.
    pub fn sent(&self) -> u32 {
        self.places.len() as u32
    }
    /// Returns the mail with a number.
    pub fn mail(&self, number: u32) -> Option<&Mail> {
        let (row, place) = self.places.get((number as usize).checked_sub(1)?)?;
        Some(&self.rows[*row].sent[*place])
    }
    /// Returns whether no mail is pending.
    pub fn quiet(&self) -> bool {
        self.pending.values().all(|p| p.is_empty())
    }
    /// Returns every pending copy of one actor, or of all, as numbers in ascending order.
    pub fn spots(&self, who: Option<u32>) -> Vec<u32> {
        let mut all = Vec::new();
        for (actor, copies) in &self.pending {
            if who.is_none_or(|w| w == *actor) {
                for (number, n) in copies {
                    for _ in 0..*n {
                        all.push(*number);
                    }
                }
            }
        }
        all.sort();
        all
    }
    fn kth(&self, who: u32, k: u32) -> Option<u32> {
        let mut left = k;
        for (number, n) in self.pending.get(&who)? {
            if left <= *n {
                return Some(*number);
            }
            left -= n;
        }
        None
    }
    /// Returns the pending mail of each actor, in order.
    pub fn rests(&self) -> BTreeMap<u32, Vec<&Mail>> {
        let rest = |who: u32| {
            self.spots(Some(who)).into_iter().map(|n| self.mail(n).expect("it was sent")).collect()
        };
        self.actors.keys().map(|who| (*who, rest(*who))).collect()
    }
    /// Returns how many copies are pending for an actor.
    pub fn waiting(&self, who: u32) -> u32 {
        self.pending.get(&who).map_or(0, |p| p.values().sum())
    }
    /// Returns the first pending mail of an actor.
    pub fn first_of(&self, who: u32) -> Option<u32> {
        self.pending.get(&who)?.keys().next().copied()
    }
    /// Returns the lowest-numbered pending mail of all.
    pub fn lowest(&self) -> Option<u32> {
        self.pending.values().filter_map(|p| p.keys().next()).min().copied()
    }

    fn add_copy(&mut self, number: u32) {
        let to = self.mail(number).expect("it was sent").to;
        if to == DESK || self.crashed.contains(&to) {
            return;
        }
        *self.pending.entry(to).or_default().entry(number).or_default() += 1;
    }
    fn take_copy(&mut self, number: u32) {
        let to = self.mail(number).expect("it was sent").to;
        let copies = self.pending.get_mut(&to).expect("it is pending");
        let n = copies.get_mut(&number).expect("it is pending");
        *n -= 1;
        if *n == 0 {
            copies.remove(&number);
        }
    }

    /// Appends a row where its bytes have room.
    fn append(&mut self, who: u32, event: Event, sent: Vec<Mail>) -> Result<(), Full> {
        let bytes = self.bytes + row_bytes(&sent);
        if bytes > self.limit {
            return Err(Full);
        }
        self.bytes = bytes;
        match &event {
            Event::Deliver(number) | Event::Drop(number) => self.take_copy(*number),
            Event::Again(number) => self.add_copy(*number),
            Event::Crash => {
                self.crashed.insert(who);
                self.pending.remove(&who);
            }
            _ => {}
        }
        let row = self.rows.len();
        let count = sent.len();
        self.rows.push(Row { who, event, sent });
        for place in 0..count {
            self.places.push((row, place));
            self.add_copy(self.sent());
        }
        Ok(())
    }

    /// A row of an actor: it is stepped, and what it sends is appended.
    fn act(&mut self, who: u32, event: Event) -> Result<(), Full> {
        let input = match &event {
            Event::Deliver(number) => Input::Got(self.mail(*number).expect("it was sent").clone()),
            Event::Tick => Input::Tick,
            Event::Go => Input::Go,
            Event::Told(line) => Input::Told(line.clone()),
            Event::Crash => return self.append(who, event, Vec::new()),
            Event::Drop(_) | Event::Again(_) => unreachable!("a row of the network"),
        };
        let sent = self.actors.get_mut(&who).expect("the actor is there").step(&input);
        self.append(who, event, sent)
    }

    /// Delivers a pending mail.
    pub fn deliver(&mut self, number: u32) -> Result<(), Full> {
        let who = self.mail(number).expect("it was sent").to;
        self.act(who, Event::Deliver(number))
    }
}

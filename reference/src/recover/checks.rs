//! The predicates of recovery, at each row and in each quiet state.

use super::view::{GroupView, Looked};
use super::{leading, voting};
use crate::mail::*;
use crate::values::*;
use crate::world::*;
use std::collections::{BTreeMap, BTreeSet};

/// When a run is looked at.
#[derive(Clone, Copy, PartialEq, Eq, Debug)]
pub enum Moment {
    /// An actor has ticked, and nothing was delivered since.
    Begin,
    /// A mail was delivered.
    Row,
    /// The mail after a tick was delivered, and the turn goes on.
    Tick,
    /// The mail after the last tick of a turn was delivered.
    Turn,
    /// Each node had its turn.
    Swept,
    /// No mail is pending.
    Quiet,
}

/// Which turns there were, and how they ended.
#[derive(Default)]
pub struct Turns {
    /// The ticks of a turn.
    pub ticks: usize,
    /// Nodes whose first tick has settled.
    pub swept: BTreeSet<u32>,
    /// Nodes whose turn has begun.
    pub begun: BTreeSet<u32>,
    /// Groups whose last member has had its turn and was elected in it.
    pub led: BTreeSet<Draw>,
    /// Groups of which each member has had its turn.
    pub done: BTreeSet<Draw>,
    /// Whose turn had an election, by group.
    pub elected: BTreeSet<(Draw, u16)>,
    /// The ballots with which the node of this turn was elected, by group.
    pub polls: BTreeMap<Draw, Ballot>,
    /// The actor whose turn it is.
    pub turn: Option<u32>,
    /// Whether each node had its turn.
    after: bool,
    /// The client that has asked again, and how many replies it had.
    asked: Option<(u32, usize)>,
}

/// The predicates, and how often each was looked at.
#[derive(Default)]
pub struct Checks {
    turns: Turns,
    pub looked: Looked,
}

impl Turns {
    /// Notes the tick of an actor.
    fn begin(&mut self, w: &World, who: Option<u32>) {
        self.turn = who;
        self.polls.clear();
        self.asked = None;
        let Some(n) = who else { return };
        if let Some(node) = w.node(n) {
            self.begun.insert(n);
            for (g, r) in &node.replicas {
                if let (Some(l), false) = (&r.leader, r.settled()) {
                    self.polls.insert(*g, l.ballot);
                    self.elected.insert((*g, n as u16));
                }
            }
        } else if let Some(c) = w.client(n) {
            if c.waiting.is_some() {
                self.asked = Some((n, c.replies.len()));
            }
        }
    }
}

impl Checks {
    /// Returns the predicates of turns of so many ticks.
    pub fn of_ticks(ticks: usize) -> Checks {
        Checks { turns: Turns { ticks, ..Turns::default() }, looked: Looked::default() }
    }

    /// Looks at a run.
    pub fn view(&mut self, w: &World, at: Moment, who: Option<u32>) -> Result<(), String> {
        let all = w.replicas();
        if at == Moment::Begin {
            self.turns.begin(w, who);
        }
        if at == Moment::Swept {
            self.turns.after = true;
            self.count_even(w, &all);
        }
        let mails: Vec<&Mail> = w.spots(None).into_iter().map(|n| w.mail(n).expect("it was sent")).collect();
        let groups: Vec<GroupView> = all
            .iter()
            .map(|(id, group)| {
                let members = group.values().next().expect("a group has a replica").members();
                GroupView { world: w, id: *id, group, members, mails: &mails }
            })
            .collect();
        for v in &groups {
            voting::frame(v, &mut self.looked)?;
            voting::promises(v, &self.turns, &mut self.looked)?;
            voting::poll(v, &self.turns, &mut self.looked)?;
            voting::leaders(v, &self.turns, &mut self.looked)?;
            leading::done(v, &self.turns, &mut self.looked)?;
            leading::led(v, &self.turns, &mut self.looked)?;
        }
        self.request(w, &all, &mails)?;
        match (at, who) {
            (Moment::Tick | Moment::Turn, Some(n)) => self.ticked(w, &groups, at, n),
            _ => Ok(()),
        }
    }

    /// Counts whether all living members have executed the same.
    fn count_even(&mut self, w: &World, all: &Replicas) {
        let even = all.values().all(|g| {
            let there = || g.values().filter(|r| !w.crashed.contains(&u32::from(r.me)));
            let most = there().map(|r| r.next).max();
            there().all(|r| Some(r.next) == most)
        });
        self.looked.count(if even {
            "(all members have executed all after the sweep)"
        } else {
            "(not all members have executed all after the sweep)"
        });
    }

    /// R: a request that its client has sent again is with a node that has crashed, or in mail, or in a queue.
    fn request(&mut self, w: &World, all: &Replicas, mails: &[&Mail]) -> Result<(), String> {
        let Some((c, replies)) = self.turns.asked else { return Ok(()) };
        let client = w.client(c).expect("it has asked");
        if client.replies.len() != replies {
            return Ok(());
        }
        let seq = client.waiting.expect("it waits");
        let (g, x) = client.asked.expect("it has asked");
        let deaf = w.crashed.contains(&u32::from(x));
        let comes = |m: &&Mail| match &m.body {
            MailBody::Request { group, client: k, seq: s, .. } => {
                m.to == u32::from(x) && (*group, *k, *s) == (g, client.me, seq)
            }
            MailBody::Answer { seq: s, answer, group } if m.to == c && *s == seq => {
                matches!(answer, AnswerBody::Value(_)) || *group == g && m.from == u32::from(x)
            }
            _ => false,
        };
        let is = |k: &Command| matches!(k, Command::Call { client: n, seq: s, .. } if (*n, *s) == (client.me, seq));
        let waits = all.values().flat_map(|g| g.values()).any(|r| {
            let alive = !w.crashed.contains(&u32::from(r.me));
            alive && r.calls.iter().chain(r.leader.iter().flat_map(|l| l.commands())).any(is)
        });
        let place = || format!("client {c} request {seq} asked {g} at {x}");
        self.looked.look("R request", deaf || waits || mails.iter().any(comes), place)?;
        if mails.is_empty() && self.turns.after {
            self.looked.look("quiet is answered or deaf", deaf, place)?;
        }
        Ok(())
    }

    /// Looks at the groups of a node whose tick has settled.
    fn ticked(&mut self, w: &World, groups: &[GroupView], at: Moment, n: u32) -> Result<(), String> {
        self.turns.swept.insert(n);
        for v in groups {
            let Some(r) = v.group.get(&(n as u16)) else { continue };
            leading::ticked(v, r, &self.turns, &mut self.looked)?;
            if at == Moment::Turn {
                leading::turned(v, r, &mut self.turns, &mut self.looked)?;
            }
        }
        let (turn, polls) = (self.turns.turn.take(), std::mem::take(&mut self.turns.polls));
        let again = self.view(w, Moment::Quiet, None);
        self.turns.turn = turn;
        self.turns.polls = polls;
        again
    }
}

//! A client: its requests, its routes, and the one request that waits.

use crate::mail::*;
use crate::values::*;

/// A group that a client knows, and the member that it prefers.
#[derive(Clone, PartialEq, Eq, Debug)]
pub struct Known {
    pub group: Draw,
    pub lo: u32,
    pub members: Members,
    pub preferred: Option<u16>,
}

impl Known {
    fn of(route: &Route) -> Known {
        Known { group: route.group, lo: route.lo, members: route.members.clone(), preferred: None }
    }
    fn target(&self) -> u16 {
        self.preferred.unwrap_or(least(&self.members))
    }
}

/// A client.
#[derive(Clone, PartialEq, Eq, Debug)]
pub struct Client {
    pub me: u16,
    pub requests: Vec<Op>,
    /// The number of the waiting request.
    pub waiting: Option<u32>,
    /// The routes, in the order in which they were added.
    pub routes: Vec<Known>,
    /// The group and the target last asked.
    pub asked: Option<(Draw, u16)>,
    pub replies: Vec<Reply>,
}

impl Client {
    /// Makes a client at its birth, which knows one group.
    pub fn born(me: u16, requests: Vec<Op>, first: &Route) -> Client {
        Client {
            me,
            requests,
            waiting: None,
            routes: vec![Known::of(first)],
            asked: None,
            replies: Vec::new(),
        }
    }

    fn at(&self, group: Draw) -> Option<usize> {
        self.routes.iter().position(|r| r.group == group)
    }

    fn op(&self) -> Op {
        let seq = self.waiting.expect("a request waits");
        self.requests[seq as usize - 1].clone()
    }

    /// Sends the waiting request to the target of the group's route.
    fn send_to(&mut self, group: Draw) -> Vec<Mail> {
        let at = self.at(group).expect("the group is known");
        let target = self.routes[at].target();
        self.asked = Some((group, target));
        let seq = self.waiting.expect("a request waits");
        let body = MailBody::Request { group, client: self.me, seq, op: self.op() };
        vec![Mail { from: client_actor(self.me), to: u32::from(target), body }]
    }

    /// Sends the waiting request by a new choice of the route.
    fn send(&mut self) -> Vec<Mail> {
        let p = self.op().key().pos();
        let mut best: Option<&Known> = None;
        for r in &self.routes {
            // among equals the one that stands last
            if best.is_none_or(|b| p.wrapping_sub(r.lo) <= p.wrapping_sub(b.lo)) {
                best = Some(r);
            }
        }
        let group = best.expect("a client always has a route").group;
        self.send_to(group)
    }

    /// Sends the request with this number, if there is one.
    fn start(&mut self, seq: u32) -> Vec<Mail> {
        if seq as usize > self.requests.len() {
            self.waiting = None;
            return Vec::new();
        }
        self.waiting = Some(seq);
        self.send()
    }

    /// The member after the target becomes preferred, and the request goes to it.
    fn try_next(&mut self) -> Vec<Mail> {
        let (group, _) = self.asked.expect("a request was sent");
        let at = self.at(group).expect("the group is known");
        let next = member_after(&self.routes[at].members, self.routes[at].target());
        self.routes[at].preferred = Some(next);
        self.send_to(group)
    }

    /// Takes an input, and returns what the client sends.
    pub fn step(&mut self, input: &Input) -> Vec<Mail> {
        match input {
            Input::Go => self.start(1),
            Input::Told(_) => Vec::new(),
            Input::Tick => {
                if self.waiting.is_some() {
                    self.try_next()
                } else {
                    Vec::new()
                }
            }
            Input::Got(mail) => match &mail.body {
                MailBody::Answer { group, seq, answer } => self.answer(mail.from, *group, *seq, answer),
                _ => Vec::new(),
            },
        }
    }

    fn answer(&mut self, from: u32, group: Draw, seq: u32, answer: &AnswerBody) -> Vec<Mail> {
        if self.waiting != Some(seq) {
            return Vec::new();
        }
        if let AnswerBody::Value(reply) = answer {
            self.replies.push(reply.clone());
            return self.start(seq + 1);
        }
        if let AnswerBody::Stale { .. } = answer {
            return Vec::new();
        }
        let (asked, target) = self.asked.expect("a request was sent");
        if asked != group || u32::from(target) != from {
            return Vec::new();
        }
        let at = self.at(group).expect("the group last asked is known");
        match answer {
            AnswerBody::NotLeader { hint: Some(h) } => {
                self.routes[at].preferred = Some(*h);
                self.send_to(group)
            }
            AnswerBody::NotLeader { hint: None } => self.try_next(),
            AnswerBody::NotMine { arc, succ } => {
                self.routes[at].lo = arc.lo;
                let succ_route = Route { group: succ.group, lo: arc.end(), members: succ.members.clone() };
                self.set_lo(&succ_route);
                self.send()
            }
            AnswerBody::Gone { into } => {
                self.routes.remove(at);
                self.set_lo(into);
                self.send()
            }
            AnswerBody::Value(_) | AnswerBody::Stale { .. } => unreachable!(),
        }
    }

    /// A known route gets the new start; an unknown one is added.
    fn set_lo(&mut self, route: &Route) {
        match self.at(route.group) {
            Some(at) => self.routes[at].lo = route.lo,
            None => self.routes.push(Known::of(route)),
        }
    }
}

//! The potential of a calm run: what commands, clients and mail still owe.

use crate::client::Client;
use crate::mail::*;
use crate::replica::*;
use crate::values::*;
use crate::world::*;

/// What a command owes that is queued and sends nothing more.
const COMMAND: u64 = 27;
/// So much less owes a command that is in flight or ready.
const SLOT: u64 = 18;
/// An election asks at most the members of four sets of nine.
const ELECTION: u64 = 72;
const FINISH: u64 = COMMAND + 3;
const OUTCOME: u64 = FINISH + 1;
/// A merge sends two outcomes and welcomes up to eight; a split sends one, and its leader may be left out.
const RECORD_WATCH: u64 = COMMAND + OUTCOME + ELECTION;
const WATCHED: u64 = COMMAND + RECORD_WATCH + 1;
const TX_WATCH: u64 = WATCHED + 1;

/// The bounds of a calm run.
#[derive(Clone, Copy)]
pub struct Bounds {
    /// The most groups that there may be.
    pub groups: u64,
    /// The longest way by hints.
    pub far: u64,
}

impl Bounds {
    fn record_vote(self) -> u64 {
        COMMAND + TX_WATCH + 2 * self.far
    }
    fn prepared(self) -> u64 {
        COMMAND + self.record_vote() + 1
    }
    fn tx_prepare(self) -> u64 {
        self.prepared() + 1
    }

    /// Returns what a queued command owes.
    fn command(self, c: &Command) -> u64 {
        match c {
            Command::Noop | Command::Call { .. } | Command::GiveUp { .. } => COMMAND,
            Command::Join { .. } => COMMAND + 3,
            Command::Leave { .. } => COMMAND + ELECTION,
            Command::Split { .. } => COMMAND + TX_WATCH + 2 * self.far,
            Command::Begin { .. } => COMMAND + self.prepared() + 1 + 2 * self.far,
            Command::Prepared { .. } => self.prepared(),
            Command::RecordVote { .. } => self.record_vote(),
            Command::Finish { .. } => FINISH,
            Command::Watched { .. } => WATCHED,
            Command::RecordWatch { .. } => RECORD_WATCH,
        }
    }
}

/// A run, its replicas and its bounds.
struct Owing<'a> {
    world: &'a World<'a>,
    groups: Replicas<'a>,
    bounds: Bounds,
}

/// Returns what all owe in a run.
pub fn potential(w: &World, bounds: Bounds) -> Result<u64, String> {
    let owing = Owing { world: w, groups: w.replicas(), bounds };
    let mut sum = owing.groups.values().map(|g| owing.group(g)).sum();
    for c in w.clients() {
        sum += owing.client(c)?;
    }
    for number in w.spots(None) {
        sum += owing.mail(w.mail(number).expect("it was sent"))?;
    }
    Ok(sum)
}

impl Owing<'_> {
    fn newest(&self, g: &Draw) -> &Replica {
        newest(&self.groups[g])
    }

    fn group(&self, group: &GroupReplicas) -> u64 {
        let new = newest(group);
        let led = group.values().any(|r| r.running());
        let elects = !new.gone() && !led && group.contains_key(&new.base.core.first);
        let replica = |r: &&Replica| {
            let queued = r.acts.iter().chain(&r.calls).map(|c| self.bounds.command(c));
            let taken = r.leader.iter().flat_map(|l| l.commands());
            queued.sum::<u64>() + taken.map(|c| self.bounds.command(c) - SLOT).sum::<u64>()
        };
        group.values().map(replica).sum::<u64>() + if elects { ELECTION } else { 0 }
    }

    /// Returns how far it is by hints, by the ballots seen.
    fn depth(&self, g: Draw, n: u32) -> Result<u64, String> {
        let group = self.groups.get(&g).ok_or(format!("no group {g}"))?;
        let round = group.values().map(|r| r.top.round).max().expect("a group has a replica");
        let r = group.get(&(n as u16)).ok_or(format!("no replica of {g} at {n}"))?;
        let d = if r.running() || r.gone() { 0 } else { 1 + u64::from(round - r.top.round) };
        if d > self.bounds.far {
            return Err(format!("{d} hops away, not {}", self.bounds.far));
        }
        Ok(d)
    }

    fn client(&self, c: &Client) -> Result<u64, String> {
        let Bounds { groups, far } = self.bounds;
        let begun = c.replies.len() as u64 + u64::from(c.waiting.is_some());
        let unsent = 28 * (c.requests.len() as u64 - begun);
        if c.replies.len() == c.requests.len() {
            return Ok(unsent);
        }
        if !self.world.has_gone(client_actor(c.me)) {
            return Ok(unsent + (2 + 2 * far) * groups + 2 * far);
        }
        let stands = |g: &Draw| !self.newest(g).gone();
        let standing = self.groups.keys().filter(|g| stands(g)).count() as u64;
        let known = c.routes.iter().filter(|r| stands(&r.group)).count() as u64;
        if known < c.routes.len() as u64 && c.routes.len() > 1 {
            return Err(format!("client {} knows a gone group beside others", c.me));
        }
        // how many ends its one group is away from one that stands
        let mut ends = 0;
        let mut at = c.routes[0].group;
        while let Some(into) = &self.newest(&at).base.core.gone {
            at = into.group;
            ends += 1;
        }
        if ends + standing > groups {
            return Err("more ends and groups than there may be".to_string());
        }
        Ok(unsent + (2 + 2 * far) * (standing - known + ends))
    }

    fn mail(&self, m: &Mail) -> Result<u64, String> {
        Ok(match &m.body {
            MailBody::Request { group, .. } => 28 + 2 * self.depth(*group, m.to)?,
            MailBody::Answer { group, answer, .. } => match answer {
                AnswerBody::Value(_) => 1,
                AnswerBody::NotMine { .. } | AnswerBody::Gone { .. } => 27,
                AnswerBody::NotLeader { hint: Some(h) } => 29 + 2 * self.depth(*group, u32::from(*h))?,
                _ => return Err(format!("answer {answer:?}")),
            },
            MailBody::Prepare { .. } | MailBody::Accept { .. } => 2,
            MailBody::Promise { .. } | MailBody::Nack { .. } | MailBody::Install { .. } => 1,
            MailBody::Accepted { .. } | MailBody::Learn { .. } => 1,
            MailBody::TxPrepare { offer, .. } => {
                self.bounds.tx_prepare() + 2 * self.depth(offer.part, m.to)?
            }
            MailBody::TxWatch { watch, .. } => TX_WATCH + 2 * self.depth(watch.part, m.to)?,
            MailBody::TxVote { .. } => self.bounds.record_vote() + 1,
            MailBody::TxWatched { .. } => RECORD_WATCH + 1,
            MailBody::TxOutcome { .. } => OUTCOME,
            MailBody::TxElsewhere { coord, hint: Some(h), .. } => self.elsewhere(coord, u32::from(*h))?,
            b => return Err(format!("mail {b:?}")),
        })
    }

    /// Returns what the answer owes that another node leads the group that a coordinator asks.
    fn elsewhere(&self, coord: &Draw, hint: u32) -> Result<u64, String> {
        let runs = self.groups[coord].values().find(|r| r.running());
        let core = &runs.ok_or("the coordinator does not run")?.base.core;
        Ok(match &core.lock {
            Lock::Coordinating { body: Body::Split { .. }, .. } => {
                TX_WATCH + 1 + 2 * self.depth(core.succ.group, hint)?
            }
            Lock::Coordinating { heard: Some(x), .. } => {
                TX_WATCH + 1 + 2 * self.depth(x.frozen.succ.group, hint)?
            }
            Lock::Coordinating { .. } => {
                self.bounds.tx_prepare() + 1 + 2 * self.depth(core.succ.group, hint)?
            }
            _ => return Err("elsewhere without a transaction".to_string()),
        })
    }
}

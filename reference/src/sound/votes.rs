//! Votes and outcomes: those in mail and in proposals are those of the logs.

use super::*;
use crate::machine::Effect;

impl Checker<'_> {
    /// What the log of a group voted on a transaction, and its frozen record at that vote.
    pub(super) fn vote_in_log(&self, part: Draw, tx: Draw) -> Option<(Past, Frozen)> {
        let group = self.decided.groups.get(&part)?;
        for (i, e) in group.log.iter().enumerate() {
            let of = match &e.command {
                Command::Prepared { tx, .. } | Command::Watched { tx, .. } => *tx,
                _ => continue,
            };
            if let (true, Effect::Voted(past)) = (of == tx, &e.effect) {
                return Some((past.clone(), group.states[i + 1].frozen()));
            }
        }
        None
    }

    /// A vote is the one in the log, or that the group is gone where its log has none.
    pub(super) fn vote_is_real(
        &self,
        part: Draw,
        tx: Draw,
        past: &Past,
        frozen: Option<&Frozen>,
    ) -> Result<(), String> {
        let real = match self.vote_in_log(part, tx) {
            Some((voted, record)) => voted == *past && frozen.is_none_or(|f| *f == record),
            None => {
                let gone = self.decided.groups.get(&part).is_some_and(|g| g.state.core.gone.is_some());
                *past == Past::No(No::Gone) && gone
            }
        };
        if real {
            Ok(())
        } else {
            Err(format!("(vote) {part} did not vote {past:?} on {tx}"))
        }
    }

    pub(super) fn outcome_is_real(&self, tx: Draw, outcome: &Outcome) -> Result<(), String> {
        let coord = self.decided.coordinators.get(&tx).and_then(|c| self.decided.groups.get(c));
        if coord.and_then(|c| c.state.core.outcome_of(tx)) == Some(outcome) {
            return Ok(());
        }
        Err(format!("(vote) {tx} was not decided as {outcome:?}"))
    }

    /// The participant and the watcher of a transaction that is not decided yet, by the coordinator's log.
    pub(super) fn parties(&self, tx: Draw) -> (Option<Draw>, Option<Draw>) {
        let coord = self.decided.coordinators.get(&tx).and_then(|c| self.decided.groups.get(c));
        match coord.map(|c| (&c.state.core.lock, c.state.core.succ.group)) {
            Some((Lock::Coordinating { tx: t, body, heard, .. }, succ)) if *t == tx => match (body, heard) {
                (Body::Split { .. }, _) => (None, Some(succ)),
                (_, Some(h)) => (Some(succ), Some(h.frozen.succ.group)),
                _ => (Some(succ), None),
            },
            _ => (None, None),
        }
    }

    /// Votes and outcomes in mails and in proposals are those of the logs.
    pub(super) fn votes_and_outcomes(&self, row: &Row) -> Result<(), String> {
        let past = |v: &Vote| match v {
            Vote::Yes(_) => Past::Yes,
            Vote::No(n) => Past::No(n.clone()),
        };
        let record = |v: &Vote| match v {
            Vote::Yes(f) => Some(f.clone()),
            Vote::No(_) => None,
        };
        for m in &row.sent {
            match &m.body {
                MailBody::TxVote { tx, part, vote, .. } => {
                    self.vote_is_real(*part, *tx, &past(vote), record(vote).as_ref())?
                }
                MailBody::TxWatched { tx, part, vote, .. } => self.vote_is_real(*part, *tx, vote, None)?,
                MailBody::TxOutcome { tx, outcome, .. } => self.outcome_is_real(*tx, outcome)?,
                MailBody::Accept { command, .. } => match command {
                    Command::Finish { tx, outcome } => self.outcome_is_real(*tx, outcome)?,
                    Command::RecordVote { tx, vote, .. } => {
                        if let (Some(part), _) = self.parties(*tx) {
                            self.vote_is_real(part, *tx, &past(vote), record(vote).as_ref())?;
                        }
                    }
                    Command::RecordWatch { tx, vote, .. } => {
                        if let (_, Some(part)) = self.parties(*tx) {
                            self.vote_is_real(part, *tx, vote, None)?;
                        }
                    }
                    _ => {}
                },
                _ => {}
            }
        }
        Ok(())
    }
}

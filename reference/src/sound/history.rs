//! The history: one map gives its replies, and the tables and the clients know them.

use super::*;

impl Checker<'_> {
    /// The new entries of the history: one map gives their replies, each is a request, once, and was issued.
    pub(super) fn history(&mut self) -> Result<(), String> {
        while self.replayed < self.decided.history.len() {
            let e = self.decided.history[self.replayed].clone();
            let name = (e.client, e.seq);
            if self.entries.insert(name, self.replayed).is_some() {
                return Err(format!("(history) request {name:?} stands twice in the history"));
            }
            if apply_op(&mut self.ideal, &e.op) != e.reply {
                return Err(format!("(history) request {name:?} has a reply that one map does not give"));
            }
            let own = self.scenario.clients.get(&e.client).and_then(|ops| ops.get(e.seq as usize - 1));
            if own != Some(&e.op) {
                return Err(format!("(reply) {name:?} is no request of the scenario"));
            }
            match self.issued.get(&name) {
                Some(row) if *row < e.row => {}
                _ => return Err(format!("(time) {name:?} is decided before it is issued")),
            }
            self.replayed += 1;
        }
        Ok(())
    }

    /// The effective pairs are those of the map after the history.
    pub(super) fn pairs(&self) -> Result<(), String> {
        for cut in &self.decided.ring {
            let eff = self.decided.effective(cut.group).expect("tested with the ring");
            if part(&self.ideal, &cut.arc) != eff.pairs {
                return Err(format!(
                    "(history) {} has other pairs than the map after the history",
                    cut.group
                ));
            }
        }
        Ok(())
    }

    /// Each entry of the history: the group of its cut knows that client at no lower number; and each entry of
    /// a table is in the history.
    pub(super) fn tables(&self) -> Result<(), String> {
        for cut in &self.decided.ring {
            let eff = self.decided.effective(cut.group).expect("tested with the ring");
            for e in &self.decided.history {
                let known = eff.clients.get(&e.client).is_some_and(|(n, _)| *n >= e.seq);
                if cut.arc.holds(e.op.key().pos()) && !known {
                    return Err(format!(
                        "(table) {} does not know request {} {}",
                        cut.group, e.client, e.seq
                    ));
                }
            }
            for (client, (seq, reply)) in &eff.clients {
                let entry = self.entries.get(&(*client, *seq)).map(|i| &self.decided.history[*i]);
                if entry.map(|e| &e.reply) != Some(reply) {
                    return Err(format!("(table) the table of {} has a wrong reply", cut.group));
                }
            }
        }
        Ok(())
    }

    /// Each kept reply is its entry's, and the entry was decided before.
    pub(super) fn replies(&mut self, who: u32, number: u32) -> Result<(), String> {
        let client = match self.actors.get(&who) {
            Some(Party::Client(c)) => c,
            _ => return Ok(()),
        };
        let had = self.kept.insert(client.me, client.replies.len()).unwrap_or(0);
        for i in had..client.replies.len() {
            let name = (client.me, i as u32 + 1);
            let entry = match self.entries.get(&name) {
                Some(at) => &self.decided.history[*at],
                None => return Err(format!("(reply) {name:?} has a reply and no entry")),
            };
            if entry.reply != client.replies[i] {
                return Err(format!("(reply) {name:?} has another reply than its entry"));
            }
            if entry.row >= number {
                return Err(format!("(time) {name:?} is answered before it is decided"));
            }
        }
        Ok(())
    }

    /// A replica that runs never answers NotLeader in the row that delivers it a request.
    pub(super) fn refusals(&self, row: &Row, delivered: Option<&Mail>) -> Result<(), String> {
        let group = match delivered.map(|m| &m.body) {
            Some(MailBody::Request { group, .. }) => *group,
            _ => return Ok(()),
        };
        let refused = row
            .sent
            .iter()
            .any(|m| matches!(&m.body, MailBody::Answer { answer: AnswerBody::NotLeader { .. }, .. }));
        if let (true, Some(Party::Node(n))) = (refused, self.actors.get(&row.who)) {
            if n.replicas.get(&group).is_some_and(|r| r.running()) {
                return Err("(refusal) a running replica answers NotLeader".to_string());
            }
        }
        Ok(())
    }
}

//! The stream of a node.

use super::{Answers, Bad, Head};
use crate::mail::{Input, Mail, MailBody};
use crate::node::Node;
use crate::replica::Replica;
use crate::text::{self, Coded, Json};
use crate::values::{Dials, Order, OrderLine};

/// A node, the number of nodes that there are, and the version of the scenario.
pub struct NodeStream {
    node: Node,
    nodes: u16,
    version: u8,
}

/// Returns what `"State"` shows of a group.
fn group_state(r: &Replica) -> Json {
    let core = &r.base.core;
    text::fields([
        ("arc", core.arc.to_json()),
        ("executed", (r.next - 1).to_json()),
        ("gone", core.gone.as_ref().map(|into| into.group).to_json()),
        ("group", core.id.to_json()),
        ("leader", r.hint.to_json()),
        ("leads", Json::Bool(r.settled())),
        ("members", core.members.to_json()),
        ("pairs", (r.base.pairs.len() as u64).to_json()),
    ])
}

/// Returns whether a mail carries a request of the second version of scenarios.
pub(super) fn is_later(mail: &Mail) -> bool {
    match &mail.body {
        MailBody::Request { op, .. } => op.is_later(),
        _ => false,
    }
}

impl NodeStream {
    fn state(&self) -> Json {
        text::fields([("state", text::list(self.node.replicas.values(), group_state))])
    }

    fn knows(&self, node: u16) -> bool {
        (1..=self.nodes).contains(&node)
    }

    /// Returns whether a line of a scenario may give this order.
    fn may_give(&self, line: &OrderLine) -> bool {
        line.number >= 1
            && match line.order {
                Order::Join { node, .. } | Order::Leave { node, .. } | Order::Migrate { node, .. } => {
                    self.knows(node)
                }
                Order::Split { .. } | Order::Merge { .. } | Order::Repart { .. } => true,
            }
    }

    fn input(&self, line: &[u8]) -> Result<Input, Bad> {
        match text::read::<Input>(line).ok_or(Bad::BadInput)? {
            Input::Go => Err(Bad::BadInput),
            Input::Got(mail) if mail.to != u32::from(self.node.me) => Err(Bad::MailToAnother),
            Input::Got(mail) if self.version == 1 && is_later(&mail) => Err(Bad::BadRequest),
            Input::Told(line) if !self.may_give(&line) => Err(Bad::BadOrder),
            input => Ok(input),
        }
    }
}

impl Answers for NodeStream {
    fn born(number: u16, head: &Head) -> Option<NodeStream> {
        let s = &head.scenario;
        let node = Node::born(&Dials::RULES, number, &s.groups, s.policy);
        (1..=s.nodes).contains(&number).then_some(NodeStream { node, nodes: s.nodes, version: s.version })
    }

    fn answer(&mut self, line: &[u8]) -> Result<Json, Bad> {
        if line == b"\"State\"" {
            return Ok(self.state());
        }
        let input = self.input(line)?;
        Ok(self.node.step(&input).to_json())
    }
}

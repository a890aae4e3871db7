//! Orders, their refusals and their results.

use super::{Body, Command, Draw};

/// Why an order is refused.
#[derive(Clone, PartialEq, Eq, Debug)]
pub enum OrderRefusal {
    NotLeader { hint: Option<u16> },
    InTransaction { tx: Draw },
    NoNeighbour,
    BadBoundary,
    TooManyMembers { n: u8 },
    NotMember,
    LastMember,
    TxLimit,
    IsMember,
}

impl OrderRefusal {
    /// Returns the number and the name of the cause.
    pub fn code_and_name(&self) -> (u8, &'static str) {
        match self {
            OrderRefusal::NotLeader { .. } => (1, "not-leader"),
            OrderRefusal::InTransaction { .. } => (2, "in-transaction"),
            OrderRefusal::NoNeighbour => (3, "no-neighbour"),
            OrderRefusal::BadBoundary => (4, "bad-boundary"),
            OrderRefusal::TooManyMembers { .. } => (5, "too-many-members"),
            OrderRefusal::NotMember => (6, "not-member"),
            OrderRefusal::LastMember => (7, "last-member"),
            OrderRefusal::TxLimit => (8, "tx-limit"),
            OrderRefusal::IsMember => (9, "is-member"),
        }
    }
}

/// The result of an order.
#[derive(Clone, PartialEq, Eq, Debug)]
pub enum ToldResult {
    Done,
    Committed,
    Aborted,
    Refused(OrderRefusal),
}

/// An order with its number.
#[derive(Clone, PartialEq, Eq, Debug)]
pub struct OrderLine {
    pub number: u32,
    pub order: Order,
}

/// An order.
#[derive(Clone, PartialEq, Eq, Debug)]
pub enum Order {
    Join { node: u16, group: Draw },
    Leave { node: u16, group: Draw },
    Split { group: Draw, at: u32 },
    Merge { group: Draw },
    Repart { group: Draw, at: u32 },
    Migrate { group: Draw, node: u16 },
}

impl Order {
    /// Returns the group to which the order goes.
    pub fn group(&self) -> Draw {
        match self {
            Order::Join { group, .. }
            | Order::Leave { group, .. }
            | Order::Split { group, .. }
            | Order::Merge { group }
            | Order::Repart { group, .. }
            | Order::Migrate { group, .. } => *group,
        }
    }
    /// Returns whether the command of this order carries a draw.
    pub fn needs_draw(&self) -> bool {
        !matches!(self, Order::Join { .. } | Order::Leave { .. })
    }
    /// Returns the command of this order, with the draw where it carries one.
    pub fn command(&self, number: u32, draw: Draw) -> Command {
        match self {
            Order::Join { node, .. } => Command::Join { node: *node, order: number },
            Order::Leave { node, .. } => Command::Leave { node: *node, order: number },
            Order::Split { at, .. } => Command::Split { at: *at, child: draw, order: number },
            Order::Merge { .. } => Command::Begin { tx: draw, body: Body::Merge, order: number },
            Order::Repart { at, .. } => {
                Command::Begin { tx: draw, body: Body::Repart { at: *at }, order: number }
            }
            Order::Migrate { node, .. } => {
                Command::Begin { tx: draw, body: Body::Migrate { node: *node }, order: number }
            }
        }
    }
}

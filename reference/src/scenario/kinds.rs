//! The kinds of lines, where they stand, and how many words they have.

/// The kind of a line, by its first words.
#[derive(Clone, Copy, PartialEq, Eq, Debug)]
pub enum Kind {
    Scatter,
    Nodes,
    Group,
    Policy,
    Client,
    Get,
    Put,
    Del,
    Add,
    Cas,
    End,
    Go,
    Deliver,
    Drop,
    Again,
    Tick,
    Crash,
    OrderShort,
    OrderJoin,
    OrderLeave,
    OrderSplit,
    OrderMerge,
    OrderRepart,
    OrderMigrate,
    Settle,
    Free,
    Storm,
}

impl Kind {
    /// Returns the kind of a line of these words, in a scenario of this version.
    pub fn of(words: &[&[u8]], version: u8) -> Option<Kind> {
        Some(match words[0] {
            b"scatter" => Kind::Scatter,
            b"nodes" => Kind::Nodes,
            b"group" => Kind::Group,
            b"policy" => Kind::Policy,
            b"client" => Kind::Client,
            b"get" => Kind::Get,
            b"put" => Kind::Put,
            b"del" => Kind::Del,
            b"add" if version == 2 => Kind::Add,
            b"cas" if version == 2 => Kind::Cas,
            b"end" => Kind::End,
            b"go" => Kind::Go,
            b"deliver" => Kind::Deliver,
            b"drop" => Kind::Drop,
            b"again" => Kind::Again,
            b"tick" => Kind::Tick,
            b"crash" => Kind::Crash,
            b"settle" => Kind::Settle,
            b"free" => Kind::Free,
            b"storm" => Kind::Storm,
            b"order" => return Kind::of_order(words),
            _ => return None,
        })
    }

    fn of_order(words: &[&[u8]]) -> Option<Kind> {
        Some(match words.get(2) {
            None => Kind::OrderShort,
            Some(&b"join") => Kind::OrderJoin,
            Some(&b"leave") => Kind::OrderLeave,
            Some(&b"split") => Kind::OrderSplit,
            Some(&b"merge") => Kind::OrderMerge,
            Some(&b"repart") => Kind::OrderRepart,
            Some(&b"migrate") => Kind::OrderMigrate,
            Some(_) => return None,
        })
    }

    /// Returns the part of a scenario in which a line of this kind stands.
    pub fn phase(self) -> u8 {
        match self {
            Kind::Scatter => 0,
            Kind::Nodes => 1,
            Kind::Group => 2,
            Kind::Policy => 3,
            Kind::Client => 4,
            _ if self.is_inside() => 4,
            _ => 5,
        }
    }

    /// Returns whether a line of this kind stands inside a client's section.
    pub fn is_inside(self) -> bool {
        matches!(self, Kind::Get | Kind::Put | Kind::Del | Kind::Add | Kind::Cas | Kind::End)
    }

    /// Returns whether a line of this kind has so many words.
    pub fn has_words(self, count: usize) -> bool {
        match self {
            Kind::Policy | Kind::End => count == 1,
            Kind::Scatter | Kind::Nodes | Kind::Client | Kind::Get | Kind::Del => count == 2,
            Kind::Go | Kind::Again | Kind::Tick | Kind::Crash | Kind::Settle => count == 2,
            Kind::Put | Kind::Add | Kind::Deliver | Kind::Drop | Kind::Free | Kind::Storm => count == 3,
            Kind::Cas | Kind::OrderMerge => count == 4,
            Kind::OrderJoin | Kind::OrderLeave | Kind::OrderSplit => count == 5,
            Kind::OrderRepart | Kind::OrderMigrate => count == 5,
            Kind::Group => count >= 3,
            Kind::OrderShort => false,
        }
    }
}

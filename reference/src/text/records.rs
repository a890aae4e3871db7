//! The texts of all records and enums that stand in rows and in effects.

use super::coded::{coded_enum, coded_record, Coded};
use super::json::*;
use crate::machine::Effect;
use crate::mail::*;
use crate::values::*;

coded_enum! { Op { Get { key }, Put { key, value }, Del { key }, Add { key, value }, Cas { key, expect, value }, } }
coded_record! { Reply { old } }
coded_record! { Link { group, members } }
coded_record! { Route { group, lo, members } }
coded_enum! { Body { Merge, Repart { at }, Migrate { node }, Split { at, child }, } }
coded_record! { Offer { coord, part, arc, members, body, by } }
coded_record! { Frozen { arc, members, succ, pairs, clients } }
coded_record! { Heard { frozen, by } }
coded_record! { Watch { coord, members, part, old, next, by } }
coded_enum! { No { Busy { tx }, Gone, Apart, TooMany { n }, } }
coded_enum! { Vote { Yes(frozen), No(no), } }
coded_enum! { Past { Yes, No(no), Ended, } }
coded_record! { Gift { pairs, clients } }
coded_enum! { Outcome { Abort, Merged { into }, Moved { at, gift }, Migrated { node }, Divided, } }

coded_enum! {
    Command {
        Noop,
        Call { client, seq, op },
        Join { node, order },
        Leave { node, order },
        Split { at, child, order },
        Begin { tx, body, order },
        Prepared { tx, offer },
        RecordVote { tx, vote, by },
        GiveUp { tx },
        Finish { tx, outcome },
        Watched { tx, watch },
        RecordWatch { tx, vote, by },
    }
}

coded_enum! {
    Lock {
        Free,
        Coordinating { tx, body, order, heard },
        Promised { tx, offer },
        Watching { tx, watch },
    }
}

coded_record! { Core { id, first, arc, members, succ, pred, lock, begun, decided, voted, born, gone } }
coded_record! { Base { core, pairs, clients } }

coded_enum! {
    OrderRefusal {
        NotLeader { hint },
        InTransaction { tx },
        NoNeighbour,
        BadBoundary,
        TooManyMembers { n },
        NotMember,
        LastMember,
        TxLimit,
        IsMember,
    }
}

coded_enum! { ToldResult { Done, Committed, Aborted, Refused(refusal), } }
coded_record! { OrderLine { number, order } }

coded_enum! {
    Order {
        Join { node, group },
        Leave { node, group },
        Split { group, at },
        Merge { group },
        Repart { group, at },
        Migrate { group, node },
    }
}

coded_enum! { AnswerBody { Value(reply), NotLeader { hint }, NotMine { arc, succ }, Gone { into }, Stale { last }, } }
coded_record! { Report { slot, ballot, value } }

coded_enum! {
    MailBody {
        Request { group, client, seq, op },
        Answer { group, seq, answer },
        Prepare { group, ballot, from_slot },
        Promise { group, ballot, reports },
        Accept { group, ballot, slot, command },
        Accepted { group, ballot, slot },
        Nack { group, promised },
        Learn { group, slot, command },
        Ask { group, from_slot },
        Install { group, slot, base, sets },
        TxPrepare { tx, offer },
        TxVote { tx, coord, part, vote },
        TxOutcome { tx, part, outcome },
        TxElsewhere { tx, coord, hint },
        TxWatch { tx, watch },
        TxWatched { tx, coord, part, vote },
        Told { order, result },
    }
}

coded_record! { Mail { from, to, body } }
coded_enum! { Event { Deliver(mail), Tick, Go, Told(order), Crash, Drop(mail), Again(mail), } }
coded_record! { Row { who, event, sent } }
coded_enum! { Input { Got(mail), Tick, Go, Told(order), } }

coded_enum! {
    Effect {
        Done(reply),
        Again(reply),
        Stale { last },
        NotMine { arc, succ },
        Gone { into },
        NoEffect { tx },
        Idle,
        Changed,
        Voted(past),
        Decided(outcome),
        Refused(refusal),
    }
}

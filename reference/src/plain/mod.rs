//! Plain runs, which have only `go`, `settle` and `free` lines: a potential that falls with each delivery, and what
//! holds at each row.

mod actors;
mod between;
mod heads;
mod mails;
mod potential;
mod run;
mod ways;

pub use heads::plain_head;
pub use run::plain;
pub use ways::{chosen, some_way, Way};

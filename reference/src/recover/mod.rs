//! Recovery: after any schedule without orders, each node ticks in its turn and the mail is delivered, and then each
//! client ticks. What holds at each row, and that all requests are answered.

mod checks;
mod leading;
mod prefix;
mod run;
mod sweep;
mod view;
mod voting;

pub use run::recover;

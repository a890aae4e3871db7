//! Random runs of the forms that a scenario may have, plain and calm, with deliveries of first mail between the
//! other lines: what holds where no line was cut off, within a budget, at the last line, and with crashed nodes.

mod bytes;
mod checks;
mod crashes;
mod forms;
mod heavy;
mod kinds;
mod made;
mod orders;
mod plan;
mod run;
mod seen;

pub use bytes::*;
pub use crashes::{may_crash, some_crashes};
pub use forms::*;
pub use orders::orders_end;
pub use run::settled;

//! Histories of any store: whether they are linearizable, by a plain search, and by the definition alone.

mod compared;
mod definition;
mod history;
mod made;
mod search;
mod whole;

pub use compared::*;
pub use definition::*;
pub use history::*;
pub use made::*;
pub use search::*;
pub use whole::*;

//! Whether stored rows are a lawful journal of their scenario, whole or a prefix of one.

use crate::mail::{Event, Row};
use crate::scenario::SchedLine;
use crate::text::Stored;
use crate::values::Dials;
use crate::world::{Full, World, JOURNAL_LIMIT};

/// The replay of a schedule beside the rows that are stored.
struct Audit<'a> {
    world: World<'a>,
    rows: &'a [Row],
    /// How many rows were found lawful.
    lawful: usize,
}

/// Why a replay ends: a row that is not lawful, or no more rows.
struct Ended;

impl Audit<'_> {
    /// Compares the rows that the replay has made since with those that are stored.
    fn compare(&mut self) -> Result<(), Ended> {
        while self.lawful < self.world.rows.len() {
            if self.rows.get(self.lawful) != Some(&self.world.rows[self.lawful]) {
                return Err(Ended);
            }
            self.lawful += 1;
        }
        Ok(())
    }

    fn line(&mut self, line: &SchedLine) -> Result<(), Ended> {
        if let SchedLine::Free { most, .. } = line {
            return self.free(*most);
        }
        let played = self.world.line(line);
        self.compare()?;
        played.map_err(|Full| Ended)
    }

    /// Replays a `free` line: the rows choose which actor gets its first pending mail.
    fn free(&mut self, most: u32) -> Result<(), Ended> {
        let mut used = 0;
        while used < most && !self.world.quiet() {
            let row = self.rows.get(self.lawful).ok_or(Ended)?;
            match (&row.event, self.world.first_of(row.who)) {
                (Event::Deliver(number), Some(first)) if *number == first => {
                    self.world.deliver(first).map_err(|Full| Ended)?
                }
                _ => return Err(Ended),
            }
            self.compare()?;
            used += 1;
        }
        Ok(())
    }
}

/// Returns the number of the first row that is not lawful, where one is not.
pub fn unlawful_row(stored: &Stored, dials: &Dials) -> Option<usize> {
    let world = World::start(&stored.scenario, dials, JOURNAL_LIMIT);
    let mut audit = Audit { world, rows: &stored.rows, lawful: 0 };
    for line in &stored.scenario.lines {
        if audit.line(line).is_err() {
            break;
        }
    }
    (audit.lawful < stored.rows.len()).then_some(audit.lawful + 1)
}

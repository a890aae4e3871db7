//! Arcs of the key space.

/// The number of positions of the key space.
pub const SPACE: u64 = 1 << 32;

/// An arc of the key space: where it starts and how many positions it has.
#[derive(Clone, Copy, PartialEq, Eq, Debug)]
pub struct RingArc {
    pub lo: u32,
    pub len: u64,
}

impl RingArc {
    /// Returns whether the arc has this position.
    pub fn holds(&self, p: u32) -> bool {
        u64::from(p.wrapping_sub(self.lo)) < self.len
    }
    /// Returns the position behind the arc.
    pub fn end(&self) -> u32 {
        ((u64::from(self.lo) + self.len) % SPACE) as u32
    }
    /// Returns the parts before and from `at`; none where `at` is the start or is not held.
    pub fn cut(&self, at: u32) -> Option<(RingArc, RingArc)> {
        if at == self.lo || !self.holds(at) {
            return None;
        }
        let before = u64::from(at.wrapping_sub(self.lo));
        Some((RingArc { lo: self.lo, len: before }, RingArc { lo: at, len: self.len - before }))
    }
    /// Returns this arc and the next one as one; none where they do not meet or are too long.
    pub fn join(&self, next: &RingArc) -> Option<RingArc> {
        if next.lo != self.end() || self.len + next.len > SPACE {
            return None;
        }
        Some(RingArc { lo: self.lo, len: self.len + next.len })
    }
}

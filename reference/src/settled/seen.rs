//! What many scenarios have shown.

use std::collections::BTreeMap;

/// How often what came, and the greatest of what was measured, with its seed.
#[derive(Default)]
pub struct Seen {
    counts: BTreeMap<String, u64>,
    greatest: BTreeMap<String, (f64, u64)>,
    /// The shortest scenario of what is no fault, with its seed.
    examples: BTreeMap<String, (String, u64)>,
}

impl Seen {
    /// Adds to a count.
    pub fn add(&mut self, what: &str, n: u64) {
        *self.counts.entry(what.to_string()).or_default() += n;
    }

    /// Notes a measure, where it is the greatest so far.
    pub fn greatest(&mut self, what: &str, x: f64, seed: u64) {
        let most = self.greatest.entry(what.to_string()).or_insert((x, seed));
        if x > most.0 {
            *most = (x, seed);
        }
    }

    /// Keeps a scenario as an example, where it is the shortest so far.
    pub fn example(&mut self, what: &str, text: String, seed: u64) {
        let kept = self.examples.entry(what.to_string()).or_insert((text.clone(), seed));
        if text.len() < kept.0.len() {
            *kept = (text, seed);
        }
    }

    /// Returns the lines of it.
    pub fn lines(&self) -> Vec<String> {
        let counts = self.counts.iter().map(|(what, n)| format!("  {what}: {n}"));
        let greatest =
            self.greatest.iter().map(|(what, (x, seed))| format!("  {what}: {x:.5} (seed {seed})"));
        let examples =
            self.examples.iter().map(|(what, (text, seed))| format!("{what}, seed {seed}:\n{text}"));
        counts.chain(greatest).chain(examples).collect()
    }
}

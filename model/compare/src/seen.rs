//! How often each of some things was seen, by its name.

use std::collections::BTreeMap;

#[derive(Default)]
pub struct Seen(BTreeMap<&'static str, u64>);

impl Seen {
    pub fn note(&mut self, names: impl IntoIterator<Item = &'static str>) {
        for name in names {
            *self.0.entry(name).or_insert(0) += 1;
        }
    }

    pub fn count(&self, name: &str) -> u64 {
        self.0.get(name).copied().unwrap_or(0)
    }

    /// How often each of these was seen, one in a line.
    pub fn listed(&self, names: &[&str]) -> String {
        let lines = names.iter();
        lines
            .map(|name| format!("  {name}: {}\n", self.count(name)))
            .collect()
    }

    /// The first of these that was never seen.
    pub fn missed(&self, wanted: &[&'static str]) -> Option<String> {
        let missed = wanted.iter().find(|name| self.count(name) == 0);
        missed.map(|name| format!("never seen: {name}"))
    }
}

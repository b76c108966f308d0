//! How often each thing that is counted came, so that a generator that misses something is seen.

use std::collections::BTreeMap;

#[derive(Debug, Default)]
pub struct Seen(BTreeMap<&'static str, usize>);

impl Seen {
    pub fn note(&mut self, what: &'static str, is: bool) {
        *self.0.entry(what).or_default() += is as usize;
    }

    pub fn enough(&self, enough: usize) {
        for (what, count) in &self.0 {
            println!("{count:6} {what}");
        }
        assert!(self.0.values().all(|&count| count >= enough), "too few");
    }
}

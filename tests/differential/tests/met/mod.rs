//! Counts which refusals were met, and at how many places.

use reference::netlist::Refused;
use std::collections::{BTreeMap, BTreeSet};

#[derive(Default)]
pub struct Met {
    pub compared: usize,
    pub accepted: usize,
    refused: BTreeMap<u32, (usize, BTreeSet<u64>)>,
}

impl Met {
    pub fn note<T>(&mut self, answer: Result<T, Refused>) {
        self.compared += 1;
        match answer {
            Ok(_) => self.accepted += 1,
            Err(refused) => {
                let entry = self.refused.entry(refused.number).or_default();
                entry.0 += 1;
                entry.1.insert(refused.place);
            }
        }
    }

    /// Asserts that a refusal was met so often and at so many places.
    pub fn assert_met(&self, number: u32, times: usize, places: usize) {
        let (found_times, found_places) = match self.refused.get(&number) {
            Some((count, set)) => (*count, set.len()),
            None => (0, 0),
        };
        assert!(
            found_times >= times && found_places >= places,
            "refusal {number} met {found_times} times at {found_places} places"
        );
    }

    /// Prints what was met: accepted ones and refused ones, or it is too little.
    pub fn print(&self, name: &str) {
        assert!(self.accepted > 0 && self.compared > self.accepted, "{name}");
        let refused: Vec<String> = self
            .refused
            .iter()
            .map(|(number, (count, places))| format!("{number}: {count} at {}", places.len()))
            .collect();
        println!(
            "{name}: {} compared, {} accepted, refused [{}]",
            self.compared,
            self.accepted,
            refused.join(", ")
        );
    }
}

//! CORE and the forward method against full simulation, by source 000's two
//! measures: gates visited in percent, and run time as a part of full
//! simulation's.

use crate::plain::{self, Refused, Sums};
use crate::race::{self, race, Group, Sample};
use crate::versions;
use reference::netlist;
use std::fmt::Display;

/// A call for every change.
type Every = fn(&[u8], &[u8], &mut [u8]) -> Result<Sums, Refused>;

/// Sums over all changes and outputs of some cards.
#[derive(Default)]
pub struct Visits {
    pairs: usize,
    hazards: usize,
    /// Gates of the card, of the output's cone, visited by CORE and by the
    /// forward method, each once for a pair.
    gates: usize,
    cone: usize,
    core: usize,
    forward: usize,
}

/// Gates in the cone of each output.
fn cones(netlist: &[u8]) -> Vec<usize> {
    let card = netlist::decode(netlist).expect("an accepted card");
    let gates = |output: &usize| card.cone(*output).into_iter().filter(|is| *is).count();
    card.outputs.iter().map(gates).collect()
}

impl Visits {
    fn add_sample(&mut self, s: &Sample) {
        let mut verdicts = vec![0; s.changes * s.card.outputs];
        let mut sums = |call: Every| call(&s.netlist, &s.list, &mut verdicts).expect("room");
        let (_, by_forward) = sums(plain::forward_all);
        let (by_core, _) = sums(plain::core_all);
        self.pairs += verdicts.len();
        self.hazards += verdicts.iter().filter(|byte| **byte == 1).count();
        self.gates += verdicts.len() * s.card.gates;
        self.cone += s.changes * cones(&s.netlist).iter().sum::<usize>();
        self.core += by_core;
        self.forward += by_forward;
    }

    pub fn of(samples: &[Sample]) -> Visits {
        let mut visits = Visits::default();
        samples.iter().for_each(|sample| visits.add_sample(sample));
        visits
    }

    fn print(&self, name: &str) {
        let percent = |part: usize, whole: usize| 100.0 * part as f64 / whole.max(1) as f64;
        println!(
            "{name:>13}{:>10}{:>9.1}{:>9.1}{:>9.1}{:>9.1}{:>9.1}{:>9.1}",
            self.pairs,
            percent(self.hazards, self.pairs),
            percent(self.cone, self.gates),
            percent(self.core, self.gates),
            percent(self.forward, self.gates),
            percent(self.core, self.cone),
            percent(self.forward, self.cone),
        );
    }
}

pub fn print_visits(groups: &[Group]) {
    println!(
        "Gates visited for an output, in percent of the card's gates and of the output's cone"
    );
    println!(
        "{:>13}{:>10}{:>9}{:>9}{:>9}{:>9}{:>9}{:>9}",
        "cards", "pairs", "hazard %", "cone %", "CORE %", "forw. %", "CORE/co.", "forw/co."
    );
    for group in groups {
        Visits::of(&group.samples).print(&group.name);
    }
    println!();
}

/// One line: with the check in every call, then checked once for all changes.
/// What is compared takes turns with each other.
fn times(samples: &[Sample]) -> Vec<f64> {
    let mut line = Vec::new();
    let rows = [versions::full(), versions::core(), versions::forward()];
    let [full, core, forward] = race(samples, race::one, rows);
    for version in 0..3 {
        line.push(core[version] / full[version]);
        line.push(forward[version] / full[version]);
    }
    let rows = [
        versions::full_all(),
        versions::core_all(),
        versions::forward_all(),
    ];
    let [full, core, forward] = race(samples, race::changes, rows);
    let outputs = race::total(samples, race::searches) / race::total(samples, race::changes);
    for version in 0..3 {
        line.push(core[version] / outputs / full[version]);
        line.push(core[version] / full[version]);
        line.push(forward[version] / full[version]);
    }
    line
}

fn print_columns<T: Display>(name: &str, columns: &[T]) {
    print!("{name:>13}");
    for (number, column) in columns.iter().enumerate() {
        let width = if number < 6 { 8 } else { 7 };
        print!("{column:>width$}");
    }
    println!();
}

pub fn print_times(groups: &[Group]) {
    println!(
        "Run time as a part of full simulation's, which gives all outputs: CORE for one output,"
    );
    println!("CORE for each of them (all), the forward method for all of them");
    println!(
        "{:>13}{:^48}{:^63}",
        "", "check in every call", "card checked once for all changes"
    );
    let versions = ["library", "plain", "tuned"];
    let two = versions.map(|version| [version, ""]).concat();
    let three = versions.map(|version| [version, "", ""]).concat();
    print_columns("", &[two, three].concat());
    let two = [["CORE", "forward"]; 3].concat();
    let three = [["CORE", "all", "forw."]; 3].concat();
    print_columns("cards", &[two, three].concat());
    for group in groups {
        let line: Vec<String> = times(&group.samples)
            .iter()
            .map(|part| format!("{part:.2}"))
            .collect();
        print_columns(&group.name, &line);
    }
    println!();
}

//! CORE, a direct reading of document 01's paragraph; document 02's version 2
//! lists ask it for other wanted sets.

use crate::changes::Change;
use crate::classes::{from_tables, Class, Operation, ALL};
use crate::full;
use crate::netlist::{refused, Card, Gate, Refused};
use crate::sets::Set;
use crate::stack;

/// What CORE answers.
#[derive(Clone, Copy, Debug, PartialEq, Eq, Hash)]
pub struct Answer {
    pub verdict: Verdict,
    /// Different gates visited.
    pub gates: u64,
    /// Pins taken.
    pub pins: u64,
}

#[derive(Clone, Copy, Debug, PartialEq, Eq, Hash)]
pub enum Verdict {
    Clean(Class),
    Hazardous,
}

/// How often the rarer paths of the search were gone; not part of the answer.
#[derive(Clone, Copy, Debug, Default, PartialEq, Eq)]
pub struct Statistics {
    /// Visits that ended unfinished, by check (c).
    pub unfinished: u64,
    /// Unfinished gates visited again.
    pub carried_on: u64,
}

// ---------------------------------------------------------------------------
// Possible and wanted sets.

/// "p joined with each of the eight classes if pins are left, p alone if
/// none, each inverted for kinds 1, 5, 6."
fn possible(gate: &Gate, p: Class, pins_left: bool) -> Set {
    let operation = gate.kind.operation();
    if pins_left {
        Set::of(
            ALL.into_iter()
                .map(|class| gate.kind.finish(from_tables(operation, p, class))),
        )
    } else {
        Set::of([gate.kind.finish(p)])
    }
}

/// The wanted set of the gate behind a pin: the classes k with which the
/// waiting gate can still give a class that is wanted of it.
fn wanted_behind(gate: &Gate, p: Class, left_after: bool, wanted: Set) -> Set {
    let operation = gate.kind.operation();
    Set::of(
        ALL.into_iter()
            .filter(|k| possible(gate, from_tables(operation, p, *k), left_after).shares(wanted)),
    )
}

// ---------------------------------------------------------------------------
// The search.

/// Where a signal's class comes from, as far as the search is concerned.
#[derive(Clone, Debug)]
pub enum Source {
    /// An input, or for the forward method a constant gate: no visit.
    Told(Class),
    Gate(Gate),
}

/// What a gate keeps.
#[derive(Clone, Debug)]
struct Cell {
    visited: bool,
    known: Option<Class>,
    /// The join of the pins taken so far, before any inversion.
    p: Class,
    /// The next pin to take.
    next: usize,
}

/// How a visit ends.
enum End {
    /// (a): the whole search ends.
    Hazardous,
    /// (b): the gate is known.
    Known(Class),
    /// (c): the visit ends unfinished, the waiting gate takes this result.
    Unfinished(Class),
}

/// The waiting gate as check (c) sees it.
#[derive(Clone, Copy)]
struct Waiting {
    operation: Operation,
    p: Class,
}

struct Search<'a> {
    sources: &'a [Source],
    cells: Vec<Cell>,
    gates: u64,
    pins: u64,
    statistics: Statistics,
}

impl<'a> Search<'a> {
    fn new(sources: &'a [Source]) -> Search<'a> {
        let cell = |source: &Source| Cell {
            visited: false,
            known: None,
            p: match source {
                Source::Told(class) => *class,
                Source::Gate(gate) => gate.kind.operation().unit(),
            },
            next: 0,
        };
        Search {
            sources,
            cells: sources.iter().map(cell).collect(),
            gates: 0,
            pins: 0,
            statistics: Statistics::default(),
        }
    }

    /// The class that a signal gives without a visit.
    fn told(&self, signal: usize) -> Option<Class> {
        match &self.sources[signal] {
            Source::Told(class) => Some(*class),
            Source::Gate(_) => self.cells[signal].known,
        }
    }

    fn arrive(&mut self, signal: usize) {
        if self.cells[signal].visited {
            self.statistics.carried_on += 1;
        } else {
            self.cells[signal].visited = true;
            self.gates += 1;
        }
    }

    /// Visits the gate of a signal that is not told.
    fn visit(&mut self, signal: usize, wanted: Set, waiting: Option<Waiting>) -> End {
        let sources = self.sources;
        let Source::Gate(gate) = &sources[signal] else {
            unreachable!("a told signal is not visited");
        };
        self.arrive(signal);
        loop {
            if let Some(end) = self.checks(gate, signal, wanted, waiting) {
                return end;
            }
            if let Err(end) = self.take_pin(gate, signal, wanted) {
                return end;
            }
        }
    }

    /// The three checks in order; none of them met, the next pin is taken.
    fn checks(
        &mut self,
        gate: &Gate,
        signal: usize,
        wanted: Set,
        waiting: Option<Waiting>,
    ) -> Option<End> {
        let cell = &mut self.cells[signal];
        let possible = possible(gate, cell.p, cell.next < gate.pins.len());
        if !possible.shares(wanted) {
            return Some(End::Hazardous);
        }
        if let Some(class) = possible.only() {
            cell.known = Some(class);
            return Some(End::Known(class));
        }
        let waiting = waiting?;
        let results = possible
            .members()
            .map(|class| from_tables(waiting.operation, waiting.p, class));
        let result = Set::of(results).only()?;
        self.statistics.unfinished += 1;
        Some(End::Unfinished(result))
    }

    /// Takes the gate's next pin; an error is the end of the whole search.
    fn take_pin(&mut self, gate: &Gate, signal: usize, wanted: Set) -> Result<(), End> {
        let operation = gate.kind.operation();
        let p = self.cells[signal].p;
        let pin = gate.pins[self.cells[signal].next];
        self.cells[signal].next += 1;
        self.pins += 1;
        let left_after = self.cells[signal].next < gate.pins.len();
        let new_p = match self.told(pin) {
            Some(class) => from_tables(operation, p, class),
            None => {
                let behind = wanted_behind(gate, p, left_after, wanted);
                match self.visit(pin, behind, Some(Waiting { operation, p })) {
                    End::Hazardous => return Err(End::Hazardous),
                    End::Known(class) => from_tables(operation, p, class),
                    End::Unfinished(result) => result,
                }
            }
        };
        self.cells[signal].p = new_p;
        Ok(())
    }

    /// A known class is judged without a search.
    fn answer(&mut self, signal: usize, wanted: Set) -> Verdict {
        if let Some(class) = self.told(signal) {
            return match wanted.has(class) {
                true => Verdict::Clean(class),
                false => Verdict::Hazardous,
            };
        }
        match self.visit(signal, wanted, None) {
            End::Hazardous => Verdict::Hazardous,
            End::Known(class) => Verdict::Clean(class),
            End::Unfinished(_) => unreachable!("no gate waits for the output's"),
        }
    }
}

/// Cones deeper than this are searched in a thread with room for them.
const DEEP: usize = 256;

/// Stack for 2,048 nested visits without any optimisation.
const STACK: usize = 32 << 20;

fn on_deep_stack<T: Send>(sources: &[Source], work: impl FnOnce() -> T + Send) -> T {
    match sources.len() <= DEEP {
        true => work(),
        false => stack::run(STACK, work),
    }
}

/// Searches for several signals, each afresh and with its wanted set.
pub fn search_each(sources: &[Source], asked: &[(usize, Set)]) -> Vec<(Answer, Statistics)> {
    on_deep_stack(sources, || {
        let one = |(signal, wanted): &(usize, Set)| {
            let mut search = Search::new(sources);
            let verdict = search.answer(*signal, *wanted);
            let answer = Answer {
                verdict,
                gates: search.gates,
                pins: search.pins,
            };
            (answer, search.statistics)
        };
        asked.iter().map(one).collect()
    })
}

/// The inputs' classes, then the gates.
pub fn sources(card: &Card, change: &Change) -> Vec<Source> {
    let inputs = change.inputs.iter().map(|class| Source::Told(*class));
    let gates = card.gates.iter().map(|gate| Source::Gate(gate.clone()));
    inputs.chain(gates).collect()
}

/// All outputs of a card for one change, each searched afresh.
pub fn all_outputs(card: &Card, change: &Change) -> Vec<(Answer, Statistics)> {
    search_each(&sources(card, change), &change.asked(card))
}

/// CORE for one output of one change.
pub fn core(netlist: &[u8], list: &[u8], change: usize, output: usize) -> Result<Answer, Refused> {
    let (card, change) = full::open(netlist, list, change)?;
    if output >= card.outputs.len() {
        return refused(19, 0);
    }
    let asked = change.asked(&card)[output];
    let (answer, _) = search_each(&sources(&card, &change), &[asked])[0];
    Ok(answer)
}

#[cfg(test)]
mod tests {
    use super::*;
    use crate::cases;
    use crate::changes::{Version, VERSIONS};
    use crate::netlist::Kind;
    use crate::random::{self, Random, SHAPES};
    use crate::sets::CLEAN;

    #[test]
    fn mux() {
        let (netlist, list) = (cases::mux_netlist(), cases::mux_list());
        let answer = Answer {
            verdict: Verdict::Hazardous,
            gates: 4,
            pins: 7,
        };
        assert_eq!(core(&netlist, &list, 0, 0), Ok(answer));
        assert_eq!(core(&netlist, &list, 1, 1), refused(18, 0));
        assert_eq!(core(&netlist, &list, 0, 1), refused(19, 0));
        assert_eq!(core(&netlist, &list, 0, usize::MAX), refused(19, 0));
    }

    /// The answer for a card's first output.
    fn first(card: &Card, change: Change) -> Answer {
        all_outputs(card, &change)[0].0
    }

    /// "Compared with the declared ends without a search, at 0 gates and 0 pins."
    #[test]
    fn output_on_an_input() {
        let card = Card {
            inputs: 1,
            gates: vec![],
            outputs: vec![0],
        };
        let without_search = |verdict| Answer {
            verdict,
            gates: 0,
            pins: 0,
        };
        for class in CLEAN.members() {
            let clean = without_search(Verdict::Clean(class));
            assert_eq!(first(&card, Change::plain(vec![class])), clean);
            for declared in CLEAN.members() {
                let answer = match declared == class {
                    true => clean,
                    false => without_search(Verdict::Hazardous),
                };
                let change = Change::declaring(vec![class], vec![declared]);
                assert_eq!(first(&card, change), answer);
            }
        }
    }

    /// An AND of what falls and of a NOT: after the first pin it can no longer
    /// rise or stay 1, and only a version 2 list makes that enough.
    #[test]
    fn smaller_wanted_set_prunes() {
        let card = Card {
            inputs: 2,
            gates: vec![Gate::new(Kind::Not, &[1]), Gate::new(Kind::And, &[0, 2])],
            outputs: vec![3],
        };
        let inputs = vec![Class::Fall, Class::Zero];
        let whole = Answer {
            verdict: Verdict::Clean(Class::Fall),
            gates: 2,
            pins: 3,
        };
        let pruned = Answer {
            verdict: Verdict::Hazardous,
            gates: 1,
            pins: 1,
        };
        assert_eq!(first(&card, Change::plain(inputs.clone())), whole);
        for (declared, answer) in [
            (Class::Fall, whole),
            (Class::Rise, pruned),
            (Class::One, pruned),
        ] {
            let change = Change::declaring(inputs.clone(), vec![declared]);
            assert_eq!(first(&card, change), answer);
        }
        // What can still be 0 after the first pin is known to fall after the last.
        let wrong = Answer {
            verdict: Verdict::Hazardous,
            ..whole
        };
        let change = Change::declaring(inputs, vec![Class::Zero]);
        assert_eq!(first(&card, change), wrong);
    }

    /// A constant gate is known to the forward method alone: CORE searches it.
    #[test]
    fn output_on_a_constant_gate() {
        let card = Card {
            inputs: 1,
            gates: vec![Gate::new(Kind::Not, &[0])],
            outputs: vec![1],
        };
        for (declared, verdict) in [
            (Class::One, Verdict::Clean(Class::One)),
            (Class::Rise, Verdict::Hazardous),
        ] {
            let change = Change::declaring(vec![Class::Zero], vec![declared]);
            let answer = Answer {
                verdict,
                gates: 1,
                pins: 1,
            };
            assert_eq!(first(&card, change), answer);
        }
    }

    /// The verdict is full simulation's, and no pin is taken twice nor out of
    /// the cone.
    #[test]
    fn verdict_is_the_class() {
        let mut random = Random::new(4);
        let mut seen = Statistics::default();
        for round in 0..3000 {
            let shape = SHAPES[round % SHAPES.len()];
            let (inputs, gates) = (random.from_to(1, 10), random.below(60));
            let card = random::card(&mut random, shape, inputs, gates, 4);
            let version = VERSIONS[round / SHAPES.len() % 2];
            let change = random::change(&mut random, &card, version);
            let classes = full::classes(&card, &change.inputs);
            let clean = full::calls_clean(&card, &change);
            let found = all_outputs(&card, &change);
            for (output, (answer, statistics)) in found.into_iter().enumerate() {
                let signal = card.outputs[output];
                let expected = match clean[output] {
                    true => Verdict::Clean(classes[signal]),
                    false => Verdict::Hazardous,
                };
                assert_eq!(answer.verdict, expected);
                assert!(answer.pins <= card.cone_pins(signal) as u64);
                assert!(answer.gates <= card.gates.len() as u64);
                seen.unfinished += statistics.unfinished;
                seen.carried_on += statistics.carried_on;
            }
        }
        assert!(seen.unfinished > 500 && seen.carried_on > 100, "{seen:?}");
    }

    /// A search with a declared class goes the way of the one without, and
    /// either as far or to an earlier end: as far if the output is clean.
    #[test]
    fn declared_ends_only_shorten() {
        let mut random = Random::new(10);
        let (mut as_far, mut shorter) = (0, 0);
        for _ in 0..1500 {
            let card = random::small_card(&mut random);
            let declaring = random::change(&mut random, &card, Version::Two);
            let plain = Change::plain(declaring.inputs.clone());
            let pairs = all_outputs(&card, &declaring)
                .into_iter()
                .zip(all_outputs(&card, &plain));
            for ((declared, _), (plain, _)) in pairs {
                if declared.verdict == Verdict::Hazardous {
                    assert!(declared.gates <= plain.gates && declared.pins <= plain.pins);
                    shorter += usize::from(declared.pins < plain.pins);
                } else {
                    assert_eq!(declared, plain);
                    as_far += 1;
                }
            }
        }
        assert!(as_far > 1000 && shorter > 200, "{as_far} {shorter}");
    }

    #[test]
    fn deepest_chain() {
        let card = Card {
            inputs: 1,
            gates: (0..2048)
                .map(|number| Gate::new(Kind::Not, &[number]))
                .collect(),
            outputs: vec![2048],
        };
        let answer = Answer {
            verdict: Verdict::Clean(Class::Rise),
            gates: 2048,
            pins: 2048,
        };
        assert_eq!(first(&card, Change::plain(vec![Class::Rise])), answer);
    }
}

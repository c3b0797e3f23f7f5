//! Document 01's bench as a program, and all its interleavings explored.

use crate::classes::Class;
use crate::netlist::{Card, Gate};
use std::collections::{BTreeSet, HashSet};

/// An event names an input or a pin, a pin by its gate and position.
#[derive(Clone, Copy, Debug, PartialEq, Eq, Hash)]
pub enum Event {
    Input(usize),
    Pin(usize, usize),
}

/// Numbers of changes; values follow from them.
#[derive(Clone, Debug, PartialEq, Eq, Hash)]
pub struct State {
    /// Changes made, by signal.
    pub changes: Vec<u32>,
    /// Changes passed on, by gate and pin.
    pub passed: Vec<Vec<u32>>,
}

/// A card with its two vectors.
pub struct Bench<'a> {
    card: &'a Card,
    /// The inputs' classes.
    inputs: &'a [Class],
    /// Values settled at the first vector, by signal.
    starts: Vec<bool>,
    /// Values settled at the second vector, by signal.
    ends: Vec<bool>,
}

/// Values settled at a vector, gate 0 first.
fn settled(card: &Card, vector: Vec<bool>) -> Vec<bool> {
    let mut values = vector;
    for gate in &card.gates {
        let pins: Vec<bool> = gate.pins.iter().map(|pin| values[*pin]).collect();
        values.push(gate.kind.boolean(&pins));
    }
    values
}

/// A starting value, flipped once per change.
fn flipped(start: bool, changes: u32) -> bool {
    start != (changes % 2 == 1)
}

impl<'a> Bench<'a> {
    pub fn new(card: &'a Card, inputs: &'a [Class]) -> Bench<'a> {
        let starts = settled(card, inputs.iter().map(|class| class.start()).collect());
        let ends = settled(card, inputs.iter().map(|class| class.end()).collect());
        Bench {
            card,
            inputs,
            starts,
            ends,
        }
    }

    pub fn first_state(&self) -> State {
        State {
            changes: vec![0; self.card.signals()],
            passed: self
                .card
                .gates
                .iter()
                .map(|gate| vec![0; gate.pins.len()])
                .collect(),
        }
    }

    pub fn value(&self, state: &State, signal: usize) -> bool {
        flipped(self.starts[signal], state.changes[signal])
    }

    fn pin_values(&self, state: &State, number: usize) -> Vec<bool> {
        let gate = &self.card.gates[number];
        let value = |(pin, passed): (&usize, &u32)| flipped(self.starts[*pin], *passed);
        gate.pins
            .iter()
            .zip(&state.passed[number])
            .map(value)
            .collect()
    }

    pub fn allowed(&self, state: &State, event: Event) -> bool {
        match event {
            Event::Input(input) => {
                let differs = self.inputs[input].start() != self.inputs[input].end();
                differs && state.changes[input] == 0
            }
            Event::Pin(gate, pin) => {
                let driver = self.card.gates[gate].pins[pin];
                state.passed[gate][pin] < state.changes[driver]
            }
        }
    }

    /// One event; one that is not allowed changes nothing.
    pub fn step(&self, state: &mut State, event: Event) {
        if !self.allowed(state, event) {
            return;
        }
        match event {
            Event::Input(input) => state.changes[input] += 1,
            Event::Pin(number, pin) => {
                state.passed[number][pin] += 1;
                let signal = self.card.inputs + number;
                let gate = &self.card.gates[number];
                let function = gate.kind.boolean(&self.pin_values(state, number));
                if function != self.value(state, signal) {
                    state.changes[signal] += 1;
                }
            }
        }
    }

    /// The state after a list of events.
    pub fn run(&self, events: &[Event]) -> State {
        let mut state = self.first_state();
        for event in events {
            self.step(&mut state, *event);
        }
        state
    }

    /// All events that can be named.
    pub fn events(&self) -> Vec<Event> {
        let mut events: Vec<Event> = (0..self.card.inputs).map(Event::Input).collect();
        for (number, gate) in self.card.gates.iter().enumerate() {
            events.extend((0..gate.pins.len()).map(|pin| Event::Pin(number, pin)));
        }
        events
    }

    /// No event is allowed any more.
    pub fn complete(&self, state: &State) -> bool {
        let none = |event: Event| !self.allowed(state, event);
        self.events().into_iter().all(none)
    }

    /// Everything settled at the second vector: signals and pins.
    pub fn settled_at_end(&self, state: &State) -> bool {
        let signals =
            (0..self.card.signals()).all(|signal| self.value(state, signal) == self.ends[signal]);
        let pins = self.card.gates.iter().enumerate().all(|(number, gate)| {
            let ends: Vec<bool> = gate.pins.iter().map(|pin| self.ends[*pin]).collect();
            self.pin_values(state, number) == ends
        });
        signals && pins
    }

    /// The changes that a signal's ends need.
    pub fn need(&self, signal: usize) -> u32 {
        u32::from(self.starts[signal] != self.ends[signal])
    }

    /// Has a signal behaved as a clean one must, in a complete list's last
    /// state? It "makes no change more than its ends need", and "starts and
    /// ends as declared" where ends are declared.
    pub fn is_as_asked(&self, state: &State, signal: usize, declared: Option<Class>) -> bool {
        let (start, end) = (self.starts[signal], self.value(state, signal));
        let as_declared = declared.is_none_or(|class| (start, end) == (class.start(), class.end()));
        as_declared && state.changes[signal] <= self.need(signal)
    }

    /// Is every event allowed where it stands?
    pub fn is_order(&self, events: &[Event]) -> bool {
        let mut state = self.first_state();
        events.iter().all(|event| {
            let allowed = self.allowed(&state, *event);
            self.step(&mut state, *event);
            allowed
        })
    }
}

/// Everything that the orders of a small card can reach.
pub struct Explored {
    /// All states.
    pub states: HashSet<State>,
    /// By signal, the numbers of changes.
    pub counts: Vec<BTreeSet<u32>>,
}

/// Follows every allowed event from every state, each state once; gives up
/// past `limit` states.
pub fn explore(bench: &Bench, limit: usize) -> Option<Explored> {
    let events = bench.events();
    let first = bench.first_state();
    let mut counts = vec![BTreeSet::new(); first.changes.len()];
    let mut states = HashSet::from([first.clone()]);
    let mut open = vec![first];
    while let Some(state) = open.pop() {
        for (reached, count) in counts.iter_mut().zip(&state.changes) {
            reached.insert(*count);
        }
        for event in &events {
            if bench.allowed(&state, *event) {
                let mut next = state.clone();
                bench.step(&mut next, *event);
                if states.insert(next.clone()) {
                    open.push(next);
                }
            }
        }
        if states.len() > limit {
            return None;
        }
    }
    Some(Explored { states, counts })
}

// ---------------------------------------------------------------------------
// One order, gate after gate, that shows every hazard.

/// One gate on its own: its drivers have made all their changes.
struct Alone<'a> {
    gate: &'a Gate,
    /// Starting value and changes to pass on, by pin.
    pins: Vec<(bool, u32)>,
}

impl Alone<'_> {
    fn function(&self, passed: &[u32]) -> bool {
        let values: Vec<bool> = self
            .pins
            .iter()
            .zip(passed)
            .map(|((start, _), passed)| flipped(*start, *passed))
            .collect();
        self.gate.kind.boolean(&values)
    }

    /// Searches pin events that end with a number of changes from `least` on,
    /// the smallest that there is below `most`: counts of later gates grow
    /// with it.
    fn order(&self, least: u32, most: u32) -> Option<Vec<usize>> {
        (least..most).find_map(|wanted| {
            let mut search = OrderSearch {
                alone: self,
                wanted,
                order: Vec::new(),
                failed: HashSet::new(),
            };
            let start = vec![0; self.pins.len()];
            search.reach(start, 0).then_some(search.order)
        })
    }
}

struct OrderSearch<'a> {
    alone: &'a Alone<'a>,
    wanted: u32,
    order: Vec<usize>,
    failed: HashSet<(Vec<u32>, u32)>,
}

impl OrderSearch<'_> {
    fn reach(&mut self, passed: Vec<u32>, changes: u32) -> bool {
        let pins = &self.alone.pins;
        if passed.iter().zip(pins).all(|(done, pin)| *done == pin.1) {
            return changes == self.wanted;
        }
        if changes > self.wanted || self.failed.contains(&(passed.clone(), changes)) {
            return false;
        }
        for pin in 0..passed.len() {
            if passed[pin] == self.alone.pins[pin].1 {
                continue;
            }
            let mut next = passed.clone();
            next[pin] += 1;
            let moves = self.alone.function(&next) != self.alone.function(&passed);
            self.order.push(pin);
            if self.reach(next, changes + u32::from(moves)) {
                return true;
            }
            self.order.pop();
        }
        self.failed.insert((passed, changes));
        false
    }
}

/// A complete gate-after-gate order in which every hazardous signal makes two
/// changes more than its need, or more than two.
pub fn showing_order(bench: &Bench, classes: &[Class]) -> Option<Vec<Event>> {
    let card = bench.card;
    let mut events: Vec<Event> = (0..card.inputs).map(Event::Input).collect();
    events.retain(|event| bench.allowed(&bench.first_state(), *event));
    let mut changes: Vec<u32> = (0..card.inputs).map(|input| bench.need(input)).collect();
    for (number, gate) in card.gates.iter().enumerate() {
        let signal = card.inputs + number;
        let pin = |pin: &usize| (bench.starts[*pin], changes[*pin]);
        let alone = Alone {
            gate,
            pins: gate.pins.iter().map(pin).collect(),
        };
        let total: u32 = alone.pins.iter().map(|pin| pin.1).sum();
        let surplus = if classes[signal].is_clean() { 0 } else { 2 };
        let order = alone.order(bench.need(signal) + surplus, total + 1)?;
        events.extend(order.into_iter().map(|pin| Event::Pin(number, pin)));
        changes.push(bench.run(&events).changes[signal]);
    }
    Some(events)
}

#[cfg(test)]
mod tests {
    use super::*;
    use crate::changes::Change;
    use crate::core::{self, Verdict};
    use crate::random::{self, Random, SHAPES};
    use crate::{cases, forward, full, netlist};

    fn small(random: &mut Random) -> (Card, Vec<Class>) {
        let shape = random.pick(&SHAPES);
        let (inputs, gates) = (random.from_to(1, 4), random.from_to(1, 5));
        let mut card = random::card(random, shape, inputs, gates, 4);
        for gate in &mut card.gates {
            gate.pins.truncate(3);
        }
        let mut classes = random::inputs(random, inputs);
        if random.one_in(2) {
            let moving = [Class::Rise, Class::Fall];
            classes = (0..inputs).map(|_| random.pick(&moving)).collect();
        }
        (card, classes)
    }

    /// Clean classes never exceed their need, hazardous ones can by two.
    fn check_counts(bench: &Bench, explored: &Explored, classes: &[Class]) {
        for (signal, class) in classes.iter().enumerate() {
            let need = bench.need(signal);
            assert_eq!(need == 1, class.start() != class.end());
            let most = *explored.counts[signal].last().unwrap();
            if class.is_clean() {
                assert_eq!(most, need, "signal {signal} of {:?}", bench.card);
            } else {
                assert!(most >= need + 2, "signal {signal} of {:?}", bench.card);
            }
        }
    }

    /// The last states of all complete orders: everything is settled there.
    fn complete_states<'a>(bench: &Bench, explored: &'a Explored) -> Vec<&'a State> {
        let complete = explored.states.iter().filter(|state| bench.complete(state));
        let states: Vec<&State> = complete.collect();
        assert!(!states.is_empty());
        assert!(states.iter().all(|state| bench.settled_at_end(state)));
        states
    }

    /// Inputs first, then the pins of one gate after those of the other.
    fn is_gate_after_gate(events: &[Event]) -> bool {
        let rank = |event: &Event| match event {
            Event::Input(_) => 0,
            Event::Pin(gate, _) => gate + 1,
        };
        events
            .windows(2)
            .all(|pair| rank(&pair[0]) <= rank(&pair[1]))
    }

    /// The state after the one complete order that shows every hazard. It is
    /// made from the card and the vectors alone, whatever a list declares.
    fn shown(bench: &Bench, classes: &[Class]) -> State {
        let events = showing_order(bench, classes).expect("an order that shows all hazards");
        assert!(bench.is_order(&events) && is_gate_after_gate(&events));
        let state = bench.run(&events);
        assert!(bench.complete(&state));
        for (signal, class) in classes.iter().enumerate() {
            let surplus = if class.is_clean() { 0 } else { 2 };
            assert!(state.changes[signal] >= bench.need(signal) + surplus);
        }
        state
    }

    /// What the three methods call each output, which is one verdict.
    fn called_clean(card: &Card, change: &Change) -> Vec<bool> {
        let clean = |answer: core::Answer| answer.verdict != Verdict::Hazardous;
        let by_full = full::calls_clean(card, change);
        let (answers, _) = forward::verdicts(card, change);
        assert!(answers.into_iter().map(clean).eq(by_full.clone()));
        let by_core = core::all_outputs(card, change).into_iter();
        assert!(by_core.map(|(answer, _)| clean(answer)).eq(by_full.clone()));
        by_full
    }

    /// Verdicts as the bench reads them.
    #[derive(Debug, Default)]
    struct Read {
        clean: usize,
        hazardous: usize,
        /// Hazardous for the declared ends alone.
        by_declaration: usize,
    }

    impl Read {
        /// An output called clean is as asked after every complete order; one
        /// called hazardous is not, after the one order.
        fn verdicts(&mut self, bench: &Bench, change: &Change, ends: &[&State], shown: &State) {
            let clean = called_clean(bench.card, change);
            for (output, signal) in bench.card.outputs.iter().enumerate() {
                let declared = change.declared.as_ref().map(|classes| classes[output]);
                let as_asked = |state: &State| bench.is_as_asked(state, *signal, declared);
                if clean[output] {
                    assert!(ends.iter().all(|state| as_asked(state)) && as_asked(shown));
                    self.clean += 1;
                } else {
                    assert!(!as_asked(shown), "output {output} of {:?}", bench.card);
                    self.hazardous += 1;
                    let by_class = !bench.is_as_asked(shown, *signal, None);
                    self.by_declaration += usize::from(!by_class);
                }
            }
        }
    }

    /// The inputs' classes in changes of both versions; in version 2 right,
    /// wrong and random ends are declared.
    fn changes(random: &mut Random, card: &Card, inputs: &[Class]) -> Vec<Change> {
        let own_ends = full::own_ends(card, inputs);
        let declare = |differs: (bool, bool)| {
            let class =
                |own: &Class| Class::of_ends(own.start() != differs.0, own.end() != differs.1);
            Change::declaring(inputs.to_vec(), own_ends.iter().map(class).collect())
        };
        let random = random::declared(random, card, inputs);
        vec![
            Change::plain(inputs.to_vec()),
            declare((false, false)),
            declare((true, false)),
            declare((false, true)),
            declare((true, true)),
            Change::declaring(inputs.to_vec(), random),
        ]
    }

    #[test]
    fn mux() {
        let card = netlist::decode(&cases::mux_netlist()).unwrap();
        let inputs = [Class::One, Class::One, Class::Fall];
        let bench = Bench::new(&card, &inputs);
        let explored = explore(&bench, 100_000).unwrap();
        assert_eq!(explored.counts[6], BTreeSet::from([0, 1, 2]));
        let classes = full::classes(&card, &inputs);
        check_counts(&bench, &explored, &classes);
        shown(&bench, &classes);
    }

    #[test]
    fn classes_and_verdicts_hold_on_the_bench() {
        let mut random = Random::new(7);
        let (mut explored_cards, mut states, mut ends) = (0, 0, 0);
        let mut met = [0; 8];
        let (mut plain, mut declaring) = (Read::default(), Read::default());
        for _ in 0..1000 {
            let (card, inputs) = small(&mut random);
            let classes = full::classes(&card, &inputs);
            let bench = Bench::new(&card, &inputs);
            let shown = shown(&bench, &classes);
            let Some(explored) = explore(&bench, 20_000) else {
                continue;
            };
            check_counts(&bench, &explored, &classes);
            let complete = complete_states(&bench, &explored);
            for change in changes(&mut random, &card, &inputs) {
                let read = match change.declared {
                    None => &mut plain,
                    Some(_) => &mut declaring,
                };
                read.verdicts(&bench, &change, &complete, &shown);
            }
            explored_cards += 1;
            for class in classes {
                met[usize::from(class.code())] += 1;
            }
            states += explored.states.len();
            ends += complete.len();
        }
        assert!(explored_cards >= 800, "{explored_cards} cards explored");
        assert!(met.iter().all(|times| *times > 20), "{met:?}");
        assert!(plain.clean > 500 && plain.hazardous > 500, "{plain:?}");
        assert_eq!(plain.by_declaration, 0);
        assert!(declaring.clean > 500 && declaring.by_declaration > 500);
        assert!(declaring.hazardous > declaring.by_declaration + 500);
        println!("bench: {explored_cards} cards, {states} states, {ends} ends, classes {met:?}");
        println!("bench: version 1 {plain:?}, version 2 {declaring:?}");
    }

    /// Lists of any events, allowed or not, stay within the explored states.
    #[test]
    fn other_lists_change_nothing_where_not_allowed() {
        let mut random = Random::new(8);
        let (mut lists, mut complete) = (0, 0);
        for _ in 0..200 {
            let (card, inputs) = small(&mut random);
            let bench = Bench::new(&card, &inputs);
            let Some(explored) = explore(&bench, 5_000) else {
                continue;
            };
            let all = bench.events();
            for _ in 0..10 {
                let length = random.below(60);
                let events: Vec<Event> = (0..length).map(|_| random.pick(&all)).collect();
                let state = bench.run(&events);
                assert!(explored.states.contains(&state));
                lists += 1;
                if bench.complete(&state) {
                    assert!(bench.settled_at_end(&state));
                    complete += 1;
                }
            }
        }
        assert!(lists >= 1000 && complete >= 100, "{lists} {complete}");
    }
}

//! The cards that are timed, by their number of gates and their shape.

use reference::changes::Version;
use reference::netlist::{Card, Gate, KINDS};
use reference::random::{self, Random};

/// A card's netlist and list.
pub type Files = (Vec<u8>, Vec<u8>);

#[derive(Clone, Copy, PartialEq)]
pub enum Shape {
    /// The reference's six shapes in turn; few of their searches go deep.
    Wide,
    /// Long chains: most pins stand on one of the few signals just below, the
    /// first always, so that CORE's searches go deep.
    Deep,
    /// Two pins from anywhere; NOT and BUFFER have one.
    TwoPin,
}

pub const SHAPES: [Shape; 3] = [Shape::Wide, Shape::Deep, Shape::TwoPin];

impl Shape {
    pub fn name(self) -> &'static str {
        match self {
            Shape::Wide => "wide",
            Shape::Deep => "deep",
            Shape::TwoPin => "two-pin",
        }
    }
}

/// The signals just below a gate.
const NEAR: usize = 3;

/// A gate of any kind with so many pins, or one where its kind has no more.
fn gate(random: &mut Random, count: usize, pin: impl Fn(&mut Random, usize) -> usize) -> Gate {
    let kind = random.pick(&KINDS);
    let count = count.min(*kind.pin_limits().end());
    let pins = (0..count).map(|number| pin(random, number)).collect();
    Gate { kind, pins }
}

fn deep_gate(random: &mut Random, signal: usize) -> Gate {
    let count = random.from_to(2, 4);
    gate(random, count, |random, number| {
        match number > 0 && random.one_in(8) {
            true => random.below(signal),
            false => signal - random.from_to(1, NEAR),
        }
    })
}

fn two_pin_gate(random: &mut Random, signal: usize) -> Gate {
    gate(random, 2, |random, _| random.below(signal))
}

/// A card of such gates; the outputs are late signals.
fn card_of(
    random: &mut Random,
    gate: fn(&mut Random, usize) -> Gate,
    inputs: usize,
    gates: usize,
    outputs: usize,
) -> Card {
    let signals = inputs + gates;
    let gates = (inputs..signals).map(|s| gate(random, s)).collect();
    let late = |_| random.from_to(signals / 2, signals - 1);
    let outputs = (0..outputs).map(late).collect();
    Card {
        inputs,
        gates,
        outputs,
    }
}

/// Cards of one sort, with lists of one version.
#[derive(Clone, Copy)]
pub struct Sort {
    pub gates: usize,
    pub shape: Shape,
    version: Version,
}

impl Sort {
    /// With lists of version 1.
    pub const fn new(gates: usize, shape: Shape) -> Sort {
        Sort {
            gates,
            shape,
            version: Version::One,
        }
    }

    /// The same cards with lists that declare ends.
    pub fn declaring(self) -> Sort {
        Sort {
            version: Version::Two,
            ..self
        }
    }

    pub fn name(self) -> String {
        format!("{} {}", self.gates, self.shape.name())
    }

    /// The card of this number. Only every seventh has a number of inputs that
    /// is a multiple of 8, so that its vectors have no spare bits.
    fn card(self, random: &mut Random, number: usize) -> Card {
        let gates = self.gates;
        let inputs = 8 * random.from_to(2, (gates / 32).clamp(2, 32)) - number % 7;
        let outputs = random.from_to(1, (gates / 8).clamp(2, 64));
        match self.shape {
            Shape::Wide => {
                let shape = random::SHAPES[number % random::SHAPES.len()];
                random::card(random, shape, inputs, gates, outputs)
            }
            Shape::Deep => card_of(random, deep_gate, inputs, gates, outputs),
            Shape::TwoPin => card_of(random, two_pin_gate, inputs, gates, outputs),
        }
    }

    /// The files of so many cards. A card is the same whatever the number of
    /// changes, and a shorter list has the first changes of a longer one.
    pub fn files(self, cards: usize, changes: usize) -> Vec<Files> {
        let files = |number| {
            let mut random = Random::new((100 * self.gates + number) as u64);
            let card = self.card(&mut random, number);
            random::files_of(&mut random, &card, self.version, changes)
        };
        (0..cards).map(files).collect()
    }
}

/// Every shape at each size that is timed.
#[cfg(test)]
pub fn every_sort() -> impl Iterator<Item = Sort> {
    let wide = crate::SORTS.into_iter().filter(|s| s.shape == Shape::Wide);
    wide.flat_map(|sort| SHAPES.map(|shape| Sort::new(sort.gates, shape)))
}

#[cfg(test)]
mod tests {
    use super::*;
    use reference::netlist::decode;

    const CARDS: usize = 12;

    fn cards(sort: Sort) -> Vec<Card> {
        let card = |(netlist, _): &Files| decode(netlist).expect("an accepted card");
        sort.files(CARDS, 0).iter().map(card).collect()
    }

    #[test]
    fn every_seventh_has_no_spare_bits() {
        for sort in every_sort() {
            let inputs = cards(sort).into_iter().map(|card| card.inputs);
            let none = inputs.enumerate().filter(|(_, inputs)| inputs % 8 == 0);
            assert!(none.map(|(number, _)| number).eq((0..CARDS).step_by(7)));
        }
    }

    #[test]
    fn deep_cards_are_chains() {
        for card in cards(Sort::new(2048, Shape::Deep)) {
            let gates = card.gates.iter().enumerate();
            let below = |(number, gate): (usize, &Gate)| card.inputs + number - gate.pins[0];
            assert!(gates.map(below).all(|below| below <= NEAR));
        }
    }

    #[test]
    fn two_pin_cards_have_no_more() {
        for card in cards(Sort::new(2048, Shape::TwoPin)) {
            let most = |gate: &Gate| (*gate.kind.pin_limits().end()).min(2);
            assert!(card.gates.iter().all(|gate| gate.pins.len() == most(gate)));
        }
    }
}

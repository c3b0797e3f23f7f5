//! Deterministic random cards, lists and damage.

use crate::changes::{self, Change, List, Version, VERSIONS};
use crate::classes::Class;
use crate::full;
use crate::netlist::{self, Card, Gate, Kind};
use crate::netlist::{KINDS, MAX_GATES, MAX_INPUTS, MAX_OUTPUTS};

/// SplitMix64: small, no state but a counter, the same on every machine.
#[derive(Clone, Debug)]
pub struct Random(u64);

impl Random {
    pub fn new(seed: u64) -> Random {
        Random(seed)
    }

    /// The next 64 random bits.
    pub fn draw(&mut self) -> u64 {
        self.0 = self.0.wrapping_add(0x9E37_79B9_7F4A_7C15);
        let mut z = self.0;
        z = (z ^ (z >> 30)).wrapping_mul(0xBF58_476D_1CE4_E5B9);
        z = (z ^ (z >> 27)).wrapping_mul(0x94D0_49BB_1331_11EB);
        z ^ (z >> 31)
    }

    /// A number below the bound, which is not 0.
    pub fn below(&mut self, bound: usize) -> usize {
        (self.draw() % bound as u64) as usize
    }

    /// A number from `low` to `high`, both included.
    pub fn from_to(&mut self, low: usize, high: usize) -> usize {
        low + self.below(high - low + 1)
    }

    /// True once in so many times.
    pub fn one_in(&mut self, times: usize) -> bool {
        self.below(times) == 0
    }

    pub fn pick<T: Clone>(&mut self, choices: &[T]) -> T {
        choices[self.below(choices.len())].clone()
    }

    pub fn byte(&mut self) -> u8 {
        self.draw() as u8
    }
}

// ---------------------------------------------------------------------------
// Cards.

#[derive(Clone, Copy, Debug, PartialEq, Eq)]
pub enum Shape {
    /// Each gate takes the one before it: the deepest cones.
    Chain,
    /// Gates of six to eight pins from anywhere.
    Wide,
    /// NOTs, then ANDs of inputs and NOTs, then ORs of ANDs.
    TwoLevel,
    /// Narrow gates over the last few signals: deep cones that share gates,
    /// where CORE comes back to gates that it left unfinished.
    Shared,
    /// A few hub gates that stand on many pins.
    Hubs,
    /// All kinds, any number of pins, pins from anywhere.
    Mixed,
}

pub const SHAPES: [Shape; 6] = [
    Shape::Chain,
    Shape::Wide,
    Shape::TwoLevel,
    Shape::Shared,
    Shape::Hubs,
    Shape::Mixed,
];

/// A kind with a number of pins that suits it, at most `most`.
fn kind_and_count(random: &mut Random, kinds: &[Kind], least: usize, most: usize) -> (Kind, usize) {
    let kind = random.pick(kinds);
    let limits = kind.pin_limits();
    let low = least.clamp(*limits.start(), *limits.end());
    let high = most.clamp(low, *limits.end());
    (kind, random.from_to(low, high))
}

fn pins_from(random: &mut Random, count: usize, low: usize, high: usize) -> Vec<usize> {
    (0..count).map(|_| random.from_to(low, high)).collect()
}

fn chain_gate(random: &mut Random, inputs: usize, signal: usize) -> Gate {
    let (kind, count) = kind_and_count(random, &KINDS, 1, 3);
    let mut pins = pins_from(random, count, 0, inputs - 1);
    let link = random.below(count);
    pins[link] = signal - 1;
    Gate { kind, pins }
}

fn two_level_gate(random: &mut Random, inputs: usize, gates: usize, signal: usize) -> Gate {
    let (first, second) = (inputs + gates / 4, inputs + gates * 3 / 4);
    if signal < first {
        let pins = pins_from(random, 1, 0, inputs - 1);
        return Gate {
            kind: Kind::Not,
            pins,
        };
    }
    if signal < second {
        let (kind, count) = kind_and_count(random, &[Kind::And, Kind::Nand], 2, 5);
        let pins = pins_from(random, count, 0, first - 1);
        return Gate { kind, pins };
    }
    let (kind, count) = kind_and_count(random, &[Kind::Or, Kind::Nor], 2, 8);
    let low = if second > first { first } else { 0 };
    let pins = pins_from(random, count, low, second - 1);
    Gate { kind, pins }
}

fn shared_gate(random: &mut Random, signal: usize) -> Gate {
    let (kind, count) = kind_and_count(random, &KINDS, 2, 3);
    let low = signal.saturating_sub(random.from_to(2, 12));
    let mut pins = pins_from(random, count, low, signal - 1);
    if random.one_in(4) {
        pins[0] = random.below(signal);
    }
    Gate { kind, pins }
}

fn hub_gate(random: &mut Random, inputs: usize, signal: usize) -> Gate {
    let (kind, count) = kind_and_count(random, &KINDS, 2, 4);
    let mut pins = pins_from(random, count, 0, signal - 1);
    let hubs = (signal - inputs).min(6);
    if hubs > 0 {
        let at = random.below(count);
        pins[at] = inputs + random.below(hubs);
    }
    if random.one_in(3) {
        let at = random.below(count);
        pins[at] = signal - 1;
    }
    Gate { kind, pins }
}

fn any_gate(random: &mut Random, least: usize, signal: usize) -> Gate {
    let (kind, count) = kind_and_count(random, &KINDS, least, 8);
    let mut pins = pins_from(random, count, 0, signal - 1);
    if count > 1 && random.one_in(5) {
        pins[1] = pins[0];
    }
    Gate { kind, pins }
}

/// Output entries: mostly late gates, some inputs, some doubled.
fn output_entries(random: &mut Random, signals: usize, count: usize) -> Vec<usize> {
    let mut outputs: Vec<usize> = Vec::new();
    for _ in 0..count {
        let output = match random.below(8) {
            0 => random.below(signals),
            1 if !outputs.is_empty() => random.pick(&outputs),
            2 => signals - 1,
            _ => signals - 1 - random.below(signals.div_ceil(2)),
        };
        outputs.push(output);
    }
    outputs
}

/// Inputs and gates at document 01's limits.
pub const LIMITS: [(usize, usize); 4] = [
    (1, 0),
    (1, MAX_GATES),
    (MAX_INPUTS, 0),
    (MAX_INPUTS, MAX_GATES),
];

/// A card of a shape with these counts, which are all within the limits.
pub fn card(
    random: &mut Random,
    shape: Shape,
    inputs: usize,
    gates: usize,
    outputs: usize,
) -> Card {
    let mut records = Vec::new();
    for signal in inputs..inputs + gates {
        records.push(match shape {
            Shape::Chain => chain_gate(random, inputs, signal),
            Shape::Wide => any_gate(random, 6, signal),
            Shape::TwoLevel => two_level_gate(random, inputs, gates, signal),
            Shape::Shared => shared_gate(random, signal),
            Shape::Hubs => hub_gate(random, inputs, signal),
            Shape::Mixed => any_gate(random, 1, signal),
        });
    }
    Card {
        inputs,
        gates: records,
        outputs: output_entries(random, inputs + gates, outputs),
    }
}

/// A small card of any shape, for tests in great number.
pub fn small_card(random: &mut Random) -> Card {
    let shape = random.pick(&SHAPES);
    let inputs = random.from_to(1, 12);
    let gates = random.below(40);
    let outputs = random.from_to(1, 6);
    card(random, shape, inputs, gates, outputs)
}

/// A card of any shape and any size within the limits, small ones favoured.
pub fn any_card(random: &mut Random) -> Card {
    let shape = random.pick(&SHAPES);
    let mut up_to = |steps: &[usize]| {
        let most = random.pick(steps);
        random.from_to(0, most)
    };
    let inputs = up_to(&[4, 16, 64, MAX_INPUTS]).max(1);
    let gates = up_to(&[0, 8, 32, 128, 128, 512, MAX_GATES]);
    let outputs = up_to(&[2, 8, MAX_OUTPUTS]).max(1);
    card(random, shape, inputs, gates, outputs)
}

/// A card with every record at its longest: 2,048 gates of eight pins.
pub fn widest_card(random: &mut Random) -> Card {
    let inputs = MAX_INPUTS;
    let gates = (inputs..inputs + MAX_GATES)
        .map(|signal| Gate {
            kind: random.pick(&KINDS[2..]),
            pins: pins_from(random, 8, signal.saturating_sub(40), signal - 1),
        })
        .collect();
    Card {
        inputs,
        gates,
        outputs: output_entries(random, inputs + MAX_GATES, MAX_OUTPUTS),
    }
}

// ---------------------------------------------------------------------------
// Lists.

/// The inputs' classes; how many inputs move differs from change to change.
pub fn inputs(random: &mut Random, count: usize) -> Vec<Class> {
    use Class::{Fall, One, Rise, Zero};
    let choices: &[Class] = match random.below(4) {
        0 => &[Zero, One, Rise, Fall],
        1 => &[Rise, Fall],
        2 => &[Zero, One, Zero, One, Zero, One, Rise, Fall],
        _ => &[Zero, One],
    };
    let mut inputs: Vec<Class> = (0..count).map(|_| random.pick(choices)).collect();
    if random.one_in(3) {
        let at = random.below(count);
        inputs[at] = random.pick(&[Rise, Fall]);
    }
    inputs
}

/// Declared classes: mostly with the outputs' own ends, else any; in some
/// changes all of them right.
pub fn declared(random: &mut Random, card: &Card, inputs: &[Class]) -> Vec<Class> {
    let all_right = random.one_in(4);
    let declare = |own: Class| {
        let mut bit = |right: bool| match all_right || !random.one_in(4) {
            true => right,
            false => random.one_in(2),
        };
        Class::of_ends(bit(own.start()), bit(own.end()))
    };
    let own_ends = full::own_ends(card, inputs).into_iter();
    own_ends.map(declare).collect()
}

/// A change of a list of this version with these classes of the inputs.
pub fn change_of(random: &mut Random, card: &Card, version: Version, inputs: Vec<Class>) -> Change {
    match version {
        Version::One => Change::plain(inputs),
        Version::Two => {
            let declared = declared(random, card, &inputs);
            Change::declaring(inputs, declared)
        }
    }
}

pub fn change(random: &mut Random, card: &Card, version: Version) -> Change {
    let inputs = inputs(random, card.inputs);
    change_of(random, card, version, inputs)
}

/// A card with its list of this version, as the bytes of both files.
pub fn files_of(
    random: &mut Random,
    card: &Card,
    version: Version,
    count: usize,
) -> (Vec<u8>, Vec<u8>) {
    let netlist = card.to_bytes();
    let changes = (0..count).map(|_| change(random, card, version)).collect();
    let list = List { version, changes }.to_bytes(&netlist);
    (netlist, list)
}

/// The same with a list of either version, at most 800 changes.
pub fn files(random: &mut Random, card: &Card, count: usize) -> (Vec<u8>, Vec<u8>) {
    let version = random.pick(&VERSIONS);
    files_of(random, card, version, count)
}

// ---------------------------------------------------------------------------
// Damage.

/// What stands at a place of a netlist.
#[derive(Clone, Copy, Debug, PartialEq, Eq)]
pub enum Field {
    Mark,
    Version,
    Inputs,
    Gates,
    Outputs,
    Kind,
    PinCount,
    Pin,
    Entry,
}

/// All fields of a card's netlist with their places.
pub fn fields(card: &Card) -> Vec<(Field, usize)> {
    let mut fields = vec![
        (Field::Mark, 0),
        (Field::Mark, 1),
        (Field::Mark, 2),
        (Field::Version, 3),
        (Field::Inputs, 5),
        (Field::Gates, 7),
        (Field::Outputs, 9),
    ];
    let mut at = netlist::HEAD;
    for gate in &card.gates {
        fields.push((Field::Kind, at));
        fields.push((Field::PinCount, at + 1));
        for pin in 0..gate.pins.len() {
            fields.push((Field::Pin, at + 2 + 2 * pin));
        }
        at += 2 + 2 * gate.pins.len();
    }
    for entry in 0..card.outputs.len() {
        fields.push((Field::Entry, at + 2 * entry));
    }
    fields
}

fn put_word(bytes: &mut [u8], at: usize, value: usize) {
    bytes[at..at + 2].copy_from_slice(&(value as u16).to_le_bytes());
}

/// Puts a value into a field that its rule mostly forbids.
pub fn spoil_field(random: &mut Random, card: &Card, netlist: &mut [u8], field: (Field, usize)) {
    let signals = card.signals();
    let at = field.1;
    let word = match field.0 {
        Field::Mark => {
            netlist[at] ^= 1 << random.below(8);
            return;
        }
        Field::Kind => {
            netlist[at] = random.pick(&[0, 1, 3, 6, 7, 8, 255]);
            return;
        }
        Field::PinCount => {
            netlist[at] = random.pick(&[0, 1, 2, 8, 9, 128, 255]);
            return;
        }
        Field::Version => random.pick(&[0, 2, 256, 257, 65_535]),
        Field::Inputs => random.pick(&[0, 1, 256, 257, 65_535]),
        Field::Gates => random.pick(&[0, 1, 2048, 2049, 65_535]),
        Field::Outputs => random.pick(&[0, 1, 64, 65, 65_535]),
        Field::Pin => signals - 1 - random.below(signals.min(3)),
        Field::Entry => signals + random.below(3),
    };
    put_word(netlist, at, word);
}

fn flip_bits(random: &mut Random, bytes: &mut [u8]) {
    if bytes.is_empty() {
        return;
    }
    for _ in 0..random.from_to(1, 3) {
        let at = random.below(bytes.len());
        bytes[at] ^= 1 << random.below(8);
    }
}

fn cut(random: &mut Random, bytes: &mut Vec<u8>) {
    let length = random.from_to(0, bytes.len());
    bytes.truncate(length);
}

fn append(random: &mut Random, bytes: &mut Vec<u8>) {
    let more = random.pick(&[1, 1, 2, 3, 40]);
    bytes.extend((0..more).map(|_| random.byte()));
}

fn exchange(random: &mut Random, bytes: &mut [u8], a: usize, b: usize) {
    let width = random.from_to(1, 2);
    for at in 0..width {
        if a + at < bytes.len() && b + at < bytes.len() {
            bytes.swap(a + at, b + at);
        }
    }
}

/// Damages a netlist in one of five ways; now and then it stays acceptable.
pub fn damage_netlist(random: &mut Random, card: &Card, netlist: &mut Vec<u8>) {
    let fields = fields(card);
    match random.below(6) {
        0 => flip_bits(random, netlist),
        1 => cut(random, netlist),
        2 => append(random, netlist),
        3 => {
            let (a, b) = (random.pick(&fields).1, random.pick(&fields).1);
            exchange(random, netlist, a, b);
        }
        _ => {
            let field = random.pick(&fields);
            spoil_field(random, card, netlist, field);
        }
    }
}

/// Sets a spare bit of one of the rows, where the list has any.
fn set_spare_bit(random: &mut Random, version: Version, card: &Card, list: &mut [u8]) {
    let mut spare = version.last_bytes(card, list.len());
    spare.retain(|(_, bits)| *bits != 0);
    if !spare.is_empty() {
        let (place, bits) = random.pick(&spare);
        let lowest = bits.trailing_zeros() as usize;
        list[place] |= 1 << random.from_to(lowest, 7);
    }
}

/// Damages a list likewise; it is an accepted one of the card.
pub fn damage_list(random: &mut Random, card: &Card, list: &mut Vec<u8>) {
    let version = Version::of(list).expect("an accepted list");
    match random.below(10) {
        0 => flip_bits(random, list),
        1 => cut(random, list),
        2 => append(random, list),
        3 => {
            let (a, b) = (random.below(list.len()), random.below(list.len()));
            exchange(random, list, a, b);
        }
        4 => {
            let at = random.from_to(5, 8);
            list[at] = list[at].wrapping_add(1);
        }
        5 => {
            let at = random.pick(&[0, 1, 2, 3, 4]);
            list[at] = random.byte();
        }
        6 => {
            let version = random.pick(&[0, 1, 2, 3, 256, 257, 258, 65_535]);
            put_word(list, 3, version);
        }
        7 => {
            let count = random.pick(&[0, 1, 800, 801, 1000, 1001, 65_535]);
            put_word(list, 9, count);
        }
        8 => {
            // The last row is missing, or the last two are.
            let row = changes::row_bytes(card.outputs.len());
            let missing = random.from_to(1, 2) * row;
            list.truncate(list.len().saturating_sub(missing));
        }
        _ => set_spare_bit(random, version, card, list),
    }
}

/// A card's files, one of them damaged, the list more often than the netlist.
pub fn damaged_files(
    random: &mut Random,
    card: &Card,
    version: Version,
    count: usize,
) -> (Vec<u8>, Vec<u8>) {
    let (mut netlist, mut list) = files_of(random, card, version, count);
    match random.below(3) {
        0 => damage_netlist(random, card, &mut netlist),
        _ => damage_list(random, card, &mut list),
    }
    (netlist, list)
}

#[cfg(test)]
mod tests {
    use super::*;

    #[test]
    fn cards_and_lists_are_accepted() {
        let mut random = Random::new(1);
        for round in 0..300 {
            let version = VERSIONS[round % 2];
            let card = any_card(&mut random);
            let count = random.below(4);
            let (netlist, list) = files_of(&mut random, &card, version, count);
            let job = changes::decode(&netlist, &list).unwrap();
            assert_eq!(job.card, card);
            assert_eq!((job.list.version, job.list.changes.len()), (version, count));
        }
        assert_eq!(widest_card(&mut random).to_bytes().len(), 37_003);
    }

    /// Declared ends are often right and often wrong, by both rows.
    #[test]
    fn declared_ends_vary() {
        let mut random = Random::new(14);
        let (mut right, mut start_wrong, mut end_wrong) = (0, 0, 0);
        for _ in 0..300 {
            let card = small_card(&mut random);
            let change = change(&mut random, &card, Version::Two);
            let own_ends = full::own_ends(&card, &change.inputs).into_iter();
            for (own, declared) in own_ends.zip(change.declared.unwrap()) {
                let start = own.start() == declared.start();
                let end = own.end() == declared.end();
                right += usize::from(start && end);
                start_wrong += usize::from(!start && end);
                end_wrong += usize::from(start && !end);
            }
        }
        let least = 20;
        assert!(
            right > 10 * least && start_wrong > least && end_wrong > least,
            "{right} {start_wrong} {end_wrong}"
        );
    }

    #[test]
    fn fields_cover_the_netlist() {
        let mut random = Random::new(2);
        let card = card(&mut random, Shape::Mixed, 5, 30, 4);
        let last = fields(&card).last().unwrap().1;
        assert_eq!(last + 2, card.to_bytes().len());
    }

    /// Damage meets every refusal of the two checks, with lists of each version.
    #[test]
    fn damage_is_of_every_sort() {
        let mut random = Random::new(3);
        for version in VERSIONS {
            let mut met = [0; 21];
            for _ in 0..4000 {
                let card = small_card(&mut random);
                let (netlist, list) = damaged_files(&mut random, &card, version, 2);
                if let Err(refused) = changes::check(&netlist, &list) {
                    met[refused.number as usize] += 1;
                }
            }
            assert!(met[1..=17].iter().all(|count| *count > 5), "{met:?}");
        }
    }
}

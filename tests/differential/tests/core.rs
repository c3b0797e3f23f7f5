//! `lane_core` against the reference: verdict, class, gates visited and pins
//! taken, for all outputs and changes.

use differential::{found, right};
use reference::cases;
use reference::changes::{self, List, VERSIONS};
use reference::classes::Class;
use reference::core::{self, Answer, Statistics, Verdict};
use reference::full;
use reference::netlist::{Card, Gate, Kind, KINDS, MAX_GATES};
use reference::random::{self, Random, Shape, LIMITS, SHAPES};

mod refusals;

/// What a run of comparisons has seen.
#[derive(Default)]
struct Seen {
    cards: usize,
    compared: usize,
    hazardous: usize,
    /// Searches with at least one visit that ended unfinished, and with at
    /// least one unfinished gate carried on.
    with_unfinished: usize,
    with_carried_on: usize,
    /// Searches that took every pin of a cone that has pins.
    whole_cones: usize,
    /// Searches with declared ends, and those of them that were clean.
    declaring: usize,
    as_declared: usize,
}

impl Seen {
    /// An answer that the library gave too: at most the pins of the cone.
    fn note(&mut self, answer: &Answer, statistics: &Statistics, cone: usize) {
        assert!(answer.pins <= cone as u64, "{answer:?}, a cone of {cone}");
        self.whole_cones += usize::from(cone > 0 && answer.pins == cone as u64);
        self.compared += 1;
        self.hazardous += usize::from(answer.verdict == Verdict::Hazardous);
        self.with_unfinished += usize::from(statistics.unfinished > 0);
        self.with_carried_on += usize::from(statistics.carried_on > 0);
    }

    /// Prints what was seen: clean and hazardous outputs, with and without
    /// declared ends, or it is too little.
    fn print(&self, name: &str) {
        assert!(
            self.hazardous > 0 && self.compared > self.hazardous,
            "{name}"
        );
        assert!(
            self.as_declared > 0 && self.compared > self.declaring,
            "{name}"
        );
        println!(
            "core {name}: {} cards, {} searches compared, {} hazardous, \
             {} with a visit that ended unfinished, {} with one carried on, \
             {} of a whole cone, {} with declared ends, {} clean as declared",
            self.cards,
            self.compared,
            self.hazardous,
            self.with_unfinished,
            self.with_carried_on,
            self.whole_cones,
            self.declaring,
            self.as_declared
        );
    }
}

/// All changes and all outputs of a list.
fn compare_list(seen: &mut Seen, card: &Card, list: &List) {
    let netlist = card.to_bytes();
    let bytes = list.to_bytes(&netlist);
    for (number, change) in list.changes.iter().enumerate() {
        let right = core::all_outputs(card, change);
        for (output, (answer, statistics)) in right.iter().enumerate() {
            let found = found::core(&netlist, &bytes, number, output);
            assert_eq!(
                found,
                (0, right::core_values(*answer)),
                "{change:?} output {output} of {card:?}"
            );
            seen.note(answer, statistics, card.cone_pins(card.outputs[output]));
            let declaring = change.declared.is_some();
            let clean = answer.verdict != Verdict::Hazardous;
            seen.declaring += usize::from(declaring);
            seen.as_declared += usize::from(declaring && clean);
        }
    }
    seen.cards += 1;
}

/// Random changes of a list of either version.
fn compare_card(seen: &mut Seen, random: &mut Random, card: &Card, count: usize) {
    let version = random.pick(&VERSIONS);
    let changes = (0..count).map(|_| random::change(random, card, version));
    let changes = changes.collect();
    compare_list(seen, card, &List { version, changes });
}

#[test]
fn mux() {
    let (netlist, list) = (cases::mux_netlist(), cases::mux_list());
    assert_eq!(found::core(&netlist, &list, 0, 0), (0, [1, 0, 4, 7, 0]));
}

#[test]
fn many_small_cards() {
    let mut random = Random::new(41);
    let mut seen = Seen::default();
    for round in 0..6000 {
        let shape = SHAPES[round % SHAPES.len()];
        let (inputs, gates) = (random.from_to(1, 12), random.below(50));
        let outputs = random.from_to(1, 5);
        let card = random::card(&mut random, shape, inputs, gates, outputs);
        compare_card(&mut seen, &mut random, &card, 3);
    }
    assert!(seen.hazardous > 2000 && seen.compared - seen.hazardous > 2000);
    assert!(seen.with_unfinished > 2000);
    assert!(seen.with_carried_on > 500);
    assert!(seen.whole_cones > 500);
    seen.print("small cards");
}

/// Deep cones of narrow gates that are shared: the search returns to gates
/// that it left unfinished.
#[test]
fn shared_cones() {
    let mut random = Random::new(42);
    let mut seen = Seen::default();
    for round in 0..600 {
        let shape = [Shape::Shared, Shape::Hubs, Shape::Wide][round % 3];
        let (inputs, gates) = (random.from_to(3, 60), random.from_to(60, 400));
        let card = random::card(&mut random, shape, inputs, gates, 8);
        compare_card(&mut seen, &mut random, &card, 3);
    }
    assert!(seen.with_unfinished > 2000);
    assert!(seen.with_carried_on > 500);
    seen.print("shared cones");
}

#[test]
fn cards_of_every_size() {
    let mut random = Random::new(43);
    let mut seen = Seen::default();
    for _ in 0..150 {
        let card = random::any_card(&mut random);
        compare_card(&mut seen, &mut random, &card, 2);
    }
    for shape in SHAPES {
        for (inputs, gates) in LIMITS {
            let card = random::card(&mut random, shape, inputs, gates, 64);
            compare_card(&mut seen, &mut random, &card, 2);
        }
    }
    seen.print("every size");
}

/// 2,048 gates of eight pins.
#[test]
fn widest_cards() {
    let mut random = Random::new(44);
    let mut seen = Seen::default();
    for _ in 0..4 {
        let card = random::widest_card(&mut random);
        compare_card(&mut seen, &mut random, &card, 4);
    }
    seen.print("widest cards");
}

/// A chain of 2,048 gates in which each gate takes the one before it at pin
/// `link` of `count`, and signal 0 elsewhere.
fn chain(kinds: &[Kind], count: usize, link: usize) -> Card {
    let gates = (0..MAX_GATES)
        .map(|number| {
            let kind = kinds[number % kinds.len()];
            let count = count.clamp(*kind.pin_limits().start(), *kind.pin_limits().end());
            let mut pins = vec![0; count];
            pins[link % count] = 1 + number;
            Gate { kind, pins }
        })
        .collect();
    Card {
        inputs: 2,
        gates,
        outputs: vec![MAX_GATES + 1],
    }
}

fn chains() -> Vec<Card> {
    let mut cards = vec![chain(&[Kind::Not], 1, 0), chain(&[Kind::Buffer], 1, 0)];
    for count in [2, 8] {
        for link in 0..count {
            cards.push(chain(&[Kind::And], count, link));
            cards.push(chain(&[Kind::Nand, Kind::Nor], count, link));
            cards.push(chain(&KINDS, count, link));
        }
    }
    cards
}

#[test]
fn deep_chains() {
    let mut random = Random::new(45);
    let mut seen = Seen::default();
    for card in chains() {
        compare_card(&mut seen, &mut random, &card, 6);
    }
    seen.print("deep chains");
}

/// Changes in which nothing decides before the chain's end is reached.
#[test]
fn chains_to_their_ends() {
    let (mut compared, mut deepest) = (0, 0);
    for card in chains() {
        let netlist = card.to_bytes();
        for (side, end) in [(0, 2), (1, 2), (0, 3), (1, 3), (2, 2), (2, 3)] {
            let inputs = [side, end].map(Class::of_code).to_vec();
            let declared = full::own_ends(&card, &inputs);
            for list in [
                List::plain([inputs.clone()]),
                List::declaring([(inputs, declared)]),
            ] {
                let list = list.to_bytes(&netlist);
                let right = right::core(&netlist, &list, 0, 0);
                assert_eq!(found::core(&netlist, &list, 0, 0), right);
                compared += 1;
                deepest = deepest.max(right.1[2]);
            }
        }
    }
    assert_eq!(deepest, MAX_GATES as u64);
    println!("core chains to their ends: {compared} searches compared");
}

/// Every input of small cards for all 4^I changes: rare paths included.
#[test]
fn all_changes_of_small_cards() {
    let mut random = Random::new(46);
    let mut seen = Seen::default();
    for round in 0..300 {
        let shape = SHAPES[round % SHAPES.len()];
        let (inputs, gates) = (random.from_to(1, 4), random.from_to(1, 14));
        let card = random::card(&mut random, shape, inputs, gates, 3);
        let version = random.pick(&VERSIONS);
        let changes = (0..1usize << (2 * inputs)).map(|number| {
            let class = |input| Class::of_code((number >> (2 * input) & 3) as u8);
            let inputs = (0..inputs).map(class).collect();
            random::change_of(&mut random, &card, version, inputs)
        });
        let changes = changes.collect();
        compare_list(&mut seen, &card, &List { version, changes });
    }
    assert!(seen.with_carried_on > 500);
    seen.print("all changes");
}

#[test]
fn numbers_past_the_end() {
    let mut random = Random::new(47);
    let mut compared = 0;
    for outputs in [1, 2, 64] {
        let card = random::card(&mut random, Shape::Mixed, 5, 12, outputs);
        let (netlist, list) = random::files(&mut random, &card, 2);
        let far = [0, 1, 256, 65_536, 1 << 32, 1 << 63, usize::MAX];
        for change in far.into_iter().chain([2, 3]) {
            for output in far.into_iter().chain([outputs - 1, outputs]) {
                let right = right::core(&netlist, &list, change, output);
                let number = match (change < 2, output < outputs) {
                    (false, _) => 18,
                    (true, false) => 19,
                    (true, true) => 0,
                };
                assert_eq!(right.0, number);
                assert_eq!(found::core(&netlist, &list, change, output), right);
                compared += 1;
            }
        }
    }
    println!("core numbers: {compared} calls compared");
}

#[test]
fn damaged_files() {
    refusals::all_met("core", 48, 0..20, |random, _, (netlist, list), change| {
        let output = random.pick(&[0, 1, 5, 64]);
        let right = right::core(netlist, list, change, output);
        assert_eq!(found::core(netlist, list, change, output), right);
        right.0
    });
}

/// The verdict is full simulation's, and a clean output has its class.
#[test]
fn verdict_is_the_class() {
    let mut random = Random::new(49);
    let mut compared = 0;
    for _ in 0..500 {
        let card = random::small_card(&mut random);
        let (netlist, list) = random::files(&mut random, &card, 2);
        for number in 0..2 {
            let change = changes::change_at(&list, &card, number);
            let classes = full::classes(&card, &change.inputs);
            for (output, clean) in full::calls_clean(&card, &change).into_iter().enumerate() {
                let code = u64::from(classes[card.outputs[output]].code());
                let (refusal, values) = found::core(&netlist, &list, number, output);
                let wanted = if clean { [0, code] } else { [1, 0] };
                assert_eq!((refusal, [values[0], values[1]]), (0, wanted));
                compared += 1;
            }
        }
    }
    println!("core verdicts: {compared} compared");
}

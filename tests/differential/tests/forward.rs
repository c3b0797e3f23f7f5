//! `lane_forward` against the reference: the bytes of the whole buffer, the
//! touched count and the sum of gates visited.

use differential::calls::FORWARD;
use differential::{found, Answer};
use reference::cases;
use reference::changes::{List, Version, VERSIONS};
use reference::classes::Class;
use reference::netlist::{Card, Gate, Kind, MAX_GATES};
use reference::random::{self, Random, Shape, LIMITS, SHAPES};

mod refusals;

/// What a run of comparisons has seen.
#[derive(Default)]
struct Seen {
    compared: usize,
    outputs: usize,
    hazardous: usize,
    untouched: usize,
    without_search: usize,
}

impl Seen {
    fn note(&mut self, bytes: &[u8], answer: [u64; 5]) {
        self.compared += 1;
        self.outputs += bytes.len();
        self.hazardous += bytes.iter().filter(|byte| **byte == 1).count();
        self.untouched += usize::from(answer[0] == 0);
        self.without_search += usize::from(answer[1] == 0);
    }

    /// Prints what was seen: clean and hazardous outputs, or it is too little.
    fn print(&self, name: &str) {
        assert!(
            self.hazardous > 0 && self.outputs > self.hazardous,
            "{name}"
        );
        println!(
            "forward {name}: {} calls compared, {} of {} outputs hazardous, \
             {} untouched, {} without a visit",
            self.compared, self.hazardous, self.outputs, self.untouched, self.without_search
        );
    }
}

/// Compares answers and buffers; gives them back.
fn compare(netlist: &[u8], list: &[u8], change: usize, length: usize) -> (Answer, Box<[u8]>) {
    FORWARD.compare(netlist, list, change, length).unwrap()
}

/// All changes, buffers equal and longer.
fn compare_card(seen: &mut Seen, random: &mut Random, card: &Card, version: Version, count: usize) {
    let (netlist, list) = random::files_of(random, card, version, count);
    let outputs = card.outputs.len();
    for change in 0..count {
        let longer = random.pick(&[0, 1, 7, 100]);
        let ((number, values), buffer) = compare(&netlist, &list, change, outputs + longer);
        assert_eq!(number, 0);
        seen.note(&buffer[..outputs], values);
    }
}

#[test]
fn mux_and_its_mending() {
    let (netlist, list) = (cases::mux_netlist(), cases::mux_list());
    let mut buffer = [0xEE; 2];
    assert_eq!(
        found::forward(&netlist, &list, 0, &mut buffer),
        (0, [2, 4, 0, 0, 0])
    );
    assert_eq!(buffer, [1, 0xEE]);
    let netlist = cases::mended_mux().to_bytes();
    let inputs = vec![Class::One, Class::One, Class::Fall];
    let list = List::plain([inputs]).to_bytes(&netlist);
    assert_eq!(
        found::forward(&netlist, &list, 0, &mut buffer),
        (0, [4, 0, 0, 0, 0])
    );
    assert_eq!(buffer, [0, 0xEE]);
}

#[test]
fn cards_of_every_shape() {
    let mut random = Random::new(51);
    for version in VERSIONS {
        let mut seen = Seen::default();
        for shape in SHAPES {
            for _ in 0..300 {
                let (inputs, gates) = (random.from_to(1, 20), random.below(80));
                let outputs = random.from_to(1, 9);
                let card = random::card(&mut random, shape, inputs, gates, outputs);
                compare_card(&mut seen, &mut random, &card, version, 3);
            }
            for (inputs, gates) in LIMITS {
                let card = random::card(&mut random, shape, inputs, gates, 64);
                compare_card(&mut seen, &mut random, &card, version, 2);
            }
        }
        for _ in 0..50 {
            let card = random::any_card(&mut random);
            compare_card(&mut seen, &mut random, &card, version, 2);
        }
        let widest = random::widest_card(&mut random);
        compare_card(&mut seen, &mut random, &widest, version, 2);
        assert!(seen.hazardous > 2000 && seen.outputs - seen.hazardous > 2000);
        assert!(seen.untouched > 200 && seen.without_search > 200);
        seen.print(&format!("shapes, {version:?}"));
    }
}

/// Constants that travel far: each gate of a chain follows from the one before
/// it, and gates that no output reaches count as touched too.
#[test]
fn long_chains() {
    let mut random = Random::new(52);
    let mut seen = Seen::default();
    for kind in [Kind::Not, Kind::Buffer, Kind::And, Kind::Nor] {
        let count = *kind.pin_limits().start();
        let gates = (0..MAX_GATES)
            .map(|number| Gate {
                kind,
                pins: (0..count).map(|pin| (1 + number) * (1 - pin % 2)).collect(),
            })
            .collect();
        let card = Card {
            inputs: 2,
            gates,
            outputs: vec![MAX_GATES + 1, MAX_GATES + 1, 5, 0],
        };
        for version in VERSIONS {
            compare_card(&mut seen, &mut random, &card, version, 20);
        }
    }
    seen.print("long chains");
}

#[test]
fn buffers_of_every_length() {
    let mut random = Random::new(53);
    let mut compared = 0;
    for outputs in [1, 2, 5, 63, 64] {
        let card = random::card(&mut random, Shape::Shared, 6, 70, outputs);
        let (netlist, list) = random::files(&mut random, &card, 1);
        for length in 0..outputs + 5 {
            let ((number, _), _) = compare(&netlist, &list, 0, length);
            assert_eq!(number, if length < outputs { 20 } else { 0 });
            compared += 1;
        }
    }
    println!("forward buffers: {compared} calls compared");
}

#[test]
fn change_numbers() {
    refusals::past_the_list(
        "forward",
        54,
        Shape::Hubs,
        &[0, 1, 2, 50],
        |netlist, list, change, length| compare(netlist, list, change, length).0 .0,
    );
}

#[test]
fn damaged_files() {
    let numbers = (0..=18).chain([20]);
    refusals::all_met(
        "forward",
        55,
        numbers,
        |random, _, (netlist, list), change| {
            let length = random.pick(&[0, 1, 6, 70]);
            compare(netlist, list, change, length).0 .0
        },
    );
}

//! `lane_full` against the reference: the bytes of the whole buffer, accepted
//! or refused.

use differential::calls::FULL;
use differential::found;
use reference::cases;
use reference::changes::{List, Version, VERSIONS};
use reference::netlist::Card;
use reference::random::{self, Random, Shape, LIMITS, SHAPES};

mod refusals;

/// Compares answers and buffers; gives back the refusal number.
fn compare(netlist: &[u8], list: &[u8], change: usize, length: usize) -> u32 {
    let ((number, _), _) = FULL.compare(netlist, list, change, length).unwrap();
    number
}

/// All changes, buffers equal and longer.
fn compare_card(random: &mut Random, card: &Card, version: Version, count: usize) -> usize {
    let (netlist, list) = random::files_of(random, card, version, count);
    let signals = card.signals();
    for change in 0..count {
        let longer = random.pick(&[0, 1, 7, 100]);
        assert_eq!(compare(&netlist, &list, change, signals + longer), 0);
    }
    count
}

#[test]
fn mux() {
    let (netlist, list) = (cases::mux_netlist(), cases::mux_list());
    let mut buffer = [0xEE; 8];
    assert_eq!(found::full(&netlist, &list, 0, &mut buffer), (0, [0; 5]));
    assert_eq!(buffer, [1, 1, 3, 2, 3, 2, 5, 0xEE]);
}

#[test]
fn cards_of_every_shape() {
    let mut random = Random::new(31);
    let mut compared = 0;
    for shape in SHAPES {
        for round in 0..150 {
            let (inputs, gates) = (random.from_to(1, 40), random.below(120));
            let card = random::card(&mut random, shape, inputs, gates, 3);
            compared += compare_card(&mut random, &card, VERSIONS[round % 2], 6);
        }
        for (inputs, gates) in LIMITS {
            let card = random::card(&mut random, shape, inputs, gates, 64);
            for version in VERSIONS {
                compared += compare_card(&mut random, &card, version, 2);
            }
        }
    }
    for round in 0..200 {
        let card = random::any_card(&mut random);
        let count = random.pick(&[1, 3, 20]);
        compared += compare_card(&mut random, &card, VERSIONS[round % 2], count);
    }
    let widest = random::widest_card(&mut random);
    for version in VERSIONS {
        compared += compare_card(&mut random, &widest, version, 15);
    }
    println!("full shapes: {compared} simulations compared");
}

/// Whole lists of 1,000 and of 800 changes.
#[test]
fn longest_lists() {
    let mut random = Random::new(32);
    let card = random::card(&mut random, Shape::Mixed, 33, 50, 2);
    for version in VERSIONS {
        let compared = compare_card(&mut random, &card, version, version.max_changes());
        println!("full longest list: {compared} simulations compared");
    }
}

/// What a list declares moves no byte.
#[test]
fn declared_ends_move_no_byte() {
    let mut random = Random::new(36);
    for _ in 0..300 {
        let card = random::small_card(&mut random);
        let inputs = random::inputs(&mut random, card.inputs);
        let declared = random::declared(&mut random, &card, &inputs);
        let netlist = card.to_bytes();
        let lists = [
            List::plain([inputs.clone()]),
            List::declaring([(inputs, declared)]),
        ];
        let [plain, declaring] = lists.map(|list| {
            let mut buffer = vec![0xEE; card.signals()];
            let answer = found::full(&netlist, &list.to_bytes(&netlist), 0, &mut buffer);
            assert_eq!(answer, (0, [0; 5]));
            buffer
        });
        assert_eq!(plain, declaring);
    }
}

#[test]
fn buffers_of_every_length() {
    let mut random = Random::new(33);
    let mut compared = 0;
    for _ in 0..60 {
        let card = random::small_card(&mut random);
        let signals = card.signals();
        let (netlist, list) = random::files(&mut random, &card, 1);
        for length in 0..signals + 4 {
            let number = compare(&netlist, &list, 0, length);
            assert_eq!(number, if length < signals { 20 } else { 0 });
            compared += 1;
        }
    }
    println!("full buffers: {compared} calls compared");
}

#[test]
fn change_numbers() {
    // a buffer of 9 + 20 bytes is enough
    refusals::past_the_list("full", 34, Shape::Shared, &[0, 28, 29, 500], compare);
}

/// The list's refusals come first, whatever change and buffer are.
#[test]
fn damaged_files() {
    let numbers = (0..=18).chain([20]);
    refusals::all_met(
        "full",
        35,
        numbers,
        |random, card, (netlist, list), change| {
            let length = random.pick(&[0, card.signals(), 2400]);
            compare(netlist, list, change, length)
        },
    );
}

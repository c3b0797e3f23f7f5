//! `lane_list` against the reference: T, V, W, and every refusal of the netlist
//! and of the list with its place, with lists of both versions.

mod met;

use differential::{found, right};
use met::Met;
use reference::cases;
use reference::changes::{check, List, Version, HEAD, VERSIONS};
use reference::classes::Class;
use reference::netlist::Card;
use reference::random::{self, Random, Shape};

fn compare(met: &mut Met, netlist: &[u8], list: &[u8]) {
    assert_eq!(
        found::list(netlist, list),
        right::list(netlist, list),
        "netlist {:02X?} list {:02X?}",
        &netlist[..netlist.len().min(200)],
        &list[..list.len().min(200)]
    );
    met.note(check(netlist, list));
}

/// A card without gates: its list has vectors and rows of any width asked for.
fn bare(inputs: usize, outputs: usize) -> Card {
    Card {
        inputs,
        gates: vec![],
        outputs: vec![0; outputs],
    }
}

/// A list of this version in which nothing moves from 1.
fn ones(card: &Card, version: Version, count: usize) -> Vec<u8> {
    let inputs = vec![Class::One; card.inputs];
    let declared = vec![Class::One; card.outputs.len()];
    let list = match version {
        Version::One => List::plain(vec![inputs; count]),
        Version::Two => List::declaring(vec![(inputs, declared); count]),
    };
    list.to_bytes(&card.to_bytes())
}

#[test]
fn counts_at_and_past_the_limits() {
    for version in VERSIONS {
        let mut met = Met::default();
        for (inputs, outputs) in [(1, 64), (7, 1), (8, 8), (9, 9), (255, 63), (256, 64)] {
            let card = bare(inputs, outputs);
            let netlist = card.to_bytes();
            let most = version.max_changes();
            for count in [0, 1, 2, most - 1, most, most + 1] {
                let list = ones(&card, version, count);
                compare(&mut met, &netlist, &list);
                compare(&mut met, &netlist, &list[..list.len() - 1]);
                let mut longer = list.clone();
                longer.push(0);
                compare(&mut met, &netlist, &longer);
                for written in [0u16, 1, 800, 801, 1000, 1001, 65_535] {
                    let mut other = list.clone();
                    other[9..11].copy_from_slice(&written.to_le_bytes());
                    compare(&mut met, &netlist, &other);
                }
            }
        }
        met.assert_met(15, 20, 1);
        met.assert_met(16, 50, 20);
        met.print(&format!("list counts, {version:?}"));
    }
}

#[test]
fn versions() {
    let mut met = Met::default();
    let card = bare(9, 9);
    let netlist = card.to_bytes();
    for count in [0, 1] {
        for version in VERSIONS {
            let list = ones(&card, version, count);
            for written in (0..=515u16).chain([65_535]) {
                let mut other = list.clone();
                other[3..5].copy_from_slice(&written.to_le_bytes());
                compare(&mut met, &netlist, &other);
            }
        }
    }
    // Without changes either number is accepted, with one only the list's own.
    assert_eq!(met.accepted, 4 + 2);
    met.assert_met(13, 4 * 515, 1);
    met.assert_met(16, 2, 2);
    met.print("list versions");
}

#[test]
fn spare_bits_of_every_width() {
    for version in VERSIONS {
        let mut met = Met::default();
        for inputs in 1..=256 {
            let card = bare(inputs, 1 + inputs % 64);
            let netlist = card.to_bytes();
            let list = ones(&card, version, 3);
            compare(&mut met, &netlist, &list);
            for at in HEAD..list.len() {
                for bit in [0, 6, 7] {
                    let mut flipped = list.clone();
                    flipped[at] ^= 1 << bit;
                    compare(&mut met, &netlist, &flipped);
                }
            }
            // Many bytes with spare bits: the first is the place.
            let mut filled = list.clone();
            filled[HEAD..].fill(0xFF);
            compare(&mut met, &netlist, &filled);
        }
        met.assert_met(17, 1000, 100);
        met.print(&format!("list spare bits, {version:?}"));
    }
}

/// Mux, and a card with its lists of both versions.
fn some_files(seed: u64, gates: usize, count: usize) -> Vec<(Vec<u8>, Vec<u8>)> {
    let mut random = Random::new(seed);
    let card = random::card(&mut random, Shape::Mixed, 20, gates, 11);
    let mut files = vec![(cases::mux_netlist(), cases::mux_list())];
    for version in VERSIONS {
        files.push(random::files_of(&mut random, &card, version, count));
    }
    files
}

#[test]
fn cut_at_every_byte() {
    let mut met = Met::default();
    for (netlist, list) in some_files(21, 10, 5) {
        for length in 0..=list.len() {
            compare(&mut met, &netlist, &list[..length]);
        }
        for length in 0..=netlist.len() {
            compare(&mut met, &netlist[..length], &list);
        }
    }
    met.assert_met(11, 33, 11);
    met.assert_met(16, 40, 40);
    met.print("list cuts");
}

#[test]
fn every_bit_flipped() {
    let mut met = Met::default();
    for (netlist, list) in some_files(22, 3, 2) {
        for bit in 0..8 * list.len() {
            let mut flipped = list.clone();
            flipped[bit / 8] ^= 1 << (bit % 8);
            compare(&mut met, &netlist, &flipped);
        }
        for bit in 0..8 * netlist.len() {
            let mut flipped = netlist.clone();
            flipped[bit / 8] ^= 1 << (bit % 8);
            compare(&mut met, &flipped, &list);
        }
    }
    for number in [12, 13, 14, 15, 16, 17] {
        met.assert_met(number, 3, 1);
    }
    met.print("list bits");
}

/// A tie that differs in each of its bits, also beyond 16 of them.
#[test]
fn ties_of_long_netlists() {
    let mut met = Met::default();
    let mut random = Random::new(23);
    for round in 0..12 {
        let card = match round {
            0 => random::widest_card(&mut random),
            _ => random::any_card(&mut random),
        };
        let (netlist, list) = random::files(&mut random, &card, 1);
        compare(&mut met, &netlist, &list);
        for bit in 0..32 {
            let mut other = list.clone();
            other[5 + bit / 8] ^= 1 << (bit % 8);
            compare(&mut met, &netlist, &other);
        }
    }
    assert_eq!(met.accepted, 12);
    met.assert_met(14, 12 * 32, 1);
    met.print("list ties");
}

#[test]
fn empty_and_long() {
    let mut met = Met::default();
    let (netlist, list) = (cases::mux_netlist(), cases::mux_list());
    compare(&mut met, &[], &[]);
    compare(&mut met, &[], &list);
    compare(&mut met, &netlist, &[]);
    for card in [bare(3, 1), bare(256, 64)] {
        let netlist = card.to_bytes();
        for version in VERSIONS {
            for count in [1, version.max_changes()] {
                let list = ones(&card, version, count);
                compare(&mut met, &netlist, &list);
                for length in [65_535, 65_536, 65_537, 100_000] {
                    let mut longer = list.clone();
                    longer.resize(length, 0);
                    compare(&mut met, &netlist, &longer);
                }
            }
        }
    }
    let mut long_netlist = netlist.clone();
    long_netlist.resize(70_000, 0);
    compare(&mut met, &long_netlist, &list);
    met.assert_met(1, 2, 1);
    met.assert_met(10, 1, 1);
    met.print("list lengths");
}

#[test]
fn random_lists() {
    let mut met = Met::default();
    let mut random = Random::new(24);
    for round in 0..8000 {
        let card = match round % 10 {
            0 => random::any_card(&mut random),
            _ => random::small_card(&mut random),
        };
        let count = random.pick(&[0, 1, 2, 5]);
        let (mut netlist, mut list) = random::files(&mut random, &card, count);
        match random.below(6) {
            0 => {}
            1 => random::damage_netlist(&mut random, &card, &mut netlist),
            _ => random::damage_list(&mut random, &card, &mut list),
        }
        compare(&mut met, &netlist, &list);
    }
    for (number, places) in [
        (1, 3),
        (2, 1),
        (3, 1),
        (4, 3),
        (5, 20),
        (6, 20),
        (7, 20),
        (8, 20),
        (9, 10),
        (10, 20),
        (11, 11),
        (12, 1),
        (13, 1),
        (14, 1),
        (15, 1),
        (16, 20),
        (17, 10),
    ] {
        met.assert_met(number, 10, places);
    }
    assert!(met.accepted >= 1000);
    met.print("list random");
}

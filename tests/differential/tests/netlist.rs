//! `lane_netlist` against the reference: counts, P, place of the output
//! entries, and every refusal with its place.

mod met;

use differential::{found, right};
use met::Met;
use reference::cases;
use reference::netlist::{check, Card, Gate, Kind, KINDS};
use reference::random::{self, Field, Random, Shape};

fn compare(met: &mut Met, netlist: &[u8]) {
    let shown = &netlist[..netlist.len().min(200)];
    assert_eq!(
        found::netlist(netlist),
        right::netlist(netlist),
        "netlist {shown:02X?}"
    );
    met.note(check(netlist));
}

/// A card with these counts whose gates are ANDs of signal 0.
fn plain_card(inputs: usize, gates: usize, outputs: usize) -> Card {
    let gate = Gate {
        kind: Kind::And,
        pins: vec![0, 0],
    };
    Card {
        inputs,
        gates: vec![gate; gates],
        outputs: vec![0; outputs],
    }
}

/// A small card that holds every kind, doubled pins and doubled entries.
fn all_kinds() -> Card {
    let mut card = plain_card(9, 0, 0);
    for kind in KINDS {
        let count = *kind.pin_limits().start() + usize::from(kind == Kind::Nor);
        let signal = card.signals();
        let pins = (0..count).map(|pin| signal - 1 - pin).collect();
        card.gates.push(Gate { kind, pins });
    }
    card.outputs = vec![14, 0, 14];
    card
}

#[test]
fn counts_at_and_past_the_limits() {
    let mut met = Met::default();
    for inputs in [0, 1, 2, 255, 256, 257, 65_535] {
        for gates in [0, 1, 2047, 2048, 2049, 65_535] {
            for outputs in [0, 1, 63, 64, 65, 65_535] {
                let real = |count: usize, most: usize| count.min(most + 1);
                let card = plain_card(inputs, real(gates, 2048), real(outputs, 64));
                let mut netlist = card.to_bytes();
                netlist[7..9].copy_from_slice(&(gates as u16).to_le_bytes());
                netlist[9..11].copy_from_slice(&(outputs as u16).to_le_bytes());
                compare(&mut met, &netlist);
            }
        }
    }
    met.assert_met(4, 100, 3);
    met.print("netlist counts");
}

#[test]
fn pin_counts_of_every_kind() {
    let mut met = Met::default();
    for kind in 0..=255u8 {
        for count in (0..=10).chain([16, 127, 128, 255]) {
            let mut netlist = plain_card(3, 1, 1).to_bytes();
            netlist.truncate(11);
            netlist.extend([kind, count]);
            netlist.extend((0..count).flat_map(|pin| [pin % 3, 0]));
            netlist.extend([3, 0]);
            compare(&mut met, &netlist);
        }
    }
    // One pin for two kinds, two to eight for four.
    assert_eq!(met.accepted, 2 + 4 * 7);
    met.assert_met(6, 3000, 1);
    met.assert_met(7, 40, 1);
    met.print("netlist pin counts");
}

#[test]
fn pins_and_entries_at_their_bounds() {
    let mut met = Met::default();
    let card = all_kinds();
    for (field, at) in random::fields(&card) {
        if !matches!(field, Field::Pin | Field::Entry) {
            continue;
        }
        for value in (0..20u16).chain([255, 256, 257, 0x0E00, 65_535]) {
            let mut netlist = card.to_bytes();
            netlist[at..at + 2].copy_from_slice(&value.to_le_bytes());
            compare(&mut met, &netlist);
        }
    }
    met.assert_met(8, 50, 11);
    met.assert_met(9, 20, 3);
    met.print("netlist pins and entries");
}

#[test]
fn cut_at_every_byte() {
    let mut met = Met::default();
    let mut random = Random::new(11);
    let mixed = random::card(&mut random, Shape::Mixed, 20, 25, 5);
    for card in [all_kinds(), cases::mended_mux(), mixed] {
        let netlist = card.to_bytes();
        for length in 0..=netlist.len() {
            compare(&mut met, &netlist[..length]);
        }
    }
    met.assert_met(1, 33, 11);
    met.assert_met(5, 200, 30);
    met.print("netlist cuts");
}

#[test]
fn every_bit_flipped() {
    let mut met = Met::default();
    for netlist in [cases::mux_netlist(), all_kinds().to_bytes()] {
        for bit in 0..8 * netlist.len() {
            let mut flipped = netlist.clone();
            flipped[bit / 8] ^= 1 << (bit % 8);
            compare(&mut met, &flipped);
        }
    }
    for number in 2..=9 {
        met.assert_met(number, 4, 1);
    }
    met.print("netlist bits");
}

#[test]
fn empty_and_long() {
    let mut met = Met::default();
    compare(&mut met, &[]);
    for byte in [0, 1, b'L', 255] {
        for length in [1, 10, 11, 65_535, 65_536, 65_537, 100_000] {
            compare(&mut met, &vec![byte; length]);
        }
    }
    let mut random = Random::new(12);
    let widest = random::widest_card(&mut random);
    for card in [widest, all_kinds(), plain_card(1, 0, 1)] {
        let netlist = card.to_bytes();
        compare(&mut met, &netlist);
        for length in [netlist.len() + 1, 65_536, 65_537, 70_000, 200_000] {
            let mut longer = netlist.clone();
            longer.resize(length, 0);
            compare(&mut met, &longer);
        }
    }
    met.assert_met(10, 15, 3);
    met.print("netlist lengths");
}

#[test]
fn random_netlists() {
    let mut met = Met::default();
    let mut random = Random::new(13);
    for _ in 0..2000 {
        compare(&mut met, &random::any_card(&mut random).to_bytes());
    }
    for round in 0..6000 {
        let card = match round % 10 {
            0 => random::any_card(&mut random),
            _ => random::small_card(&mut random),
        };
        let mut netlist = card.to_bytes();
        for _ in 0..random.from_to(1, 2) {
            random::damage_netlist(&mut random, &card, &mut netlist);
            // A cut leaves no place for more damage.
            if netlist.len() != card.to_bytes().len() {
                break;
            }
        }
        compare(&mut met, &netlist);
    }
    for (number, places) in [
        (1, 5),
        (2, 1),
        (3, 1),
        (4, 3),
        (5, 100),
        (6, 100),
        (7, 100),
        (8, 100),
        (9, 50),
        (10, 100),
    ] {
        met.assert_met(number, 20, places);
    }
    assert!(met.accepted >= 2000);
    met.print("netlist random");
}

//! `lane_walk` and `lane_step` against the reference: where a walk starts, each
//! record with its bytes, and steps at any number and place. Tests of many steps
//! run whole in one thread with the stack of a call.

mod met;

use differential::{found, right, stack, Answer};
use met::Met;
use reference::cases::{self, hex};
use reference::netlist::{check, Card, Gate, Kind, HEAD};
use reference::random::{self, Random};

/// Compares a step; gives its answer's three values and its part.
fn step(n: &[u8], number: usize, place: usize, count: usize) -> ([u64; 3], Option<&[u8]>) {
    let ((refused, values), part) = found::step(n, number, place, count);
    let asked = format!("number {number} of {count}, place {place}");
    let right = right::step(n, number, place, count);
    assert_eq!(((refused, values), part), right, "{asked}");
    assert_eq!((refused, values[3], values[4]), (0, 0, 0), "{asked}");
    ([values[0], values[1], values[2]], part)
}

/// Compares a step that gives none; it leaves number and place.
fn none(n: &[u8], number: usize, place: usize, count: usize) {
    let (values, part) = step(n, number, place, count);
    assert_eq!(values, [0, number as u64, place as u64]);
    assert_eq!(part, None);
}

/// Compares opening; gives the answer.
fn open(n: &[u8]) -> Answer {
    let opened = found::walk(n);
    assert_eq!(opened, right::walk(n));
    opened
}

/// All parts from a number and place on, and where they end.
fn parts(n: &[u8], number: usize, place: usize, count: usize) -> (Vec<&[u8]>, usize, usize) {
    let (mut number, mut place, mut parts) = (number, place, Vec::new());
    while let ([_, next, past], Some(part)) = step(n, number, place, count) {
        parts.push(part);
        (number, place) = (next as usize, past as usize);
    }
    none(n, number, place, count);
    (parts, number, place)
}

/// A gate of this kind on signal 0, twice where it has two pins.
fn gate(kind: Kind) -> Gate {
    Gate {
        kind,
        pins: vec![0; *kind.pin_limits().start()],
    }
}

#[test]
fn mux() {
    let netlist = cases::mux_netlist();
    assert_eq!(open(&netlist), (0, [0, 11, 4, 0, 0]));
    let records = [
        hex("01 01 02 00"),
        hex("03 02 00 00 02 00"),
        hex("03 02 01 00 03 00"),
        hex("04 02 04 00 05 00"),
    ];
    let (found, number, place) = parts(&netlist, 0, 11, 4);
    assert_eq!(found, records);
    assert_eq!((number, place), (4, 33));
    assert_eq!(step(&netlist, 0, 11, 4).0, [4, 1, 15]);
    assert_eq!(step(&netlist, 3, 27, 4).0, [6, 4, 33]);
}

/// G = 0: none at once.
#[test]
fn no_gates() {
    for outputs in [1, 4, 64] {
        let card = Card {
            inputs: 256,
            gates: vec![],
            outputs: vec![1; outputs],
        };
        let netlist = card.to_bytes();
        assert_eq!(open(&netlist), (0, [0, 11, 0, 0, 0]));
        none(&netlist, 0, 11, 0);
        // The first entry, 01 00, reads as a NOT without a pin.
        none(&netlist, 0, 11, 1);
    }
}

#[test]
fn numbers_at_and_past_the_gates() {
    let netlist = cases::mux_netlist();
    for number in [4, 5, 256, 1 << 32, usize::MAX] {
        for place in [0, 11, 15, 33, 35, usize::MAX] {
            none(&netlist, number, place, 4);
        }
    }
    none(&netlist, 0, 11, 0);
    none(&netlist, usize::MAX, 11, usize::MAX);
    // The number says how many are handed back, not which record it is.
    assert_eq!(step(&netlist, 3, 11, 4).0, [4, 4, 15]);
    let last = usize::MAX - 1;
    assert_eq!(
        step(&netlist, last, 11, usize::MAX).0,
        [4, usize::MAX as u64, 15]
    );
}

/// At the end, just before it, past it, and at the end of the address space.
#[test]
fn places_at_the_end() {
    let netlist = cases::mux_netlist();
    let length = netlist.len();
    for place in (length - 6..length + 20).chain([1 << 16, 1 << 32, 1 << 63]) {
        none(&netlist, 0, place, 4);
    }
    for back in 0..40 {
        none(&netlist, 0, usize::MAX - back, 4);
    }
    // Cut anywhere, a record is not whole.
    for length in HEAD..HEAD + 4 {
        none(&netlist[..length], 0, HEAD, 4);
    }
    assert_eq!(step(&netlist[..HEAD + 4], 0, HEAD, 4).0, [4, 1, 15]);
    none(&[], 0, 0, 1);
    none(&[3], 0, 0, 1);
}

/// Bytes of pins that read as a record: a step does not know what they are for.
#[test]
fn pins_that_look_like_a_record() {
    let mut card = Card {
        inputs: 256,
        gates: vec![gate(Kind::Buffer); 300],
        outputs: vec![0],
    };
    // Signal 515 is 03 02 in the file: an AND of two pins.
    card.gates.push(Gate {
        kind: Kind::Or,
        pins: vec![515, 1, 2],
    });
    let netlist = card.to_bytes();
    assert_eq!(open(&netlist), (0, [0, 11, 301, 0, 0]));
    let place = HEAD + 300 * 4;
    assert_eq!(
        step(&netlist, 300, place, 301).0,
        [8, 301, place as u64 + 8]
    );
    let (values, part) = step(&netlist, 300, place + 2, 301);
    assert_eq!(values, [6, 301, place as u64 + 8]);
    assert_eq!(part, Some(&hex("03 02 01 00 02 00")[..]));
}

/// Every kind and pin count, in a netlist that ends with the record and in one
/// that is a byte too short.
#[test]
fn kinds_and_pin_counts() {
    stack::within(|| {
        let mut whole = 0;
        for kind in 0..=255u8 {
            for count in (0..=10).chain([16, 127, 128, 255]) {
                let mut netlist = vec![0xEE; HEAD];
                netlist.extend([kind, count]);
                netlist.extend((0..count).flat_map(|pin| [pin, 0]));
                let (values, part) = step(&netlist, 0, HEAD, 1);
                if part.is_some() {
                    whole += 1;
                    assert_eq!(values, [2 + 2 * u64::from(count), 1, netlist.len() as u64]);
                }
                let fit = match kind {
                    1 | 2 => count == 1,
                    3..=6 => (2..=8).contains(&count),
                    _ => false,
                };
                assert_eq!(part.is_some(), fit, "kind {kind}, {count} pins");
                none(&netlist[..netlist.len() - 1], 0, HEAD, 1);
            }
        }
        // One pin for two kinds, two to eight for four.
        assert_eq!(whole, 2 + 4 * 7);
    });
}

/// A walk hands back exactly the gates' records and ends at the entries.
#[test]
fn every_record_of_accepted_cards() {
    stack::within(|| {
        let mut random = Random::new(71);
        let mut records = 0;
        let mut cards: Vec<Card> = (0..400).map(|_| random::any_card(&mut random)).collect();
        cards.push(random::widest_card(&mut random));
        for card in &cards {
            let netlist = card.to_bytes();
            let gates = card.gates.len();
            assert_eq!(open(&netlist), (0, [0, 11, gates as u64, 0, 0]));
            let (found, number, place) = parts(&netlist, 0, HEAD, gates);
            assert_eq!(found.concat(), netlist[HEAD..place]);
            assert_eq!((found.len(), number), (gates, gates));
            assert_eq!(place as u64, check(&netlist).unwrap().entries_at);
            records += gates;
        }
        assert!(records > 30_000);
        println!(
            "walk records: {records} handed back of {} cards",
            cards.len()
        );
    });
}

/// A damaged netlist is refused as by the check; its bytes are stepped through
/// all the same, to whatever count.
#[test]
fn damaged_netlists() {
    stack::within(|| {
        let mut random = Random::new(72);
        let (mut met, mut records) = (Met::default(), 0);
        for _ in 0..6000 {
            let card = random::small_card(&mut random);
            let mut netlist = card.to_bytes();
            random::damage_netlist(&mut random, &card, &mut netlist);
            let opened = open(&netlist);
            if opened.0 != 0 {
                assert_eq!(opened, found::netlist(&netlist));
            }
            met.note(check(&netlist));
            records += parts(&netlist, 0, HEAD, usize::MAX).0.len();
        }
        for number in 1..=10 {
            met.assert_met(number, 5, 1);
        }
        assert!(records > 30_000);
        met.print("walk damaged");
    });
}

/// Every place of a netlist, from before the head to past the end.
#[test]
fn every_place() {
    stack::within(|| {
        let mut random = Random::new(73);
        let (mut records, mut nones) = (0, 0);
        for _ in 0..60 {
            let card = random::small_card(&mut random);
            let netlist = card.to_bytes();
            let gates = card.gates.len();
            for place in 0..netlist.len() + 3 {
                for (number, count) in [(0, gates), (gates, gates), (0, 1), (7, usize::MAX)] {
                    match step(&netlist, number, place, count).1 {
                        Some(_) => records += 1,
                        None => nones += 1,
                    }
                }
            }
        }
        assert!(records > 1000 && nones > 10_000);
        println!("walk places: {records} records, {nones} times none");
    });
}

//! `lane_full_all`, `lane_forward_all` and `lane_core_all` against the
//! reference's single calls: the rows of every change, the sums and the whole
//! buffer, accepted or refused.

use differential::calls::{Call, Every, CORE_ALL, FORWARD_ALL, FULL_ALL};
use differential::{found, Answer};
use reference::cases;
use reference::changes::{List, Version, VERSIONS};
use reference::classes::Class;
use reference::netlist::{Card, MAX_GATES, MAX_INPUTS};
use reference::random::{self, Random, Shape, SHAPES};

const CALLS: [Call<Every>; 3] = [FULL_ALL, FORWARD_ALL, CORE_ALL];

/// Compares answers and buffers; gives them back.
fn compare(call: &Call<Every>, netlist: &[u8], list: &[u8], length: usize) -> (Answer, Box<[u8]>) {
    call.compare(netlist, list, length).unwrap()
}

/// What a run of comparisons has seen.
#[derive(Default)]
struct Seen {
    calls: usize,
    changes: usize,
    verdicts: usize,
    hazardous: usize,
}

impl Seen {
    /// All three calls with buffers of the length needed and longer.
    fn compare_card(&mut self, random: &mut Random, card: &Card, version: Version, count: usize) {
        let (netlist, list) = random::files_of(random, card, version, count);
        for call in &CALLS {
            let needed = count * (call.width)(card);
            let longer = random.pick(&[0, 1, 7, 100]);
            let ((number, _), buffer) = compare(call, &netlist, &list, needed + longer);
            assert_eq!(number, 0);
            self.calls += 1;
            self.changes += count;
            if call.name != "full_all" {
                self.verdicts += needed;
                self.hazardous += buffer[..needed].iter().filter(|byte| **byte == 1).count();
            }
        }
    }

    /// Prints what was seen: clean and hazardous outputs, or it is too little.
    fn print(&self, name: &str) {
        assert!(
            self.hazardous > 0 && self.verdicts > self.hazardous,
            "{name}"
        );
        println!(
            "all {name}: {} calls compared, {} changes, {} of {} verdicts hazardous",
            self.calls, self.changes, self.hazardous, self.verdicts
        );
    }
}

#[test]
fn mux() {
    let (netlist, list) = (cases::mux_netlist(), cases::mux_list());
    let mut classes = [0xEE; 8];
    let answer = found::full_all(&netlist, &list, &mut classes);
    assert_eq!(answer, (0, [1, 7, 0, 0, 0]));
    assert_eq!(classes, [1, 1, 3, 2, 3, 2, 5, 0xEE]);
    let mut verdicts = [0xEE; 2];
    let answer = found::forward_all(&netlist, &list, &mut verdicts);
    assert_eq!(answer, (0, [1, 1, 2, 4, 0]));
    assert_eq!(verdicts, [1, 0xEE]);
    let mut verdicts = [0xEE; 2];
    let answer = found::core_all(&netlist, &list, &mut verdicts);
    assert_eq!(answer, (0, [1, 1, 4, 7, 0]));
    assert_eq!(verdicts, [1, 0xEE]);
}

/// Rows stand in the list's order, and each change is judged by itself.
#[test]
fn mux_falling_resting_rising() {
    let netlist = cases::mux_netlist();
    let inputs = |last| vec![Class::One, Class::One, last];
    let list = [Class::Fall, Class::One, Class::Rise].map(inputs);
    let list = List::plain(list).to_bytes(&netlist);
    let classes = [
        [1, 1, 3, 2, 3, 2, 5],
        [1, 1, 1, 0, 1, 0, 1],
        [1, 1, 2, 3, 2, 3, 5],
    ];
    let rows = [classes.as_flattened(), &[1, 0, 1], &[1, 0, 1]];
    for (call, rows) in CALLS.iter().zip(rows) {
        let ((number, _), buffer) = compare(call, &netlist, &list, rows.len());
        assert_eq!((number, &*buffer), (0, rows));
    }
}

/// T = 0: nothing is written, and no buffer is too short.
#[test]
fn no_changes() {
    let mut random = Random::new(61);
    for card in [cases::mended_mux(), random::widest_card(&mut random)] {
        let netlist = card.to_bytes();
        for list in [List::plain([]), List::declaring([])] {
            let list = list.to_bytes(&netlist);
            for call in &CALLS {
                let width = (call.width)(&card) as u64;
                let none = (0, [0, width, 0, 0, 0]);
                assert_eq!((call.found)(&netlist, &list, &mut []), none);
                for length in [0, 1, 500] {
                    let (answer, buffer) = compare(call, &netlist, &list, length);
                    assert_eq!(answer, none);
                    assert!(buffer.iter().all(|byte| *byte >= 0xA0));
                }
            }
        }
    }
}

/// A buffer shorter than the rows is refused; bytes after the rows stay.
#[test]
fn buffers_of_every_length() {
    let mut random = Random::new(62);
    let mut compared = 0;
    for (count, version) in [1, 2, 5]
        .into_iter()
        .zip([Version::Two, Version::One, Version::Two])
    {
        let card = random::card(&mut random, Shape::Shared, 6, 20, 7);
        let (netlist, list) = random::files_of(&mut random, &card, version, count);
        for call in &CALLS {
            let needed = count * (call.width)(&card);
            for length in 0..needed + 5 {
                let (answer, buffer) = compare(call, &netlist, &list, length);
                if length < needed {
                    assert_eq!(answer, (20, [0; 5]));
                } else {
                    assert_eq!(answer.0, 0);
                    assert!(buffer[..needed].iter().all(|byte| *byte < 8));
                    assert!(buffer[needed..].iter().all(|byte| *byte >= 0xA0));
                }
                compared += 1;
            }
        }
    }
    println!("all buffers: {compared} calls compared");
}

/// The largest buffers that a card can need, and one byte less.
#[test]
fn one_byte_short() {
    let mut random = Random::new(63);
    let card = random::card(&mut random, Shape::TwoLevel, 8, 12, 64);
    for version in VERSIONS {
        let count = version.max_changes();
        let (netlist, list) = random::files_of(&mut random, &card, version, count);
        for call in &CALLS {
            let needed = count * (call.width)(&card);
            assert_eq!(compare(call, &netlist, &list, needed - 1).0, (20, [0; 5]));
            assert_eq!(compare(call, &netlist, &list, needed).0 .0, 0);
        }
    }
}

/// The list's refusal comes before the buffer's, and the buffer stays.
#[test]
fn refused_list() {
    let (netlist, mut list) = (cases::mux_netlist(), cases::mux_list());
    list[5] ^= 1;
    for call in &CALLS {
        for length in [0, 1, 7, 100] {
            let mut buffer = vec![0xEE; length];
            let answer = (call.found)(&netlist, &list, &mut buffer);
            assert_eq!(answer, (14, [5, 0, 0, 0, 0]));
            assert_eq!(buffer, vec![0xEE; length]);
        }
    }
}

#[test]
fn cards_of_every_shape() {
    let mut random = Random::new(64);
    for version in VERSIONS {
        let mut seen = Seen::default();
        for round in 0..750 {
            let shape = SHAPES[round % SHAPES.len()];
            let (inputs, gates) = (random.from_to(1, 20), random.below(60));
            let outputs = random.from_to(1, 9);
            let card = random::card(&mut random, shape, inputs, gates, outputs);
            let count = random.pick(&[1, 2, 3, 8]);
            seen.compare_card(&mut random, &card, version, count);
        }
        assert!(seen.hazardous > 2000 && seen.verdicts - seen.hazardous > 2000);
        seen.print(&format!("shapes, {version:?}"));
    }
}

#[test]
fn large_cards() {
    let mut random = Random::new(65);
    for version in VERSIONS {
        let mut seen = Seen::default();
        for shape in SHAPES {
            for (inputs, gates, outputs) in [
                (1, 0, 64),
                (1, MAX_GATES, 3),
                (MAX_INPUTS, 0, 64),
                (MAX_INPUTS, MAX_GATES, 5),
            ] {
                let card = random::card(&mut random, shape, inputs, gates, outputs);
                seen.compare_card(&mut random, &card, version, 2);
            }
        }
        for _ in 0..30 {
            let card = random::any_card(&mut random);
            seen.compare_card(&mut random, &card, version, 2);
        }
        let widest = random::widest_card(&mut random);
        seen.compare_card(&mut random, &widest, version, 2);
        seen.print(&format!("large cards, {version:?}"));
    }
}

/// 1,000 changes, and 800 that declare.
#[test]
fn longest_lists() {
    let mut random = Random::new(66);
    for version in VERSIONS {
        let mut seen = Seen::default();
        for shape in SHAPES {
            let card = random::card(&mut random, shape, 33, 20, 2);
            seen.compare_card(&mut random, &card, version, version.max_changes());
        }
        assert!(seen.hazardous > 200 && seen.verdicts - seen.hazardous > 200);
        seen.print(&format!("longest lists, {version:?}"));
    }
}

#[test]
fn damaged_files() {
    let mut random = Random::new(67);
    for version in VERSIONS {
        let mut met = [[0; 21]; CALLS.len()];
        for _ in 0..2000 {
            let card = random::small_card(&mut random);
            let (netlist, list) = random::damaged_files(&mut random, &card, version, 2);
            for (call, met) in CALLS.iter().zip(&mut met) {
                let needed = 2 * (call.width)(&card);
                let length = random.pick(&[0, needed - 1, needed, 200]);
                let ((number, _), _) = compare(call, &netlist, &list, length);
                met[number as usize] += 1;
            }
        }
        for (call, met) in CALLS.iter().zip(&met) {
            for number in (0..=17).chain([20]) {
                assert!(met[number] > 0, "{}: {number} not met", call.name);
            }
            println!("{} damaged, {version:?}: by number {met:?}", call.name);
        }
    }
}

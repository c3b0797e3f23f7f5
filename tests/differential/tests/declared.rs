//! Lists of version 2, case by case: where the declared bits stand, what they
//! mean for each method, and every refusal. The right answers are written here;
//! the reference has to give them too.

use differential::calls::{CORE_ALL, FORWARD, FORWARD_ALL, FULL, FULL_ALL};
use differential::{found, right, Answer};
use reference::changes::{self, row_bytes, List, HEAD};
use reference::classes::Class::{Fall, One, Rise, Zero};
use reference::full;
use reference::netlist::{Card, Gate, Kind};
use reference::random::{self, Random, Shape};
use reference::sets::CLEAN;

/// Numbers of outputs about the ends of bytes.
const OUTPUTS: [usize; 6] = [1, 7, 8, 9, 63, 64];

fn compare_list(netlist: &[u8], list: &[u8]) -> Answer {
    let found = found::list(netlist, list);
    assert_eq!(found, right::list(netlist, list));
    found
}

fn compare_core(netlist: &[u8], list: &[u8], change: usize, output: usize) -> Answer {
    let found = found::core(netlist, list, change, output);
    assert_eq!(found, right::core(netlist, list, change, output));
    found
}

/// The verdicts of all changes, which CORE and the forward method agree on.
fn compare_verdicts(netlist: &[u8], list: &[u8], count: usize) -> Box<[u8]> {
    let [by_core, by_forward] = [CORE_ALL, FORWARD_ALL].map(|call| {
        let (answer, bytes) = call.compare(netlist, list, count).unwrap();
        assert_eq!(answer.0, 0);
        bytes
    });
    assert_eq!(by_core, by_forward);
    by_core
}

/// A card of so many outputs on signals of every sort, and random changes that
/// declare the outputs' own ends.
fn rightly_declared(random: &mut Random, outputs: usize, count: usize) -> (Card, List) {
    let card = random::card(random, Shape::Shared, 9, 40, outputs);
    let changes = (0..count).map(|_| {
        let inputs = random::inputs(random, card.inputs);
        let declared = full::own_ends(&card, &inputs);
        (inputs, declared)
    });
    let list = List::declaring(changes);
    (card, list)
}

/// Where the two rows of a change start.
fn rows_at(card: &Card, change: usize) -> [usize; 2] {
    let (vector, row) = (row_bytes(card.inputs), row_bytes(card.outputs.len()));
    let at = HEAD + change * (2 * vector + 2 * row) + 2 * vector;
    [at, at + row]
}

#[test]
fn counts_of_a_list() {
    let mut random = Random::new(81);
    for (outputs, row) in OUTPUTS.into_iter().zip([1, 1, 1, 2, 8, 8]) {
        let (card, list) = rightly_declared(&mut random, outputs, 3);
        let netlist = card.to_bytes();
        let answer = compare_list(&netlist, &list.to_bytes(&netlist));
        assert_eq!(answer, (0, [3, 2, row, 0, 0]));
    }
}

/// Each spare bit of each row alone, and every other bit.
#[test]
fn bits_of_the_rows() {
    let mut random = Random::new(82);
    let (mut spare, mut used) = (0, 0);
    for outputs in OUTPUTS {
        let (card, list) = rightly_declared(&mut random, outputs, 2);
        let netlist = card.to_bytes();
        let list = list.to_bytes(&netlist);
        for row_at in (0..2).flat_map(|change| rows_at(&card, change)) {
            for bit in 0..8 * row_bytes(outputs) {
                let place = row_at + bit / 8;
                let mut flipped = list.clone();
                flipped[place] ^= 1 << (bit % 8);
                let (number, values) = compare_list(&netlist, &flipped);
                if bit < outputs {
                    assert_eq!(number, 0);
                    used += 1;
                } else {
                    assert_eq!((number, values[0]), (17, place as u64));
                    spare += 1;
                }
            }
        }
    }
    assert_eq!(used, 2 * 2 * OUTPUTS.iter().sum::<usize>());
    assert_eq!(spare, 2 * 2 * (7 + 1 + 7 + 1));
}

/// A declared bit that is flipped reaches its own output in its own change: a
/// clean verdict becomes hazardous, and no other moves.
#[test]
fn each_bit_reaches_its_output() {
    let mut random = Random::new(83);
    let (mut moved, mut stayed) = (0, 0);
    for outputs in OUTPUTS {
        let (card, list) = rightly_declared(&mut random, outputs, 2);
        let netlist = card.to_bytes();
        let list = list.to_bytes(&netlist);
        let before = compare_verdicts(&netlist, &list, 2 * outputs);
        for change in 0..2 {
            for row_at in rows_at(&card, change) {
                for output in 0..outputs {
                    let mut flipped = list.clone();
                    flipped[row_at + output / 8] ^= 1 << (output % 8);
                    let mut after = before.clone();
                    after[change * outputs + output] = 1;
                    assert_eq!(compare_verdicts(&netlist, &flipped, 2 * outputs), after);
                    match after == before {
                        true => stayed += 1,
                        false => moved += 1,
                    }
                }
            }
        }
    }
    assert!(moved > 100 && stayed > 20, "{moved} moved, {stayed} stayed");
}

/// 800 changes are accepted and 801 refused; 1,000 and 1,001 in version 1.
#[test]
fn largest_counts() {
    let card = Card {
        inputs: 256,
        gates: vec![],
        outputs: vec![0; 64],
    };
    let netlist = card.to_bytes();
    let change = (vec![Rise; 256], vec![Rise; 64]);
    let declaring = |count| List::declaring(vec![change.clone(); count]).to_bytes(&netlist);
    let plain = |count| List::plain(vec![change.0.clone(); count]).to_bytes(&netlist);
    // Both longest lists have as many bytes.
    assert_eq!(declaring(800).len(), 64_011);
    assert_eq!(plain(1000).len(), 64_011);
    let too_many = (15, [9, 0, 0, 0, 0]);
    assert_eq!(
        compare_list(&netlist, &declaring(800)),
        (0, [800, 32, 8, 0, 0])
    );
    assert_eq!(compare_list(&netlist, &declaring(801)), too_many);
    assert_eq!(
        compare_list(&netlist, &plain(1000)),
        (0, [1000, 32, 0, 0, 0])
    );
    assert_eq!(compare_list(&netlist, &plain(1001)), too_many);
    let last = compare_core(&netlist, &declaring(800), 799, 63);
    assert_eq!(last, (0, [0, u64::from(Rise.code()), 0, 0, 0]));
    assert_eq!(compare_core(&netlist, &declaring(800), 800, 63).0, 18);
}

/// One input and one output on it: no search, whatever is declared.
#[test]
fn output_on_an_input() {
    let card = Card {
        inputs: 1,
        gates: vec![],
        outputs: vec![0],
    };
    let netlist = card.to_bytes();
    for class in CLEAN.members() {
        for declared in CLEAN.members() {
            let list = List::declaring([(vec![class], vec![declared])]).to_bytes(&netlist);
            let core = match class == declared {
                true => [0, u64::from(class.code()), 0, 0, 0],
                false => [1, 0, 0, 0, 0],
            };
            assert_eq!(compare_core(&netlist, &list, 0, 0), (0, core));
            let (answer, bytes) = FORWARD.compare(&netlist, &list, 0, 1).unwrap();
            assert_eq!(answer, (0, [0, 0, 0, 0, 0]));
            assert_eq!(*bytes, [u8::from(class != declared)]);
        }
    }
}

/// A BUFFER of an input: where the input is constant the forward method knows
/// the gate and compares; where it moves it searches; CORE always searches.
#[test]
fn output_on_a_constant_gate() {
    let card = Card {
        inputs: 1,
        gates: vec![Gate::new(Kind::Buffer, &[0])],
        outputs: vec![1],
    };
    let netlist = card.to_bytes();
    for class in CLEAN.members() {
        let is_constant = class == Zero || class == One;
        let [touched, visited] = if is_constant { [1, 0] } else { [0, 1] };
        for declared in CLEAN.members() {
            let list = List::declaring([(vec![class], vec![declared])]).to_bytes(&netlist);
            let core = match class == declared {
                true => [0, u64::from(class.code()), 1, 1, 0],
                false => [1, 0, 1, 1, 0],
            };
            assert_eq!(compare_core(&netlist, &list, 0, 0), (0, core));
            let (answer, bytes) = FORWARD.compare(&netlist, &list, 0, 1).unwrap();
            assert_eq!(answer, (0, [touched, visited, 0, 0, 0]));
            assert_eq!(*bytes, [u8::from(class != declared)]);
        }
    }
}

/// Clean means the clean class with the declared ends: a hazardous class has no
/// declaration that makes it clean.
#[test]
fn hazardous_classes_stay_hazardous() {
    let not_0 = Gate::new(Kind::Not, &[0]);
    let both = Gate::new(Kind::And, &[0, 1]);
    let either = Gate::new(Kind::Or, &[0, 1]);
    let card = Card {
        inputs: 1,
        gates: vec![not_0, both, either],
        outputs: vec![2, 3],
    };
    let netlist = card.to_bytes();
    for declared in CLEAN.members() {
        let change = (vec![Rise], vec![declared; 2]);
        let list = List::declaring([change]).to_bytes(&netlist);
        assert_eq!(*compare_verdicts(&netlist, &list, 2), [1, 1]);
    }
}

/// An AND whose first pin falls cannot stay 1: where 1 is declared the search
/// ends there, before the second pin's gate.
#[test]
fn declared_ends_prune() {
    let card = Card {
        inputs: 2,
        gates: vec![Gate::new(Kind::Not, &[1]), Gate::new(Kind::And, &[0, 2])],
        outputs: vec![3],
    };
    let netlist = card.to_bytes();
    let inputs = vec![Fall, Zero];
    let core = |list: List| compare_core(&netlist, &list.to_bytes(&netlist), 0, 0);
    let declaring = |class| core(List::declaring([(inputs.clone(), vec![class])]));
    let falls = (0, [0, u64::from(Fall.code()), 2, 3, 0]);
    assert_eq!(core(List::plain([inputs.clone()])), falls);
    assert_eq!(declaring(Fall), falls);
    assert_eq!(declaring(One), (0, [1, 0, 1, 1, 0]));
    assert_eq!(declaring(Rise), (0, [1, 0, 1, 1, 0]));
    assert_eq!(declaring(Zero), (0, [1, 0, 2, 3, 0]));
}

/// A card's two files, to be spoiled.
struct Files {
    card: Card,
    netlist: Vec<u8>,
    list: Vec<u8>,
}

impl Files {
    fn new() -> Files {
        let (card, list) = rightly_declared(&mut Random::new(84), 9, 2);
        let netlist = card.to_bytes();
        let list = list.to_bytes(&netlist);
        Files {
            card,
            netlist,
            list,
        }
    }

    fn netlist(mut self, spoil: impl FnOnce(&mut Vec<u8>)) -> Files {
        spoil(&mut self.netlist);
        self
    }

    fn list(mut self, spoil: impl FnOnce(&mut Vec<u8>)) -> Files {
        spoil(&mut self.list);
        self
    }

    /// Every call that reads a list meets the refusal, whatever else it asks for.
    fn assert_refused(&self, number: u32, place: usize) {
        let (n, l) = (&self.netlist, &self.list);
        let refused = (number, [place as u64, 0, 0, 0, 0]);
        assert_eq!(compare_list(n, l), refused);
        assert_eq!(compare_core(n, l, 0, 0), refused);
        assert_eq!(compare_core(n, l, 2, 9), refused);
        for call in [FULL, FORWARD] {
            assert_eq!(call.compare(n, l, 2, 0).unwrap().0, refused);
        }
        for call in [FULL_ALL, FORWARD_ALL, CORE_ALL] {
            assert_eq!(call.compare(n, l, 0).unwrap().0, refused);
        }
    }
}

fn put(at: usize, bytes: &'static [u8]) -> impl FnOnce(&mut Vec<u8>) {
    move |file| file[at..at + bytes.len()].copy_from_slice(bytes)
}

fn cut(length: usize) -> impl FnOnce(&mut Vec<u8>) {
    move |file| file.truncate(length)
}

/// The netlist's refusals come first, with a version 2 list too.
#[test]
fn refusals_of_the_netlist() {
    let files = Files::new;
    let entries_at = files().netlist.len() - 2 * 9;
    files().netlist(cut(10)).assert_refused(1, 10);
    files().netlist(put(0, b"M")).assert_refused(2, 0);
    files().netlist(put(3, &[9])).assert_refused(3, 3);
    files().netlist(put(5, &[0, 0])).assert_refused(4, 5);
    files().netlist(put(7, &[1, 8])).assert_refused(4, 7);
    files().netlist(put(9, &[65, 0])).assert_refused(4, 9);
    files().netlist(cut(12)).assert_refused(5, 11);
    files().netlist(put(11, &[0])).assert_refused(6, 11);
    files().netlist(put(12, &[9])).assert_refused(7, 12);
    files().netlist(put(13, &[9, 0])).assert_refused(8, 13);
    files()
        .netlist(put(entries_at, &[49, 0]))
        .assert_refused(9, entries_at);
    files()
        .netlist(|bytes| bytes.push(0))
        .assert_refused(10, entries_at + 18);
}

/// Each refusal of the list's head, with the cause of a later one beside it.
#[test]
fn refusals_of_the_head() {
    let files = Files::new;
    let versions = [[0, 0], [3, 0], [2, 1], [1, 1], [0, 2], [255, 255]];
    files().list(cut(0)).assert_refused(11, 0);
    files().list(cut(10)).assert_refused(11, 10);
    files().list(put(2, b"N\x03")).assert_refused(12, 0);
    for version in versions {
        for wrong_tie in [0, 1] {
            let spoil = |bytes: &mut Vec<u8>| {
                bytes[3..5].copy_from_slice(&version);
                bytes[5] ^= wrong_tie;
            };
            files().list(spoil).assert_refused(13, 3);
        }
    }
    for byte in 5..9 {
        let spoil = |bytes: &mut Vec<u8>| {
            bytes[byte] ^= 0x80;
            bytes[9..11].copy_from_slice(&801u16.to_le_bytes());
        };
        files().list(spoil).assert_refused(14, 5);
    }
    files().list(put(9, &[0x21, 3])).assert_refused(15, 9);
}

/// The length is that of the changes with their rows, whatever their bits are.
#[test]
fn refusals_of_the_length() {
    let files = Files::new;
    let length = files().list.len();
    files().list(put(9, &[0x20, 3])).assert_refused(16, length);
    files().list(put(9, &[1, 0])).assert_refused(16, length);
    for cut_to in HEAD..length {
        files().list(cut(cut_to)).assert_refused(16, cut_to);
    }
    files()
        .list(|bytes| {
            bytes.push(0);
            bytes[HEAD..].fill(0xFF);
        })
        .assert_refused(16, length + 1);
}

/// A change's rows come after its vectors and before the next one's: of two
/// spare bits the first in this order is the place.
#[test]
fn refusals_of_spare_bits() {
    let card = Files::new().card;
    let (vector, row) = (row_bytes(card.inputs), row_bytes(card.outputs.len()));
    let ends = |change| {
        let [starts_at, ends_at] = rows_at(&card, change);
        [starts_at - vector, starts_at, ends_at, ends_at + row]
    };
    let last_bytes = (0..2).flat_map(ends).map(|end| end - 1);
    let places: Vec<usize> = last_bytes.collect();
    for (number, place) in places.iter().enumerate() {
        for later in &places[number..] {
            let spoil = |bytes: &mut Vec<u8>| {
                bytes[*place] |= 2;
                bytes[*later] |= 0x80;
            };
            Files::new().list(spoil).assert_refused(17, *place);
        }
    }
}

/// What the call asks for comes last.
#[test]
fn refusals_of_the_call() {
    let files = Files::new();
    let (n, l) = (&files.netlist, &files.list);
    let refused = |number| (number, [0; 5]);
    assert_eq!(compare_core(n, l, 2, 9), refused(18));
    assert_eq!(compare_core(n, l, 1, 9), refused(19));
    assert_eq!(compare_core(n, l, 1, 8).0, 0);
    for call in [FULL, FORWARD] {
        let needed = (call.width)(&files.card);
        let answer = |change, length| call.compare(n, l, change, length).unwrap().0;
        assert_eq!(answer(2, needed - 1), refused(18));
        assert_eq!(answer(1, needed - 1), refused(20));
        assert_eq!(answer(1, needed).0, 0);
    }
    for call in [FULL_ALL, FORWARD_ALL, CORE_ALL] {
        let needed = 2 * (call.width)(&files.card);
        let answer = |length| call.compare(n, l, length).unwrap().0;
        assert_eq!(answer(needed - 1), refused(20));
        assert_eq!(answer(needed).0, 0);
    }
}

/// Without rows a list is one of version 1, judged by the classes; declared
/// rightly, it has the same verdicts.
#[test]
fn version_1_keeps_its_meaning() {
    let (card, list) = rightly_declared(&mut Random::new(85), 9, 4);
    let netlist = card.to_bytes();
    let plain = List::plain(list.changes.iter().map(|change| change.inputs.clone()));
    let (plain, list) = (plain.to_bytes(&netlist), list.to_bytes(&netlist));
    assert_eq!(compare_list(&netlist, &plain), (0, [4, 2, 0, 0, 0]));
    let verdicts = compare_verdicts(&netlist, &plain, 4 * 9);
    assert_eq!(compare_verdicts(&netlist, &list, 4 * 9), verdicts);
    for (number, row) in verdicts.chunks(9).enumerate() {
        let change = changes::change_at(&plain, &card, number);
        let classes = full::classes(&card, &change.inputs);
        for (signal, byte) in card.outputs.iter().zip(row) {
            assert_eq!(*byte, u8::from(!classes[*signal].is_clean()));
        }
    }
}

//! Times mean something only if the answers are right: the three versions
//! against the reference, with the stack that a caller of the library must
//! have.

use crate::cards::every_sort;
use crate::plain::{self, Refused};
use crate::{tuned, whole};
use differential::{found, right, same_filling, stack, Answer};
use reference::netlist::{self, Card};
use reference::program;
use reference::random::{self, Random};

/// A version's answers in the library's form; of a list the sums alone.
trait Version {
    fn netlist(&mut self, n: &[u8]) -> Answer;
    fn list(&mut self, n: &[u8], l: &[u8]) -> Answer;
    fn full(&mut self, n: &[u8], l: &[u8], change: usize, buffer: &mut [u8]) -> Answer;
    fn forward(&mut self, n: &[u8], l: &[u8], change: usize, buffer: &mut [u8]) -> Answer;
    fn core(&mut self, n: &[u8], l: &[u8], change: usize, output: usize) -> Answer;
    fn full_all(&mut self, n: &[u8], l: &[u8], buffer: &mut [u8]) -> Answer;
    fn forward_all(&mut self, n: &[u8], l: &[u8], buffer: &mut [u8]) -> Answer;
    fn core_all(&mut self, n: &[u8], l: &[u8], buffer: &mut [u8]) -> Answer;
}

fn sums((number, values): Answer) -> Answer {
    match number {
        0 => (0, [values[2], values[3], 0, 0, 0]),
        _ => (number, values),
    }
}

struct Library;

impl Version for Library {
    fn netlist(&mut self, n: &[u8]) -> Answer {
        found::netlist(n)
    }

    fn list(&mut self, n: &[u8], l: &[u8]) -> Answer {
        found::list(n, l)
    }

    fn full(&mut self, n: &[u8], l: &[u8], change: usize, buffer: &mut [u8]) -> Answer {
        found::full(n, l, change, buffer)
    }

    fn forward(&mut self, n: &[u8], l: &[u8], change: usize, buffer: &mut [u8]) -> Answer {
        found::forward(n, l, change, buffer)
    }

    fn core(&mut self, n: &[u8], l: &[u8], change: usize, output: usize) -> Answer {
        found::core(n, l, change, output)
    }

    fn full_all(&mut self, n: &[u8], l: &[u8], buffer: &mut [u8]) -> Answer {
        sums(found::full_all(n, l, buffer))
    }

    fn forward_all(&mut self, n: &[u8], l: &[u8], buffer: &mut [u8]) -> Answer {
        sums(found::forward_all(n, l, buffer))
    }

    fn core_all(&mut self, n: &[u8], l: &[u8], buffer: &mut [u8]) -> Answer {
        sums(found::core_all(n, l, buffer))
    }
}

fn answer<const N: usize>(found: Result<[usize; N], Refused>) -> Answer {
    let (number, values) = match found {
        Ok(values) => (0, values.to_vec()),
        Err((number, place)) => (number, vec![place]),
    };
    let mut five = [0; 5];
    for (value, found) in five.iter_mut().zip(values) {
        *value = found as u64;
    }
    (number, five)
}

fn list_values(list: plain::List) -> [usize; 3] {
    [list.changes, list.vector, list.row]
}

/// CORE's values: a clean output has a class.
fn core_values((class, gates, pins): plain::CoreAnswer) -> [usize; 4] {
    let code = usize::from(class.unwrap_or(0));
    [usize::from(class.is_none()), code, gates, pins]
}

struct Plain;

impl Version for Plain {
    fn netlist(&mut self, n: &[u8]) -> Answer {
        let values = |c: plain::Card| [c.inputs, c.gates, c.outputs, c.pins, c.entries_at];
        answer(plain::check_netlist(n).map(values))
    }

    fn list(&mut self, n: &[u8], l: &[u8]) -> Answer {
        answer(plain::check_list(n, l).map(|(_, list)| list_values(list)))
    }

    fn full(&mut self, n: &[u8], l: &[u8], change: usize, buffer: &mut [u8]) -> Answer {
        answer(plain::full(n, l, change, buffer).map(|()| []))
    }

    fn forward(&mut self, n: &[u8], l: &[u8], change: usize, buffer: &mut [u8]) -> Answer {
        answer(plain::forward(n, l, change, buffer).map(<[usize; 2]>::from))
    }

    fn core(&mut self, n: &[u8], l: &[u8], change: usize, output: usize) -> Answer {
        answer(plain::core(n, l, change, output).map(core_values))
    }

    fn full_all(&mut self, n: &[u8], l: &[u8], buffer: &mut [u8]) -> Answer {
        answer(plain::full_all(n, l, buffer).map(<[usize; 2]>::from))
    }

    fn forward_all(&mut self, n: &[u8], l: &[u8], buffer: &mut [u8]) -> Answer {
        answer(plain::forward_all(n, l, buffer).map(<[usize; 2]>::from))
    }

    fn core_all(&mut self, n: &[u8], l: &[u8], buffer: &mut [u8]) -> Answer {
        answer(plain::core_all(n, l, buffer).map(<[usize; 2]>::from))
    }
}

struct Tuned(tuned::Index);

impl Version for Tuned {
    fn netlist(&mut self, n: &[u8]) -> Answer {
        let found = tuned::check_netlist(n, &mut self.0);
        let i = &self.0;
        answer(found.map(|()| [i.inputs, i.gates, i.outputs, i.pins, i.entries_at]))
    }

    fn list(&mut self, n: &[u8], l: &[u8]) -> Answer {
        answer(tuned::check_list(n, l, &mut self.0).map(list_values))
    }

    fn full(&mut self, n: &[u8], l: &[u8], change: usize, buffer: &mut [u8]) -> Answer {
        answer(tuned::full(n, l, change, buffer, &mut self.0).map(|()| []))
    }

    fn forward(&mut self, n: &[u8], l: &[u8], change: usize, buffer: &mut [u8]) -> Answer {
        answer(tuned::forward(n, l, change, buffer, &mut self.0).map(<[usize; 2]>::from))
    }

    fn core(&mut self, n: &[u8], l: &[u8], change: usize, output: usize) -> Answer {
        let found = tuned::core(n, l, change, output, &mut self.0);
        answer(found.map(|(code, gates, pins)| {
            core_values(((code != tuned::HAZARD).then_some(code), gates, pins))
        }))
    }

    fn full_all(&mut self, n: &[u8], l: &[u8], buffer: &mut [u8]) -> Answer {
        answer(tuned::full_all(n, l, buffer, &mut self.0).map(<[usize; 2]>::from))
    }

    fn forward_all(&mut self, n: &[u8], l: &[u8], buffer: &mut [u8]) -> Answer {
        answer(tuned::forward_all(n, l, buffer, &mut self.0).map(<[usize; 2]>::from))
    }

    fn core_all(&mut self, n: &[u8], l: &[u8], buffer: &mut [u8]) -> Answer {
        answer(tuned::core_all(n, l, buffer, &mut self.0).map(<[usize; 2]>::from))
    }
}

fn one_change(version: &mut impl Version, n: &[u8], l: &[u8], change: usize) {
    same_filling(
        "full",
        2400,
        |buffer| version.full(n, l, change, buffer),
        |buffer| right::full(n, l, change, buffer),
    )
    .unwrap();
    same_filling(
        "forward",
        70,
        |buffer| version.forward(n, l, change, buffer),
        |buffer| right::forward(n, l, change, buffer),
    )
    .unwrap();
    for output in [0, 1, 5, 63, 64] {
        let found = version.core(n, l, change, output);
        assert_eq!(found, right::core(n, l, change, output));
    }
}

/// A call for every change of a list.
type Every<V> = fn(&mut V, &[u8], &[u8], &mut [u8]) -> Answer;
type Right = fn(&[u8], &[u8], &mut [u8]) -> Answer;

/// All changes, with buffers that have up to three bytes to spare or lack one.
fn every_change<V: Version>(version: &mut V, card: &Card, n: &[u8], l: &[u8], spare: usize) {
    let (signals, outputs) = (card.signals(), card.outputs.len());
    let calls: [(&str, usize, Every<V>, Right); 3] = [
        ("full_all", signals, V::full_all, right::full_all),
        ("forward_all", outputs, V::forward_all, right::forward_all),
        ("core_all", outputs, V::core_all, right::core_all),
    ];
    for (name, width, found, right) in calls {
        same_filling(
            name,
            COUNT * width + spare - 1,
            |buffer| found(version, n, l, buffer),
            |buffer| sums(right(n, l, buffer)),
        )
        .unwrap();
    }
}

/// Changes of each list.
const COUNT: usize = 2;

/// A card, and its two files as they are given.
struct Made {
    card: Card,
    netlist: Vec<u8>,
    list: Vec<u8>,
}

/// Small cards and some large ones, a third of them damaged.
fn random_cards() -> Vec<Made> {
    let mut random = Random::new(71);
    let made = |round| {
        let card = match round % 20 {
            0 => random::any_card(&mut random),
            _ => random::small_card(&mut random),
        };
        let (mut netlist, mut list) = random::files(&mut random, &card, COUNT);
        match random.below(6) {
            0 => random::damage_netlist(&mut random, &card, &mut netlist),
            1 => random::damage_list(&mut random, &card, &mut list),
            _ => {}
        }
        Made {
            card,
            netlist,
            list,
        }
    };
    (0..3000).map(made).collect()
}

/// Some of the cards that are timed, with the first changes of their lists.
fn timed_cards() -> Vec<Made> {
    let sorts = every_sort().flat_map(|sort| [sort, sort.declaring()]);
    sorts
        .flat_map(|sort| sort.files(12, COUNT))
        .map(|(netlist, list)| Made {
            card: netlist::decode(&netlist).expect("an accepted card"),
            netlist,
            list,
        })
        .collect()
}

fn cards() -> Vec<Made> {
    let cards = random_cards();
    let accepted = |made: &&Made| right::list(&made.netlist, &made.list).0 == 0;
    let accepted = cards.iter().filter(accepted).count();
    assert!((1500..2500).contains(&accepted), "{accepted} accepted");
    cards.into_iter().chain(timed_cards()).collect()
}

/// Every call on every card.
fn agrees(mut version: impl Version) {
    let mut random = Random::new(72);
    for Made {
        card,
        netlist,
        list,
    } in &cards()
    {
        assert_eq!(version.netlist(netlist), right::netlist(netlist));
        assert_eq!(version.list(netlist, list), right::list(netlist, list));
        for change in 0..=COUNT {
            one_change(&mut version, netlist, list, change);
        }
        every_change(&mut version, card, netlist, list, random.below(5));
    }
}

#[test]
fn library_agrees_with_the_reference() {
    stack::within(|| agrees(Library));
}

#[test]
fn plain_agrees_with_the_reference() {
    stack::within(|| agrees(Plain));
}

#[test]
fn tuned_agrees_with_the_reference() {
    stack::within(|| agrees(Tuned(tuned::new_index())));
}

#[test]
fn programs_print_what_the_reference_prints() {
    stack::within(|| {
        for Made { netlist, list, .. } in &cards() {
            let right = program::printed(netlist, list);
            for text in [whole::plain_text, whole::tuned_text] {
                assert!(text(netlist, list).unwrap() == right);
            }
        }
    });
}

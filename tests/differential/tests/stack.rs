//! Every function of the library on the deepest cards, with the stack that a
//! caller must have: a call that needs more ends the test.

use differential::found;
use reference::changes::List;
use reference::classes::{Class, ALL};
use reference::full;
use reference::netlist::{Card, Gate, Kind, HEAD, KINDS, MAX_GATES, MAX_OUTPUTS};

const GATES: u64 = MAX_GATES as u64;
const OUTPUTS: u64 = MAX_OUTPUTS as u64;

/// A chain of 2,048 gates with the one before on all pins, so that each search
/// visits every gate and takes every pin.
fn chain(kind: Kind, pins: usize) -> Card {
    let gate = |number| Gate {
        kind,
        pins: vec![number; pins],
    };
    Card {
        inputs: 1,
        gates: (0..MAX_GATES).map(gate).collect(),
        outputs: vec![MAX_GATES; MAX_OUTPUTS],
    }
}

/// A code, clean, for each signal: each gate gives what rises or falls.
fn assert_clean(codes: &[u8]) {
    assert!(codes.iter().all(|code| [2, 3].contains(code)));
}

/// Both versions of a list with two changes; what is declared is right, so that
/// it prunes nothing.
fn lists(card: &Card) -> [List; 2] {
    let inputs = [Class::Rise, Class::Fall].map(|class| vec![class]);
    let declare = |inputs: Vec<Class>| (inputs.clone(), full::own_ends(card, &inputs));
    [
        List::plain(inputs.clone()),
        List::declaring(inputs.map(declare)),
    ]
}

/// Calls each function; a row of declared ends has so many bytes.
fn call_each(kind: Kind, card: &Card, list: &List, declared: u64) {
    let pins_each = *kind.pin_limits().end();
    let netlist = card.to_bytes();
    let list = list.to_bytes(&netlist);
    let (pins, searches) = (GATES * pins_each as u64, 2 * OUTPUTS);
    let (mut classes, mut verdicts) = ([0xEE; 2 * MAX_GATES + 2], [0xEE; 2 * MAX_OUTPUTS]);

    let entries_at = HEAD as u64 + 2 * GATES + 2 * pins;
    let counts = [1, GATES, OUTPUTS, pins, entries_at];
    assert_eq!(found::netlist(&netlist), (0, counts));
    assert_eq!(found::list(&netlist, &list), (0, [2, 1, declared, 0, 0]));

    for change in 0..2 {
        let full = found::full(&netlist, &list, change, &mut classes);
        assert_eq!(full, (0, [0; 5]));
        assert_clean(&classes[..MAX_GATES + 1]);
        let forward = found::forward(&netlist, &list, change, &mut verdicts);
        assert_eq!(forward, (0, [0, OUTPUTS * GATES, 0, 0, 0]));
        assert_eq!(verdicts[..MAX_OUTPUTS], [0; MAX_OUTPUTS]);
        let code = u64::from(classes[MAX_GATES]);
        let core = found::core(&netlist, &list, change, MAX_OUTPUTS - 1);
        assert_eq!(core, (0, [0, code, GATES, pins, 0]));
    }

    let full = found::full_all(&netlist, &list, &mut classes);
    assert_eq!(full, (0, [2, GATES + 1, 0, 0, 0]));
    assert_clean(&classes);
    let forward = found::forward_all(&netlist, &list, &mut verdicts);
    assert_eq!(forward, (0, [2, OUTPUTS, 0, searches * GATES, 0]));
    assert_eq!(verdicts, [0; 2 * MAX_OUTPUTS]);
    verdicts.fill(0xEE);
    let core = found::core_all(&netlist, &list, &mut verdicts);
    let sums = [2, OUTPUTS, searches * GATES, searches * pins, 0];
    assert_eq!(core, (0, sums));
    assert_eq!(verdicts, [0; 2 * MAX_OUTPUTS]);
}

#[test]
fn deepest_cards() {
    for kind in KINDS {
        let card = chain(kind, *kind.pin_limits().end());
        let [plain, declaring] = lists(&card);
        call_each(kind, &card, &plain, 0);
        call_each(kind, &card, &declaring, OUTPUTS / 8);
    }
}

#[test]
fn cells() {
    for class in ALL {
        assert_eq!(found::join(1, class.code(), 1), 1);
        assert_eq!(found::invert(found::invert(class.code())), class.code());
    }
}

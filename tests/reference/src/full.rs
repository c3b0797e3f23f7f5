//! Full simulation.

use crate::changes::{self, Change};
use crate::classes::Class;
use crate::netlist::{self, refused, Card, Refused};

/// The class of every signal for the inputs' classes, gate 0 first.
pub fn classes(card: &Card, inputs: &[Class]) -> Vec<Class> {
    let mut classes = inputs.to_vec();
    for gate in &card.gates {
        let pins: Vec<Class> = gate.pins.iter().map(|pin| classes[*pin]).collect();
        classes.push(gate.kind.class(&pins));
    }
    classes
}

/// What a list declares if it is right: the clean classes with the outputs' own
/// ends.
pub fn own_ends(card: &Card, inputs: &[Class]) -> Vec<Class> {
    let classes = classes(card, inputs);
    let ends = |signal: &usize| Class::of_ends(classes[*signal].start(), classes[*signal].end());
    card.outputs.iter().map(ends).collect()
}

/// Which outputs full simulation calls clean: those whose class is wanted.
pub fn calls_clean(card: &Card, change: &Change) -> Vec<bool> {
    let classes = classes(card, &change.inputs);
    let asked = change.asked(card).into_iter();
    asked
        .map(|(signal, wanted)| wanted.has(classes[signal]))
        .collect()
}

/// The list's refusals, then 18; else the card and the change asked for.
pub fn open(netlist: &[u8], list: &[u8], change: usize) -> Result<(Card, Change), Refused> {
    let accepted = changes::check(netlist, list)?;
    if change as u64 >= accepted.changes {
        return refused(18, 0);
    }
    let card = netlist::decode(netlist)?;
    let change = changes::change_at(list, &card, change);
    Ok((card, change))
}

/// Writes each signal's code into the first I + G bytes of the buffer.
pub fn simulate(
    netlist: &[u8],
    list: &[u8],
    change: usize,
    buffer: &mut [u8],
) -> Result<(), Refused> {
    let (card, change) = open(netlist, list, change)?;
    if buffer.len() < card.signals() {
        return refused(20, 0);
    }
    for (byte, class) in buffer.iter_mut().zip(classes(&card, &change.inputs)) {
        *byte = class.code();
    }
    Ok(())
}

#[cfg(test)]
mod tests {
    use super::*;
    use crate::cases;
    use crate::changes::List;

    /// The bytes are the same whatever a list declares.
    #[test]
    fn mux() {
        let netlist = cases::mux_netlist();
        let inputs = vec![Class::One, Class::One, Class::Fall];
        let declaring = |class| List::declaring([(inputs.clone(), vec![class])]);
        for list in [
            cases::mux_list(),
            declaring(Class::One).to_bytes(&netlist),
            declaring(Class::Rise).to_bytes(&netlist),
        ] {
            let mut buffer = [0xAA; 9];
            assert_eq!(simulate(&netlist, &list, 0, &mut buffer), Ok(()));
            assert_eq!(buffer, [1, 1, 3, 2, 3, 2, 5, 0xAA, 0xAA]);
        }
    }

    /// A clean class is clean as it is in version 1, and in version 2 only with
    /// its own ends; S1 is hazardous, also where 1 and 1 are declared.
    #[test]
    fn clean_by_the_wanted_set() {
        let card = Card {
            outputs: vec![6, 2],
            ..netlist::decode(&cases::mux_netlist()).unwrap()
        };
        let inputs = vec![Class::One, Class::One, Class::Fall];
        let plain = Change::plain(inputs.clone());
        assert_eq!(calls_clean(&card, &plain), [false, true]);
        for (declared, clean) in [
            ([Class::One, Class::Fall], [false, true]),
            ([Class::One, Class::Rise], [false, false]),
            ([Class::Zero, Class::One], [false, false]),
        ] {
            let change = Change::declaring(inputs.clone(), declared.to_vec());
            assert_eq!(calls_clean(&card, &change), clean);
        }
    }

    #[test]
    fn refusals_leave_the_buffer() {
        let (netlist, list) = (cases::mux_netlist(), cases::mux_list());
        let mut buffer = [0xAA; 6];
        // The change number is judged before the buffer.
        for change in [1, usize::MAX] {
            assert_eq!(
                simulate(&netlist, &list, change, &mut buffer),
                refused(18, 0)
            );
        }
        assert_eq!(simulate(&netlist, &list, 0, &mut buffer), refused(20, 0));
        assert_eq!(
            simulate(&netlist, &list[..4], 0, &mut buffer),
            refused(11, 4)
        );
        assert_eq!(buffer, [0xAA; 6]);
    }

    #[test]
    fn mended_mux() {
        let card = cases::mended_mux();
        let inputs = [Class::One, Class::One, Class::Fall];
        assert_eq!(classes(&card, &inputs)[7], Class::One);
    }
}

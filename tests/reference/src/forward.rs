//! The forward method.

use crate::changes::Change;
use crate::classes::{Class, Operation};
use crate::core::{search_each, sources, Answer, Source, Verdict};
use crate::full;
use crate::netlist::{refused, Card, Gate, Refused};

/// What the forward method returns beside the bytes.
#[derive(Clone, Copy, Debug, PartialEq, Eq, Hash)]
pub struct Counts {
    pub touched: u64,
    /// Sum of gates visited over all outputs.
    pub visited: u64,
}

fn constant(class: Class) -> Option<Class> {
    matches!(class, Class::Zero | Class::One).then_some(class)
}

/// The gate's class if it follows from constant pins: from one that decides
/// alone, or from all pins being constant.
fn follows(gate: &Gate, constants: &[Option<Class>]) -> Option<Class> {
    let deciding = match gate.kind.operation() {
        Operation::And => Class::Zero,
        Operation::Or => Class::One,
    };
    let pins = gate.pins.iter().map(|pin| constants[*pin]);
    if pins.clone().any(|pin| pin == Some(deciding)) {
        return Some(gate.kind.finish(deciding));
    }
    let pins = pins.collect::<Option<Vec<Class>>>()?;
    Some(gate.kind.class(&pins))
}

/// The constant signals: sweeps over all gates until one finds nothing new.
pub fn constants(card: &Card, inputs: &[Class]) -> Vec<Option<Class>> {
    let mut constants: Vec<Option<Class>> = inputs.iter().map(|class| constant(*class)).collect();
    constants.resize(card.signals(), None);
    loop {
        let before = constants.clone();
        for (number, gate) in card.gates.iter().enumerate() {
            constants[card.inputs + number] = follows(gate, &constants);
        }
        if constants == before {
            return constants;
        }
    }
}

fn touched(card: &Card, constants: &[Option<Class>]) -> u64 {
    let is_touched = |gate: &&Gate| gate.pins.iter().any(|pin| constants[*pin].is_some());
    card.gates.iter().filter(is_touched).count() as u64
}

/// Constants, then a search for each output with constant gates known.
pub fn verdicts(card: &Card, change: &Change) -> (Vec<Answer>, Counts) {
    let constants = constants(card, &change.inputs);
    let mut sources = sources(card, change);
    for (source, constant) in sources.iter_mut().zip(&constants) {
        if let Some(class) = constant {
            *source = Source::Told(*class);
        }
    }
    let answers: Vec<Answer> = search_each(&sources, &change.asked(card))
        .into_iter()
        .map(|(answer, _)| answer)
        .collect();
    let counts = Counts {
        touched: touched(card, &constants),
        visited: answers.iter().map(|answer| answer.gates).sum(),
    };
    (answers, counts)
}

/// Writes 0 (clean) or 1 (hazardous) into the first O bytes of the buffer.
pub fn forward(
    netlist: &[u8],
    list: &[u8],
    change: usize,
    buffer: &mut [u8],
) -> Result<Counts, Refused> {
    let (card, change) = full::open(netlist, list, change)?;
    if buffer.len() < card.outputs.len() {
        return refused(20, 0);
    }
    let (answers, counts) = verdicts(&card, &change);
    for (byte, answer) in buffer.iter_mut().zip(answers) {
        *byte = u8::from(answer.verdict == Verdict::Hazardous);
    }
    Ok(counts)
}

#[cfg(test)]
mod tests {
    use super::*;
    use crate::cases;
    use crate::changes::{List, VERSIONS};
    use crate::netlist::Kind;
    use crate::random::{self, Random};

    #[test]
    fn mux() {
        let (netlist, list) = (cases::mux_netlist(), cases::mux_list());
        let mut buffer = [9; 2];
        let counts = Counts {
            touched: 2,
            visited: 4,
        };
        assert_eq!(forward(&netlist, &list, 0, &mut buffer), Ok(counts));
        assert_eq!(buffer, [1, 9]);
        assert_eq!(forward(&netlist, &list, 1, &mut []), refused(18, 0));
        assert_eq!(forward(&netlist, &list, 0, &mut []), refused(20, 0));
    }

    #[test]
    fn mended_mux() {
        let netlist = cases::mended_mux().to_bytes();
        let inputs = vec![Class::One, Class::One, Class::Fall];
        let declaring = |class| List::declaring([(inputs.clone(), vec![class])]);
        let counts = Counts {
            touched: 4,
            visited: 0,
        };
        for (list, byte) in [
            (List::plain([inputs.clone()]), 0),
            (declaring(Class::One), 0),
            (declaring(Class::Fall), 1),
        ] {
            let mut buffer = [9; 2];
            let list = list.to_bytes(&netlist);
            assert_eq!(forward(&netlist, &list, 0, &mut buffer), Ok(counts));
            assert_eq!(buffer, [byte, 9]);
        }
    }

    /// An input and a constant gate are compared with the declared ends without
    /// a search; another gate is searched, and pruned where it is declared wrong.
    #[test]
    fn known_classes_are_compared() {
        let card = Card {
            inputs: 2,
            gates: vec![
                Gate::new(Kind::Not, &[1]),
                Gate::new(Kind::Buffer, &[0]),
                Gate::new(Kind::And, &[0, 3]),
            ],
            outputs: vec![0, 2, 4],
        };
        use Class::{Fall, One, Rise, Zero};
        for (declared, clean, visited) in [
            ([Fall, One, Fall], [true, true, true], 2),
            ([One, One, Fall], [false, true, true], 2),
            ([Fall, Rise, Fall], [true, false, true], 2),
            ([Rise, Zero, One], [false, false, false], 1),
        ] {
            let change = Change::declaring(vec![Fall, Zero], declared.to_vec());
            let (answers, counts) = verdicts(&card, &change);
            assert_eq!(answers.iter().map(is_clean).collect::<Vec<_>>(), clean);
            assert_eq!(counts.visited, visited);
            for answer in &answers[..2] {
                assert_eq!((answer.gates, answer.pins), (0, 0));
            }
        }
    }

    fn is_clean(answer: &Answer) -> bool {
        answer.verdict != Verdict::Hazardous
    }

    /// The constants are the signals of class 0 and 1, and the verdict is full
    /// simulation's.
    #[test]
    fn agrees_with_full_simulation() {
        let mut random = Random::new(5);
        for round in 0..2000 {
            let card = random::small_card(&mut random);
            let change = random::change(&mut random, &card, VERSIONS[round % 2]);
            let classes = full::classes(&card, &change.inputs);
            let by_class: Vec<Option<Class>> =
                classes.iter().map(|class| constant(*class)).collect();
            assert_eq!(constants(&card, &change.inputs), by_class);
            let (answers, _) = verdicts(&card, &change);
            let found: Vec<bool> = answers.iter().map(is_clean).collect();
            assert_eq!(found, full::calls_clean(&card, &change));
        }
    }
}

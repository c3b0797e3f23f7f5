//! The card netlist: the format, its check with refusals, its tie.

use crate::classes::{invert, rule, Class, Operation};
use std::ops::RangeInclusive;

/// A refusal: its number and a byte place.
#[derive(Clone, Copy, Debug, PartialEq, Eq, Hash)]
pub struct Refused {
    pub number: u32,
    pub place: u64,
}

pub fn refused<T>(number: u32, place: usize) -> Result<T, Refused> {
    Err(Refused {
        number,
        place: place as u64,
    })
}

/// What the check says of a netlist that it accepts.
#[derive(Clone, Copy, Debug, PartialEq, Eq, Hash)]
pub struct Accepted {
    pub inputs: u64,
    pub gates: u64,
    pub outputs: u64,
    pub pins: u64,
    /// Place of the first output entry.
    pub entries_at: u64,
}

pub const MAX_INPUTS: usize = 256;
pub const MAX_GATES: usize = 2048;
pub const MAX_OUTPUTS: usize = 64;

/// Bytes before the first record.
pub const HEAD: usize = 11;

#[derive(Clone, Copy, Debug, PartialEq, Eq, Hash)]
#[repr(u8)]
pub enum Kind {
    Not = 1,
    Buffer = 2,
    And = 3,
    Or = 4,
    Nand = 5,
    Nor = 6,
}

pub const KINDS: [Kind; 6] = [
    Kind::Not,
    Kind::Buffer,
    Kind::And,
    Kind::Or,
    Kind::Nand,
    Kind::Nor,
];

impl Kind {
    pub fn of_byte(byte: u8) -> Option<Kind> {
        KINDS.into_iter().find(|kind| *kind as u8 == byte)
    }

    pub fn pin_limits(self) -> RangeInclusive<usize> {
        match self {
            Kind::Not | Kind::Buffer => 1..=1,
            _ => 2..=8,
        }
    }

    /// NOT and BUFFER are an AND of one pin.
    pub fn operation(self) -> Operation {
        match self {
            Kind::Or | Kind::Nor => Operation::Or,
            _ => Operation::And,
        }
    }

    pub fn inverts(self) -> bool {
        matches!(self, Kind::Not | Kind::Nand | Kind::Nor)
    }

    /// Inverted where due.
    pub fn finish(self, joined: Class) -> Class {
        if self.inverts() {
            invert(joined)
        } else {
            joined
        }
    }

    /// The gate's class for its pins' classes, by the written rule.
    pub fn class(self, pins: &[Class]) -> Class {
        self.finish(rule(self.operation(), pins))
    }

    /// The gate's Boolean function.
    pub fn boolean(self, pins: &[bool]) -> bool {
        let joined = match self.operation() {
            Operation::And => pins.iter().all(|pin| *pin),
            Operation::Or => pins.iter().any(|pin| *pin),
        };
        joined != self.inverts()
    }
}

#[derive(Clone, Debug, PartialEq, Eq)]
pub struct Gate {
    pub kind: Kind,
    /// Signal numbers.
    pub pins: Vec<usize>,
}

impl Gate {
    pub fn new(kind: Kind, pins: &[usize]) -> Gate {
        Gate {
            kind,
            pins: pins.to_vec(),
        }
    }
}

/// A netlist out of its bytes. Nothing here keeps the format's rules: cards
/// past the limits can be built too, for the tests of refusals.
#[derive(Clone, Debug, PartialEq, Eq)]
pub struct Card {
    pub inputs: usize,
    pub gates: Vec<Gate>,
    /// Signal numbers.
    pub outputs: Vec<usize>,
}

impl Card {
    pub fn signals(&self) -> usize {
        self.inputs + self.gates.len()
    }

    pub fn pin_total(&self) -> usize {
        self.gates.iter().map(|gate| gate.pins.len()).sum()
    }

    /// A signal's cone, gate by gate: "the output's own gate and every gate
    /// that reaches it through pins; an output that is an input has an empty
    /// cone". Pins name lower signals, so one pass down meets all of them.
    pub fn cone(&self, signal: usize) -> Vec<bool> {
        let mut reached = vec![false; self.signals()];
        reached[signal] = true;
        for (number, gate) in self.gates.iter().enumerate().rev() {
            if reached[self.inputs + number] {
                gate.pins.iter().for_each(|pin| reached[*pin] = true);
            }
        }
        reached.split_off(self.inputs)
    }

    /// The pins of its gates.
    pub fn cone_pins(&self, signal: usize) -> usize {
        let gates = self.gates.iter().zip(self.cone(signal));
        gates
            .map(|(gate, within)| usize::from(within) * gate.pins.len())
            .sum()
    }

    pub fn to_bytes(&self) -> Vec<u8> {
        let mut bytes = b"LCN".to_vec();
        let mut word = |value: usize| bytes.extend((value as u16).to_le_bytes());
        word(1);
        word(self.inputs);
        word(self.gates.len());
        word(self.outputs.len());
        for gate in &self.gates {
            bytes.push(gate.kind as u8);
            bytes.push(gate.pins.len() as u8);
            for pin in &gate.pins {
                bytes.extend((*pin as u16).to_le_bytes());
            }
        }
        for output in &self.outputs {
            bytes.extend((*output as u16).to_le_bytes());
        }
        bytes
    }
}

/// The 16-bit field at a place.
pub fn word_at(bytes: &[u8], at: usize) -> usize {
    usize::from(bytes[at]) + 256 * usize::from(bytes[at + 1])
}

/// "For each byte, A grows by the byte, then B by A. The tie is B."
pub fn tie(netlist: &[u8]) -> u32 {
    let modulus = 4_294_967_296u64;
    let (mut a, mut b) = (0u64, 0u64);
    for byte in netlist {
        a = (a + u64::from(*byte)) % modulus;
        b = (b + a) % modulus;
    }
    b as u32
}

/// Reads one record at a place; `signal` is the one that the gate drives.
fn read_record(netlist: &[u8], at: usize, signal: usize) -> Result<Gate, Refused> {
    if netlist.len() - at < 2 {
        return refused(5, at);
    }
    let Some(kind) = Kind::of_byte(netlist[at]) else {
        return refused(6, at);
    };
    let count = usize::from(netlist[at + 1]);
    if !kind.pin_limits().contains(&count) {
        return refused(7, at + 1);
    }
    if netlist.len() - (at + 2) < 2 * count {
        return refused(5, at);
    }
    let mut pins = Vec::new();
    for number in 0..count {
        let place = at + 2 + 2 * number;
        let pin = word_at(netlist, place);
        if pin >= signal {
            return refused(8, place);
        }
        pins.push(pin);
    }
    Ok(Gate { kind, pins })
}

fn read_outputs(
    netlist: &[u8],
    at: usize,
    count: usize,
    signals: usize,
) -> Result<Vec<usize>, Refused> {
    if netlist.len() - at < 2 * count {
        return refused(5, at);
    }
    let mut outputs = Vec::new();
    for number in 0..count {
        let place = at + 2 * number;
        let output = word_at(netlist, place);
        if output >= signals {
            return refused(9, place);
        }
        outputs.push(output);
    }
    let end = at + 2 * count;
    if netlist.len() > end {
        return refused(10, end);
    }
    Ok(outputs)
}

/// Checks and decodes a netlist; with the card, the place of the entries.
fn read(netlist: &[u8]) -> Result<(Card, usize), Refused> {
    if netlist.len() < HEAD {
        return refused(1, netlist.len());
    }
    if &netlist[..3] != b"LCN" {
        return refused(2, 0);
    }
    if word_at(netlist, 3) != 1 {
        return refused(3, 3);
    }
    let (inputs, gates, outputs) = (
        word_at(netlist, 5),
        word_at(netlist, 7),
        word_at(netlist, 9),
    );
    if !(1..=MAX_INPUTS).contains(&inputs) {
        return refused(4, 5);
    }
    if gates > MAX_GATES {
        return refused(4, 7);
    }
    if !(1..=MAX_OUTPUTS).contains(&outputs) {
        return refused(4, 9);
    }
    let mut at = HEAD;
    let mut records = Vec::new();
    for number in 0..gates {
        let gate = read_record(netlist, at, inputs + number)?;
        at += 2 + 2 * gate.pins.len();
        records.push(gate);
    }
    let card = Card {
        inputs,
        outputs: read_outputs(netlist, at, outputs, inputs + gates)?,
        gates: records,
    };
    Ok((card, at))
}

/// The check of a netlist alone.
pub fn check(netlist: &[u8]) -> Result<Accepted, Refused> {
    let (card, entries_at) = read(netlist)?;
    Ok(Accepted {
        inputs: card.inputs as u64,
        gates: card.gates.len() as u64,
        outputs: card.outputs.len() as u64,
        pins: card.pin_total() as u64,
        entries_at: entries_at as u64,
    })
}

/// The card in a netlist that the check accepts.
pub fn decode(netlist: &[u8]) -> Result<Card, Refused> {
    read(netlist).map(|(card, _)| card)
}

#[cfg(test)]
mod tests {
    use super::*;
    use crate::cases;

    #[test]
    fn mux() {
        let netlist = cases::mux_netlist();
        assert_eq!(tie(&netlist), 8205);
        let accepted = Accepted {
            inputs: 3,
            gates: 4,
            outputs: 1,
            pins: 7,
            entries_at: 33,
        };
        assert_eq!(check(&netlist), Ok(accepted));
        assert_eq!(decode(&netlist).unwrap().to_bytes(), netlist);
    }

    #[test]
    fn cones() {
        let mut card = decode(&cases::mux_netlist()).unwrap();
        let (inputs, gates) = (card.inputs, card.gates.len());
        // an input's is empty, the output's has every gate, the first gate's itself
        assert_eq!(card.cone(inputs - 1), vec![false; gates]);
        assert_eq!(card.cone_pins(inputs - 1), 0);
        assert_eq!(card.cone(card.outputs[0]), vec![true; gates]);
        assert_eq!(card.cone_pins(card.outputs[0]), card.pin_total());
        assert_eq!(card.cone(inputs), [true, false, false, false]);
        // a gate that the output does not read is outside, a pin named twice counts twice
        card.gates.push(Gate {
            kind: Kind::And,
            pins: vec![0, 0],
        });
        assert_eq!(card.cone_pins(card.outputs[0]), 7);
        assert_eq!(card.cone_pins(inputs + gates), 2);
    }

    fn with(at: usize, byte: u8) -> Result<Accepted, Refused> {
        let mut netlist = cases::mux_netlist();
        netlist[at] = byte;
        check(&netlist)
    }

    #[test]
    fn refusals_in_order() {
        let netlist = cases::mux_netlist();
        assert_eq!(check(&[]), refused(1, 0));
        assert_eq!(check(&netlist[..10]), refused(1, 10));
        assert_eq!(check(&netlist[..11]), refused(5, 11));
        assert_eq!(check(&netlist[..12]), refused(5, 11));
        assert_eq!(check(&netlist[..14]), refused(5, 11));
        assert_eq!(check(&netlist[..15]), refused(5, 15));
        assert_eq!(check(&netlist[..34]), refused(5, 33));
        assert_eq!(with(2, b'T'), refused(2, 0));
        assert_eq!(with(4, 1), refused(3, 3));
        assert_eq!(with(5, 0), refused(4, 5));
        assert_eq!(with(8, 9), refused(4, 7));
        assert_eq!(with(9, 65), refused(4, 9));
        assert_eq!(with(11, 0), refused(6, 11));
        assert_eq!(with(12, 2), refused(7, 12));
        assert_eq!(with(13, 3), refused(8, 13));
        assert_eq!(with(33, 7), refused(9, 33));
        let mut longer = netlist.clone();
        longer.push(0);
        assert_eq!(check(&longer), refused(10, 35));
    }

    /// A cut-off record is refused as such even if its kind byte is bad, and
    /// before its pins are judged.
    #[test]
    fn cut_off_comes_first() {
        let mut netlist = cases::mux_netlist();
        netlist[11] = 9;
        assert_eq!(check(&netlist[..12]), refused(5, 11));
        let mut netlist = cases::mux_netlist();
        netlist[17] = 200;
        assert_eq!(check(&netlist[..20]), refused(5, 15));
        assert_eq!(check(&netlist[..21]), refused(8, 17));
    }

    #[test]
    fn tie_wraps() {
        // 37,003 bytes is the longest accepted netlist.
        let bytes = vec![255u8; 37_003];
        let n = 37_003u64;
        assert_eq!(u64::from(tie(&bytes)), (255 * n * (n + 1) / 2) % (1 << 32));
    }
}

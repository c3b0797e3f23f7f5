//! The change list: the format in its two versions, its check with refusals,
//! and what a change says of inputs and outputs.

use crate::classes::Class;
use crate::netlist::{self, refused, tie, word_at, Card, Refused};
use crate::sets::{Set, CLEAN};

/// A list's version; in version 2 each change declares the outputs' ends.
#[derive(Clone, Copy, Debug, PartialEq, Eq, Hash)]
pub enum Version {
    One = 1,
    Two = 2,
}

pub const VERSIONS: [Version; 2] = [Version::One, Version::Two];

impl Version {
    /// The version that a list's head names.
    pub fn of(list: &[u8]) -> Option<Version> {
        let word = word_at(list, 3);
        VERSIONS
            .into_iter()
            .find(|version| *version as usize == word)
    }

    /// The largest T.
    pub fn max_changes(self) -> usize {
        match self {
            Version::One => 1000,
            Version::Two => 800,
        }
    }

    /// The bit rows of a change in order, each by its number of bits: the two
    /// vectors, then in version 2 declared starts and declared ends.
    pub fn rows(self, card: &Card) -> Vec<usize> {
        let (inputs, outputs) = (card.inputs, card.outputs.len());
        match self {
            Version::One => vec![inputs, inputs],
            Version::Two => vec![inputs, inputs, outputs, outputs],
        }
    }

    /// The bytes of a change.
    pub fn change_bytes(self, card: &Card) -> usize {
        self.rows(card).into_iter().map(row_bytes).sum()
    }

    /// The places of all rows' last bytes in a list of this length, in order,
    /// each with its spare bits. No other byte has any.
    pub fn last_bytes(self, card: &Card, length: usize) -> Vec<(usize, u8)> {
        let mut places = Vec::new();
        let mut end = HEAD;
        for bits in self.rows(card).iter().cycle() {
            end += row_bytes(*bits);
            if end > length {
                break;
            }
            places.push((end - 1, spare_bits(*bits)));
        }
        places
    }
}

/// What the check says of a list that it accepts.
#[derive(Clone, Copy, Debug, PartialEq, Eq, Hash)]
pub struct Accepted {
    /// T.
    pub changes: u64,
    /// V, the bytes of a vector.
    pub vector: u64,
    /// W, the bytes of each row of declared ends: 0 in version 1, which has none.
    pub declared: u64,
}

/// Bytes before the first change.
pub const HEAD: usize = 11;

/// Bytes of so many bits: their number / 8 rounded up.
pub fn row_bytes(bits: usize) -> usize {
    bits.div_ceil(8)
}

/// Bits of the last byte of a row that stand for nothing.
fn spare_bits(bits: usize) -> u8 {
    match bits % 8 {
        0 => 0,
        used => 0xFFu8 << used,
    }
}

/// The check of a list against its netlist.
pub fn check(netlist: &[u8], list: &[u8]) -> Result<Accepted, Refused> {
    let card = netlist::decode(netlist)?;
    if list.len() < HEAD {
        return refused(11, list.len());
    }
    if &list[..3] != b"LCT" {
        return refused(12, 0);
    }
    let Some(version) = Version::of(list) else {
        return refused(13, 3);
    };
    if list[5..9] != tie(netlist).to_le_bytes() {
        return refused(14, 5);
    }
    let changes = word_at(list, 9);
    if changes > version.max_changes() {
        return refused(15, 9);
    }
    if list.len() != HEAD + changes * version.change_bytes(&card) {
        return refused(16, list.len());
    }
    for (place, spare) in version.last_bytes(&card, list.len()) {
        if list[place] & spare != 0 {
            return refused(17, place);
        }
    }
    let declared = match version {
        Version::One => 0,
        Version::Two => row_bytes(card.outputs.len()),
    };
    Ok(Accepted {
        changes: changes as u64,
        vector: row_bytes(card.inputs) as u64,
        declared: declared as u64,
    })
}

/// A change of a list.
#[derive(Clone, Debug, PartialEq, Eq)]
pub struct Change {
    /// The inputs' classes, which say both vectors.
    pub inputs: Vec<Class>,
    /// In version 2 the outputs' declared classes, which say both rows: the
    /// clean ones with the declared ends.
    pub declared: Option<Vec<Class>>,
}

impl Change {
    /// A change of a version 1 list.
    pub fn plain(inputs: Vec<Class>) -> Change {
        Change {
            inputs,
            declared: None,
        }
    }

    /// A change of a version 2 list.
    pub fn declaring(inputs: Vec<Class>, declared: Vec<Class>) -> Change {
        Change {
            inputs,
            declared: Some(declared),
        }
    }

    /// The wanted set of an output, by its position: it is clean in this change
    /// when its class is one of these.
    pub fn wanted(&self, output: usize) -> Set {
        match &self.declared {
            None => CLEAN,
            Some(classes) => Set::of([classes[output]]),
        }
    }

    /// The outputs' signals, each with its wanted set.
    pub fn asked(&self, card: &Card) -> Vec<(usize, Set)> {
        let asked = |(output, signal): (usize, &usize)| (*signal, self.wanted(output));
        card.outputs.iter().enumerate().map(asked).collect()
    }
}

/// Bit of a row that starts at a place.
fn bit(list: &[u8], row_at: usize, number: usize) -> bool {
    list[row_at + number / 8] >> (number % 8) & 1 == 1
}

/// The clean classes whose starts and ends are two rows one after the other.
fn classes_at(list: &[u8], at: usize, count: usize) -> Vec<Class> {
    let ends_at = at + row_bytes(count);
    (0..count)
        .map(|number| Class::of_ends(bit(list, at, number), bit(list, ends_at, number)))
        .collect()
}

/// A change of an accepted list.
pub fn change_at(list: &[u8], card: &Card, number: usize) -> Change {
    let version = Version::of(list).expect("an accepted list");
    let at = HEAD + number * version.change_bytes(card);
    let inputs = classes_at(list, at, card.inputs);
    let rows_at = at + 2 * row_bytes(card.inputs);
    match version {
        Version::One => Change::plain(inputs),
        Version::Two => Change::declaring(inputs, classes_at(list, rows_at, card.outputs.len())),
    }
}

/// A list out of its bytes: in version 2 each change declares, in version 1
/// none does.
#[derive(Clone, Debug, PartialEq, Eq)]
pub struct List {
    pub version: Version,
    pub changes: Vec<Change>,
}

impl List {
    /// A version 1 list, by the inputs' classes in each change.
    pub fn plain(changes: impl IntoIterator<Item = Vec<Class>>) -> List {
        List {
            version: Version::One,
            changes: changes.into_iter().map(Change::plain).collect(),
        }
    }

    /// A version 2 list, by the inputs' and the declared classes in each change.
    pub fn declaring(changes: impl IntoIterator<Item = (Vec<Class>, Vec<Class>)>) -> List {
        let change = |(inputs, declared)| Change::declaring(inputs, declared);
        List {
            version: Version::Two,
            changes: changes.into_iter().map(change).collect(),
        }
    }

    /// The list's bytes, tied to a netlist.
    pub fn to_bytes(&self, netlist: &[u8]) -> Vec<u8> {
        let mut bytes = b"LCT".to_vec();
        bytes.extend((self.version as u16).to_le_bytes());
        bytes.extend(tie(netlist).to_le_bytes());
        bytes.extend((self.changes.len() as u16).to_le_bytes());
        for change in &self.changes {
            push_rows(&mut bytes, &change.inputs);
            push_rows(&mut bytes, change.declared.as_deref().unwrap_or_default());
        }
        bytes
    }
}

fn push_row(bytes: &mut Vec<u8>, bits: &[bool]) {
    for eight in bits.chunks(8) {
        let weigh = |(at, bit): (usize, &bool)| u8::from(*bit) << at;
        bytes.push(eight.iter().enumerate().map(weigh).sum());
    }
}

/// The row of the classes' starts, then that of their ends.
fn push_rows(bytes: &mut Vec<u8>, classes: &[Class]) {
    for end in [Class::start, Class::end] {
        let bits: Vec<bool> = classes.iter().map(|class| end(*class)).collect();
        push_row(bytes, &bits);
    }
}

/// A checked card and its list, decoded.
pub struct Job {
    pub card: Card,
    pub list: List,
}

/// Checks both files' contents and decodes them.
pub fn decode(netlist: &[u8], list: &[u8]) -> Result<Job, Refused> {
    let accepted = check(netlist, list)?;
    let card = netlist::decode(netlist)?;
    let list = List {
        version: Version::of(list).expect("an accepted list"),
        changes: (0..accepted.changes as usize)
            .map(|number| change_at(list, &card, number))
            .collect(),
    };
    Ok(Job { card, list })
}

#[cfg(test)]
mod tests {
    use super::*;
    use crate::cases;
    use Class::{Fall, One, Rise, Zero};

    #[test]
    fn mux() {
        let (netlist, list) = (cases::mux_netlist(), cases::mux_list());
        let accepted = Accepted {
            changes: 1,
            vector: 1,
            declared: 0,
        };
        assert_eq!(check(&netlist, &list), Ok(accepted));
        let job = decode(&netlist, &list).unwrap();
        assert_eq!(job.list, List::plain([vec![One, One, Fall]]));
        assert_eq!(job.list.to_bytes(&netlist), list);
    }

    /// Mux with two changes that declare its output: falls, stays 1.
    fn declared_mux() -> Vec<u8> {
        cases::hex("4C 43 54 02 00 0D 20 00 00 02 00 07 03 01 00 03 03 01 01")
    }

    #[test]
    fn declared_rows_follow_the_vectors() {
        let (netlist, list) = (cases::mux_netlist(), declared_mux());
        let accepted = Accepted {
            changes: 2,
            vector: 1,
            declared: 1,
        };
        assert_eq!(check(&netlist, &list), Ok(accepted));
        let job = decode(&netlist, &list).unwrap();
        let changes = [
            (vec![One, One, Fall], vec![Fall]),
            (vec![One, One, Zero], vec![One]),
        ];
        assert_eq!(job.list, List::declaring(changes));
        assert_eq!(job.list.to_bytes(&netlist), list);
    }

    /// Without changes the version's number is all that differs.
    #[test]
    fn no_changes() {
        let netlist = cases::mux_netlist();
        for (list, version) in [(List::plain([]), 1), (List::declaring([]), 2)] {
            let bytes = list.to_bytes(&netlist);
            assert_eq!((bytes.len(), bytes[3]), (HEAD, version));
            assert_eq!(decode(&netlist, &bytes).unwrap().list, list);
        }
    }

    #[test]
    fn wanted_sets() {
        let inputs = vec![Rise, Zero];
        let plain = Change::plain(inputs.clone());
        let declaring = Change::declaring(inputs, vec![One, Fall]);
        for (output, class) in [(0, One), (1, Fall)] {
            assert_eq!(plain.wanted(output), CLEAN);
            assert_eq!(declaring.wanted(output), Set::of([class]));
        }
    }

    fn with(list: &[u8], at: usize, byte: u8) -> Result<Accepted, Refused> {
        let mut list = list.to_vec();
        list[at] = byte;
        check(&cases::mux_netlist(), &list)
    }

    #[test]
    fn refusals_in_order() {
        let (netlist, list) = (cases::mux_netlist(), cases::mux_list());
        assert_eq!(check(&netlist[..5], &list), refused(1, 5));
        assert_eq!(check(&netlist, &[]), refused(11, 0));
        assert_eq!(check(&netlist, &list[..10]), refused(11, 10));
        assert_eq!(check(&netlist, &list[..11]), refused(16, 11));
        assert_eq!(with(&list, 2, b'N'), refused(12, 0));
        assert_eq!(with(&list, 3, 0), refused(13, 3));
        assert_eq!(with(&list, 3, 2), refused(16, 13));
        assert_eq!(with(&list, 8, 1), refused(14, 5));
        assert_eq!(with(&list, 10, 4), refused(15, 9));
        assert_eq!(with(&list, 9, 2), refused(16, 13));
        assert_eq!(with(&list, 11, 8), refused(17, 11));
        assert_eq!(with(&list, 12, 0x80), refused(17, 12));
    }

    #[test]
    fn refusals_of_version_2() {
        let (netlist, list) = (cases::mux_netlist(), declared_mux());
        assert_eq!(check(&netlist[..5], &list), refused(1, 5));
        assert_eq!(check(&netlist, &list[..10]), refused(11, 10));
        assert_eq!(with(&list, 2, b'N'), refused(12, 0));
        for version in [0, 3, 4, 255] {
            assert_eq!(with(&list, 3, version), refused(13, 3));
        }
        assert_eq!(with(&list, 4, 1), refused(13, 3), "258");
        assert_eq!(with(&list, 8, 1), refused(14, 5));
        assert_eq!(with(&list, 10, 4), refused(15, 9));
        assert_eq!(with(&list, 3, 1), refused(16, 19));
        assert_eq!(with(&list, 9, 1), refused(16, 19));
        for length in HEAD..list.len() {
            assert_eq!(check(&netlist, &list[..length]), refused(16, length));
        }
        for (place, byte) in [
            (11, 8),
            (12, 0x80),
            (13, 2),
            (14, 0xFE),
            (15, 8),
            (18, 0x80),
        ] {
            assert_eq!(with(&list, place, byte), refused(17, place));
        }
    }

    /// "The first byte": a change's rows stand before the next one's vectors.
    #[test]
    fn first_spare_bit_in_byte_order() {
        let (netlist, mut list) = (cases::mux_netlist(), declared_mux());
        for place in (HEAD..list.len()).rev() {
            list[place] = 0xFF;
            assert_eq!(check(&netlist, &list), refused(17, place));
        }
    }

    #[test]
    fn largest_counts() {
        let netlist = cases::mux_netlist();
        for (list, most) in [
            (cases::mux_list(), 1000u16),
            (declared_mux()[..15].to_vec(), 800),
        ] {
            let with_count = |count: u16| {
                let mut longer = list[..HEAD].to_vec();
                longer[9..11].copy_from_slice(&count.to_le_bytes());
                longer.extend(list[HEAD..].repeat(usize::from(count)));
                check(&netlist, &longer)
            };
            assert_eq!(with_count(most).unwrap().changes, u64::from(most));
            assert_eq!(with_count(most + 1), refused(15, 9));
        }
    }

    #[test]
    fn spare_bits_stand_in_last_bytes_only() {
        for inputs in 1..=256 {
            for outputs in [1, 7, 8, 9, 63, 64] {
                let card = Card {
                    inputs,
                    gates: vec![],
                    outputs: vec![0; outputs],
                };
                check_spare_bits(&card);
            }
        }
    }

    /// Two changes with all bits set, used ones and spare ones: the first row
    /// with spare bits ends at the place.
    fn check_spare_bits(card: &Card) {
        let netlist = card.to_bytes();
        let ones = (vec![One; card.inputs], vec![One; card.outputs.len()]);
        let lists = [
            List::plain(vec![ones.0.clone(); 2]),
            List::declaring(vec![ones; 2]),
        ];
        for list in lists {
            let mut bytes = list.to_bytes(&netlist);
            assert!(check(&netlist, &bytes).is_ok());
            bytes[HEAD..].fill(0xFF);
            let found = check(&netlist, &bytes);
            let (vector, row) = (row_bytes(card.inputs), row_bytes(card.outputs.len()));
            let full_rows = list.version == Version::One || card.outputs.len().is_multiple_of(8);
            match (card.inputs.is_multiple_of(8), full_rows) {
                (false, _) => assert_eq!(found, refused(17, HEAD + vector - 1)),
                (true, false) => assert_eq!(found, refused(17, HEAD + 2 * vector + row - 1)),
                (true, true) => assert!(found.is_ok()),
            }
        }
    }
}

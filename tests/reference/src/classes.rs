//! The eight classes: the printed Tables 1 to 3 of source 003, and document
//! 01's written rule beside them.
//!
//! The tables are kept as they stand in print, so that a reader can hold them
//! against the page. A cell that is lost or misprinted there is not repaired
//! in place: it is marked by being unreadable, and [`from_tables`] asks the
//! written rule for exactly those cells.

/// A class; the discriminant is document 01's code.
#[derive(Clone, Copy, Debug, PartialEq, Eq, PartialOrd, Ord, Hash)]
#[repr(u8)]
pub enum Class {
    Zero = 0,
    One = 1,
    Rise = 2,
    Fall = 3,
    Static0 = 4,
    Static1 = 5,
    DynamicRise = 6,
    DynamicFall = 7,
}

use Class::*;

/// All classes in the order of their codes.
pub const ALL: [Class; 8] = [
    Zero,
    One,
    Rise,
    Fall,
    Static0,
    Static1,
    DynamicRise,
    DynamicFall,
];

impl Class {
    pub fn code(self) -> u8 {
        self as u8
    }

    /// The class of a code 0 to 7.
    pub fn of_code(code: u8) -> Class {
        ALL[usize::from(code)]
    }

    /// The name as the program prints it.
    pub fn name(self) -> &'static str {
        ["0", "1", "R", "F", "S0", "S1", "D+", "D-"][self as usize]
    }

    pub fn is_clean(self) -> bool {
        self.code() < 4
    }

    /// The settled value at the first vector.
    pub fn start(self) -> bool {
        matches!(self, One | Fall | Static1 | DynamicFall)
    }

    /// The settled value at the second vector.
    pub fn end(self) -> bool {
        matches!(self, One | Rise | Static1 | DynamicRise)
    }

    /// The clean class with these ends; an input's by its two bits.
    pub fn of_ends(start: bool, end: bool) -> Class {
        match (start, end) {
            (false, false) => Zero,
            (true, true) => One,
            (false, true) => Rise,
            (true, false) => Fall,
        }
    }
}

/// What a gate does with its pins before any inversion.
#[derive(Clone, Copy, Debug, PartialEq, Eq, Hash)]
pub enum Operation {
    And,
    Or,
}

impl Operation {
    /// The class that changes nothing when joined.
    pub fn unit(self) -> Class {
        match self {
            Operation::And => One,
            Operation::Or => Zero,
        }
    }
}

// ---------------------------------------------------------------------------
// Source 003 as printed.

/// Heads of rows and columns of the three printed tables, in their order.
const HEADS: [&str; 8] = ["0", "1", "R", "F", "S0", "S1", "D0", "D1"];

/// A cell whose print is gone.
const LOST: &str = "";

/// Table 1, two-pin AND. Six cells of row S0 are lost.
const PRINTED_AND: [[&str; 8]; 8] = [
    ["0", "0", "0", "0", "0", "0", "0", "0"],
    ["0", "1", "R", "F", "S0", "S1", "D0", "D1"],
    ["0", "R", "R", "S0", "S0", "D1", "S0", "D1"],
    ["0", "F", "S0", "F", "S0", "D0", "D0", "S0"],
    ["0", "S0", LOST, LOST, LOST, LOST, LOST, LOST],
    ["0", "S1", "D1", "D0", "S0", "S1", "D0", "D1"],
    ["0", "D0", "S0", "D0", "S0", "D0", "D0", "S0"],
    ["0", "D1", "D1", "S0", "S0", "D1", "S0", "D1"],
];

/// Table 3, two-pin OR. The cell F, F is misprinted as "10".
const PRINTED_OR: [[&str; 8]; 8] = [
    ["0", "1", "R", "F", "S0", "S1", "D0", "D1"],
    ["1", "1", "1", "1", "1", "1", "1", "1"],
    ["R", "1", "R", "S1", "D1", "S1", "S1", "D1"],
    ["F", "1", "S1", "10", "D0", "S1", "D0", "S1"],
    ["S0", "1", "D1", "D0", "S0", "S1", "D0", "D1"],
    ["S1", "1", "S1", "S1", "S1", "S1", "S1", "S1"],
    ["D0", "1", "S1", "D0", "D0", "S1", "D0", "S1"],
    ["D1", "1", "D1", "S1", "D1", "S1", "S1", "D1"],
];

/// Table 2, NOT. Its row of inputs is lost; the order of Tables 1 and 3 is
/// read into it.
const PRINTED_NOT: [&str; 8] = ["1", "0", "F", "R", "S1", "S0", "D1", "D0"];

/// The class that a cell names, none for a lost or misprinted cell.
fn of_print(cell: &str) -> Option<Class> {
    // D1 (dynamic, ends at 1) is D+, D0 is D-.
    let by_head = [
        Zero,
        One,
        Rise,
        Fall,
        Static0,
        Static1,
        DynamicFall,
        DynamicRise,
    ];
    HEADS
        .iter()
        .position(|head| *head == cell)
        .map(|at| by_head[at])
}

/// Row or column of a class in the printed tables.
fn printed_at(class: Class) -> usize {
    match class {
        DynamicFall => 6,
        DynamicRise => 7,
        other => usize::from(other.code()),
    }
}

/// The printed cell for two pins, none where print is lost or wrong.
pub fn printed(operation: Operation, a: Class, b: Class) -> Option<Class> {
    let table = match operation {
        Operation::And => &PRINTED_AND,
        Operation::Or => &PRINTED_OR,
    };
    of_print(table[printed_at(a)][printed_at(b)])
}

/// Two pins by the printed tables; the written rule decides where print fails.
pub fn from_tables(operation: Operation, a: Class, b: Class) -> Class {
    printed(operation, a, b).unwrap_or_else(|| rule(operation, &[a, b]))
}

/// NOT by the printed table, which is whole.
pub fn invert(a: Class) -> Class {
    of_print(PRINTED_NOT[printed_at(a)]).expect("Table 2 is whole")
}

// ---------------------------------------------------------------------------
// Document 01 as written.

/// "NOT exchanges 0/1, R/F, S0/S1, D+/D-."
pub fn rule_not(a: Class) -> Class {
    match a {
        Zero => One,
        One => Zero,
        Rise => Fall,
        Fall => Rise,
        Static0 => Static1,
        Static1 => Static0,
        DynamicRise => DynamicFall,
        DynamicFall => DynamicRise,
    }
}

/// "AND over all pins", sentence by sentence.
pub fn rule_and(pins: &[Class]) -> Class {
    if pins.contains(&Zero) {
        return Zero;
    }
    let start = pins.iter().all(|pin| pin.start());
    let end = pins.iter().all(|pin| pin.end());
    let each = |permitted: &[Class]| pins.iter().all(|pin| permitted.contains(pin));
    match (start, end) {
        (false, false) => Static0,
        (true, true) if each(&[One]) => One,
        (true, true) => Static1,
        (false, true) if each(&[One, Rise]) => Rise,
        (false, true) => DynamicRise,
        (true, false) if each(&[One, Fall]) => Fall,
        (true, false) => DynamicFall,
    }
}

/// "OR is NOT of the AND of the NOTs."
pub fn rule_or(pins: &[Class]) -> Class {
    let inverted: Vec<Class> = pins.iter().map(|pin| rule_not(*pin)).collect();
    rule_not(rule_and(&inverted))
}

/// The written rule over any number of pins.
pub fn rule(operation: Operation, pins: &[Class]) -> Class {
    match operation {
        Operation::And => rule_and(pins),
        Operation::Or => rule_or(pins),
    }
}

#[cfg(test)]
mod tests {
    use super::*;
    use Operation::{And, Or};

    fn unreadable(operation: Operation) -> Vec<(Class, Class)> {
        let mut cells = Vec::new();
        for a in ALL {
            for b in ALL {
                if printed(operation, a, b).is_none() {
                    cells.push((a, b));
                }
            }
        }
        cells
    }

    #[test]
    fn only_the_known_cells_are_unreadable() {
        let lost: Vec<(Class, Class)> = [Rise, Fall, Static0, Static1, DynamicRise, DynamicFall]
            .iter()
            .map(|b| (Static0, *b))
            .collect();
        assert_eq!(unreadable(And), lost);
        assert_eq!(unreadable(Or), vec![(Fall, Fall)]);
    }

    #[test]
    fn print_and_rule_agree() {
        let mut cells = 0;
        for operation in [And, Or] {
            for a in ALL {
                for b in ALL {
                    let by_rule = rule(operation, &[a, b]);
                    if let Some(cell) = printed(operation, a, b) {
                        assert_eq!(cell, by_rule, "{operation:?} {a:?} {b:?}");
                        cells += 1;
                    }
                    assert_eq!(from_tables(operation, a, b), by_rule);
                }
            }
        }
        for a in ALL {
            assert_eq!(invert(a), rule_not(a));
            cells += 1;
        }
        assert_eq!(cells, 136 - 7);
    }

    /// Any number of pins is the fold of two: CORE takes pins one at a time.
    #[test]
    fn rule_is_the_fold_of_two() {
        for operation in [And, Or] {
            for a in ALL {
                assert_eq!(from_tables(operation, operation.unit(), a), a);
                for b in ALL {
                    for c in ALL {
                        let two = from_tables(operation, a, b);
                        assert_eq!(
                            from_tables(operation, two, c),
                            rule(operation, &[a, b, c]),
                            "{operation:?} {a:?} {b:?} {c:?}"
                        );
                    }
                }
            }
        }
    }

    #[test]
    fn cases_of_document_01() {
        assert_eq!(rule_and(&[Rise, Fall]), Static0);
        assert_eq!(rule_or(&[Rise, Fall]), Static1);
        assert_eq!(rule_and(&[Rise, Static1]), DynamicRise);
        assert_eq!(rule_or(&[Fall, Fall]), Fall);
        assert_eq!(rule_and(&[Zero, DynamicFall]), Zero);
        assert_eq!(rule_or(&[One, Static0]), One);
        assert_eq!(rule_not(rule_and(&[Rise, Rise])), Fall);
        assert_eq!(rule_not(rule_or(&[Rise, Fall])), Static0);
        assert_eq!(rule_and(&[Static0, Static0]), Static0);
        assert_eq!(rule_and(&[DynamicRise, DynamicFall]), Static0);
    }

    #[test]
    fn codes_and_ends() {
        for (code, class) in ALL.iter().enumerate() {
            assert_eq!(usize::from(class.code()), code);
            assert_eq!(Class::of_code(class.code()), *class);
            assert_eq!(rule_not(*class).start(), !class.start());
            assert_eq!(rule_not(*class).end(), !class.end());
            let clean = Class::of_ends(class.start(), class.end());
            assert_eq!(clean == *class, class.is_clean());
            assert!(clean.is_clean());
            assert_eq!((clean.start(), clean.end()), (class.start(), class.end()));
        }
    }
}

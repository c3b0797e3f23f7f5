//! Document 01's own cases, as bytes.

use crate::netlist::{Card, Gate, Kind};

/// Case Mux, the netlist.
pub fn mux_netlist() -> Vec<u8> {
    hex(
        "4C 43 4E 01 00 03 00 04 00 01 00 01 01 02 00 03 02 00 00 02 00 \
         03 02 01 00 03 00 04 02 04 00 05 00 06 00",
    )
}

/// Case Mux, the list.
pub fn mux_list() -> Vec<u8> {
    hex("4C 43 54 01 00 0D 20 00 00 01 00 07 03")
}

/// Case Mux, what the program prints.
pub const MUX_PRINTED: &str = "3 inputs 4 gates 1 outputs 1 changes\n0 0 S1 hazard 4 7\n";

/// Mux with an added AND of signals 0 and 1 on a three-pin OR.
pub fn mended_mux() -> Card {
    Card {
        inputs: 3,
        gates: vec![
            Gate::new(Kind::Not, &[2]),
            Gate::new(Kind::And, &[0, 2]),
            Gate::new(Kind::And, &[1, 3]),
            Gate::new(Kind::And, &[0, 1]),
            Gate::new(Kind::Or, &[4, 5, 6]),
        ],
        outputs: vec![7],
    }
}

/// Bytes written as pairs of hexadecimal digits.
pub fn hex(text: &str) -> Vec<u8> {
    text.split_whitespace()
        .map(|pair| u8::from_str_radix(pair, 16).expect("two hexadecimal digits"))
        .collect()
}

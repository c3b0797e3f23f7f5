//! The calls that fill a buffer, each by the library and by the reference.

use crate::{found, right, same_filling, Answer, Difference};
use reference::netlist::Card;

/// A call for one change.
pub type One = fn(&[u8], &[u8], usize, &mut [u8]) -> Answer;

/// A call for every change.
pub type Every = fn(&[u8], &[u8], &mut [u8]) -> Answer;

pub struct Call<Function> {
    pub name: &'static str,
    pub found: Function,
    pub right: Function,
    /// Bytes of a change's row.
    pub width: fn(&Card) -> usize,
}

pub const FULL: Call<One> = Call {
    name: "full",
    found: found::full,
    right: right::full,
    width: Card::signals,
};

pub const FORWARD: Call<One> = Call {
    name: "forward",
    found: found::forward,
    right: right::forward,
    width: outputs,
};

pub const FULL_ALL: Call<Every> = Call {
    name: "full_all",
    found: found::full_all,
    right: right::full_all,
    width: Card::signals,
};

pub const FORWARD_ALL: Call<Every> = Call {
    name: "forward_all",
    found: found::forward_all,
    right: right::forward_all,
    width: outputs,
};

pub const CORE_ALL: Call<Every> = Call {
    name: "core_all",
    found: found::core_all,
    right: right::core_all,
    width: outputs,
};

fn outputs(card: &Card) -> usize {
    card.outputs.len()
}

/// An answer and the buffer, which are the same by both.
pub type Compared = Result<(Answer, Box<[u8]>), Difference>;

impl Call<One> {
    pub fn compare(&self, n: &[u8], l: &[u8], change: usize, length: usize) -> Compared {
        same_filling(
            &format!("{} change {change}", self.name),
            length,
            |buffer| (self.found)(n, l, change, buffer),
            |buffer| (self.right)(n, l, change, buffer),
        )
    }
}

impl Call<Every> {
    pub fn compare(&self, n: &[u8], l: &[u8], length: usize) -> Compared {
        same_filling(
            self.name,
            length,
            |buffer| (self.found)(n, l, buffer),
            |buffer| (self.right)(n, l, buffer),
        )
    }
}

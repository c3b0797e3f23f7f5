//! The library's answers, each with the stack that a caller must have.

use crate::{stack, Answer, Step};
use lanecard::Values;

pub fn join(operation: u8, a: u8, b: u8) -> u8 {
    stack::within(|| lanecard::join(operation, a, b))
}

pub fn invert(a: u8) -> u8 {
    stack::within(|| lanecard::invert(a))
}

/// Calls with room for five values, filled so that a missing write shows, and
/// on the heap so that valgrind sees one past them.
fn answer(call: impl FnOnce(&mut Values) -> u32 + Send) -> Answer {
    let mut values = Box::new([u64::MAX; 5]);
    let number = stack::within(|| call(&mut values));
    (number, *values)
}

pub fn netlist(n: &[u8]) -> Answer {
    answer(|values| lanecard::netlist(n, values))
}

pub fn list(n: &[u8], l: &[u8]) -> Answer {
    answer(|values| lanecard::list(n, l, values))
}

pub fn full(n: &[u8], l: &[u8], change: usize, buffer: &mut [u8]) -> Answer {
    answer(|values| lanecard::full(n, l, change, buffer, values))
}

pub fn forward(n: &[u8], l: &[u8], change: usize, buffer: &mut [u8]) -> Answer {
    answer(|values| lanecard::forward(n, l, change, buffer, values))
}

pub fn core(n: &[u8], l: &[u8], change: usize, output: usize) -> Answer {
    answer(|values| lanecard::core(n, l, change, output, values))
}

pub fn full_all(n: &[u8], l: &[u8], buffer: &mut [u8]) -> Answer {
    answer(|values| lanecard::full_all(n, l, buffer, values))
}

pub fn forward_all(n: &[u8], l: &[u8], buffer: &mut [u8]) -> Answer {
    answer(|values| lanecard::forward_all(n, l, buffer, values))
}

pub fn core_all(n: &[u8], l: &[u8], buffer: &mut [u8]) -> Answer {
    answer(|values| lanecard::core_all(n, l, buffer, values))
}

pub fn walk(n: &[u8]) -> Answer {
    answer(|values| lanecard::walk(n, values))
}

/// The part is the netlist's bytes from the place on, as many as the answer says.
pub fn step(n: &[u8], number: usize, place: usize, count: usize) -> Step<'_> {
    let answer = answer(|values| lanecard::step(n, number, place, count, values));
    let part = match answer.1[0] {
        0 => None,
        length => n.get(place..).and_then(|rest| rest.get(..length as usize)),
    };
    (answer, part)
}

//! The reference's answers in the library's form.

use crate::{Answer, Step};
use lanecard::Values;
use reference::classes::{rule, rule_not, Class, Operation};
use reference::core::Verdict;
use reference::netlist::{Card, Refused};
use reference::walk::Walk;
use reference::{changes, forward, full, netlist};

pub fn join(operation: u8, a: Class, b: Class) -> u8 {
    let operation = match operation {
        0 => Operation::And,
        _ => Operation::Or,
    };
    rule(operation, &[a, b]).code()
}

pub fn invert(a: Class) -> u8 {
    rule_not(a).code()
}

fn answer(result: Result<Values, Refused>) -> Answer {
    match result {
        Ok(values) => (0, values),
        Err(refused) => (refused.number, [refused.place, 0, 0, 0, 0]),
    }
}

pub fn netlist(n: &[u8]) -> Answer {
    answer(netlist::check(n).map(|a| [a.inputs, a.gates, a.outputs, a.pins, a.entries_at]))
}

pub fn list(n: &[u8], l: &[u8]) -> Answer {
    answer(changes::check(n, l).map(|a| [a.changes, a.vector, a.declared, 0, 0]))
}

pub fn full(n: &[u8], l: &[u8], change: usize, buffer: &mut [u8]) -> Answer {
    answer(full::simulate(n, l, change, buffer).map(|()| [0; 5]))
}

pub fn forward(n: &[u8], l: &[u8], change: usize, buffer: &mut [u8]) -> Answer {
    answer(forward::forward(n, l, change, buffer).map(|c| [c.touched, c.visited, 0, 0, 0]))
}

pub fn core_values(answer: reference::core::Answer) -> Values {
    let (verdict, code) = match answer.verdict {
        Verdict::Clean(class) => (0, class.code()),
        Verdict::Hazardous => (1, 0),
    };
    [verdict, u64::from(code), answer.gates, answer.pins, 0]
}

pub fn core(n: &[u8], l: &[u8], change: usize, output: usize) -> Answer {
    answer(reference::core::core(n, l, change, output).map(core_values))
}

// ---------------------------------------------------------------------------
// Every change of a list, by single calls.

/// The list's refusals, then 20; else row after row, their number and width,
/// and the sums of their two counts.
fn rows(
    n: &[u8],
    l: &[u8],
    width: fn(&Card) -> usize,
    buffer: &mut [u8],
    fill: impl Fn(usize, &mut [u8]) -> Result<[u64; 2], Refused>,
) -> Result<Values, Refused> {
    let job = changes::decode(n, l)?;
    let (count, width) = (job.list.changes.len(), width(&job.card));
    if buffer.len() < count * width {
        return netlist::refused(20, 0);
    }
    let mut values = [count as u64, width as u64, 0, 0, 0];
    for (change, row) in buffer.chunks_exact_mut(width).take(count).enumerate() {
        let counts = fill(change, row)?;
        values[2] += counts[0];
        values[3] += counts[1];
    }
    Ok(values)
}

fn outputs(card: &Card) -> usize {
    card.outputs.len()
}

pub fn full_all(n: &[u8], l: &[u8], buffer: &mut [u8]) -> Answer {
    answer(rows(n, l, Card::signals, buffer, |change, row| {
        full::simulate(n, l, change, row)?;
        Ok([0, 0])
    }))
}

pub fn forward_all(n: &[u8], l: &[u8], buffer: &mut [u8]) -> Answer {
    answer(rows(n, l, outputs, buffer, |change, row| {
        let counts = forward::forward(n, l, change, row)?;
        Ok([counts.touched, counts.visited])
    }))
}

pub fn core_all(n: &[u8], l: &[u8], buffer: &mut [u8]) -> Answer {
    answer(rows(n, l, outputs, buffer, |change, row| {
        let mut sums = [0, 0];
        for (output, byte) in row.iter_mut().enumerate() {
            let found = reference::core::core(n, l, change, output)?;
            *byte = u8::from(found.verdict == Verdict::Hazardous);
            sums[0] += found.gates;
            sums[1] += found.pins;
        }
        Ok(sums)
    }))
}

// ---------------------------------------------------------------------------
// The gate walk.

fn values(first: usize, second: usize, third: usize) -> Values {
    [first as u64, second as u64, third as u64, 0, 0]
}

pub fn walk(n: &[u8]) -> Answer {
    answer(Walk::open(n).map(|walk| values(walk.number, walk.place, walk.gates)))
}

pub fn step(n: &[u8], number: usize, place: usize, count: usize) -> Step<'_> {
    let mut walk = Walk {
        netlist: n,
        number,
        place,
        gates: count,
    };
    let part = walk.step();
    let length = part.map_or(0, <[u8]>::len);
    ((0, values(length, walk.number, walk.place)), part)
}

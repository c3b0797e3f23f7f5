//! The same calls in safe Rust, tuned: tables, no allocation, one pass for the
//! check that also notes where records stand.

use crate::plain::{check_head, fill_rows, List, Sums};
use crate::tables::{
    CONSTANT, COUNTS, FLAVOUR, GATE, IMAGE, JOIN, LANES, NO_WAITING, POSSIBLE, WANTED,
};

pub type Refused = (u32, usize);

const MAX_GATES: usize = 2048;
const MAX_SIGNALS: usize = 256 + MAX_GATES;

/// An accepted netlist: counts and the places of its records.
pub struct Index {
    pub inputs: usize,
    pub gates: usize,
    pub outputs: usize,
    pub pins: usize,
    pub entries_at: usize,
    places: [u16; MAX_GATES],
}

fn word(bytes: &[u8], at: usize) -> usize {
    match bytes.get(at..at + 2) {
        Some(pair) => usize::from(u16::from_le_bytes([pair[0], pair[1]])),
        None => 0,
    }
}

fn head(netlist: &[u8]) -> Result<(usize, usize, usize), Refused> {
    if netlist.len() < 11 {
        return Err((1, netlist.len()));
    }
    if &netlist[..3] != b"LCN" {
        return Err((2, 0));
    }
    if word(netlist, 3) != 1 {
        return Err((3, 3));
    }
    let (inputs, gates, outputs) = (word(netlist, 5), word(netlist, 7), word(netlist, 9));
    if inputs.wrapping_sub(1) >= 256 {
        return Err((4, 5));
    }
    if gates > MAX_GATES {
        return Err((4, 7));
    }
    if outputs.wrapping_sub(1) >= 64 {
        return Err((4, 9));
    }
    Ok((inputs, gates, outputs))
}

/// First of the 16-bit entries that is not below the bound.
fn first_bad(entries: &[u8], bound: usize) -> Option<usize> {
    let bad = |pair: &[u8]| usize::from(u16::from_le_bytes([pair[0], pair[1]])) >= bound;
    entries.chunks_exact(2).position(bad)
}

/// Are the first `count` of eight entries below the bound? All lanes at once,
/// without a branch on the count.
#[inline(always)]
fn below(lanes: &[u8; 16], count: usize, bound: usize) -> bool {
    let (mut over, most) = (0, bound as u16 - 1);
    let used = &LANES[count & 15];
    for lane in 0..8 {
        let entry = u16::from_le_bytes([lanes[2 * lane], lanes[2 * lane + 1]]);
        over |= entry.saturating_sub(most) & used[lane];
    }
    over == 0
}

/// The refusal of the record at a place; it has one, or it is accepted.
#[cold]
fn judge_record(netlist: &[u8], at: usize, signal: usize) -> Result<usize, Refused> {
    let [kind, count, tail @ ..] = &netlist[at..] else {
        return Err((5, at));
    };
    let counts = COUNTS[usize::from(*kind)];
    let count = usize::from(*count);
    if counts == 0 {
        return Err((6, at));
    }
    if count > 8 || counts >> count & 1 == 0 {
        return Err((7, at + 1));
    }
    if tail.len() < 2 * count {
        return Err((5, at));
    }
    match first_bad(&tail[..2 * count], signal) {
        Some(bad) => Err((8, at + 2 + 2 * bad)),
        None => Ok(count),
    }
}

/// Pin count of the record at a place: the fast way where eight pins would
/// have room and nothing is wrong.
#[inline(always)]
fn record(netlist: &[u8], at: usize, signal: usize) -> Result<usize, Refused> {
    if let Some(([kind, count, ..], _)) = netlist[at..].split_first_chunk::<18>() {
        let lanes = netlist[at + 2..].first_chunk::<16>();
        let fits = *count < 16 && COUNTS[usize::from(*kind)] >> (*count & 15) & 1 != 0;
        if let (Some(lanes), true) = (lanes, fits) {
            if below(lanes, usize::from(*count), signal) {
                return Ok(usize::from(*count));
            }
        }
    }
    judge_record(netlist, at, signal)
}

/// Checks a netlist and notes the places of its records.
pub fn check_netlist(netlist: &[u8], index: &mut Index) -> Result<(), Refused> {
    let (inputs, gates, outputs) = head(netlist)?;
    let (mut at, mut pins) = (11, 0);
    for (number, place) in index.places[..gates].iter_mut().enumerate() {
        let count = record(netlist, at, inputs + number)?;
        *place = at as u16;
        pins += count;
        at += 2 + 2 * count;
    }
    let rest = &netlist[at..];
    if rest.len() < 2 * outputs {
        return Err((5, at));
    }
    if let Some(bad) = first_bad(&rest[..2 * outputs], inputs + gates) {
        return Err((9, at + 2 * bad));
    }
    if rest.len() > 2 * outputs {
        return Err((10, at + 2 * outputs));
    }
    index.inputs = inputs;
    index.gates = gates;
    index.outputs = outputs;
    index.pins = pins;
    index.entries_at = at;
    Ok(())
}

/// The tie in 16 columns that do not wait for each other. Over m blocks a
/// column's second sum counts a byte once for each block from its own on;
/// the byte's weight is 16 times that, less its column number.
pub fn tie(netlist: &[u8]) -> u32 {
    let (mut sums, mut seconds) = ([0u32; 16], [0u32; 16]);
    let mut blocks = netlist.chunks_exact(16);
    for block in &mut blocks {
        for column in 0..16 {
            sums[column] = sums[column].wrapping_add(u32::from(block[column]));
            seconds[column] = seconds[column].wrapping_add(sums[column]);
        }
    }
    let (mut a, mut b) = (0u32, 0u32);
    for column in 0..16 {
        a = a.wrapping_add(sums[column]);
        b = b
            .wrapping_add(seconds[column].wrapping_mul(16))
            .wrapping_sub(sums[column].wrapping_mul(column as u32));
    }
    for byte in blocks.remainder() {
        a = a.wrapping_add(u32::from(*byte));
        b = b.wrapping_add(a);
    }
    b
}

/// The first byte with a spare bit, of the rows of bits that stand in equal
/// steps: every step's byte at this offset.
fn first_spare(list: &[u8], step: usize, offset: usize, bits: usize) -> Option<usize> {
    if bits.is_multiple_of(8) {
        return None;
    }
    let spare = 0xFFu8 << (bits % 8);
    let mut steps = list[11..].chunks_exact(step);
    let bad = steps.position(|bytes| bytes[offset] & spare != 0)?;
    Some(11 + bad * step + offset)
}

/// The first byte with a spare bit. In version 1 all rows are vectors.
fn spare_place(list: &List, index: &Index) -> Option<usize> {
    let (vector, row) = (list.vector, list.row);
    if row == 0 {
        return first_spare(list.bytes, vector, vector - 1, index.inputs);
    }
    let ends = [
        (vector, index.inputs),
        (2 * vector, index.inputs),
        (2 * vector + row, index.outputs),
        (2 * vector + 2 * row, index.outputs),
    ];
    let step = 2 * (vector + row);
    ends.into_iter()
        .filter_map(|(end, bits)| first_spare(list.bytes, step, end - 1, bits))
        .min()
}

/// Checks a netlist and its list.
pub fn check_list<'a>(
    netlist: &[u8],
    list: &'a [u8],
    index: &mut Index,
) -> Result<List<'a>, Refused> {
    check_netlist(netlist, index)?;
    let list = check_head(list, index.inputs, index.outputs, || tie(netlist))?;
    match spare_place(&list, index) {
        Some(place) => Err((17, place)),
        None => Ok(list),
    }
}

pub fn new_index() -> Index {
    Index {
        inputs: 0,
        gates: 0,
        outputs: 0,
        pins: 0,
        entries_at: 0,
        places: [0; MAX_GATES],
    }
}

/// Input classes of a change: each pair of bits is a code.
fn fill_inputs(list: &List, change: usize, classes: &mut [u8]) {
    let vectors = &list.bytes[list.place(change)..];
    let (first, second) = vectors[..2 * list.vector].split_at(list.vector);
    for (eight, (a, b)) in classes.chunks_mut(8).zip(first.iter().zip(second)) {
        for (bit, class) in eight.iter_mut().enumerate() {
            // 00, 11, 01, 10 by first and second bit.
            const CODE: [u8; 4] = [0, 2, 3, 1];
            *class = CODE[usize::from((a >> bit & 1) << 1 | (b >> bit & 1))];
        }
    }
}

/// The union of the pins' sets of a record, given as the netlist from the
/// record on: four pins at a time without a branch on the count.
#[inline(always)]
fn pin_set(record: &[u8], count: usize, sets: &[u8]) -> u8 {
    let Some(lanes) = record.get(2..18) else {
        return pin_set_slowly(&record[2..2 + 2 * count], sets);
    };
    let used = &LANES[count & 15];
    let set = |lane: usize| {
        let pin = u16::from_le_bytes([lanes[2 * lane], lanes[2 * lane + 1]]) & used[lane];
        sets[usize::from(pin)] & used[lane] as u8
    };
    let mut union = set(0) | set(1) | set(2) | set(3);
    if count > 4 {
        union |= set(4) | set(5) | set(6) | set(7);
    }
    union
}

/// The same for the last records, behind which eight pins have no room.
#[cold]
fn pin_set_slowly(pins: &[u8], sets: &[u8]) -> u8 {
    pins.chunks_exact(2).fold(0, |set, pair| {
        set | sets[usize::from(u16::from_le_bytes([pair[0], pair[1]]))]
    })
}

/// Full simulation of a card that was checked before, into the first I + G
/// bytes: first with each class as the set of it alone, then back to codes.
pub fn full_once(netlist: &[u8], list: &List, change: usize, buffer: &mut [u8], index: &Index) {
    let sets = &mut buffer[..index.inputs + index.gates];
    fill_inputs(list, change, &mut sets[..index.inputs]);
    for set in &mut sets[..index.inputs] {
        *set = 1 << (*set & 7);
    }
    let mut at = 11;
    for signal in index.inputs..sets.len() {
        let record = &netlist[at..];
        let count = usize::from(record[1]);
        let set = pin_set(record, count, sets);
        let flavour = usize::from(FLAVOUR[usize::from(record[0])] & 3);
        sets[signal] = GATE[flavour][usize::from(set)];
        at += 2 + 2 * count;
    }
    for set in sets {
        let bit = |mask: u8, weight: u8| if *set & mask != 0 { weight } else { 0 };
        *set = bit(0xAA, 1) | bit(0xCC, 2) | bit(0xF0, 4);
    }
}

pub fn full(
    netlist: &[u8],
    list: &[u8],
    change: usize,
    buffer: &mut [u8],
    index: &mut Index,
) -> Result<(), Refused> {
    let list = check_list(netlist, list, index)?;
    if change >= list.changes {
        return Err((18, 0));
    }
    if buffer.len() < index.inputs + index.gates {
        return Err((20, 0));
    }
    full_once(netlist, &list, change, buffer, index);
    Ok(())
}

/// Full simulation of every change, which counts nothing.
pub fn full_all(
    netlist: &[u8],
    list: &[u8],
    buffer: &mut [u8],
    index: &mut Index,
) -> Result<Sums, Refused> {
    let list = check_list(netlist, list, index)?;
    let width = index.inputs + index.gates;
    fill_rows(buffer, list.changes, width, |change, row| {
        full_once(netlist, &list, change, row, index);
        (0, 0)
    })
}

// ---------------------------------------------------------------------------
// CORE. A cell is 0 (never visited), KNOWN + class, or VISITED + 8 * next + p.

const KNOWN: u8 = 0x40;
const VISITED: u8 = 0x80;

/// A visit's end: a class below 8, 8 + result, or this.
pub const HAZARD: u8 = 0xFF;

struct Search<'a> {
    netlist: &'a [u8],
    places: &'a [u16; MAX_GATES],
    inputs: usize,
    cells: &'a mut [u8; MAX_SIGNALS],
    gates: usize,
    pins: usize,
}

impl Search<'_> {
    fn visit(&mut self, signal: usize, wanted: u8, waiting: usize) -> u8 {
        let record = &self.netlist[usize::from(self.places[signal - self.inputs])..];
        let flavour = usize::from(FLAVOUR[usize::from(record[0])] & 3);
        let or = 8 * (flavour / 2);
        let pins = &record[2..2 + 2 * usize::from(record[1])];
        let cell = self.cells[signal];
        let (mut p, mut next) = (usize::from(cell & 7), usize::from(cell >> 3 & 7));
        if cell == 0 {
            self.gates += 1;
            p = 1 - flavour / 2;
            next = 0;
        }
        loop {
            let left = 2 * next < pins.len();
            let possible = POSSIBLE[flavour][usize::from(left)][p];
            if possible & wanted == 0 {
                return HAZARD;
            }
            if possible.is_power_of_two() {
                let class = possible.trailing_zeros() as u8;
                self.cells[signal] = KNOWN | class;
                return class;
            }
            let image = IMAGE[waiting][usize::from(possible)];
            if image.is_power_of_two() {
                self.cells[signal] = VISITED | (next as u8) << 3 | p as u8;
                return 8 + image.trailing_zeros() as u8;
            }
            let pin = word(pins, 2 * next);
            next += 1;
            self.pins += 1;
            let told = self.cells[pin];
            let row = (or | p) & 15;
            let given = if told & KNOWN != 0 {
                told & 7
            } else {
                let left_after = usize::from(2 * next < pins.len());
                let behind = WANTED[flavour][left_after][p][usize::from(wanted)];
                self.visit(pin, behind, row)
            };
            if given < 8 {
                p = usize::from(JOIN[row][usize::from(given)]);
            } else if given == HAZARD {
                return HAZARD;
            } else {
                p = usize::from(given & 7);
            }
        }
    }

    /// Class code of a clean signal, or HAZARD.
    fn answer(&mut self, signal: usize, wanted: u8) -> u8 {
        let told = self.cells[signal];
        if told & KNOWN == 0 {
            return self.visit(signal, wanted, NO_WAITING);
        }
        match wanted >> (told & 7) & 1 {
            0 => HAZARD,
            _ => told & 7,
        }
    }
}

/// Verdict (class or 255), gates and pins.
pub type CoreAnswer = (u8, usize, usize);

fn search(
    netlist: &[u8],
    index: &Index,
    cells: &mut [u8; MAX_SIGNALS],
    signal: usize,
    wanted: u8,
) -> CoreAnswer {
    let mut search = Search {
        netlist,
        places: &index.places,
        inputs: index.inputs,
        cells,
        gates: 0,
        pins: 0,
    };
    let verdict = search.answer(signal, wanted);
    (verdict, search.gates, search.pins)
}

pub fn output_signal(netlist: &[u8], index: &Index, output: usize) -> usize {
    word(netlist, index.entries_at + 2 * output)
}

/// Makes the inputs known.
fn know_inputs(list: &List, change: usize, index: &Index, cells: &mut [u8; MAX_SIGNALS]) {
    let inputs = &mut cells[..index.inputs];
    fill_inputs(list, change, inputs);
    for cell in inputs {
        *cell |= KNOWN;
    }
}

/// CORE on a card that was checked before.
pub fn core_once(
    netlist: &[u8],
    list: &List,
    change: usize,
    output: usize,
    index: &Index,
) -> CoreAnswer {
    let mut cells = [0; MAX_SIGNALS];
    know_inputs(list, change, index, &mut cells);
    let signal = output_signal(netlist, index, output);
    let wanted = list.wanted(change, output);
    search(netlist, index, &mut cells, signal, wanted)
}

pub fn core(
    netlist: &[u8],
    list: &[u8],
    change: usize,
    output: usize,
    index: &mut Index,
) -> Result<CoreAnswer, Refused> {
    let list = check_list(netlist, list, index)?;
    if change >= list.changes {
        return Err((18, 0));
    }
    if output >= index.outputs {
        return Err((19, 0));
    }
    Ok(core_once(netlist, &list, change, output, index))
}

/// Writes each output's verdict, searched from a copy of the cells with its
/// wanted set; the sums of gates and pins.
fn search_outputs(
    netlist: &[u8],
    index: &Index,
    start: &[u8; MAX_SIGNALS],
    wanted: impl Fn(usize) -> u8,
    row: &mut [u8],
) -> (usize, usize) {
    let of_gates = index.inputs..index.inputs + index.gates;
    let mut cells = *start;
    let mut sums = (0, 0);
    for (output, byte) in row.iter_mut().enumerate() {
        let signal = output_signal(netlist, index, output);
        let (verdict, gates, pins) = search(netlist, index, &mut cells, signal, wanted(output));
        if gates > 0 {
            cells[of_gates.clone()].copy_from_slice(&start[of_gates.clone()]);
        }
        *byte = u8::from(verdict == HAZARD);
        sums = (sums.0 + gates, sums.1 + pins);
    }
    sums
}

/// CORE for every change and output: gates and pins.
pub fn core_all(
    netlist: &[u8],
    list: &[u8],
    buffer: &mut [u8],
    index: &mut Index,
) -> Result<Sums, Refused> {
    let list = check_list(netlist, list, index)?;
    let mut start = [0; MAX_SIGNALS];
    fill_rows(buffer, list.changes, index.outputs, |change, row| {
        know_inputs(&list, change, index, &mut start);
        let wanted = |output| list.wanted(change, output);
        search_outputs(netlist, index, &start, wanted, row)
    })
}

// ---------------------------------------------------------------------------
// The forward method.

/// Cells with inputs and constant gates known; the touched count.
fn spread(
    netlist: &[u8],
    list: &List,
    change: usize,
    index: &Index,
    cells: &mut [u8; MAX_SIGNALS],
) -> usize {
    let mut constants = [4u8; MAX_SIGNALS];
    fill_inputs(list, change, &mut cells[..index.inputs]);
    for (cell, constant) in cells[..index.inputs].iter_mut().zip(&mut constants) {
        *constant = 1 << (*cell).min(2);
        *cell |= KNOWN;
    }
    let mut touched = 0;
    let mut at = 11;
    for signal in index.inputs..index.inputs + index.gates {
        let record = &netlist[at..];
        let count = usize::from(record[1]);
        let set = usize::from(pin_set(record, count, &constants));
        touched += usize::from(set & 3 != 0);
        let flavour = usize::from(FLAVOUR[usize::from(record[0])] & 3);
        let constant = CONSTANT[flavour][set & 7];
        constants[signal] = constant;
        cells[signal] = if constant < 4 {
            KNOWN | constant >> 1
        } else {
            0
        };
        at += 2 + 2 * count;
    }
    touched
}

/// The forward method on a card that was checked before: touched, visited.
fn forward_once(
    netlist: &[u8],
    list: &List,
    change: usize,
    buffer: &mut [u8],
    index: &Index,
) -> (usize, usize) {
    let mut start = [0; MAX_SIGNALS];
    let touched = spread(netlist, list, change, index, &mut start);
    let row = &mut buffer[..index.outputs];
    let wanted = |output| list.wanted(change, output);
    let (visited, _) = search_outputs(netlist, index, &start, wanted, row);
    (touched, visited)
}

pub fn forward(
    netlist: &[u8],
    list: &[u8],
    change: usize,
    buffer: &mut [u8],
    index: &mut Index,
) -> Result<(usize, usize), Refused> {
    let list = check_list(netlist, list, index)?;
    if change >= list.changes {
        return Err((18, 0));
    }
    if buffer.len() < index.outputs {
        return Err((20, 0));
    }
    Ok(forward_once(netlist, &list, change, buffer, index))
}

/// The forward method for every change: touched and visited.
pub fn forward_all(
    netlist: &[u8],
    list: &[u8],
    buffer: &mut [u8],
    index: &mut Index,
) -> Result<Sums, Refused> {
    let list = check_list(netlist, list, index)?;
    fill_rows(buffer, list.changes, index.outputs, |change, row| {
        forward_once(netlist, &list, change, row, index)
    })
}

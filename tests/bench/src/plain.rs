//! The same calls in plain safe Rust: loops over the bytes as the documents have
//! them, a table for the join of two classes and one for the images of sets.
//! No tricks with words or columns, no table made for speed alone.

use crate::tables::{IMAGE, JOIN};

pub type Refused = (u32, usize);

/// An accepted netlist.
pub struct Card {
    pub inputs: usize,
    pub gates: usize,
    pub outputs: usize,
    /// P, a part of the check's answer that no later call asks for.
    #[cfg_attr(not(test), allow(dead_code))]
    pub pins: usize,
    pub entries_at: usize,
}

fn word(bytes: &[u8], at: usize) -> usize {
    usize::from(u16::from_le_bytes([bytes[at], bytes[at + 1]]))
}

fn pin_limits(kind: u8) -> Option<(usize, usize)> {
    match kind {
        1 | 2 => Some((1, 1)),
        3..=6 => Some((2, 8)),
        _ => None,
    }
}

/// The first of the entries from a place on that is not below the bound.
fn first_bad(bytes: &[u8], from: usize, count: usize, bound: usize) -> Option<usize> {
    (0..count)
        .map(|entry| from + 2 * entry)
        .find(|at| word(bytes, *at) >= bound)
}

/// Pin count of the record at a place.
fn check_record(netlist: &[u8], at: usize, signal: usize) -> Result<usize, Refused> {
    if netlist.len() - at < 2 {
        return Err((5, at));
    }
    let Some((least, most)) = pin_limits(netlist[at]) else {
        return Err((6, at));
    };
    let count = usize::from(netlist[at + 1]);
    if count < least || count > most {
        return Err((7, at + 1));
    }
    if netlist.len() - at < 2 + 2 * count {
        return Err((5, at));
    }
    match first_bad(netlist, at + 2, count, signal) {
        Some(bad) => Err((8, bad)),
        None => Ok(count),
    }
}

pub fn check_netlist(netlist: &[u8]) -> Result<Card, Refused> {
    if netlist.len() < 11 {
        return Err((1, netlist.len()));
    }
    if &netlist[..3] != b"LCN" {
        return Err((2, 0));
    }
    if word(netlist, 3) != 1 {
        return Err((3, 3));
    }
    let (inputs, gates, outputs) = (word(netlist, 5), word(netlist, 7), word(netlist, 9));
    if !(1..=256).contains(&inputs) {
        return Err((4, 5));
    }
    if gates > 2048 {
        return Err((4, 7));
    }
    if !(1..=64).contains(&outputs) {
        return Err((4, 9));
    }
    let (mut at, mut pins) = (11, 0);
    for gate in 0..gates {
        let count = check_record(netlist, at, inputs + gate)?;
        pins += count;
        at += 2 + 2 * count;
    }
    if netlist.len() - at < 2 * outputs {
        return Err((5, at));
    }
    if let Some(bad) = first_bad(netlist, at, outputs, inputs + gates) {
        return Err((9, bad));
    }
    if netlist.len() > at + 2 * outputs {
        return Err((10, at + 2 * outputs));
    }
    Ok(Card {
        inputs,
        gates,
        outputs,
        pins,
        entries_at: at,
    })
}

fn tie(netlist: &[u8]) -> u32 {
    let (mut a, mut b) = (0u32, 0u32);
    for byte in netlist {
        a = a.wrapping_add(u32::from(*byte));
        b = b.wrapping_add(a);
    }
    b
}

/// An accepted list.
#[derive(Clone, Copy)]
pub struct List<'a> {
    pub bytes: &'a [u8],
    pub changes: usize,
    /// Bytes of a vector.
    pub vector: usize,
    /// Bytes of each row of declared ends: 0 in version 1, which has none.
    pub row: usize,
}

impl List<'_> {
    fn change_bytes(&self) -> usize {
        2 * (self.vector + self.row)
    }

    /// Place of a change's first vector.
    pub fn place(&self, change: usize) -> usize {
        11 + change * self.change_bytes()
    }

    /// The clean class whose ends are bits of two rows one after the other.
    fn class(&self, at: usize, width: usize, number: usize) -> u8 {
        let at = at + number / 8;
        let first = self.bytes[at] >> (number % 8) & 1;
        let second = self.bytes[at + width] >> (number % 8) & 1;
        match (first, second) {
            (0, 0) => 0,
            (0, _) => 2,
            (_, 0) => 3,
            _ => 1,
        }
    }

    fn input_class(&self, change: usize, input: usize) -> u8 {
        self.class(self.place(change), self.vector, input)
    }

    /// The wanted set of an output: the clean classes, or the declared one alone.
    pub fn wanted(&self, change: usize, output: usize) -> u8 {
        match self.row {
            0 => 0x0F,
            width => 1 << self.class(self.place(change) + 2 * self.vector, width, output),
        }
    }
}

/// Checks a list's head and length.
pub fn check_head(
    list: &[u8],
    inputs: usize,
    outputs: usize,
    tie: impl FnOnce() -> u32,
) -> Result<List<'_>, Refused> {
    if list.len() < 11 {
        return Err((11, list.len()));
    }
    if &list[..3] != b"LCT" {
        return Err((12, 0));
    }
    let (most, row) = match word(list, 3) {
        1 => (1000, 0),
        2 => (800, outputs.div_ceil(8)),
        _ => return Err((13, 3)),
    };
    if list[5..9] != tie().to_le_bytes() {
        return Err((14, 5));
    }
    let checked = List {
        bytes: list,
        changes: word(list, 9),
        vector: inputs.div_ceil(8),
        row,
    };
    if checked.changes > most {
        return Err((15, 9));
    }
    match list.len() == checked.place(checked.changes) {
        true => Ok(checked),
        false => Err((16, list.len())),
    }
}

/// The first byte with a spare bit.
fn spare_place(list: &List, card: &Card) -> Option<usize> {
    let vector = (list.vector, card.inputs % 8);
    let row = (list.row, card.outputs % 8);
    let rows = match list.row {
        0 => &[vector, vector][..],
        _ => &[vector, vector, row, row][..],
    };
    let mut at = 11;
    for _ in 0..list.changes {
        for (width, used) in rows {
            at += width;
            if *used != 0 && list.bytes[at - 1] >> used != 0 {
                return Some(at - 1);
            }
        }
    }
    None
}

/// Checks a netlist and its list.
pub fn check_list<'a>(netlist: &[u8], list: &'a [u8]) -> Result<(Card, List<'a>), Refused> {
    let card = check_netlist(netlist)?;
    let list = check_head(list, card.inputs, card.outputs, || tie(netlist))?;
    match spare_place(&list, &card) {
        Some(place) => Err((17, place)),
        None => Ok((card, list)),
    }
}

/// The list's refusals, then 18.
fn open<'a>(netlist: &[u8], list: &'a [u8], change: usize) -> Result<(Card, List<'a>), Refused> {
    let (card, list) = check_list(netlist, list)?;
    match change < list.changes {
        true => Ok((card, list)),
        false => Err((18, 0)),
    }
}

/// Two counts, summed over all changes.
pub type Sums = (usize, usize);

/// Fills the row of every change, or 20.
pub fn fill_rows(
    buffer: &mut [u8],
    changes: usize,
    width: usize,
    mut fill: impl FnMut(usize, &mut [u8]) -> Sums,
) -> Result<Sums, Refused> {
    if buffer.len() < changes * width {
        return Err((20, 0));
    }
    let mut sums = (0, 0);
    let rows = buffer.chunks_exact_mut(width).take(changes);
    for (change, row) in rows.enumerate() {
        let counts = fill(change, row);
        sums = (sums.0 + counts.0, sums.1 + counts.1);
    }
    Ok(sums)
}

fn is_or(kind: u8) -> bool {
    kind == 4 || kind == 6
}

fn inverts(kind: u8) -> bool {
    kind == 1 || kind == 5 || kind == 6
}

/// The row of p in the tables of joins and images.
fn row(kind: u8, p: u8) -> usize {
    usize::from(p) + if is_or(kind) { 8 } else { 0 }
}

fn join(kind: u8, p: u8, class: u8) -> u8 {
    JOIN[row(kind, p)][usize::from(class)]
}

/// `1` for AND-like kinds, `0` for OR and NOR.
fn unit(kind: u8) -> u8 {
    u8::from(!is_or(kind))
}

// ---------------------------------------------------------------------------
// Full simulation.

/// Full simulation of a card that was checked before.
pub fn full_once(netlist: &[u8], list: &List, card: &Card, change: usize, buffer: &mut [u8]) {
    for (input, class) in buffer[..card.inputs].iter_mut().enumerate() {
        *class = list.input_class(change, input);
    }
    let mut at = 11;
    for gate in 0..card.gates {
        let kind = netlist[at];
        let count = usize::from(netlist[at + 1]);
        let mut p = unit(kind);
        for pin in 0..count {
            p = join(kind, p, buffer[word(netlist, at + 2 + 2 * pin)]);
        }
        buffer[card.inputs + gate] = if inverts(kind) { p ^ 1 } else { p };
        at += 2 + 2 * count;
    }
}

pub fn full(netlist: &[u8], list: &[u8], change: usize, buffer: &mut [u8]) -> Result<(), Refused> {
    let (card, list) = open(netlist, list, change)?;
    if buffer.len() < card.inputs + card.gates {
        return Err((20, 0));
    }
    full_once(netlist, &list, &card, change, buffer);
    Ok(())
}

/// Full simulation of every change, which counts nothing.
pub fn full_all(netlist: &[u8], list: &[u8], buffer: &mut [u8]) -> Result<Sums, Refused> {
    let (card, list) = check_list(netlist, list)?;
    let width = card.inputs + card.gates;
    fill_rows(buffer, list.changes, width, |change, row| {
        full_once(netlist, &list, &card, change, row);
        (0, 0)
    })
}

// ---------------------------------------------------------------------------
// CORE.

/// What a signal's class is known to be, or how far its gate has come.
#[derive(Clone, Copy)]
enum Cell {
    Known(u8),
    New,
    Unfinished { p: u8, next: u8 },
}

/// How a visit ends.
enum End {
    Hazardous,
    Known(u8),
    Unfinished(u8),
}

/// The set of the inverted members: codes 2k and 2k + 1 change places.
fn invert_set(set: u8) -> u8 {
    (set & 0x55) << 1 | (set & 0xAA) >> 1
}

fn possible(kind: u8, p: u8, left: bool) -> u8 {
    let set = match left {
        true => IMAGE[row(kind, p)][0xFF],
        false => 1 << p,
    };
    if inverts(kind) {
        invert_set(set)
    } else {
        set
    }
}

fn wanted_behind(kind: u8, p: u8, left_after: bool, wanted: u8) -> u8 {
    let mut set = 0;
    for class in 0..8 {
        if possible(kind, join(kind, p, class), left_after) & wanted != 0 {
            set |= 1 << class;
        }
    }
    set
}

struct Search<'a> {
    netlist: &'a [u8],
    inputs: usize,
    places: &'a [usize],
    cells: &'a mut [Cell],
    gates: usize,
    pins: usize,
}

impl Search<'_> {
    fn visit(&mut self, signal: usize, wanted: u8, waiting: Option<usize>) -> End {
        let at = self.places[signal - self.inputs];
        let kind = self.netlist[at];
        let count = self.netlist[at + 1];
        let (mut p, mut next) = match self.cells[signal] {
            Cell::Unfinished { p, next } => (p, next),
            _ => {
                self.gates += 1;
                (unit(kind), 0)
            }
        };
        loop {
            let possible = possible(kind, p, next < count);
            if possible & wanted == 0 {
                return End::Hazardous;
            }
            if possible.count_ones() == 1 {
                let class = possible.trailing_zeros() as u8;
                self.cells[signal] = Cell::Known(class);
                return End::Known(class);
            }
            if let Some(row) = waiting {
                let results = IMAGE[row][usize::from(possible)];
                if results.count_ones() == 1 {
                    self.cells[signal] = Cell::Unfinished { p, next };
                    return End::Unfinished(results.trailing_zeros() as u8);
                }
            }
            let pin = word(self.netlist, at + 2 + 2 * usize::from(next));
            next += 1;
            self.pins += 1;
            p = match self.take(pin, kind, p, next < count, wanted) {
                End::Hazardous => return End::Hazardous,
                End::Known(class) => join(kind, p, class),
                End::Unfinished(result) => result,
            };
        }
    }

    /// What stands behind a pin.
    fn take(&mut self, pin: usize, kind: u8, p: u8, left_after: bool, wanted: u8) -> End {
        if let Cell::Known(class) = self.cells[pin] {
            return End::Known(class);
        }
        let behind = wanted_behind(kind, p, left_after, wanted);
        self.visit(pin, behind, Some(row(kind, p)))
    }
}

/// The class of a clean output, or none; gates and pins.
pub type CoreAnswer = (Option<u8>, usize, usize);

fn search(
    netlist: &[u8],
    card: &Card,
    places: &[usize],
    cells: &mut [Cell],
    signal: usize,
    wanted: u8,
) -> CoreAnswer {
    if let Cell::Known(class) = cells[signal] {
        let is_wanted = wanted >> class & 1 == 1;
        return (is_wanted.then_some(class), 0, 0);
    }
    let mut search = Search {
        netlist,
        inputs: card.inputs,
        places,
        cells,
        gates: 0,
        pins: 0,
    };
    let class = match search.visit(signal, wanted, None) {
        End::Known(class) => Some(class),
        _ => None,
    };
    (class, search.gates, search.pins)
}

/// The places of an accepted netlist's records.
pub fn places(netlist: &[u8], card: &Card) -> Vec<usize> {
    let mut at = 11;
    let mut places = Vec::with_capacity(card.gates);
    for _ in 0..card.gates {
        places.push(at);
        at += 2 + 2 * usize::from(netlist[at + 1]);
    }
    places
}

/// Cells with the inputs known.
fn cells(list: &List, card: &Card, change: usize) -> Vec<Cell> {
    let mut cells = vec![Cell::New; card.inputs + card.gates];
    for (input, cell) in cells[..card.inputs].iter_mut().enumerate() {
        *cell = Cell::Known(list.input_class(change, input));
    }
    cells
}

pub fn output_signal(netlist: &[u8], card: &Card, output: usize) -> usize {
    word(netlist, card.entries_at + 2 * output)
}

/// CORE on a card that was checked before.
pub fn core_once(
    netlist: &[u8],
    list: &List,
    card: &Card,
    places: &[usize],
    change: usize,
    output: usize,
) -> CoreAnswer {
    let mut cells = cells(list, card, change);
    let signal = output_signal(netlist, card, output);
    let wanted = list.wanted(change, output);
    search(netlist, card, places, &mut cells, signal, wanted)
}

pub fn core(
    netlist: &[u8],
    list: &[u8],
    change: usize,
    output: usize,
) -> Result<CoreAnswer, Refused> {
    let (card, list) = open(netlist, list, change)?;
    if output >= card.outputs {
        return Err((19, 0));
    }
    let places = places(netlist, &card);
    Ok(core_once(netlist, &list, &card, &places, change, output))
}

/// Writes each output's verdict, searched from a copy of the cells with its
/// wanted set; the sums of gates and pins.
fn search_outputs(
    netlist: &[u8],
    card: &Card,
    places: &[usize],
    start: &[Cell],
    wanted: impl Fn(usize) -> u8,
    row: &mut [u8],
) -> (usize, usize) {
    let mut sums = (0, 0);
    for (output, byte) in row.iter_mut().enumerate() {
        let mut cells = start.to_vec();
        let signal = output_signal(netlist, card, output);
        let wanted = wanted(output);
        let (class, gates, pins) = search(netlist, card, places, &mut cells, signal, wanted);
        *byte = u8::from(class.is_none());
        sums = (sums.0 + gates, sums.1 + pins);
    }
    sums
}

/// CORE for every change and output: gates and pins.
pub fn core_all(netlist: &[u8], list: &[u8], buffer: &mut [u8]) -> Result<Sums, Refused> {
    let (card, list) = check_list(netlist, list)?;
    let places = places(netlist, &card);
    fill_rows(buffer, list.changes, card.outputs, |change, row| {
        let start = cells(&list, &card, change);
        let wanted = |output| list.wanted(change, output);
        search_outputs(netlist, &card, &places, &start, wanted, row)
    })
}

// ---------------------------------------------------------------------------
// The forward method.

/// A gate's class where it follows from constant pins, and whether any pin is
/// constant.
fn constant(netlist: &[u8], at: usize, constants: &[Option<u8>]) -> (Option<u8>, bool) {
    let kind = netlist[at];
    let (deciding, other) = (1 - unit(kind), unit(kind));
    let (mut decided, mut all, mut touched) = (false, true, false);
    for pin in 0..usize::from(netlist[at + 1]) {
        match constants[word(netlist, at + 2 + 2 * pin)] {
            Some(class) => {
                touched = true;
                decided |= class == deciding;
            }
            None => all = false,
        }
    }
    let class = match (decided, all) {
        (true, _) => Some(deciding),
        (false, true) => Some(other),
        (false, false) => None,
    };
    let class = class.map(|class| if inverts(kind) { class ^ 1 } else { class });
    (class, touched)
}

/// The forward method on a card that was checked before: touched, visited.
fn forward_once(
    netlist: &[u8],
    list: &List,
    card: &Card,
    places: &[usize],
    change: usize,
    buffer: &mut [u8],
) -> (usize, usize) {
    let mut start = cells(list, card, change);
    let mut constants = vec![None; start.len()];
    for (input, cell) in start[..card.inputs].iter().enumerate() {
        constants[input] = match cell {
            Cell::Known(class) if *class < 2 => Some(*class),
            _ => None,
        };
    }
    let mut touched = 0;
    for (gate, at) in places.iter().enumerate() {
        let signal = card.inputs + gate;
        let (class, is_touched) = constant(netlist, *at, &constants);
        touched += usize::from(is_touched);
        if let Some(class) = class {
            constants[signal] = Some(class);
            start[signal] = Cell::Known(class);
        }
    }
    let row = &mut buffer[..card.outputs];
    let wanted = |output| list.wanted(change, output);
    let (visited, _) = search_outputs(netlist, card, places, &start, wanted, row);
    (touched, visited)
}

pub fn forward(
    netlist: &[u8],
    list: &[u8],
    change: usize,
    buffer: &mut [u8],
) -> Result<(usize, usize), Refused> {
    let (card, list) = open(netlist, list, change)?;
    if buffer.len() < card.outputs {
        return Err((20, 0));
    }
    let places = places(netlist, &card);
    Ok(forward_once(netlist, &list, &card, &places, change, buffer))
}

/// The forward method for every change: touched and visited.
pub fn forward_all(netlist: &[u8], list: &[u8], buffer: &mut [u8]) -> Result<Sums, Refused> {
    let (card, list) = check_list(netlist, list)?;
    let places = places(netlist, &card);
    fill_rows(buffer, list.changes, card.outputs, |change, row| {
        forward_once(netlist, &list, &card, &places, change, row)
    })
}

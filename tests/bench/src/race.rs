//! Cards in rotation, and the times of several versions of a call on them: in
//! the same run and in turns, since on a shared machine times of different
//! minutes cannot be compared.

use crate::cards::{Files, Sort};
use crate::plain;
use reference::random::Random;
use std::ops::RangeInclusive;
use std::time::{Duration, Instant};

/// Cards in rotation, as many as have so many gates together: of few cards
/// repeated the branch predictor learns much, also of twelve of 2,048 gates.
pub const CARDS: RangeInclusive<usize> = 30..=60;
const GATES: usize = 30 * 2048;

/// Changes of each card's list.
pub const CHANGES: usize = 16;

/// Calls of a turn, at most.
const CALLS: usize = 3840;

/// Turns of each version, as many as its share of a race has time for.
pub const TURNS: RangeInclusive<usize> = 9..=41;
const SHARE: Duration = Duration::from_secs(1);

/// Length of a piece of a turn, whose best time counts: short, so that some
/// pass without a task switch.
const PIECE: Duration = Duration::from_millis(3);

/// One card in the rotation.
pub struct Sample {
    pub netlist: Vec<u8>,
    pub list: Vec<u8>,
    pub changes: usize,
    pub card: plain::Card,
}

impl Sample {
    pub fn new((netlist, list): Files) -> Sample {
        let (card, checked) = plain::check_list(&netlist, &list).expect("a card to accept");
        let changes = checked.changes;
        Sample {
            netlist,
            list,
            changes,
            card,
        }
    }
}

/// The cards of a row.
pub struct Group {
    pub name: String,
    pub samples: Vec<Sample>,
}

impl Group {
    pub fn of(sort: Sort) -> Group {
        let cards = (GATES / sort.gates).clamp(*CARDS.start(), *CARDS.end());
        let files = sort.files(cards, CHANGES);
        Group {
            name: sort.name(),
            samples: files.into_iter().map(Sample::new).collect(),
        }
    }
}

/// One call: a card, and for a single one the change and the output.
#[derive(Clone, Copy)]
pub struct Call<'a> {
    pub netlist: &'a [u8],
    pub list: &'a [u8],
    pub change: usize,
    pub output: usize,
}

/// Calls in an order that no predictor learns, as many for each card.
fn calls(samples: &[Sample]) -> Vec<Call<'_>> {
    let mut random = Random::new(99);
    let count = CALLS / samples.len() * samples.len();
    let rotation = samples.iter().cycle().take(count);
    rotation
        .map(|sample| Call {
            netlist: &sample.netlist,
            list: &sample.list,
            change: random.below(sample.changes),
            output: random.below(sample.card.outputs),
        })
        .collect()
}

/// How many units a call does on a card, of which the time for one is told.
pub type Units = fn(&Sample) -> usize;

pub fn one(_: &Sample) -> usize {
    1
}

pub fn changes(sample: &Sample) -> usize {
    sample.changes
}

/// Searches of one output in one change.
pub fn searches(sample: &Sample) -> usize {
    sample.changes * sample.card.outputs
}

/// Units of a round: a call on each card.
pub fn total(samples: &[Sample], units: Units) -> f64 {
    samples.iter().map(units).sum::<usize>() as f64
}

/// One version of a call.
pub type Work = Box<dyn FnMut(&Call)>;

/// Library, plain, tuned.
pub type Versions = [Work; 3];

/// Nanoseconds for the calls.
fn time(calls: &[Call], work: &mut Work) -> f64 {
    let start = Instant::now();
    for call in calls {
        work(call);
    }
    start.elapsed().as_nanos() as f64
}

/// The calls of a turn, in pieces: as many as fill a piece in the slowest row,
/// but whole rounds of all cards, and at least one.
struct Turn<'a> {
    calls: &'a [Call<'a>],
    piece: usize,
    times: usize,
}

impl<'a> Turn<'a> {
    fn new(calls: &'a [Call<'a>], cards: usize, rows: &mut [Versions]) -> Turn<'a> {
        let some = &calls[..*CARDS.start()];
        let times = rows.iter_mut().map(|[library, ..]| time(some, library));
        let each = times.fold(0.0, f64::max) / some.len() as f64;
        let piece = (PIECE.as_nanos() as f64 / each) as usize;
        let count = (piece / cards * cards).clamp(cards, calls.len());
        let times = SHARE.as_nanos() as f64 / (each * count as f64);
        Turn {
            calls: &calls[..count],
            piece: piece.max(1),
            times: (times as usize).clamp(*TURNS.start(), *TURNS.end()),
        }
    }

    fn pieces(&self) -> std::slice::Chunks<'_, Call<'a>> {
        self.calls.chunks(self.piece)
    }
}

/// Nanoseconds for a unit of each version, from the best times of the pieces.
pub fn race<const ROWS: usize>(
    samples: &[Sample],
    units: Units,
    mut rows: [Versions; ROWS],
) -> [[f64; 3]; ROWS] {
    let calls = calls(samples);
    let turn = Turn::new(&calls, samples.len(), &mut rows);
    let best = vec![f64::MAX; turn.pieces().len()];
    let mut runs = rows.map(|versions| versions.map(|work| (work, best.clone())));
    for _ in 0..turn.times {
        for (work, best) in runs.iter_mut().flatten() {
            for (piece, best) in turn.pieces().zip(best) {
                *best = best.min(time(piece, work));
            }
        }
    }
    let rounds = turn.calls.len() / samples.len();
    let units = total(samples, units) * rounds as f64;
    runs.map(|versions| versions.map(|(_, best)| best.iter().sum::<f64>() / units))
}

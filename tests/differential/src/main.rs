//! `differential N SEED`: compares all operations of the library with the
//! reference on N random cards, accepted and damaged, with lists of both
//! versions and all buffers' bytes. Stops with status 1 at the first difference
//! and keeps the two files of that card. It also fails if it has compared too
//! little: a call was never accepted, a walk never gave a record or none, no cone
//! was searched whole or in part, no output was clean as declared or hazardous
//! for its declared ends alone, or, from 1,000 cards on, a refusal was never met
//! or no spare bit in a row of declared ends.

use differential::calls::{self, Every, One};
use differential::{found, right, same, stack, Answer, Difference, Step};
use reference::changes::{self, Version};
use reference::classes::ALL;
use reference::full;
use reference::netlist::{self, Card, HEAD};
use reference::random::{self, Random};
use std::cmp::Ordering;
use std::path::PathBuf;
use std::process::ExitCode;

/// The two files of one card. Their bytes stand in allocations of just their
/// length, so that valgrind sees a read past the end.
struct Files {
    netlist: Box<[u8]>,
    list: Box<[u8]>,
}

#[derive(Clone, Copy)]
enum Call {
    Netlist,
    List,
    Full,
    Forward,
    Core,
    FullAll,
    ForwardAll,
    CoreAll,
    Walk,
}

const CALLS: [(Call, &str); 9] = [
    (Call::Netlist, "netlist"),
    (Call::List, "list"),
    (Call::Full, "full"),
    (Call::Forward, "forward"),
    (Call::Core, "core"),
    (Call::FullAll, "full_all"),
    (Call::ForwardAll, "forward_all"),
    (Call::CoreAll, "core_all"),
    (Call::Walk, "walk"),
];

impl Call {
    fn name(self) -> &'static str {
        CALLS[self as usize].1
    }

    /// The refusals that it can meet.
    fn refusals(self) -> Vec<usize> {
        match self {
            Call::Netlist | Call::Walk => (1..=10).collect(),
            Call::List => (1..=17).collect(),
            Call::Full | Call::Forward => (1..=18).chain([20]).collect(),
            Call::Core => (1..=19).collect(),
            Call::FullAll | Call::ForwardAll | Call::CoreAll => (1..=17).chain([20]).collect(),
        }
    }
}

/// Answers by call and refusal number; 0 is accepted. Steps of gate walks by
/// what they hand back.
#[derive(Default)]
struct Counts {
    answers: [[usize; 21]; CALLS.len()],
    records: usize,
    nones: usize,
    /// Searches that took every pin of a cone that has pins, and fewer.
    whole_cones: usize,
    part_cones: usize,
    /// Outputs of version 2 lists: clean, and hazardous though their class is
    /// clean.
    clean_as_declared: usize,
    declared_wrong: usize,
    /// Lists whose first spare bit stands in a row of declared ends.
    spare_in_rows: usize,
}

impl Counts {
    fn note(&mut self, call: Call, answer: &Answer) {
        self.answers[call as usize][answer.0 as usize] += 1;
    }

    fn print(&self) {
        for (call, name) in CALLS {
            let counts = &self.answers[call as usize];
            let all: usize = counts.iter().sum();
            print!("{name:>11}: {all} calls, {} accepted, refused", counts[0]);
            for (number, count) in counts.iter().enumerate().skip(1) {
                if *count > 0 {
                    print!(" {number}:{count}");
                }
            }
            println!();
        }
        let (records, nones) = (self.records, self.nones);
        println!("{:>11}: {records} records, {nones} times none", "step");
        let (whole, part) = (self.whole_cones, self.part_cones);
        println!("{:>11}: {whole} searched whole, {part} in part", "cones");
        let (clean, wrong) = (self.clean_as_declared, self.declared_wrong);
        let spare = self.spare_in_rows;
        println!(
            "{:>11}: {clean} clean, {wrong} hazardous for their ends alone, {spare} spare bits",
            "declared"
        );
    }

    /// Has each call been met with every answer that so many cards should bring?
    fn enough(&self, rounds: usize) -> Result<(), Difference> {
        for (call, name) in CALLS {
            let met = |number: &usize| self.answers[call as usize][*number] > 0;
            if !met(&0) {
                return Err(format!("{name} was never accepted"));
            }
            match call.refusals().into_iter().find(|number| !met(number)) {
                Some(number) if rounds >= 1000 => {
                    return Err(format!("{name} never met refusal {number}"));
                }
                _ => {}
            }
        }
        match (self.records, self.nones) {
            (0, _) => Err("step never handed back a record".to_string()),
            (_, 0) => Err("step never gave none".to_string()),
            _ => Ok(()),
        }?;
        match (self.whole_cones, self.part_cones) {
            (0, _) => Err("no cone was searched whole".to_string()),
            (_, 0) => Err("no cone was searched in part".to_string()),
            _ => Ok(()),
        }?;
        match (self.clean_as_declared, self.declared_wrong) {
            (0, _) => Err("no output was clean as declared".to_string()),
            (_, 0) => Err("no output was hazardous for its declared ends alone".to_string()),
            _ if rounds >= 1000 && self.spare_in_rows == 0 => {
                Err("no spare bit was met in a row of declared ends".to_string())
            }
            _ => Ok(()),
        }
    }
}

/// All 136 cells of the two operations and of NOT.
fn compare_classes() -> Result<(), Difference> {
    for a in ALL {
        for b in ALL {
            for operation in [0, 1] {
                let found = found::join(operation, a.code(), b.code());
                let cell = format!("join {operation} {} {}", a.name(), b.name());
                same(&cell, &found, &right::join(operation, a, b))?;
            }
        }
        let cell = format!("invert {}", a.name());
        same(&cell, &found::invert(a.code()), &right::invert(a))?;
    }
    Ok(())
}

/// A buffer length about one that is needed.
fn around(random: &mut Random, length: usize) -> usize {
    match random.below(6) {
        0 => random.below(length + 1),
        1 => length.saturating_sub(1),
        2 => length + random.below(100),
        _ => length,
    }
}

/// A number about a count, or far past it.
fn near(random: &mut Random, count: usize) -> usize {
    match random.below(6) {
        0 => random.pick(&[1 << 16, 1 << 32, 1 << 63]),
        1 => usize::MAX - random.below(20),
        2 => (count + random.below(5)).saturating_sub(2),
        _ => random.below(count + 1),
    }
}

/// The comparisons of one card, whose list was made with so many changes.
struct Round<'a> {
    counts: &'a mut Counts,
    random: &'a mut Random,
    files: &'a Files,
    card: &'a Card,
    changes: usize,
    /// The pins of each output's cone, if the netlist is accepted.
    cones: Vec<u64>,
    /// Whether the class is clean, by change and output of an accepted version
    /// 2 list; of others none.
    clean_classes: Vec<Vec<bool>>,
}

impl Round<'_> {
    fn answers(&mut self, call: Call, found: Answer, right: Answer) -> Result<(), Difference> {
        self.counts.note(call, &right);
        same(call.name(), &found, &right)
    }

    /// CORE's call for each of the outputs.
    fn core(&mut self, change: usize, outputs: &[usize]) -> Result<(), Difference> {
        let (n, l) = (&self.files.netlist, &self.files.list);
        for output in outputs {
            let found = found::core(n, l, change, *output);
            let right = right::core(n, l, change, *output);
            let place = |difference| format!("change {change} output {output}: {difference}");
            self.answers(Call::Core, found, right).map_err(place)?;
            if let (0, [verdict, _, _, pins, _]) = found {
                self.pins(pins, self.cones[*output]).map_err(place)?;
                self.declared(change, *output, verdict == 0);
            }
        }
        Ok(())
    }

    /// A search takes at most the pins of its cone.
    fn pins(&mut self, taken: u64, cone: u64) -> Result<(), Difference> {
        match taken.cmp(&cone) {
            Ordering::Greater => return Err(format!("{taken} pins, the cone has {cone}")),
            Ordering::Equal if cone > 0 => self.counts.whole_cones += 1,
            Ordering::Equal => {}
            Ordering::Less => self.counts.part_cones += 1,
        }
        Ok(())
    }

    /// Counts the verdict of an output whose ends are declared.
    fn declared(&mut self, change: usize, output: usize, clean: bool) {
        if let Some(classes) = self.clean_classes.get(change) {
            self.counts.clean_as_declared += usize::from(clean);
            self.counts.declared_wrong += usize::from(!clean && classes[output]);
        }
    }

    /// A call for one change, with a buffer about as long as it needs.
    fn one(
        &mut self,
        call: Call,
        functions: calls::Call<One>,
        change: usize,
    ) -> Result<(), Difference> {
        let length = around(self.random, (functions.width)(self.card));
        let (n, l) = (&self.files.netlist, &self.files.list);
        let (answer, _) = functions.compare(n, l, change, length)?;
        self.counts.note(call, &answer);
        Ok(())
    }

    /// A call for every change, likewise.
    fn every(&mut self, call: Call, functions: calls::Call<Every>) -> Result<(), Difference> {
        let needed = self.changes * (functions.width)(self.card);
        let length = around(self.random, needed);
        let (n, l) = (&self.files.netlist, &self.files.list);
        let (answer, _) = functions.compare(n, l, length)?;
        self.counts.note(call, &answer);
        Ok(())
    }

    /// A step of a gate walk, with the bytes of its part.
    fn step(&mut self, number: usize, place: usize, count: usize) -> Result<Step<'_>, Difference> {
        let n = &self.files.netlist;
        let right = right::step(n, number, place, count);
        let call = format!("step at number {number} of {count}, place {place}");
        same(&call, &found::step(n, number, place, count), &right)?;
        match right.1 {
            Some(_) => self.counts.records += 1,
            None => self.counts.nones += 1,
        }
        Ok(right)
    }

    /// Opens a gate walk and steps until there is none, then steps anywhere.
    fn walk(&mut self) -> Result<(), Difference> {
        let n = &self.files.netlist;
        let opened = right::walk(n);
        self.answers(Call::Walk, found::walk(n), opened)?;
        // The bytes of a refused netlist are stepped through all the same.
        let (mut number, mut place, count) = match opened {
            (0, [number, place, count, ..]) => (number as usize, place as usize, count as usize),
            _ => (0, HEAD, usize::MAX),
        };
        while let ((_, [_, next, past, ..]), Some(_)) = self.step(number, place, count)? {
            (number, place) = (next as usize, past as usize);
        }
        let (length, gates) = (n.len(), self.card.gates.len());
        for _ in 0..10 {
            let place = near(self.random, length);
            let (number, count) = (near(self.random, gates), near(self.random, gates));
            self.step(number, place, count)?;
            self.step(0, place, usize::MAX)?;
        }
        Ok(())
    }

    /// The two checks; are the files accepted?
    fn checks(&mut self) -> Result<bool, Difference> {
        let (n, l) = (&self.files.netlist, &self.files.list);
        self.answers(Call::Netlist, found::netlist(n), right::netlist(n))?;
        let right = right::list(n, l);
        self.answers(Call::List, found::list(n, l), right)?;
        if let (17, [place, ..]) = right {
            let in_rows = in_declared_rows(self.card, l, place as usize);
            self.counts.spare_in_rows += usize::from(in_rows);
        }
        Ok(right.0 == 0)
    }

    /// All calls for one change, CORE for the outputs given.
    fn one_change(&mut self, change: usize, outputs: &[usize]) -> Result<(), Difference> {
        self.one(Call::Full, calls::FULL, change)?;
        self.one(Call::Forward, calls::FORWARD, change)?;
        self.core(change, outputs)
    }

    fn every_change(&mut self) -> Result<(), Difference> {
        self.every(Call::FullAll, calls::FULL_ALL)?;
        self.every(Call::ForwardAll, calls::FORWARD_ALL)?;
        self.every(Call::CoreAll, calls::CORE_ALL)
    }

    fn compare(&mut self) -> Result<(), Difference> {
        let (changes, entries) = (self.changes, self.card.outputs.len());
        let past_output = self.random.pick(&[entries, 64, 1 << 32, usize::MAX]);
        self.walk()?;
        if self.checks()? {
            let outputs: Vec<usize> = (0..entries).chain([past_output]).collect();
            for change in 0..changes {
                self.one_change(change, &outputs)?;
            }
        }
        // Refused files are refused whatever is asked, so one question is enough.
        let past = [changes, changes + 1, 1 << 32, usize::MAX];
        for change in [0, self.random.pick(&past)] {
            self.one_change(change, &[0, past_output])?;
        }
        self.every_change()
    }
}

/// A card's files: as they are, or one or both of them damaged.
fn files(random: &mut Random, card: &Card, count: usize) -> Files {
    let (mut netlist, mut list) = random::files(random, card, count);
    let which = random.below(6);
    if which == 0 || which == 1 {
        random::damage_netlist(random, card, &mut netlist);
    }
    if which == 1 || which == 2 {
        random::damage_list(random, card, &mut list);
    }
    Files {
        netlist: netlist.into_boxed_slice(),
        list: list.into_boxed_slice(),
    }
}

/// The pins of each output's cone in an accepted netlist.
fn cones(netlist: &[u8]) -> Vec<u64> {
    let Ok(card) = netlist::decode(netlist) else {
        return Vec::new();
    };
    let pins = |output: &usize| card.cone_pins(*output) as u64;
    card.outputs.iter().map(pins).collect()
}

/// Whether the class is clean, by change and output of an accepted version 2
/// list.
fn clean_classes(files: &Files) -> Vec<Vec<bool>> {
    let Ok(job) = changes::decode(&files.netlist, &files.list) else {
        return Vec::new();
    };
    let of_change = |change: &changes::Change| {
        let classes = full::classes(&job.card, &change.inputs);
        let is_clean = |signal: &usize| classes[*signal].is_clean();
        job.card.outputs.iter().map(is_clean).collect()
    };
    match job.list.version {
        Version::One => Vec::new(),
        Version::Two => job.list.changes.iter().map(of_change).collect(),
    }
}

/// Does a place of the card's list stand in a row of declared ends?
fn in_declared_rows(card: &Card, list: &[u8], place: usize) -> bool {
    let vectors = 2 * changes::row_bytes(card.inputs);
    Version::of(list).is_some_and(|version| {
        let within = (place - changes::HEAD) % version.change_bytes(card);
        within >= vectors
    })
}

fn random_card(random: &mut Random, round: usize) -> Card {
    match round % 20 {
        0 => random::any_card(random),
        _ => random::small_card(random),
    }
}

fn run(rounds: usize, seed: u64, counts: &mut Counts) -> Result<(), (Difference, Files)> {
    let random = &mut Random::new(seed);
    for number in 0..rounds {
        let card = random_card(random, number);
        let changes = random.pick(&[0, 1, 2, 3]);
        let files = files(random, &card, changes);
        let mut round = Round {
            counts,
            random,
            files: &files,
            card: &card,
            changes,
            cones: cones(&files.netlist),
            clean_classes: clean_classes(&files),
        };
        if let Err(difference) = round.compare() {
            return Err((format!("card {number}: {difference}"), files));
        }
    }
    Ok(())
}

/// Keeps the files where `cards unpack` can read them.
fn keep(files: &Files, seed: u64) -> std::io::Result<PathBuf> {
    let folder = std::env::temp_dir().join(format!("differential-{seed}"));
    std::fs::create_dir_all(&folder)?;
    std::fs::write(folder.join("lane.lcn"), &files.netlist)?;
    std::fs::write(folder.join("lane.lct"), &files.list)?;
    Ok(folder)
}

fn compare(rounds: usize, seed: u64) -> Result<Counts, Difference> {
    compare_classes()?;
    let mut counts = Counts::default();
    if let Err((difference, files)) = run(rounds, seed, &mut counts) {
        return Err(match keep(&files, seed) {
            Ok(folder) => format!("{difference}\nits files: {}", folder.display()),
            Err(error) => format!("{difference}\nits files could not be kept: {error}"),
        });
    }
    counts.enough(rounds)?;
    Ok(counts)
}

fn main() -> ExitCode {
    let words: Vec<String> = std::env::args().skip(1).collect();
    let (rounds, seed) = match &words[..] {
        [rounds, seed] => (rounds.parse(), seed.parse()),
        _ => ("".parse(), "".parse()),
    };
    let (Ok(rounds), Ok(seed)) = (rounds, seed) else {
        eprintln!("differential N SEED");
        return ExitCode::FAILURE;
    };
    match stack::within(|| compare(rounds, seed)) {
        Ok(counts) => {
            counts.print();
            println!("{rounds} cards, no difference");
            ExitCode::SUCCESS
        }
        Err(difference) => {
            println!("{difference}");
            ExitCode::FAILURE
        }
    }
}

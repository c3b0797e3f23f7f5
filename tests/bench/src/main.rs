//! Times the library's calls against plain and against tuned safe Rust, on
//! wide cards of 16, 256 and 2,048 gates, so that growth shows, and on deep
//! and two-pin ones of 2,048.
//!
//! `cargo run --release --offline`; words after `--` choose, in any order:
//! numbers of gates, shapes (`wide`, `deep`, `two-pin`), and calls as
//! `include/lane.h` names them, without `lane_`: `2048 deep core`. A number
//! without a shape is of wide cards; where calls are named, their rows are all
//! that is printed. With `declared` the lists are of version 2.
//!
//! The program's rows show the Rust times alone where target/bin/lane is
//! missing. The ratio to watch is that to plain Rust: above 1 the library is
//! slower.

mod against_full;
#[cfg(test)]
mod agreement;
mod cards;
mod plain;
mod race;
mod tables;
mod tuned;
mod versions;
mod whole;

use cards::{Shape, Sort, SHAPES};
use race::{race, Group, Sample, Units, Versions, CARDS, CHANGES, TURNS};
use std::path::Path;
use std::process::ExitCode;

/// The cards that are timed, unless others are asked for.
const SORTS: [Sort; 5] = [
    Sort::new(16, Shape::Wide),
    Sort::new(256, Shape::Wide),
    Sort::new(2048, Shape::Wide),
    Sort::new(2048, Shape::Deep),
    Sort::new(2048, Shape::TwoPin),
];

/// A call, the unit whose time its row tells, and its versions.
type Row = (&'static str, Units, fn() -> Versions);

const ROWS: [Row; 8] = [
    ("netlist", race::one, versions::check_netlist),
    ("list", race::one, versions::check_list),
    ("full", race::one, versions::full),
    ("core", race::one, versions::core),
    ("forward", race::one, versions::forward),
    ("full_all", race::changes, versions::full_all),
    ("core_all", race::searches, versions::core_all),
    ("forward_all", race::changes, versions::forward_all),
];

fn print_row(call: &str, group: &Group, [library, plain, tuned]: [f64; 3]) {
    println!(
        "{:>13}  {call:<12}{library:>11.0}{plain:>10.0}{:>7.2}{tuned:>10.0}{:>7.2}{:>9.2}",
        group.name,
        library / plain,
        library / tuned,
        library / group.samples[0].card.gates as f64,
    );
}

fn print_calls(rows: &[Row], groups: &[Group]) {
    println!(
        "{} to {} cards in rotation, {CHANGES} changes each, best of {} to {} turns",
        CARDS.start(),
        CARDS.end(),
        TURNS.start(),
        TURNS.end()
    );
    println!("Nanoseconds for a call. An \"_all\" call is one for all changes of a list:");
    println!("nanoseconds for a change, core_all's for a change and an output");
    println!(
        "{:>13}  {:<12}{:>11}{:>10}{:>7}{:>10}{:>7}{:>9}",
        "cards", "call", "library ns", "plain ns", "ratio", "tuned ns", "ratio", "ns/gate"
    );
    for (call, units, versions) in rows {
        for group in groups {
            let [times] = race(&group.samples, *units, [versions()]);
            print_row(call, group, times);
        }
    }
    println!();
}

/// A bundled card as a group of its own.
fn bundled(name: &str) -> Option<Group> {
    let folder = Path::new(env!("CARGO_MANIFEST_DIR"))
        .join("../../examples")
        .join(name);
    let netlist = std::fs::read(folder.join("lane.lcn")).ok()?;
    let list = std::fs::read(folder.join("lane.lct")).ok()?;
    Some(Group {
        name: name.to_string(),
        samples: vec![Sample::new((netlist, list))],
    })
}

/// What the words ask for; an empty list leaves it open.
struct Asked {
    sizes: Vec<usize>,
    shapes: Vec<Shape>,
    rows: Vec<Row>,
    declared: bool,
}

/// The word that asks for lists of version 2.
const DECLARED: &str = "declared";

impl Asked {
    /// None where a word is not understood.
    fn by(words: &[String]) -> Option<Asked> {
        let size = |word: &String| word.parse().ok().filter(|size| (1..=2048).contains(size));
        let shape = |word: &String| SHAPES.into_iter().find(|shape| shape.name() == word);
        let row = |word: &String| ROWS.into_iter().find(|(call, ..)| call == word);
        let asked = Asked {
            sizes: words.iter().filter_map(size).collect(),
            shapes: words.iter().filter_map(shape).collect(),
            rows: words.iter().filter_map(row).collect(),
            declared: words.iter().any(|word| word == DECLARED),
        };
        let understood = |word: &String| {
            word == DECLARED || size(word).is_some() || shape(word).is_some() || row(word).is_some()
        };
        words.iter().all(understood).then_some(asked)
    }

    /// Each size in each shape; without a size, those of [`SORTS`].
    fn sorts(&self) -> Vec<Sort> {
        let is_asked = |sort: &Sort| self.shapes.is_empty() || self.shapes.contains(&sort.shape);
        if self.sizes.is_empty() {
            return SORTS.into_iter().filter(is_asked).collect();
        }
        let shapes = match self.shapes.is_empty() {
            true => &[Shape::Wide],
            false => &self.shapes[..],
        };
        let each = |gates| shapes.iter().map(move |shape| Sort::new(gates, *shape));
        self.sizes.iter().copied().flat_map(each).collect()
    }

    fn print(&self) -> std::io::Result<()> {
        let mut sorts = self.sorts();
        if self.declared {
            sorts = sorts.into_iter().map(Sort::declaring).collect();
            println!("Lists of version 2, which declare the outputs' ends");
        }
        let mut groups: Vec<Group> = sorts.iter().copied().map(Group::of).collect();
        if !self.rows.is_empty() {
            print_calls(&self.rows, &groups);
            return Ok(());
        }
        print_calls(&ROWS, &groups);
        groups.extend(bundled("two_lanes"));
        groups.extend(bundled("five_lanes"));
        against_full::print_visits(&groups);
        against_full::print_times(&groups);
        whole::print_table(&sorts)
    }
}

fn print_usage() {
    let shapes = SHAPES.map(Shape::name).join(" ");
    let calls = ROWS.map(|(call, ..)| call).join(" ");
    eprintln!("bench [WORD..], each a number of gates from 1 to 2048, one of the shapes");
    eprintln!("{shapes}, one of the calls {calls},");
    eprintln!("or {DECLARED} for lists of version 2");
}

fn main() -> ExitCode {
    let words: Vec<String> = std::env::args().skip(1).collect();
    let done = match (whole::run_as_program(&words), Asked::by(&words)) {
        (Some(done), _) => done,
        (None, Some(asked)) => asked.print(),
        (None, None) => {
            print_usage();
            return ExitCode::FAILURE;
        }
    };
    match done {
        Ok(()) => ExitCode::SUCCESS,
        Err(error) => {
            eprintln!("bench: {error}");
            ExitCode::FAILURE
        }
    }
}

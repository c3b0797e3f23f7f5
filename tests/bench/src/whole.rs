//! Whole programs: `lane` against programs in plain and tuned Rust that print
//! the same, each started anew in a folder with a card. The Rust ones are this
//! binary, started with a word that says which.

use crate::cards::Sort;
use crate::{plain, tuned};
use std::fs;
use std::io::{self, Write};
use std::path::{Path, PathBuf};
use std::process::{Command, Stdio};
use std::time::Instant;

const NAMES: [&str; 8] = ["0", "1", "R", "F", "S0", "S1", "D+", "D-"];

/// Cards of a row.
const CARDS: usize = 6;

/// Changes of a list: few enough for a run of a second.
const CHANGES: usize = 200;

/// Starts of each program on each card; the best counts.
const STARTS: usize = 5;

type Text = Vec<u8>;

fn print_counts(text: &mut Text, counts: [usize; 4]) -> io::Result<()> {
    let [inputs, gates, outputs, changes] = counts;
    writeln!(
        text,
        "{inputs} inputs {gates} gates {outputs} outputs {changes} changes"
    )
}

fn print_line(
    text: &mut Text,
    pair: (usize, usize),
    class: u8,
    hazard: bool,
    counts: (usize, usize),
) -> io::Result<()> {
    let verdict = if hazard { "hazard" } else { "clean" };
    let class = NAMES[usize::from(class)];
    writeln!(
        text,
        "{} {} {class} {verdict} {} {}",
        pair.0, pair.1, counts.0, counts.1
    )
}

/// The bytes of a list's verdicts by the plain functions.
pub fn plain_text(netlist: &[u8], list: &[u8]) -> io::Result<Text> {
    let mut text = Text::new();
    let (card, list) = match plain::check_list(netlist, list) {
        Ok(checked) => checked,
        Err((number, place)) => {
            writeln!(text, "refused {number} at {place}")?;
            return Ok(text);
        }
    };
    print_counts(
        &mut text,
        [card.inputs, card.gates, card.outputs, list.changes],
    )?;
    let places = plain::places(netlist, &card);
    let mut classes = vec![0; card.inputs + card.gates];
    for change in 0..list.changes {
        plain::full_once(netlist, &list, &card, change, &mut classes);
        for output in 0..card.outputs {
            let signal = plain::output_signal(netlist, &card, output);
            let (class, gates, pins) =
                plain::core_once(netlist, &list, &card, &places, change, output);
            let pair = (change, output);
            print_line(
                &mut text,
                pair,
                classes[signal],
                class.is_none(),
                (gates, pins),
            )?;
        }
    }
    Ok(text)
}

/// The same by the tuned ones.
pub fn tuned_text(netlist: &[u8], list: &[u8]) -> io::Result<Text> {
    let mut text = Text::new();
    let mut index = tuned::new_index();
    let list = match tuned::check_list(netlist, list, &mut index) {
        Ok(list) => list,
        Err((number, place)) => {
            writeln!(text, "refused {number} at {place}")?;
            return Ok(text);
        }
    };
    print_counts(
        &mut text,
        [index.inputs, index.gates, index.outputs, list.changes],
    )?;
    let mut classes = [0; 2304];
    for change in 0..list.changes {
        tuned::full_once(netlist, &list, change, &mut classes, &index);
        for output in 0..index.outputs {
            let signal = tuned::output_signal(netlist, &index, output);
            let (code, gates, pins) = tuned::core_once(netlist, &list, change, output, &index);
            let pair = (change, output);
            print_line(
                &mut text,
                pair,
                classes[signal],
                code == tuned::HAZARD,
                (gates, pins),
            )?;
        }
    }
    Ok(text)
}

/// This binary as one of the programs, if its one word says so.
pub fn run_as_program(words: &[String]) -> Option<io::Result<()>> {
    let print = match words {
        [word] if word == "plain-program" => plain_text,
        [word] if word == "tuned-program" => tuned_text,
        _ => return None,
    };
    let contents = |path: &str| {
        let mut bytes = fs::read(path).unwrap_or_default();
        bytes.truncate(65_536);
        bytes
    };
    let text = print(&contents("lane.lcn"), &contents("lane.lct"));
    Some(text.and_then(|text| io::stdout().write_all(&text)))
}

/// `lane`: LANE_PROGRAM, else the project's target/bin/lane.
fn lane_program() -> Option<PathBuf> {
    let path = match std::env::var_os("LANE_PROGRAM") {
        Some(path) => PathBuf::from(path),
        None => Path::new(env!("CARGO_MANIFEST_DIR")).join("../../target/bin/lane"),
    };
    let path = path.canonicalize().ok()?;
    path.is_file().then_some(path)
}

/// Milliseconds of one start of a program in a folder.
fn start(command: &mut Command, folder: &Path) -> f64 {
    let start = Instant::now();
    let status = command
        .current_dir(folder)
        .stdin(Stdio::null())
        .stdout(Stdio::null())
        .status();
    let ended = status.is_ok_and(|status| status.code().is_some());
    assert!(ended, "{command:?} runs");
    start.elapsed().as_secs_f64() * 1e3
}

/// Milliseconds of each program's best start in a folder.
fn best_starts(programs: &mut [Command], folder: &Path) -> Vec<f64> {
    let mut best = vec![f64::MAX; programs.len()];
    for _ in 0..STARTS {
        for (program, best) in programs.iter_mut().zip(&mut best) {
            *best = best.min(start(program, folder));
        }
    }
    best
}

/// Each card in a folder of its own.
fn folders(under: &Path, sort: Sort) -> io::Result<Vec<PathBuf>> {
    let mut folders = Vec::new();
    for (number, (netlist, list)) in sort.files(CARDS, CHANGES).iter().enumerate() {
        assert!(plain::check_list(netlist, list).is_ok(), "an accepted card");
        let folder = under.join(format!("{}-{number}", sort.name()));
        fs::create_dir_all(&folder)?;
        fs::write(folder.join("lane.lcn"), netlist)?;
        fs::write(folder.join("lane.lct"), list)?;
        folders.push(folder);
    }
    Ok(folders)
}

fn print_row(name: &str, folders: &[PathBuf], own: &Path) {
    let rust = ["plain-program", "tuned-program"].map(|word| {
        let mut command = Command::new(own);
        command.arg(word);
        command
    });
    let lane = lane_program().map(Command::new);
    let mut programs: Vec<Command> = rust.into_iter().chain(lane).collect();
    let mut sums = vec![0.0; programs.len()];
    for folder in folders {
        let times = best_starts(&mut programs, folder);
        sums.iter_mut()
            .zip(times)
            .for_each(|(sum, time)| *sum += time);
    }
    let (plain, tuned) = (sums[0], sums[1]);
    match sums.get(2) {
        Some(lane) => println!(
            "{name:>13}{lane:>12.2}{plain:>12.2}{:>8.2}{tuned:>12.2}{:>8.2}",
            lane / plain,
            lane / tuned
        ),
        None => println!(
            "{name:>13}{:>12}{plain:>12.2}{:>8}{tuned:>12.2}{:>8}",
            "-", "-", "-"
        ),
    }
}

pub fn print_table(sorts: &[Sort]) -> io::Result<()> {
    let own = std::env::current_exe()?;
    let under = std::env::temp_dir().join(format!("bench-{}", std::process::id()));
    println!("Whole program on {CARDS} cards, {CHANGES} changes each, the milliseconds of best starts added up");
    println!(
        "{:>13}{:>12}{:>12}{:>8}{:>12}{:>8}",
        "cards", "lane ms", "plain ms", "ratio", "tuned ms", "ratio"
    );
    for sort in sorts {
        let folders = folders(&under, *sort)?;
        print_row(&sort.name(), &folders, &own);
    }
    fs::remove_dir_all(&under)
}

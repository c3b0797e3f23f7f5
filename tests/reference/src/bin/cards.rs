//! Cards between their text form (see `reference::text`) and their two files.
//!
//! ```text
//! cards pack DIR      DIR/card.txt to DIR/lane.lcn and DIR/lane.lct
//! cards unpack DIR    prints the text form of the two files
//! cards print DIR     prints what the program has to print for them
//! cards damage DIR netlist|list set AT BYTE.. | flip AT BIT | cut LENGTH | append BYTE..
//! cards random DIR SEED    a random card of any size, for odd seeds damaged
//! cards largest DIR SEED   a random card with all four counts at their limits
//! cards widest DIR SEED    one of 2,048 gates of eight pins, with deep cones
//! ```
//!
//! The lists are of version 1, or of version 2 where `declared` follows the seed.

use reference::changes::Version;
use reference::netlist::{MAX_GATES, MAX_INPUTS, MAX_OUTPUTS};
use reference::program;
use reference::random::{self, Random, Shape};
use reference::text::{file_of, pack, unpack, Damage, Files, Mistake};
use std::fs;
use std::io::{ErrorKind, Write};
use std::path::{Path, PathBuf};
use std::process::ExitCode;

const USAGE: &str = "cards pack DIR | unpack DIR | print DIR | damage DIR FILE WAY .. \
                     | random DIR SEED | largest DIR SEED | widest DIR SEED [declared]";

fn netlist_path(folder: &Path) -> PathBuf {
    folder.join("lane.lcn")
}

fn list_path(folder: &Path) -> PathBuf {
    folder.join("lane.lct")
}

fn load(path: &Path) -> Result<Option<Vec<u8>>, Mistake> {
    match fs::read(path) {
        Ok(bytes) => Ok(Some(bytes)),
        Err(error) if error.kind() == ErrorKind::NotFound => Ok(None),
        Err(error) => Err(format!("{}: {error}", path.display())),
    }
}

fn load_both(folder: &Path) -> Result<Files, Mistake> {
    Ok(Files {
        netlist: load(&netlist_path(folder))?,
        list: load(&list_path(folder))?,
    })
}

/// Writes a file, or removes it where the text leaves it out.
fn store(path: &Path, contents: &Option<Vec<u8>>) -> Result<(), Mistake> {
    let done = match contents {
        Some(bytes) => fs::write(path, bytes),
        None => match fs::remove_file(path) {
            Err(error) if error.kind() == ErrorKind::NotFound => Ok(()),
            other => other,
        },
    };
    done.map_err(|error| format!("{}: {error}", path.display()))
}

fn store_both(folder: &Path, files: &Files) -> Result<(), Mistake> {
    store(&netlist_path(folder), &files.netlist)?;
    store(&list_path(folder), &files.list)
}

fn pack_folder(folder: &Path) -> Result<(), Mistake> {
    let path = folder.join("card.txt");
    let text = fs::read_to_string(&path).map_err(|error| format!("{}: {error}", path.display()))?;
    store_both(folder, &pack(&text)?)
}

fn print_folder(folder: &Path) -> Result<(), Mistake> {
    let files = load_both(folder)?;
    let printed = program::printed(
        files.netlist.as_deref().unwrap_or_default(),
        files.list.as_deref().unwrap_or_default(),
    );
    std::io::stdout()
        .write_all(&printed)
        .map_err(|error| error.to_string())
}

fn damage_folder(folder: &Path, file: &str, way: &[&str]) -> Result<(), Mistake> {
    let mut files = load_both(folder)?;
    files.damage(file_of(file)?, &Damage::parse(way)?)?;
    store_both(folder, &files)
}

fn seeded(seed: &str) -> Result<Random, Mistake> {
    match seed.parse() {
        Ok(seed) => Ok(Random::new(seed)),
        Err(_) => Err(format!("`{seed}` is not a seed")),
    }
}

/// The version that the words after the seed ask for.
fn version_of(words: &[&str]) -> Result<Version, Mistake> {
    match words {
        [] => Ok(Version::One),
        ["declared"] => Ok(Version::Two),
        _ => Err(USAGE.to_string()),
    }
}

fn store_card(folder: &Path, (netlist, list): (Vec<u8>, Vec<u8>)) -> Result<(), Mistake> {
    let files = Files {
        netlist: Some(netlist),
        list: Some(list),
    };
    store_both(folder, &files)
}

fn random_folder(folder: &Path, seed: &str, version: Version) -> Result<(), Mistake> {
    let mut random = seeded(seed)?;
    let card = random::any_card(&mut random);
    let count = random.pick(&[0, 1, 2, 5, 30]);
    let (mut netlist, mut list) = random::files_of(&mut random, &card, version, count);
    if seed.ends_with(['1', '5', '9']) {
        random::damage_netlist(&mut random, &card, &mut netlist);
    }
    if seed.ends_with(['3', '7', '9']) {
        random::damage_list(&mut random, &card, &mut list);
    }
    store_card(folder, (netlist, list))
}

fn largest_folder(folder: &Path, seed: &str, version: Version) -> Result<(), Mistake> {
    let mut random = seeded(seed)?;
    let shape = Shape::TwoLevel;
    let card = random::card(&mut random, shape, MAX_INPUTS, MAX_GATES, MAX_OUTPUTS);
    let count = version.max_changes();
    store_card(folder, random::files_of(&mut random, &card, version, count))
}

fn widest_folder(folder: &Path, seed: &str, version: Version) -> Result<(), Mistake> {
    let mut random = seeded(seed)?;
    let card = random::widest_card(&mut random);
    store_card(folder, random::files_of(&mut random, &card, version, 3))
}

fn run(words: &[&str]) -> Result<(), Mistake> {
    match words {
        ["pack", folder] => pack_folder(Path::new(folder)),
        ["unpack", folder] => {
            print!("{}", unpack(&load_both(Path::new(folder))?));
            Ok(())
        }
        ["print", folder] => print_folder(Path::new(folder)),
        ["random", folder, seed, version @ ..] => {
            random_folder(Path::new(folder), seed, version_of(version)?)
        }
        ["largest", folder, seed, version @ ..] => {
            largest_folder(Path::new(folder), seed, version_of(version)?)
        }
        ["widest", folder, seed, version @ ..] => {
            widest_folder(Path::new(folder), seed, version_of(version)?)
        }
        ["damage", folder, file, way @ ..] => damage_folder(Path::new(folder), file, way),
        _ => Err(USAGE.to_string()),
    }
}

fn main() -> ExitCode {
    let words: Vec<String> = std::env::args().skip(1).collect();
    let words: Vec<&str> = words.iter().map(String::as_str).collect();
    match run(&words) {
        Ok(()) => ExitCode::SUCCESS,
        Err(mistake) => {
            eprintln!("cards: {mistake}");
            ExitCode::FAILURE
        }
    }
}

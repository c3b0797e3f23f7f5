//! A text form of a card and its list, for people.
//!
//! One statement to a line; `#` starts a comment; words stand apart by blanks.
//!
//! ```text
//! inputs a b select          # names, or one number: inputs 3
//! n = NOT select             # a gate: its name, its kind, its pins
//! x = AND a select
//! y = AND b n
//! OR x y                     # a gate that nobody names
//! outputs 6                  # signals, by name or by number
//! change 1 1 F               # a class (0 1 R F) for each input, or 11F
//! change 111 110             # or two vectors, input 0 first
//! ```
//!
//! Kinds are NOT BUFFER AND OR NAND NOR. A word of digits is a signal number:
//! inputs from 0, then gates in their order. A list without changes is
//! written; the statement `no list` leaves the file out, `no netlist` likewise.
//!
//! The statement `declared`, once and before all changes, makes the list one of
//! version 2: each change then has the declared classes of the outputs after an
//! arrow, and the outputs stand before the changes.
//!
//! ```text
//! declared
//! change 11F -> 1            # a class (0 1 R F) for each output: its ends
//! change 1 1 F -> 1          # blanks as one likes, but some beside the arrow
//! ```
//!
//! Contents that are no card are written as bytes, one or more lines of
//! hexadecimal pairs, instead of the statements for that file:
//!
//! ```text
//! netlist 4C 43 4E 01 00
//! list 4C 43 54
//! ```
//!
//! Damage is done to the finished bytes, line after line. The list keeps the
//! tie of the netlist before its damage, unless `retie` follows:
//!
//! ```text
//! damage netlist set 11 07        # puts bytes from a place on
//! damage netlist flip 12 3        # flips a bit of the byte at a place
//! damage list cut 12              # keeps so many bytes
//! damage netlist append 00 01     # adds bytes at the end
//! retie                           # puts the damaged netlist's tie into the list
//! ```

use crate::changes::{self, Change, List, Version};
use crate::classes::Class;
use crate::netlist::{self, tie, Card, Gate, Kind, KINDS};
use std::collections::HashMap;
use std::fmt::Write;

/// The contents of the two files; none is a missing file.
#[derive(Clone, Debug, Default, PartialEq, Eq)]
pub struct Files {
    pub netlist: Option<Vec<u8>>,
    pub list: Option<Vec<u8>>,
}

/// What is wrong with a text, with its line number.
pub type Mistake = String;

const KIND_NAMES: [&str; 6] = ["NOT", "BUFFER", "AND", "OR", "NAND", "NOR"];

fn kind_name(kind: Kind) -> &'static str {
    KIND_NAMES[kind as usize - 1]
}

fn kind_of(word: &str) -> Option<Kind> {
    let at = KIND_NAMES.iter().position(|name| *name == word)?;
    Some(KINDS[at])
}

fn number(word: &str) -> Result<usize, Mistake> {
    word.parse()
        .map_err(|_| format!("`{word}` is not a number"))
}

fn bytes_of(words: &[&str]) -> Result<Vec<u8>, Mistake> {
    let byte = |word: &&str| match word.len() {
        2 => u8::from_str_radix(word, 16).map_err(|_| format!("`{word}` is not a byte")),
        _ => Err(format!("`{word}` is not a pair of hexadecimal digits")),
    };
    words.iter().map(byte).collect()
}

// ---------------------------------------------------------------------------
// Damage.

#[derive(Clone, Copy, Debug, PartialEq, Eq)]
pub enum File {
    Netlist,
    List,
}

/// One way to spoil finished bytes.
#[derive(Clone, Debug, PartialEq, Eq)]
pub enum Damage {
    Set(usize, Vec<u8>),
    Flip(usize, usize),
    Cut(usize),
    Append(Vec<u8>),
}

impl Damage {
    /// The words after `damage netlist` or `damage list`.
    pub fn parse(words: &[&str]) -> Result<Damage, Mistake> {
        match words {
            ["set", at, bytes @ ..] => Ok(Damage::Set(number(at)?, bytes_of(bytes)?)),
            ["flip", at, bit] => Ok(Damage::Flip(number(at)?, number(bit)?)),
            ["cut", length] => Ok(Damage::Cut(number(length)?)),
            ["append", bytes @ ..] => Ok(Damage::Append(bytes_of(bytes)?)),
            _ => Err("damage is set, flip, cut or append".to_string()),
        }
    }

    pub fn apply(&self, bytes: &mut Vec<u8>) -> Result<(), Mistake> {
        let outside = || Err("the place is not inside the file".to_string());
        match self {
            Damage::Set(at, new) => match bytes.get_mut(*at..at.saturating_add(new.len())) {
                Some(part) => part.copy_from_slice(new),
                None => return outside(),
            },
            Damage::Flip(at, bit) => match bytes.get_mut(*at) {
                Some(byte) if *bit < 8 => *byte ^= 1 << bit,
                _ => return outside(),
            },
            Damage::Cut(length) => bytes.truncate(*length),
            Damage::Append(more) => bytes.extend(more),
        }
        Ok(())
    }
}

pub fn file_of(word: &str) -> Result<File, Mistake> {
    match word {
        "netlist" => Ok(File::Netlist),
        "list" => Ok(File::List),
        _ => Err(format!("`{word}` is neither netlist nor list")),
    }
}

impl Files {
    fn of(&mut self, file: File) -> &mut Option<Vec<u8>> {
        match file {
            File::Netlist => &mut self.netlist,
            File::List => &mut self.list,
        }
    }

    pub fn damage(&mut self, file: File, damage: &Damage) -> Result<(), Mistake> {
        match self.of(file) {
            Some(bytes) => damage.apply(bytes),
            None => Err("there is no such file to damage".to_string()),
        }
    }

    /// Puts the netlist's tie into the list.
    pub fn retie(&mut self) -> Result<(), Mistake> {
        let Some(netlist) = &self.netlist else {
            return Err("there is no netlist to tie to".to_string());
        };
        let tie = tie(netlist).to_le_bytes();
        self.damage(File::List, &Damage::Set(5, tie.to_vec()))
    }
}

// ---------------------------------------------------------------------------
// Text to bytes.

enum Spoil {
    Damage(File, Damage),
    Retie,
}

struct Reader {
    card: Card,
    names: HashMap<String, usize>,
    list: List,
    raw: Files,
    left_out: Vec<File>,
    spoils: Vec<Spoil>,
}

impl Reader {
    fn new() -> Reader {
        Reader {
            card: Card {
                inputs: 0,
                gates: vec![],
                outputs: vec![],
            },
            names: HashMap::new(),
            list: List::plain([]),
            raw: Files::default(),
            left_out: vec![],
            spoils: vec![],
        }
    }

    fn name(&mut self, name: &str, signal: usize) -> Result<(), Mistake> {
        if name.parse::<usize>().is_ok() || kind_of(name).is_some() {
            return Err(format!("`{name}` cannot be a name"));
        }
        match self.names.insert(name.to_string(), signal) {
            None => Ok(()),
            Some(_) => Err(format!("`{name}` is named twice")),
        }
    }

    fn signal(&self, word: &str) -> Result<usize, Mistake> {
        match self.names.get(word) {
            Some(signal) => Ok(*signal),
            None => number(word).map_err(|_| format!("no signal `{word}`")),
        }
    }

    fn signals(&self, words: &[&str]) -> Result<Vec<usize>, Mistake> {
        words.iter().map(|word| self.signal(word)).collect()
    }

    fn inputs(&mut self, words: &[&str]) -> Result<(), Mistake> {
        if self.card.signals() > 0 {
            return Err("inputs stand once, before all gates".to_string());
        }
        if let [count] = words {
            if let Ok(count) = count.parse() {
                self.card.inputs = count;
                return Ok(());
            }
        }
        for word in words {
            self.name(word, self.card.inputs)?;
            self.card.inputs += 1;
        }
        Ok(())
    }

    fn gate(&mut self, kind: Kind, pins: &[&str]) -> Result<(), Mistake> {
        let pins = self.signals(pins)?;
        self.card.gates.push(Gate { kind, pins });
        Ok(())
    }

    fn outputs(&mut self, words: &[&str]) -> Result<(), Mistake> {
        if self.list.version == Version::Two && !self.list.changes.is_empty() {
            return Err("outputs stand before the changes that declare them".to_string());
        }
        let outputs = self.signals(words)?;
        self.card.outputs.extend(outputs);
        Ok(())
    }

    fn declared(&mut self) -> Result<(), Mistake> {
        if self.list != List::plain([]) {
            return Err("`declared` stands once, before all changes".to_string());
        }
        self.list.version = Version::Two;
        Ok(())
    }

    fn change(&mut self, words: &[&str]) -> Result<(), Mistake> {
        let mut parts = words.splitn(2, |word| *word == "->");
        let inputs = input_classes(parts.next().unwrap_or_default(), self.card.inputs)?;
        let change = match (self.list.version, parts.next()) {
            (Version::One, None) => Change::plain(inputs),
            (Version::Two, Some(words)) => {
                let declared = classes_of(words, self.card.outputs.len(), "output")?;
                Change::declaring(inputs, declared)
            }
            (Version::One, Some(_)) => return Err("an arrow without `declared`".to_string()),
            (Version::Two, None) => return Err("no arrow, though ends are declared".to_string()),
        };
        self.list.changes.push(change);
        Ok(())
    }

    fn raw(&mut self, file: File, words: &[&str]) -> Result<(), Mistake> {
        let bytes = bytes_of(words)?;
        self.raw.of(file).get_or_insert_default().extend(bytes);
        Ok(())
    }

    fn statement(&mut self, words: &[&str]) -> Result<(), Mistake> {
        match words {
            [] => Ok(()),
            ["inputs", words @ ..] => self.inputs(words),
            ["outputs", words @ ..] => self.outputs(words),
            ["declared"] => self.declared(),
            ["change", words @ ..] => self.change(words),
            ["no", word] => {
                self.left_out.push(file_of(word)?);
                Ok(())
            }
            ["netlist", words @ ..] => self.raw(File::Netlist, words),
            ["list", words @ ..] => self.raw(File::List, words),
            ["damage", file, words @ ..] => {
                let damage = Damage::parse(words)?;
                self.spoils.push(Spoil::Damage(file_of(file)?, damage));
                Ok(())
            }
            ["retie"] => {
                self.spoils.push(Spoil::Retie);
                Ok(())
            }
            [name, "=", kind, pins @ ..] => {
                let kind = kind_of(kind).ok_or_else(|| format!("no kind `{kind}`"))?;
                let signal = self.card.signals();
                self.gate(kind, pins)?;
                self.name(name, signal)
            }
            [kind, pins @ ..] => match kind_of(kind) {
                Some(kind) => self.gate(kind, pins),
                None => Err(format!("no statement `{kind}`")),
            },
        }
    }

    fn finish(self) -> Result<Files, Mistake> {
        let netlist = match self.raw.netlist {
            Some(bytes) => bytes,
            None => self.card.to_bytes(),
        };
        let list = match self.raw.list {
            Some(bytes) => bytes,
            None => self.list.to_bytes(&netlist),
        };
        let mut files = Files {
            netlist: Some(netlist),
            list: Some(list),
        };
        for spoil in &self.spoils {
            match spoil {
                Spoil::Damage(file, damage) => files.damage(*file, damage)?,
                Spoil::Retie => files.retie()?,
            }
        }
        for file in self.left_out {
            *files.of(file) = None;
        }
        Ok(files)
    }
}

/// A class for each input: letters, or two vectors.
fn input_classes(words: &[&str], inputs: usize) -> Result<Vec<Class>, Mistake> {
    match words {
        [first, second] if first.len() == inputs && second.len() == inputs && inputs > 1 => {
            let pairs = first.chars().zip(second.chars());
            pairs
                .map(|(a, b)| Ok(Class::of_ends(bit(a)?, bit(b)?)))
                .collect()
        }
        _ => classes_of(words, inputs, "input"),
    }
}

fn bit(letter: char) -> Result<bool, Mistake> {
    match letter {
        '0' => Ok(false),
        '1' => Ok(true),
        _ => Err("a vector is made of 0 and 1".to_string()),
    }
}

/// A letter for each of so many inputs or outputs, with blanks anywhere.
fn classes_of(words: &[&str], count: usize, of: &str) -> Result<Vec<Class>, Mistake> {
    let class = |letter: char| match letter {
        '0' => Ok(Class::Zero),
        '1' => Ok(Class::One),
        'R' => Ok(Class::Rise),
        'F' => Ok(Class::Fall),
        _ => Err(format!("`{letter}` is no class of an {of}")),
    };
    let letters = words.iter().flat_map(|word| word.chars());
    let classes: Vec<Class> = letters.map(class).collect::<Result<_, Mistake>>()?;
    match classes.len() == count {
        true => Ok(classes),
        false => Err(format!("{} classes for {count} {of}s", classes.len())),
    }
}

/// The files of a text.
pub fn pack(text: &str) -> Result<Files, Mistake> {
    let mut reader = Reader::new();
    for (number, line) in text.lines().enumerate() {
        let line = line.split('#').next().unwrap_or_default();
        let words: Vec<&str> = line.split_whitespace().collect();
        reader
            .statement(&words)
            .map_err(|mistake| format!("line {}: {mistake}", number + 1))?;
    }
    reader.finish()
}

// ---------------------------------------------------------------------------
// Bytes to text.

fn write_bytes(text: &mut String, word: &str, bytes: &[u8]) {
    if bytes.is_empty() {
        writeln!(text, "{word}").unwrap();
    }
    for line in bytes.chunks(16) {
        write!(text, "{word}").unwrap();
        for byte in line {
            write!(text, " {byte:02X}").unwrap();
        }
        writeln!(text).unwrap();
    }
}

fn signal_name(card: &Card, signal: usize) -> String {
    match signal < card.inputs {
        true => format!("i{signal}"),
        false => format!("g{}", signal - card.inputs),
    }
}

fn write_signals(text: &mut String, card: &Card, signals: &[usize]) {
    for signal in signals {
        write!(text, " {}", signal_name(card, *signal)).unwrap();
    }
    writeln!(text).unwrap();
}

fn write_card(text: &mut String, card: &Card) {
    write!(text, "inputs").unwrap();
    let inputs: Vec<usize> = (0..card.inputs).collect();
    write_signals(text, card, &inputs);
    for (number, gate) in card.gates.iter().enumerate() {
        write!(text, "g{number} = {}", kind_name(gate.kind)).unwrap();
        write_signals(text, card, &gate.pins);
    }
    write!(text, "outputs").unwrap();
    write_signals(text, card, &card.outputs);
}

fn letters(classes: &[Class]) -> String {
    classes.iter().map(|class| class.name()).collect()
}

fn write_list(text: &mut String, list: &List) {
    if list.version == Version::Two {
        writeln!(text, "declared").unwrap();
    }
    for change in &list.changes {
        write!(text, "change {}", letters(&change.inputs)).unwrap();
        if let Some(declared) = &change.declared {
            write!(text, " -> {}", letters(declared)).unwrap();
        }
        writeln!(text).unwrap();
    }
}

/// A text of the files; packed, it gives the same bytes.
pub fn unpack(files: &Files) -> String {
    let mut text = String::new();
    let netlist = files.netlist.as_deref();
    match netlist {
        None => writeln!(text, "no netlist").unwrap(),
        Some(bytes) => match netlist::decode(bytes) {
            Ok(card) => write_card(&mut text, &card),
            Err(refused) => {
                let (number, place) = (refused.number, refused.place);
                writeln!(text, "# refused {number} at {place}").unwrap();
                write_bytes(&mut text, "netlist", bytes);
            }
        },
    }
    match files.list.as_deref() {
        None => writeln!(text, "no list").unwrap(),
        Some(bytes) => match changes::decode(netlist.unwrap_or_default(), bytes) {
            Ok(job) => write_list(&mut text, &job.list),
            Err(refused) => {
                let (number, place) = (refused.number, refused.place);
                writeln!(text, "# refused {number} at {place}").unwrap();
                write_bytes(&mut text, "list", bytes);
            }
        },
    }
    text
}

#[cfg(test)]
mod tests {
    use super::*;
    use crate::cases;
    use crate::random::{self, Random};

    const MUX: &str = "
        inputs a b select      # the Mux case
        n = NOT select
        x = AND a select
        y = AND b n
        OR x y
        outputs 6
        change 11F
    ";

    fn mux_files() -> Files {
        Files {
            netlist: Some(cases::mux_netlist()),
            list: Some(cases::mux_list()),
        }
    }

    #[test]
    fn mux() {
        assert_eq!(pack(MUX), Ok(mux_files()));
        for change in ["change 1 1 F", "change 111 110"] {
            assert_eq!(pack(&MUX.replace("change 11F", change)), Ok(mux_files()));
        }
        let numbers = "inputs 3\nNOT 2\nAND 0 2\nAND 1 3\nOR 4 5\noutputs 6\nchange 11F";
        assert_eq!(pack(numbers), Ok(mux_files()));
    }

    /// Mux with `declared` and a change that declares its output.
    fn declared_mux(change: &str) -> Result<Files, Mistake> {
        pack(&MUX.replace("change 11F", &format!("declared\n{change}")))
    }

    #[test]
    fn declared_ends() {
        let list = cases::hex("4C 43 54 02 00 0D 20 00 00 01 00 07 03 00 01");
        let files = Files {
            list: Some(list),
            ..mux_files()
        };
        for change in [
            "change 11F -> R",
            "change 1 1 F -> R",
            "change 111 110 ->\tR # rises",
        ] {
            assert_eq!(declared_mux(change).as_ref(), Ok(&files));
        }
        let text = unpack(&files);
        assert!(text.ends_with("\ndeclared\nchange 11F -> R\n"), "{text}");
        let none = Files {
            list: Some(List::declaring([]).to_bytes(&cases::mux_netlist())),
            ..mux_files()
        };
        assert_eq!(declared_mux("").as_ref(), Ok(&none));
        assert!(unpack(&none).ends_with("\ndeclared\n"));
    }

    #[test]
    fn blanks_between_declared_classes() {
        let text =
            |declared: &str| format!("inputs 2\noutputs 0 1 0\ndeclared\nchange RF -> {declared}");
        let packed = pack(&text("RF1")).unwrap();
        for declared in ["R F 1", "RF 1", "R   F1"] {
            assert_eq!(pack(&text(declared)).as_ref(), Ok(&packed));
        }
        assert_ne!(pack(&text("RF0")).as_ref(), Ok(&packed));
    }

    #[test]
    fn damage() {
        let with = |lines: &str| pack(&format!("{MUX}\n{lines}")).unwrap();
        let netlist = |lines: &str| with(lines).netlist.unwrap();
        assert_eq!(netlist("damage netlist set 11 07")[11], 7);
        assert_eq!(netlist("damage netlist flip 12 3")[12], 9);
        assert_eq!(netlist("damage netlist cut 12").len(), 12);
        assert_eq!(netlist("damage netlist append 00 01")[35..], [0, 1]);
        assert_eq!(with("no list").list, None);
        let retied = with("damage netlist set 13 00\nretie");
        let (netlist, list) = (retied.netlist.unwrap(), retied.list.unwrap());
        assert!(changes::check(&netlist, &list).is_ok());
    }

    #[test]
    fn mistakes_are_named() {
        for (text, mistake) in [
            ("inputs a\nx = AND a b", "line 2: no signal `b`"),
            ("inputs a a", "line 1: `a` is named twice"),
            ("inputs a\nXOR a a", "line 2: no statement `XOR`"),
            ("inputs 2\nchange 1", "line 2: 1 classes for 2 inputs"),
            ("inputs 2\nchange 1x", "line 2: `x` is no class of an input"),
            (
                "inputs 2\nchange 1R 10",
                "line 2: a vector is made of 0 and 1",
            ),
            (
                "inputs 1\noutputs 0\nchange 1 -> 1",
                "line 3: an arrow without `declared`",
            ),
            (
                "inputs 1\noutputs 0\ndeclared\nchange 1",
                "line 4: no arrow, though ends are declared",
            ),
            (
                "inputs 1\noutputs 0 0\ndeclared\nchange 1 -> 1",
                "line 4: 1 classes for 2 outputs",
            ),
            (
                "inputs 1\noutputs 0\ndeclared\nchange 1 ->",
                "line 4: 0 classes for 1 outputs",
            ),
            (
                "inputs 1\noutputs 0\ndeclared\nchange 1 -> S",
                "line 4: `S` is no class of an output",
            ),
            (
                "inputs 1\noutputs 0\ndeclared\nchange 1 -> 1 -> 1",
                "line 4: `-` is no class of an output",
            ),
            (
                "inputs 1\nchange 1\ndeclared",
                "line 3: `declared` stands once, before all changes",
            ),
            (
                "declared\ndeclared",
                "line 2: `declared` stands once, before all changes",
            ),
            (
                "inputs 1\noutputs 0\ndeclared\nchange 1 -> 1\noutputs 0",
                "line 5: outputs stand before the changes that declare them",
            ),
            (
                "netlist 4",
                "line 1: `4` is not a pair of hexadecimal digits",
            ),
        ] {
            assert_eq!(pack(text), Err(mistake.to_string()));
        }
    }

    #[test]
    fn there_and_back() {
        let mut random = Random::new(9);
        for round in 0..600 {
            let card = random::small_card(&mut random);
            let count = random.below(4);
            let (mut netlist, mut list) = random::files(&mut random, &card, count);
            match round % 3 {
                0 => {}
                1 => random::damage_netlist(&mut random, &card, &mut netlist),
                _ => random::damage_list(&mut random, &card, &mut list),
            }
            let keep = |bytes, kept| if kept { Some(bytes) } else { None };
            let files = Files {
                netlist: keep(netlist, round % 50 != 7),
                list: keep(list, round % 50 != 9),
            };
            assert_eq!(pack(&unpack(&files)).as_ref(), Ok(&files));
        }
    }
}

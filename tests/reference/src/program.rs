//! The bytes that the program prints for the contents of its two files.

use crate::core::{self, Answer, Verdict};
use crate::netlist::Refused;
use crate::{changes, full};

/// As much of each file as the program reads.
pub const READ: usize = 65_536;

fn first_bytes(contents: &[u8]) -> &[u8] {
    &contents[..contents.len().min(READ)]
}

fn verdict_line(change: usize, position: usize, class: &str, answer: &Answer) -> String {
    let verdict = match answer.verdict {
        Verdict::Clean(_) => "clean",
        Verdict::Hazardous => "hazard",
    };
    let (gates, pins) = (answer.gates, answer.pins);
    format!("{change} {position} {class} {verdict} {gates} {pins}\n")
}

fn judged(netlist: &[u8], list: &[u8]) -> Result<String, Refused> {
    let job = changes::decode(netlist, list)?;
    let card = &job.card;
    let mut text = format!(
        "{} inputs {} gates {} outputs {} changes\n",
        card.inputs,
        card.gates.len(),
        card.outputs.len(),
        job.list.changes.len()
    );
    for (number, change) in job.list.changes.iter().enumerate() {
        let classes = full::classes(card, &change.inputs);
        let answers = core::all_outputs(card, change);
        for (position, (answer, _)) in answers.iter().enumerate() {
            let class = classes[card.outputs[position]].name();
            text += &verdict_line(number, position, class, answer);
        }
    }
    Ok(text)
}

/// What the program prints; a missing file is empty.
pub fn printed(netlist: &[u8], list: &[u8]) -> Vec<u8> {
    match judged(first_bytes(netlist), first_bytes(list)) {
        Ok(text) => text.into_bytes(),
        Err(refused) => format!("refused {} at {}\n", refused.number, refused.place).into_bytes(),
    }
}

#[cfg(test)]
mod tests {
    use super::*;
    use crate::cases;
    use crate::changes::List;
    use crate::classes::Class;
    use crate::netlist::Card;

    fn text(netlist: &[u8], list: &[u8]) -> String {
        String::from_utf8(printed(netlist, list)).unwrap()
    }

    #[test]
    fn mux() {
        let found = text(&cases::mux_netlist(), &cases::mux_list());
        assert_eq!(found, cases::MUX_PRINTED);
    }

    #[test]
    fn mended_mux() {
        let netlist = cases::mended_mux().to_bytes();
        let inputs = vec![Class::One, Class::One, Class::Fall];
        let list = List::plain([inputs.clone()]).to_bytes(&netlist);
        let head = "3 inputs 5 gates 1 outputs 1 changes\n";
        assert_eq!(text(&netlist, &list), format!("{head}0 0 1 clean 5 10\n"));
        // The verdict follows what is declared, the class does not.
        let declared = [Class::One, Class::Zero].map(|class| (inputs.clone(), vec![class]));
        let list = List::declaring(declared).to_bytes(&netlist);
        let head = "3 inputs 5 gates 1 outputs 2 changes\n";
        assert_eq!(
            text(&netlist, &list),
            format!("{head}0 0 1 clean 5 10\n1 0 1 hazard 2 3\n")
        );
    }

    #[test]
    fn refusals() {
        assert_eq!(text(&[], &[]), "refused 1 at 0\n");
        assert_eq!(text(&cases::mux_netlist(), &[]), "refused 11 at 0\n");
    }

    #[test]
    fn no_changes() {
        let netlist = cases::mux_netlist();
        let head = "3 inputs 4 gates 1 outputs 0 changes\n";
        for list in [List::plain([]), List::declaring([])] {
            assert_eq!(text(&netlist, &list.to_bytes(&netlist)), head);
        }
    }

    /// Bytes past the first 65,536 are not read.
    #[test]
    fn long_files() {
        let card = Card {
            inputs: 3,
            gates: vec![],
            outputs: vec![0],
        };
        let mut netlist = card.to_bytes();
        netlist.resize(80_000, 0);
        assert_eq!(text(&netlist, &[]), "refused 10 at 13\n");
        let mut list = cases::mux_list();
        list.resize(80_000, 0);
        assert_eq!(text(&cases::mux_netlist(), &list), "refused 16 at 65536\n");
    }
}

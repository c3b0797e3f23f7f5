//! The gate walk: the records of a netlist, one at a time.

use crate::netlist::{self, word_at, Kind, Refused, HEAD};

/// A walk; it may be put at any number and place.
#[derive(Clone, Copy, Debug, PartialEq, Eq)]
pub struct Walk<'a> {
    pub netlist: &'a [u8],
    /// Number of the next record.
    pub number: usize,
    /// Place of the next record.
    pub place: usize,
    /// G.
    pub gates: usize,
}

/// The whole record at a place, if one can be read there.
pub fn record_at(netlist: &[u8], place: usize) -> Option<&[u8]> {
    let rest = netlist.get(place..)?;
    let kind = Kind::of_byte(*rest.first()?)?;
    let count = usize::from(*rest.get(1)?);
    if !kind.pin_limits().contains(&count) {
        return None;
    }
    rest.get(..2 + 2 * count)
}

impl<'a> Walk<'a> {
    /// Checks the netlist and stands before its first record.
    pub fn open(netlist: &'a [u8]) -> Result<Walk<'a>, Refused> {
        netlist::check(netlist)?;
        Ok(Walk {
            netlist,
            number: 0,
            place: HEAD,
            gates: word_at(netlist, 7),
        })
    }

    /// The part that is the next record; none leaves the walk unchanged.
    pub fn step(&mut self) -> Option<&'a [u8]> {
        if self.number >= self.gates {
            return None;
        }
        let record = record_at(self.netlist, self.place)?;
        self.number += 1;
        self.place += record.len();
        Some(record)
    }
}

#[cfg(test)]
mod tests {
    use super::*;
    use crate::cases;
    use crate::netlist::Card;
    use crate::random::{self, Random};

    #[test]
    fn mux() {
        let netlist = cases::mux_netlist();
        let mut walk = Walk::open(&netlist).unwrap();
        let mut places = Vec::new();
        while let Some(record) = walk.step() {
            places.push((walk.number, walk.place, record.len()));
        }
        assert_eq!(
            places,
            [(1, 15, 4), (2, 21, 6), (3, 27, 6), (4, 33, 6)].to_vec()
        );
        let ended = walk;
        assert_eq!(walk.step(), None);
        assert_eq!(walk, ended);
    }

    #[test]
    fn hands_back_every_record() {
        let mut random = Random::new(6);
        for _ in 0..200 {
            let card = random::any_card(&mut random);
            let netlist = card.to_bytes();
            let mut walk = Walk::open(&netlist).unwrap();
            for gate in &card.gates {
                let alone = Card {
                    inputs: 1,
                    gates: vec![gate.clone()],
                    outputs: vec![],
                };
                assert_eq!(walk.step().unwrap(), &alone.to_bytes()[HEAD..]);
            }
            assert_eq!(walk.step(), None);
            assert_eq!(
                walk.place as u64,
                netlist::check(&netlist).unwrap().entries_at
            );
        }
    }

    #[test]
    fn none_at_other_places() {
        let netlist = cases::mux_netlist();
        let at = |number, place, gates| {
            let mut walk = Walk {
                netlist: &netlist,
                number,
                place,
                gates,
            };
            walk.step().map(<[u8]>::len)
        };
        // Pin numbers are not looked at, only kind, count and room.
        assert_eq!(at(0, 13, 4), None);
        assert_eq!(at(0, 33, 4), None);
        assert_eq!(at(0, 34, 4), None);
        assert_eq!(at(0, 35, 4), None);
        assert_eq!(at(0, usize::MAX, 4), None);
        assert_eq!(at(4, 11, 4), None);
        assert_eq!(at(usize::MAX, 11, 4), None);
        assert_eq!(at(3, 11, 4), Some(4));
        assert_eq!(Walk::open(&netlist[..20]), netlist::refused(5, 15));
    }
}

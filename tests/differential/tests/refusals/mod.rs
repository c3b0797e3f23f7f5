//! Calls that are refused, for every operation with a change number.

use reference::changes::VERSIONS;
use reference::netlist::Card;
use reference::random::{self, Random, Shape};

/// Calls on 2,500 damaged cards with lists of each version, with change numbers
/// of which some are past the list's end; each of these numbers must come back.
pub fn all_met(
    name: &str,
    seed: u64,
    numbers: impl IntoIterator<Item = usize> + Clone,
    mut call: impl FnMut(&mut Random, &Card, (&[u8], &[u8]), usize) -> u32,
) {
    let mut random = Random::new(seed);
    for version in VERSIONS {
        let mut met = [0; 21];
        for _ in 0..2500 {
            let card = random::small_card(&mut random);
            let (netlist, list) = random::damaged_files(&mut random, &card, version, 2);
            let change = random.pick(&[0, 1, 2, usize::MAX]);
            let number = call(&mut random, &card, (&netlist, &list), change);
            met[number as usize] += 1;
        }
        for number in numbers.clone() {
            assert!(met[number] > 0, "{name}: {number} not met: {met:?}");
        }
        println!("{name} damaged {version:?}: 2500 calls compared, by number {met:?}");
    }
}

/// Change numbers from the list's end on. 18 comes before 20, so it is the
/// answer for a buffer of any length.
#[allow(dead_code)] // not every operation has a buffer
pub fn past_the_list(
    name: &str,
    seed: u64,
    shape: Shape,
    lengths: &[usize],
    mut call: impl FnMut(&[u8], &[u8], usize, usize) -> u32,
) {
    let mut random = Random::new(seed);
    let mut compared = 0;
    for count in [0, 1, 2, 300] {
        let card = random::card(&mut random, shape, 9, 20, 2);
        let (netlist, list) = random::files(&mut random, &card, count);
        let past = [count, count + 1, count + 256, 65_536, 1 << 32, 1 << 63];
        for change in past.into_iter().chain([usize::MAX - 1, usize::MAX]) {
            for length in lengths {
                assert_eq!(call(&netlist, &list, change, *length), 18);
                compared += 1;
            }
        }
    }
    println!("{name} change numbers: {compared} calls compared");
}

//! The same calls twice: [`found`] by the library, [`right`] by the reference.

pub mod calls;
pub mod found;
pub mod right;
pub mod stack;

/// The refusal's number, 0 for none, and the five values.
pub type Answer = (u32, lanecard::Values);

/// A step of a gate walk: its answer and the part that it hands back.
pub type Step<'a> = (Answer, Option<&'a [u8]>);

/// What differs, in words.
pub type Difference = String;

pub fn same<T: PartialEq + std::fmt::Debug>(
    call: &str,
    found: &T,
    right: &T,
) -> Result<(), Difference> {
    if found == right {
        return Ok(());
    }
    Err(format!("{call}: found {found:?}, right {right:?}"))
}

/// Buffers are long: the first byte that differs is enough.
fn same_bytes(call: &str, found: &[u8], right: &[u8]) -> Result<(), Difference> {
    match found.iter().zip(right).position(|(a, b)| a != b) {
        Some(at) => same(&format!("{call}, byte {at}"), &found[at], &right[at]),
        None => Ok(()),
    }
}

/// Compares answers and whole buffers of a call that fills one; gives them.
/// A buffer is an allocation of just its length, so that valgrind sees a write
/// past the end.
pub fn same_filling(
    call: &str,
    length: usize,
    found: impl FnOnce(&mut [u8]) -> Answer,
    right: impl FnOnce(&mut [u8]) -> Answer,
) -> Result<(Answer, Box<[u8]>), Difference> {
    let before: Box<[u8]> = (0..length).map(|at| 0xA0 | (at as u8 % 16)).collect();
    let (mut found_bytes, mut right_bytes) = (before.clone(), before.clone());
    let answer = found(&mut found_bytes);
    let call = format!("{call}, buffer of {length}");
    same(&call, &answer, &right(&mut right_bytes))?;
    same_bytes(&call, &found_bytes, &right_bytes)?;
    if answer.0 != 0 {
        same_bytes(&call, &found_bytes, &before)?;
    }
    Ok((answer, found_bytes))
}

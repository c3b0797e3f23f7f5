//! Sets of classes.

use crate::classes::{Class, ALL};

/// A set of classes: true at the codes of its members.
#[derive(Clone, Copy, Debug, PartialEq, Eq)]
pub struct Set([bool; 8]);

/// {0, 1, R, F}.
pub const CLEAN: Set = Set([true, true, true, true, false, false, false, false]);

impl Set {
    pub fn of(members: impl IntoIterator<Item = Class>) -> Set {
        let mut set = Set([false; 8]);
        for member in members {
            set.0[usize::from(member.code())] = true;
        }
        set
    }

    pub fn has(self, class: Class) -> bool {
        self.0[usize::from(class.code())]
    }

    pub fn members(self) -> impl Iterator<Item = Class> {
        ALL.into_iter().filter(move |class| self.has(*class))
    }

    pub fn shares(self, other: Set) -> bool {
        self.members().any(|class| other.has(class))
    }

    /// The one member of a set that has one.
    pub fn only(self) -> Option<Class> {
        let mut members = self.members();
        let first = members.next()?;
        members.next().is_none().then_some(first)
    }
}

#[cfg(test)]
mod tests {
    use super::*;

    #[test]
    fn clean_classes() {
        for class in ALL {
            assert_eq!(CLEAN.has(class), class.is_clean());
            assert_eq!(Set::of([class]).only(), Some(class));
            assert_eq!(Set::of([class]).shares(CLEAN), class.is_clean());
        }
        assert_eq!(CLEAN.only(), None);
        assert_eq!(Set::of([]).only(), None);
    }
}

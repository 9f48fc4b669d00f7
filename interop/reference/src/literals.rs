//! Sets of atoms and conjunctions of literals as bit masks.

use std::fmt;

const WORDS: usize = 4;

/// A set of atoms, each below 256. A state is such a set.
#[derive(Clone, Copy, Default, PartialEq, Eq)]
pub struct Atoms([u64; WORDS]);

impl Atoms {
    /// No atoms.
    pub const EMPTY: Atoms = Atoms([0; WORDS]);

    /// Adds an atom below 256.
    pub fn insert(&mut self, atom: u16) {
        self.0[usize::from(atom / 64)] |= 1 << (atom % 64);
    }

    /// Is the atom in the set?
    pub fn contains(&self, atom: u16) -> bool {
        self.0
            .get(usize::from(atom / 64))
            .is_some_and(|word| word >> (atom % 64) & 1 == 1)
    }

    /// The atoms, rising.
    pub fn iter(&self) -> AtomsIter<'_> {
        AtomsIter {
            atoms: self,
            next: 0,
        }
    }

    /// Have the two sets an atom in common?
    fn meets(&self, other: &Atoms) -> bool {
        (0..WORDS).fold(0, |seen, i| seen | self.0[i] & other.0[i]) != 0
    }
}

impl FromIterator<u16> for Atoms {
    fn from_iter<I: IntoIterator<Item = u16>>(atoms: I) -> Atoms {
        let mut set = Atoms::EMPTY;
        for atom in atoms {
            set.insert(atom);
        }
        set
    }
}

impl fmt::Debug for Atoms {
    fn fmt(&self, f: &mut fmt::Formatter<'_>) -> fmt::Result {
        f.debug_set().entries(self.iter()).finish()
    }
}

/// The atoms of a set, rising.
pub struct AtomsIter<'a> {
    atoms: &'a Atoms,
    next: u16,
}

impl Iterator for AtomsIter<'_> {
    type Item = u16;

    fn next(&mut self) -> Option<u16> {
        while self.next < 64 * WORDS as u16 {
            let atom = self.next;
            self.next += 1;
            if self.atoms.contains(atom) {
                return Some(atom);
            }
        }
        None
    }
}

/// Literals read together: needs, effects, one alternative, or all literals of
/// a goal.
#[derive(Clone, Copy, Debug, Default, PartialEq, Eq)]
pub struct Literals {
    /// The atoms of the positive literals.
    pub positive: Atoms,
    /// The atoms of the negative literals.
    pub negative: Atoms,
}

impl Literals {
    /// No literals.
    pub const EMPTY: Literals = Literals {
        positive: Atoms::EMPTY,
        negative: Atoms::EMPTY,
    };

    /// Do all of them hold in the state?
    pub fn hold(&self, state: &Atoms) -> bool {
        (0..WORDS).fold(0, |failed, i| {
            failed | self.positive.0[i] & !state.0[i] | self.negative.0[i] & state.0[i]
        }) == 0
    }

    /// The state after these effects: less made false, with made true.
    pub fn change(&self, state: &Atoms) -> Atoms {
        Atoms(std::array::from_fn(|i| {
            state.0[i] & !self.negative.0[i] | self.positive.0[i]
        }))
    }

    /// Relevant as 000 writes it: at least one literal of the goal, and the
    /// opposite of none.
    pub fn relevant(&self, goal: &Literals) -> bool {
        let opposite = self.positive.meets(&goal.negative) || self.negative.meets(&goal.positive);
        !opposite && (self.positive.meets(&goal.positive) || self.negative.meets(&goal.negative))
    }
}

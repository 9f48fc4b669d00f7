//! A state as a set of atoms.

use std::fmt;

/// One bit for each of eight bytes, the lowest first: 0 when the byte is 0.
fn bits_of(bytes: u64) -> u64 {
    const LOW_SEVEN: u64 = 0x7f7f_7f7f_7f7f_7f7f;
    // The sum carries into a byte's top bit unless its low seven are all 0.
    let top = (((bytes & LOW_SEVEN) + LOW_SEVEN) | bytes) & !LOW_SEVEN;
    // The product gathers the eight bits in its top byte.
    (top >> 7).wrapping_mul(0x0102_0408_1020_4080) >> 56
}

/// The set of atoms that are true.
#[derive(Clone, Copy, PartialEq, Eq)]
pub struct State {
    bits: [u64; 4],
}

impl State {
    /// One byte for each atom, 0 when it is false.
    pub(crate) fn from_bytes(bytes: &[u8; 256]) -> State {
        let mut bits = [0; 4];
        for (word, bytes) in bits.iter_mut().zip(bytes.chunks_exact(64)) {
            for (eighth, bytes) in bytes.chunks_exact(8).enumerate() {
                let bytes = bytes.try_into().expect("eight bytes");
                *word |= bits_of(u64::from_le_bytes(bytes)) << (8 * eighth);
            }
        }
        State { bits }
    }

    /// Is the atom true? Atoms that no sheet can name are false.
    pub fn contains(&self, atom: u16) -> bool {
        let word = self.bits.get(usize::from(atom / 64));
        word.is_some_and(|word| word >> (atom % 64) & 1 == 1)
    }

    /// The number of true atoms.
    pub fn len(&self) -> usize {
        self.bits
            .iter()
            .map(|word| word.count_ones() as usize)
            .sum()
    }

    /// Is no atom true?
    pub fn is_empty(&self) -> bool {
        self.bits == [0; 4]
    }

    /// The true atoms, rising.
    pub fn iter(&self) -> Atoms {
        Atoms {
            bits: self.bits,
            word: 0,
        }
    }
}

impl fmt::Debug for State {
    fn fmt(&self, f: &mut fmt::Formatter<'_>) -> fmt::Result {
        f.debug_set().entries(self.iter()).finish()
    }
}

impl IntoIterator for &State {
    type Item = u16;
    type IntoIter = Atoms;

    fn into_iter(self) -> Atoms {
        self.iter()
    }
}

/// The true atoms of a [`State`], rising.
#[derive(Clone, Debug)]
pub struct Atoms {
    bits: [u64; 4],
    word: usize,
}

impl Iterator for Atoms {
    type Item = u16;

    fn next(&mut self) -> Option<u16> {
        while self.word < self.bits.len() {
            let word = &mut self.bits[self.word];
            if *word != 0 {
                let bit = word.trailing_zeros();
                *word &= *word - 1;
                return Some((64 * self.word) as u16 + bit as u16);
            }
            self.word += 1;
        }
        None
    }
}

#[cfg(test)]
mod tests {
    use super::State;

    #[test]
    fn atoms_go_in_and_out() {
        let mut bytes = [0; 256];
        for atom in [0, 63, 64, 200, 255] {
            bytes[atom] = 1;
        }
        let state = State::from_bytes(&bytes);
        assert_eq!(state.iter().collect::<Vec<_>>(), [0, 63, 64, 200, 255]);
        assert_eq!(state.len(), 5);
        assert!(state.contains(200) && !state.contains(201));
        assert!(!state.contains(256) && !state.contains(u16::MAX));
        assert_eq!(format!("{state:?}"), "{0, 63, 64, 200, 255}");
    }

    #[test]
    fn any_byte_but_0_is_true() {
        for atom in 0..256 {
            for byte in [1, 2, 0x7f, 0x80, 0xff] {
                let mut bytes = [0; 256];
                bytes[atom] = byte;
                let state = State::from_bytes(&bytes);
                assert_eq!(state.iter().collect::<Vec<_>>(), [atom as u16]);
            }
        }
        assert_eq!(State::from_bytes(&[0x80; 256]).len(), 256);
    }

    #[test]
    fn an_empty_state() {
        let state = State::from_bytes(&[0; 256]);
        assert!(state.is_empty());
        assert_eq!(state.iter().next(), None);
    }
}

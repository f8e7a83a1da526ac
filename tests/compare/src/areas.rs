//! Areas with dirty contents before the call and guard words around them, so
//! that a word that is left over or written outside shows as a difference.

/// Guard words on each side.
const GUARD: usize = 16;

fn dirty(length: usize, dirt: u32) -> Vec<u32> {
    (0..length as u32).map(|i| dirt.wrapping_mul(2 * i + 1) | 1).collect()
}

/// An area that a call may write to.
pub struct Area {
    words: Vec<u32>,
    before: Vec<u32>,
}

impl Area {
    pub fn new(length: usize, dirt: u32) -> Area {
        let before = dirty(length + 2 * GUARD, dirt);
        Area { words: before.clone(), before }
    }

    pub fn words(&mut self) -> &mut [u32] {
        let end = self.words.len() - GUARD;
        &mut self.words[GUARD..end]
    }

    /// How the area differs from these words with zeros after them.
    pub fn difference(&mut self, expected: &[u32]) -> Option<String> {
        let end = self.words.len() - GUARD;
        if self.words[..GUARD] != self.before[..GUARD] || self.words[end..] != self.before[end..] {
            return Some("words outside the area were written".to_string());
        }
        let length = end - GUARD;
        for (i, &word) in self.words().iter().enumerate() {
            let wanted = expected.get(i).copied().unwrap_or(0);
            if word != wanted {
                return Some(format!("word {i} of {length} is {word}, not {wanted}"));
            }
        }
        None
    }
}

/// Words that a call only reads, with dirt around them.
pub struct Guarded {
    all: Vec<u32>,
    before: Vec<u32>,
}

impl Guarded {
    pub fn new(words: &[u32], dirt: u32) -> Guarded {
        let mut all = dirty(words.len() + 2 * GUARD, dirt);
        all[GUARD..GUARD + words.len()].copy_from_slice(words);
        Guarded { before: all.clone(), all }
    }

    pub fn words(&self) -> &[u32] {
        &self.all[GUARD..self.all.len() - GUARD]
    }

    pub fn is_intact(&self) -> bool {
        std::hint::black_box(&self.all) == &self.before
    }
}

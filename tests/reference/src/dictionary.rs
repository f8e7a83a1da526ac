//! The dictionary: entries in order of declaration, and its words.

use crate::layout;
use crate::types::Type;
use std::rc::Rc;

/// The class of an entry: 1 name, 2 schema.
#[derive(Clone, Copy, PartialEq, Eq, Debug)]
pub enum Class {
    Name = 1,
    Schema = 2,
}

#[derive(Clone, Debug)]
pub struct Entry {
    pub class: Class,
    pub name: u32,
    pub parameters: u32,
    pub type_: Rc<Type>,
}

impl Entry {
    /// Class, identifier or schema name, parameter count, type.
    pub fn words(&self) -> Vec<u32> {
        let mut words = vec![self.class as u32, self.name, self.parameters];
        words.extend(self.type_.words());
        words
    }
}

#[derive(Default, Debug)]
pub struct Dictionary {
    pub entries: Vec<Entry>,
    length: usize,
}

impl Dictionary {
    pub fn add(&mut self, entry: Entry) {
        self.length += 2 + entry.words().len();
        self.entries.push(entry);
    }

    /// Words that the dictionary takes: the count, the pairs, the entries.
    pub fn length(&self) -> usize {
        1 + self.length
    }

    pub fn words(&self) -> Vec<u32> {
        layout::join(&self.entries.iter().map(Entry::words).collect::<Vec<_>>())
    }
}

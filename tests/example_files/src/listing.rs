//! Readable listings: a line for each node or entry, with its number, the
//! offset of its first word, its words read signed, and what it is.

use crate::names::Names;
use crate::notation;
use coding::Tree;
use reference::layout;
use reference::values::Value;

/// The nodes of a document that is numbered operands first.
pub fn document(tree: &Tree, words: &[u32], names: Names) -> String {
    /// Columns that suffice for a node's words.
    const WIDTH: usize = 20;
    let mut meanings = Vec::new();
    each_operands_first(tree, &mut |tree| meanings.push(notation::node(tree, names)));
    let head = format!(" node offset  {:WIDTH$}  what it is\n", "words");
    let line = |(part, meaning): (Part, &String)| {
        let Part { number, offset, words } = part;
        format!("{number:>5} {offset:>6}  {words:WIDTH$}  {meaning}\n")
    };
    head + &parts(words).into_iter().zip(&meanings).map(line).collect::<String>()
}

/// The entries of a state; their words, of which there are many, come last.
pub fn state(entries: &[(u32, Value)], words: &[u32], names: Names) -> String {
    let line = |(part, (identifier, value)): (Part, &(u32, Value))| {
        let Part { number, offset, words } = part;
        let (name, value) = (names.of_identifier(*identifier), notation::value(value, names));
        format!("{number:>5} {offset:>6}  {name} = {value}  words {words}\n")
    };
    let head = "entry offset  what it is, and its words\n".to_string();
    head + &parts(words).into_iter().zip(entries).map(line).collect::<String>()
}

fn each_operands_first(tree: &Tree, visit: &mut dyn FnMut(&Tree)) {
    tree.children().for_each(|child| each_operands_first(child, visit));
    visit(tree);
}

/// A node or an entry.
struct Part {
    number: usize,
    offset: usize,
    words: String,
}

fn parts(words: &[u32]) -> Vec<Part> {
    let signed = |word: &u32| (*word as i32).to_string();
    let part = |(number, range): (usize, std::ops::Range<usize>)| Part {
        number,
        offset: range.start,
        words: words[range].iter().map(signed).collect::<Vec<_>>().join(" "),
    };
    let ranges = layout::parts(words).expect("a sound layout");
    (1..).zip(ranges).map(part).collect()
}

//! The list of kinds: for each kind how many operands it takes and what each
//! operand word is.

/// The sorts of nodes that operands ask for.
#[derive(Clone, Copy, PartialEq, Eq, Debug)]
pub enum Sort {
    Paragraph,
    Text,
    Include,
    Line,
    Schema,
    Predicate,
    Expression,
}

/// What one operand word is: a plain word of some range, or a lower node.
#[derive(Clone, Copy, PartialEq, Eq, Debug)]
pub enum Slot {
    Identifier,
    SchemaName,
    Stroke,
    Count,
    Number,
    Node(Sort),
}

use Slot::{Count, Identifier, Node, Number, SchemaName, Stroke};
use Sort::{Expression, Include, Line, Paragraph, Predicate, Schema, Text};

pub fn is_listed(kind: u32) -> bool {
    matches!(kind, 1..=6 | 10..=12 | 15 | 20..=46)
}

/// Is a node of this kind of the sort that an operand asks for?
pub fn has_sort(kind: u32, sort: Sort) -> bool {
    match sort {
        Paragraph => matches!(kind, 2..=6),
        Text => kind == 10,
        Include => kind == 12,
        Line => matches!(kind, 11 | 12),
        Schema => matches!(kind, 10 | 12 | 15),
        Predicate => matches!(kind, 20..=29),
        Expression => matches!(kind, 30..=46),
    }
}

/// Is a plain word in its range? Node operands are judged elsewhere.
pub fn in_range(slot: Slot, word: u32) -> bool {
    match slot {
        Identifier => (4..=65_535).contains(&word),
        SchemaName => (1..=16_383).contains(&word),
        Stroke => word <= 3,
        Count => word <= 4,
        Number => word <= 2_147_483_647,
        Node(_) => true,
    }
}

/// What the operand words of a node are, one slot a word, or nothing where
/// their number is not one that the kind takes. The kind is a listed one.
pub fn slots(words: &[u32]) -> Option<Vec<Slot>> {
    let n = words.len() - 1;
    let fixed = |slots: &[Slot]| (slots.len() == n).then(|| slots.to_vec());
    match words[0] {
        1 => repeated(&[], Node(Paragraph), 0, 255, n),
        2 => repeated(&[], Identifier, 1, 16, n),
        3 => fixed(&[Node(Text)]),
        4 => counted(&[SchemaName, Count], words, Identifier, Node(Schema)),
        5 => counted(&[Identifier, Count], words, Identifier, Node(Expression)),
        6 | 24 => fixed(&[Node(Predicate)]),
        10 => repeated(&[Node(Predicate)], Node(Line), 0, 6, n),
        11 => repeated(&[Node(Expression)], Identifier, 1, 6, n),
        12 => include(words),
        15 => fixed(&[Node(Schema), Node(Schema)]),
        20 | 32 => fixed(&[]),
        21..=23 | 37 | 41..=45 => fixed(&[Node(Expression), Node(Expression)]),
        25..=27 => fixed(&[Node(Predicate), Node(Predicate)]),
        28 | 29 => fixed(&[Node(Text), Node(Predicate)]),
        30 => repeated(&[Identifier], Node(Expression), 0, 4, n),
        31 => fixed(&[Number]),
        33 => repeated(&[], Node(Expression), 0, 6, n),
        34 | 35 => repeated(&[], Node(Expression), 2, 6, n),
        36 => fixed(&[Node(Expression)]),
        38 => fixed(&[Node(Expression), Identifier]),
        39 => fixed(&[SchemaName, Stroke]),
        40 => fixed(&[Node(Include)]),
        46 => fixed(&[Node(Text), Node(Expression)]),
        kind => unreachable!("kind {kind} is not listed"),
    }
}

/// The head, then between `least` and `most` words of one slot.
fn repeated(head: &[Slot], slot: Slot, least: usize, most: usize, n: usize) -> Option<Vec<Slot>> {
    let more = n.checked_sub(head.len())?;
    if !(least..=most).contains(&more) {
        return None;
    }
    let mut all = head.to_vec();
    all.extend(vec![slot; more]);
    Some(all)
}

/// Schema and Abbreviation: a name, the count p, p parameters, the body.
fn counted(head: &[Slot], words: &[u32], each: Slot, last: Slot) -> Option<Vec<Slot>> {
    let p = *words.get(2)?;
    if p > 4 || words.len() != 4 + p as usize {
        return None;
    }
    let mut all = head.to_vec();
    all.extend(vec![each; p as usize]);
    all.push(last);
    Some(all)
}

/// Include: a name, a stroke, the count a, a actuals, 0 to 6 rename pairs.
fn include(words: &[u32]) -> Option<Vec<Slot>> {
    let a = *words.get(3)?;
    if a > 4 {
        return None;
    }
    let renames = words.len().checked_sub(4 + a as usize)?;
    if renames % 2 != 0 || renames > 12 {
        return None;
    }
    let mut all = vec![SchemaName, Stroke, Count];
    all.extend(vec![Node(Expression); a as usize]);
    all.extend(vec![Identifier; renames]);
    Some(all)
}

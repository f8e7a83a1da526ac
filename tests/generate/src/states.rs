//! States for a document: fitting, ill fitting, ill formed.

use crate::raw::odd_word;
use crate::rng::Rng;
use coding::join;
use reference::state::{roles, Role};
use reference::tree::{Decl, Document, Expr, ExprKind, Line, ParagraphKind};
use reference::types::Type;
use std::collections::BTreeMap;
use std::rc::Rc;

/// A state for these document words, of any of the three sorts.
pub fn state_for(rng: &mut Rng, words: &[u32]) -> Vec<u32> {
    let Ok(document) = reference::read(words) else {
        return stray(rng);
    };
    let mut types = declared_types(words, &document);
    let sort = rng.below(100);
    if (60..80).contains(&sort) && !types.is_empty() {
        let givens: Vec<u32> = givens(&document);
        let at = rng.below(types.len());
        let (_, one) = types.iter_mut().nth(at).expect("one of the types");
        *one = near_type(rng, one, &givens);
    }
    let entries = entries(rng, &document, &types, sort >= 60);
    match sort >= 80 {
        true => damaged(rng, &document, entries),
        false => join(&entries),
    }
}

/// A state that fits, as far as the generator finds values.
pub fn fitting_state(rng: &mut Rng, words: &[u32]) -> Vec<u32> {
    match reference::read(words) {
        Ok(document) => {
            let types = declared_types(words, &document);
            join(&entries(rng, &document, &types, false))
        }
        Err(_) => vec![0],
    }
}

fn givens(document: &Document) -> Vec<u32> {
    let given = |role: &Role| match role {
        Role::Given(id) => Some(*id),
        Role::Declared(_) => None,
    };
    roles(document).iter().filter_map(given).collect()
}

/// A type that differs from this one in one place, or nearly so.
fn near_type(rng: &mut Rng, t: &Rc<Type>, givens: &[u32]) -> Rc<Type> {
    let base = |rng: &mut Rng| match givens.is_empty() || rng.percent(30) {
        true => Rc::new(Type::Integer),
        false => Rc::new(Type::Given(*rng.pick(givens))),
    };
    if rng.percent(15) {
        return Rc::new(Type::Power(Rc::clone(t)));
    }
    match &**t {
        Type::Power(part) if rng.percent(75) => Rc::new(Type::Power(near_type(rng, part, givens))),
        Type::Power(part) => Rc::clone(part),
        Type::Product(parts) => {
            let mut parts = parts.clone();
            let at = rng.below(parts.len());
            match rng.below(4) {
                0 if parts.len() < 6 => parts.push(base(rng)),
                1 if parts.len() > 2 => drop(parts.pop()),
                _ => parts[at] = near_type(rng, &parts[at], givens),
            }
            Rc::new(Type::Product(parts))
        }
        _ if rng.percent(20) => Rc::new(Type::Product(vec![Rc::clone(t), base(rng)])),
        _ => base(rng),
    }
}

/// Words for a document that nobody reads.
fn stray(rng: &mut Rng) -> Vec<u32> {
    match rng.below(3) {
        0 => vec![],
        1 => vec![0],
        _ => (0..rng.from(1, 9)).map(|_| odd_word(rng, 1)).collect(),
    }
}

/// The declared types: those of the dictionary where the document is
/// accepted, else guesses by the form of each Decl.
fn declared_types(words: &[u32], document: &Document) -> BTreeMap<u32, Rc<Type>> {
    let mut types = BTreeMap::new();
    for paragraph in &document.paragraphs {
        if let ParagraphKind::Axiom(text) = &paragraph.kind {
            for line in &text.lines {
                if let Line::Decl(Decl { set, identifiers, .. }) = line {
                    let guess = Rc::new(element_of(document, set));
                    types.extend(identifiers.iter().map(|&id| (id, Rc::clone(&guess))));
                }
            }
        }
    }
    if let Ok(checked) = reference::check(words, usize::MAX, reference::WORK_WORDS) {
        for entry in &checked.dictionary.entries {
            if let Some(known) = types.get_mut(&entry.name) {
                if entry.class as u32 == 1 {
                    *known = Rc::clone(&entry.type_);
                }
            }
        }
    }
    types
}

fn element_of(document: &Document, set: &Expr) -> Type {
    match &set.kind {
        ExprKind::Power(operand) => Type::Power(Rc::new(element_of(document, operand))),
        ExprKind::Product(operands) => {
            Type::Product(operands.iter().map(|e| Rc::new(element_of(document, e))).collect())
        }
        ExprKind::Ref(id, _) if roles(document).contains(&Role::Given(*id)) => Type::Given(*id),
        _ => Type::Integer,
    }
}

fn entries(
    rng: &mut Rng,
    document: &Document,
    types: &BTreeMap<u32, Rc<Type>>,
    odd: bool,
) -> Vec<Vec<u32>> {
    let roles = roles(document);
    let mut sizes = BTreeMap::new();
    for role in &roles {
        if let Role::Given(given) = role {
            let size = match rng.below(10) {
                0 if odd => 0,
                1 | 3 => *rng.pick(&[14, 15, 16, 17, 17, 18, 19, 19, 20]),
                2 => rng.from(1, 20),
                _ => rng.from(1, 4),
            };
            sizes.insert(*given, size as i32);
        }
    }
    let mut all = Vec::new();
    for role in &roles {
        all.push(match role {
            Role::Given(given) => vec![sizes[given] as u32],
            Role::Declared(id) => {
                let large = rng.percent(12);
                let words = value(rng, &types[id], &sizes, if large { 64 } else { 16 });
                words.into_iter().map(|word| word as u32).collect()
            }
        });
    }
    all
}

/// An integer, often small or at an end of 32 bits.
fn integer(rng: &mut Rng) -> i32 {
    match rng.below(8) {
        0 => *rng.pick(&[i32::MIN, i32::MAX, i32::MIN + 1, i32::MAX - 1, -1, 65_536, -46_341]),
        1 => rng.word() as i32,
        2 => -(rng.below(9) as i32),
        _ => rng.below(7) as i32,
    }
}

/// A value of the type in about so many words; a binding has none, and the
/// empty set stands for a value that cannot be had.
fn value(rng: &mut Rng, t: &Type, sizes: &BTreeMap<u32, i32>, room: usize) -> Vec<i32> {
    match t {
        Type::Integer => vec![1, integer(rng)],
        Type::Given(g) => match sizes.get(g) {
            Some(&size) if size > 0 => vec![2, *g as i32, rng.below(size as usize) as i32],
            _ => vec![3, 0],
        },
        Type::Product(parts) => {
            let each = room.saturating_sub(2) / parts.len();
            let mut words = vec![4, parts.len() as i32];
            for part in parts {
                words.extend(value(rng, part, sizes, each));
            }
            words
        }
        Type::Power(part) => set_value(rng, part, sizes, room),
        Type::Binding(_) | Type::Parameter(_) => vec![3, 0],
    }
}

fn has_values(t: &Type, sizes: &BTreeMap<u32, i32>) -> bool {
    match t {
        Type::Integer | Type::Power(_) => true,
        Type::Given(g) => sizes.get(g).is_some_and(|&size| size > 0),
        Type::Product(parts) => parts.iter().all(|part| has_values(part, sizes)),
        Type::Binding(_) | Type::Parameter(_) => false,
    }
}

fn set_value(rng: &mut Rng, part: &Type, sizes: &BTreeMap<u32, i32>, room: usize) -> Vec<i32> {
    let mut members: Vec<Vec<i32>> = Vec::new();
    if !has_values(part, sizes) {
        return vec![3, 0];
    }
    let count = if room >= 60 { 40 } else { rng.below(5) };
    let mut length = 2;
    for _ in 0..count {
        let member = value(rng, part, sizes, room.saturating_sub(2) / 2);
        if length + member.len() <= room.max(4) && !members.contains(&member) {
            length += member.len();
            members.push(member);
        }
    }
    members.sort();
    [vec![3, members.len() as i32], members.concat()].concat()
}

/// Entries with one thing broken, in an entry or in the pairs.
fn damaged(rng: &mut Rng, document: &Document, mut entries: Vec<Vec<u32>>) -> Vec<u32> {
    let element = some_element(rng, document, &entries);
    if entries.is_empty() || rng.percent(20) {
        return damaged_layout(rng, &entries);
    }
    for _ in 0..rng.from(1, 2) {
        let at = rng.below(entries.len());
        let entry = &mut entries[at];
        let word = rng.below(entry.len());
        match rng.below(9) {
            0 => entry.push(odd_word(rng, 1)),
            1 if entry.len() > 1 => drop(entry.pop()),
            2 => entry[word] = odd_word(rng, entry[word]),
            3 => entry[word] = rng.below(5) as u32,
            4 => *entry = unsorted(rng),
            5 => *entry = long_value(rng, &element),
            6 => *entry = vec![*rng.pick(&[19, 20, 21, 22, u32::MAX])],
            7 => *entry = some_tuple(rng),
            _ => *entry = element.to_vec(),
        }
    }
    join(&entries)
}

/// An element of a given of the document, at the end of its size or past it,
/// or of a given that is not there.
fn some_element(rng: &mut Rng, document: &Document, entries: &[Vec<u32>]) -> [u32; 3] {
    let mut found = vec![[2, rng.from(4, 40) as u32, odd_word(rng, 3)]];
    for (role, entry) in roles(document).iter().zip(entries) {
        if let Role::Given(given) = role {
            let size = entry[0];
            let k = *rng.pick(&[size, size.wrapping_sub(1), 0, 0, u32::MAX]);
            found.push([2, *given, k]);
        }
    }
    *found.last().expect("one at least")
}

/// A tuple of 0 to 8 parts.
fn some_tuple(rng: &mut Rng) -> Vec<u32> {
    let n = *rng.pick(&[0, 1, 1, 2, 5, 6, 7, 7, 8]);
    let parts: Vec<u32> = (0..n).flat_map(|_| [1, integer(rng) as u32]).collect();
    [vec![4, n], parts].concat()
}

/// A set whose members are not ascending, or not distinct, or just right.
fn unsorted(rng: &mut Rng) -> Vec<u32> {
    let n = rng.from(2, 4);
    let mut members: Vec<[u32; 2]> = (0..n).map(|_| [1, integer(rng) as u32]).collect();
    if rng.percent(30) {
        members.sort_by_key(|m| m[1] as i32);
    }
    [vec![3, n as u32], members.concat()].concat()
}

/// A set of numbers, or an element beside one, in near 64 words.
fn long_value(rng: &mut Rng, element: &[u32]) -> Vec<u32> {
    let beside = rng.percent(60);
    let n = if beside { rng.from(27, 30) } else { rng.from(30, 33) } as u32;
    let members: Vec<u32> = (0..n).flat_map(|i| [1, i]).collect();
    let set = [vec![3, n], members].concat();
    match beside {
        true => [vec![4, 2], element.to_vec(), set].concat(),
        false => set,
    }
}

fn damaged_layout(rng: &mut Rng, entries: &[Vec<u32>]) -> Vec<u32> {
    let mut entries = entries.to_vec();
    match rng.below(4) {
        0 => entries.push(vec![1, 1]),
        1 => drop(entries.pop()),
        _ => {
            let mut words = join(&entries);
            match rng.below(3) {
                0 => words.push(1),
                1 => drop(words.pop()),
                _ => {
                    let at = rng.below((2 * entries.len() + 1).min(words.len()));
                    words[at] = odd_word(rng, words[at]);
                }
            }
            return words;
        }
    }
    join(&entries)
}

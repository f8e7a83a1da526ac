//! Documents with types inside themselves (document 02, ask 10): generic
//! relations, each with one unknown in several columns, brought together by
//! one node or by several, with different formers beside them, and near misses.

use crate::enumerated::RESULT;
use crate::rng::Rng;
use coding::make::*;
use coding::Tree;

const X: u32 = 20;
const Y: u32 = 24;
const GIVENS: [u32; 2] = [416, 420];
/// Of the schema in whose predicate the relations meet.
const PARAMETERS: [u32; 2] = [424, 428];
/// Relations: from things to things, from things to sets of them, and of any
/// columns with one parameter or two.
const ALIKE: u32 = 432;
const TO_SETS: u32 = 436;
const OTHERS: [u32; 2] = [440, 444];
const ANY: u32 = 448;
const RELATIONS: [u32; 7] = [ALIKE, ALIKE, TO_SETS, TO_SETS, OTHERS[0], OTHERS[1], ANY];
/// From numbers to relations, from numbers to bindings with one, and from
/// relations to relations.
const TABLE: u32 = 452;
const RECORDS: u32 = 456;
const FUNCTION: u32 = 460;
/// Schemas with one parameter: two that columns are of, and that of the records.
const BOUND: [u32; 2] = [1, 2];
const RECORD: u32 = 3;

pub fn inside_document(rng: &mut Rng) -> Tree {
    let columns = *rng.pick(&[2, 2, 2, 3, 3, 4]);
    let mut paragraphs = vec![given(&GIVENS)];
    paragraphs.extend(schemas(rng, columns));
    paragraphs.extend(generic_names(rng, columns));
    paragraphs.push(match rng.below(12) {
        0..=3 => claimed(relations_meet(rng)),
        4..=6 => claimed(beside_formers(rng)),
        7 => claimed(applied_to_itself(rng)),
        8 | 9 => abbreviation(RESULT, &[], set(members(rng))),
        _ => below_others(rng),
    });
    document(paragraphs)
}

/// A predicate that sees the parameters.
fn claimed(predicate: Tree) -> Tree {
    schema(9, &PARAMETERS, text(predicate, vec![]))
}

/// A set over the parameter X and another one, which may be X too.
fn column(rng: &mut Rng, other: u32) -> Tree {
    let (x, y) = (|| reference(X), || reference(other));
    match rng.below(21) {
        0..=6 => x(),
        7..=10 => power(x()),
        11 => power(power(x())),
        12..=14 => y(),
        15 => product(vec![x(); rng.from(2, 3)]),
        16 => power(product(vec![x(), if rng.percent(50) { integers() } else { y() }])),
        17 => power(product(vec![y(), y()])),
        18 | 19 => rng.pick(&binding_sets(x())).clone(),
        _ => settled(rng),
    }
}

/// Sets of bindings: with the same identifiers and other types, with the same
/// types and another identifier.
fn binding_sets(actual: Tree) -> [Tree; 3] {
    let of =
        |name, renames: &[(u32, u32)]| schema_set(include(name, 0, vec![actual.clone()], renames));
    [of(BOUND[0], &[]), of(BOUND[1], &[]), of(BOUND[0], &[(Y, Y + 1)])]
}

/// So many columns; each of the parameters is one of them.
fn relation(rng: &mut Rng, parameters: &[u32], columns: usize) -> Tree {
    let other = *parameters.last().expect("a parameter");
    let mut parts: Vec<Tree> = parameters.iter().copied().map(reference).collect();
    parts.extend((parts.len()..columns).map(|_| column(rng, other)));
    rng.shuffle(&mut parts);
    product(parts)
}

fn schemas(rng: &mut Rng, columns: usize) -> Vec<Tree> {
    let one = |name: u32, lines: Vec<Tree>| schema(name, &[X], text(truth(), lines));
    let alike = decl(reference(X), &[X, Y]);
    let to_sets = vec![decl(reference(X), &[X]), decl(power(reference(X)), &[Y])];
    let record = power(relation(rng, &[X], columns));
    vec![one(BOUND[0], vec![alike]), one(BOUND[1], to_sets), one(RECORD, vec![decl(record, &[Y])])]
}

fn generic_names(rng: &mut Rng, columns: usize) -> Vec<Tree> {
    let x = || reference(X);
    let name = |name: u32, parts: Vec<Tree>| abbreviation(name, &[X], product(parts));
    let to_sets = [vec![x(); columns - 1], vec![power(x())]].concat();
    let records = schema_set(include(RECORD, 0, vec![x()], &[]));
    let mut one = || relation(rng, &[X], columns);
    let mut names = OTHERS.map(|other| abbreviation(other, &[X], one())).to_vec();
    names.push(name(TABLE, vec![integers(), power(one())]));
    names.push(name(FUNCTION, vec![power(one()), power(one())]));
    names.push(abbreviation(ANY, &[X, Y], relation(rng, &[X, Y], columns)));
    names.push(name(ALIKE, vec![x(); columns]));
    names.push(name(TO_SETS, to_sets));
    names.push(name(RECORDS, vec![integers(), records]));
    names
}

/// Sets whose types have no unknown. Those of one group differ in a name, in
/// their length, in an identifier; those of the last are of two sorts.
fn settled_groups(names: &[u32]) -> [Vec<Tree>; 4] {
    [
        names.iter().copied().map(reference).collect(),
        [2, 3].map(|parts| product(vec![integers(); parts])).to_vec(),
        binding_sets(integers()).to_vec(),
        vec![integers(), power(integers())],
    ]
}

fn settled(rng: &mut Rng) -> Tree {
    let groups = settled_groups(&GIVENS);
    let group = rng.pick(&groups);
    rng.pick(group).clone()
}

/// An expression that has the type of a relation, mostly an open one.
fn some_relation(rng: &mut Rng, room: usize) -> Tree {
    let named = *rng.pick(&RELATIONS);
    let one = || number(1);
    match rng.below(if room == 0 { 9 } else { 14 }) {
        0..=6 => reference(named),
        7 => {
            let count = if named == ANY { 2 } else { 1 };
            generic(named, (0..count).map(|_| settled(rng)).collect())
        }
        8 => set(vec![]),
        9 => apply(reference(TABLE), one()),
        10 => select(apply(reference(RECORDS), one()), Y),
        11 | 12 => apply(reference(FUNCTION), some_relation(rng, room - 1)),
        _ => apply(set(vec![tuple(vec![one(), some_relation(rng, room - 1)])]), one()),
    }
}

/// Relations, and now and then what has another former, in any order.
fn members(rng: &mut Rng) -> Vec<Tree> {
    let count = *rng.pick(&[2, 2, 2, 3, 3, 4, 5]);
    let mut members: Vec<Tree> = (0..count).map(|_| some_relation(rng, 1)).collect();
    if rng.percent(35) {
        members.push(match rng.below(4) {
            0 => number(1),
            1 => tuple(vec![number(1), number(1)]),
            2 => product(vec![integers(); 5]),
            _ => settled(rng),
        });
    }
    rng.shuffle(&mut members);
    members
}

/// One node, or a few, by which the relations are of one type.
fn relations_meet(rng: &mut Rng) -> Tree {
    match rng.below(8) {
        0..=2 => equal(some_relation(rng, 2), some_relation(rng, 1)),
        3 => member(some_relation(rng, 1), set(vec![some_relation(rng, 1)])),
        4 => member(some_relation(rng, 1), set(members(rng))),
        5 => equal(set(members(rng)), set(members(rng))),
        6 => equal(
            comprehension(text(truth(), vec![]), some_relation(rng, 1)),
            set(vec![some_relation(rng, 1), some_relation(rng, 0)]),
        ),
        _ => member(some_relation(rng, 1), power(some_relation(rng, 1))),
    }
}

/// Two tuples of as many parts, relations and sets whose formers may differ.
fn beside_formers(rng: &mut Rng) -> Tree {
    let groups = settled_groups(&[GIVENS, PARAMETERS].concat());
    let count = rng.from(2, 4);
    let relations = rng.from(1, count - 1);
    let mut pairs: Vec<(Tree, Tree)> =
        (0..relations).map(|_| (some_relation(rng, 0), some_relation(rng, 0))).collect();
    for _ in relations..count {
        let group = if rng.percent(50) { &groups[0] } else { rng.pick(&groups) };
        let one = rng.pick(group).clone();
        let other = if rng.percent(30) { one.clone() } else { rng.pick(group).clone() };
        pairs.push((one, other));
    }
    rng.shuffle(&mut pairs);
    let (left, right) = pairs.into_iter().unzip();
    equal(tuple(left), tuple(right))
}

/// A relation as argument, member and element of itself.
fn applied_to_itself(rng: &mut Rng) -> Tree {
    let empty = || set(vec![]);
    let named = *rng.pick(&RELATIONS);
    let f = || reference(named);
    let of_integers = || generic(named, vec![integers()]);
    match rng.below(8) {
        0 => equal(apply(f(), f()), f()),
        1 => equal(apply(f(), apply(f(), number(1))), number(1)),
        2 => member(f(), f()),
        3 => member(empty(), empty()),
        4 => equal(set(vec![empty(), set(vec![empty()])]), empty()),
        5 => equal(set(vec![f(), set(vec![f()])]), empty()),
        6 => equal(apply(f(), of_integers()), of_integers()),
        _ => equal(apply(set(vec![tuple(vec![empty(), empty()])]), empty()), set(vec![number(1)])),
    }
}

/// A Set of relations as one of several operands, or as the whole of a piece
/// that a Decl or an Include closes.
fn below_others(rng: &mut Rng) -> Tree {
    let beside = match rng.below(4) {
        0 => set(vec![number(1), integers()]),
        1 => number(1),
        _ => settled(rng),
    };
    let mut operands = vec![set(members(rng)), beside];
    rng.shuffle(&mut operands);
    match rng.below(6) {
        0 => abbreviation(RESULT, &[], product(operands)),
        1 => abbreviation(RESULT, &[], tuple(operands)),
        2 => abbreviation(RESULT, &[], generic(ANY, operands)),
        3 => constraint(arithmetic(23, operands.remove(0), operands.remove(0))),
        4 => axiom(text(truth(), vec![decl(set(members(rng)), &[RESULT])])),
        _ => schema(9, &[], include(BOUND[0], 0, vec![set(members(rng))], &[])),
    }
}

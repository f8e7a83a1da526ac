//! The worst documents that the limits allow: the largest, the deepest, types
//! too large to write out, signatures of 16 in every place.

use crate::brought::declaring;
use crate::{worst_names, worst_runs, Case};
use coding::make::*;
use coding::{encode, encode_in_order, Tree};
use reference::state::{roles, Role};

const X: u32 = 20;
const Y: u32 = 24;

/// Words of an area that suffices for most documents.
const AREA: usize = 16_384;

/// Each case with what it is.
pub fn cases() -> Vec<(&'static str, Case)> {
    let leaves_first = encode_in_order(&largest(), &mut |_| 0);
    let longest = encode(&worst_names::longest_entries());
    let others = [
        ("1,024 nodes, leaves first", leaves_first),
        ("3,268 entries of 98 words", longest.clone()),
    ];
    let trees = trees().into_iter().map(|(name, tree)| (name, encode(&tree)));
    let cases = trees.chain(others).map(|(name, document)| (name, case(name, document)));
    let full = ("64 names of 64 words", full_state(64));
    cases.chain([tight(longest), full]).collect()
}

/// Each tree with what it is.
pub fn trees() -> Vec<(&'static str, Tree)> {
    vec![
        ("1,024 nodes", largest()),
        ("255 paragraphs", paragraphs()),
        ("12 deep, sets in sets", deepest()),
        ("generic tower, accepted", tower(6, false)),
        ("generic tower, against a set", tower(6, true)),
        ("function tower", function_tower()),
        ("18 to the 8th parts in a type", huge_type()),
        ("nine Conjunctions of 16", conjunctions()),
        ("8 quantifiers of 16 identifiers", quantifiers()),
        ("20 Thetas of 16 in a piece", thetas()),
        ("8 SchemaSets of 16 in a piece", schema_sets()),
        ("dictionary near 16,384 words", long_dictionary()),
        ("45,000 assignments", assignments()),
        ("6 quantifiers, last of 31 cubed", worst_runs::last_in_each(3, 6)),
        ("forall over the power of 3", over(power(numbers(3)))),
        ("forall over 2 times 5", over(product(vec![numbers(2), numbers(5)]))),
        ("forall over 5 times 5, 55", over(product(vec![numbers(5), numbers(5)]))),
        ("36 sets of 3", listed(|set| set)),
        ("36 powers of 3", listed(|set| power(set))),
        ("36 products of 3 and 3", listed(|set| product(vec![set.clone(), set]))),
        ("36 applications, first of 10 pairs", applied(0)),
        ("36 applications, last of 10 pairs", applied(9)),
    ]
    .into_iter()
    .chain(worst_names::trees())
    .chain(worst_runs::trees())
    .collect()
}

/// Documents that reading refuses as late as it can.
pub fn refused_cases() -> Vec<(&'static str, Case)> {
    let trees = [
        ("1,022 predicates deep, refused", (0..1_020).fold(truth(), |p, _| not(p))),
        ("200 quantifiers deep, refused", (0..200).fold(truth(), nested_text)),
    ];
    let refused = |(name, tree)| (name, case(name, encode(&document(vec![constraint(tree)]))));
    trees.into_iter().map(refused).collect()
}

/// A forall whose Text holds the predicate, with six identifiers.
fn nested_text(inner: Tree, _: u32) -> Tree {
    forall(text(inner, vec![decl(integers(), &[4, 8, 12, 16, X, Y])]), truth())
}

/// The case of a document: each name of its state is 1, a given has all the
/// elements that it can, and the dictionary has room.
pub fn case(family: &'static str, document: Vec<u32>) -> Case {
    let entry = |role: &Role| match role {
        Role::Given(_) => vec![20],
        Role::Declared(_) => vec![1, 1],
    };
    let state = match reference::read(&document) {
        Ok(read) => coding::join(&roles(&read).iter().map(entry).collect::<Vec<_>>()),
        Err(_) => vec![0],
    };
    let dictionary = dictionary_words(&document).max(AREA);
    Case { family, document, state, dictionary, work: AREA, output: AREA, dirt: 1 }
}

/// Words that the dictionary of an accepted document takes.
fn dictionary_words(document: &[u32]) -> usize {
    let checked = reference::check(document, usize::MAX, reference::WORK_WORDS);
    checked.map_or(0, |checked| checked.dictionary.length())
}

/// The document with a dictionary area that is just enough.
fn tight(document: Vec<u32>) -> (&'static str, Case) {
    let name = "3,268 entries, area just enough";
    let dictionary = dictionary_words(&document);
    (name, Case { dictionary, ..case(name, document) })
}

/// So many sets of numbers, and a state that gives each 64 words.
pub fn full_state(count: u32) -> Case {
    let names: Vec<u32> = (1..=count).map(|name| id(name, 0)).collect();
    let six = |six: &[u32]| axiom(text(truth(), vec![decl(power(integers()), six)]));
    let document = encode(&document(names.chunks(6).map(six).collect()));
    let value: Vec<u32> = [3, 31].into_iter().chain((0..31).flat_map(|n| [1, n])).collect();
    let state = coding::join(&vec![value; names.len()]);
    Case { state, ..case("full state", document) }
}

/// 1,024 nodes: relations of 24 nodes each.
fn largest() -> Tree {
    let side = || set(vec![numbers(4), numbers(5)]);
    let mut paragraphs: Vec<Tree> = (0..38).map(|_| constraint(equal(side(), side()))).collect();
    let count = |all: &[Tree]| 1 + all.iter().map(Tree::count).sum::<usize>();
    while count(&paragraphs) + 9 <= 1_024 {
        paragraphs.push(constraint((0..7).fold(truth(), |p, _| not(p))));
    }
    let left = 1_024 - count(&paragraphs);
    if left >= 2 {
        paragraphs.push(constraint((0..left - 2).fold(truth(), |p, _| not(p))));
    }
    document(paragraphs)
}

/// The first n whole numbers.
fn numbers(n: u32) -> Tree {
    set((0..n).map(number).collect())
}

/// A quantifier over the members of a set.
fn over(all: Tree) -> Tree {
    let each = text(truth(), vec![decl(all, &[X])]);
    document(vec![constraint(forall(each, equal(reference(X), reference(X))))])
}

/// 36 assignments that each make a set of three and list from it.
fn listed(list: fn(Tree) -> Tree) -> Tree {
    let y = arithmetic(41, reference(Y), number(6));
    let all = list(set(vec![number(12), reference(X), y]));
    let each = text(truth(), vec![decl(numbers(6), &[X, Y])]);
    document(vec![constraint(forall(each, not(equal(set(vec![]), all))))])
}

/// 36 assignments that each apply a table of the keys 0 to 9 to one of them.
fn applied(key: u32) -> Tree {
    const TABLE: u32 = 100;
    let sum = || arithmetic(41, reference(X), reference(Y));
    let digits = vec![decl(numbers(5), &[X]), decl(set(vec![number(0), number(5)]), &[Y])];
    let table = comprehension(text(truth(), digits), tuple(vec![sum(), sum()]));
    let each = text(truth(), vec![decl(numbers(6), &[X, Y])]);
    let same = equal(apply(reference(TABLE), number(key)), number(key));
    document(vec![abbreviation(TABLE, &[], table), constraint(forall(each, same))])
}

fn paragraphs() -> Tree {
    document((0..255).map(|_| constraint(equal(number(1), number(1)))).collect())
}

fn deepest() -> Tree {
    let deep = |start: Tree, n: usize| (0..n).fold(start, |e, _| set(vec![e]));
    let paragraph = || constraint(equal(deep(set(vec![]), 7), deep(number(1), 8)));
    document((0..46).map(|_| paragraph()).collect())
}

/// f[X] == X × ... × X, six wide, f[f[f[... ]]] on both sides.
fn tower(width: usize, against: bool) -> Tree {
    let f = abbreviation(4, &[X], product(vec![reference(X); width]));
    let tower = |start: Tree| (0..8).fold(start, |t, _| generic(4, vec![t]));
    let right = if against { tower(set(vec![])) } else { tower(integers()) };
    let paragraph = constraint(equal(tower(integers()), right));
    document([vec![f], vec![paragraph; 40]].concat())
}

/// f[X] == {x : X • (x, ((x, ..., x), ..., (x, ..., x)))}; f (f (f ... 1)).
fn function_tower() -> Tree {
    let row = tuple(vec![reference(Y); 3]);
    let body = tuple(vec![reference(Y), tuple(vec![row; 4])]);
    let pairs = comprehension(text(truth(), vec![decl(reference(X), &[Y])]), body);
    let f = abbreviation(4, &[X], pairs);
    let tower = |n: u32| (0..5).fold(number(n), |t, _| apply(reference(4), t));
    document([vec![f], vec![constraint(equal(tower(1), tower(2))); 40]].concat())
}

/// f[X] == (X × ... × X) × (X × ... × X) × (X × ... × X), eight times over.
fn huge_type() -> Tree {
    let row = product(vec![reference(X); 6]);
    let f = abbreviation(4, &[X], product(vec![row; 3]));
    let tower = (0..8).fold(integers(), |t, _| generic(4, vec![t]));
    let paragraph = constraint(equal(tower.clone(), tower));
    document([vec![f], vec![paragraph; 40]].concat())
}

/// An abbreviation 100 whose element type has size 30 or so.
fn wide_name() -> Vec<Tree> {
    let six = abbreviation(96, &[], product(vec![integers(); 6]));
    vec![six, abbreviation(100, &[], product(vec![reference(96); 4]))]
}

/// Schema 1 with 16 components of a wide type, unstroked.
fn sixteen() -> Vec<Tree> {
    let all = declaring(&reference(100), &sixteen_identifiers());
    [wide_name(), vec![schema(1, &[], all)]].concat()
}

fn sixteen_identifiers() -> Vec<u32> {
    (1_000..1_016).map(|name| id(name, 0)).collect()
}

fn one(stroke: u32) -> Tree {
    include(1, stroke, vec![], &[])
}

fn conjunctions() -> Tree {
    let deep = (0..9).fold(one(0), |s, _| conjunction(one(0), s));
    let user = |name: u32| schema(name, &[], deep.clone());
    document([sixteen(), (2..10).map(user).collect()].concat())
}

fn quantifiers() -> Tree {
    let quantified = |inner: Tree, i: u32| forall(text(truth(), vec![one(i % 4)]), inner);
    let same = equal(reference(id(1_000, 1)), reference(id(1_015, 1)));
    let deep = (0..7).fold(same, quantified);
    document([sixteen(), vec![constraint(deep); 20]].concat())
}

fn thetas() -> Tree {
    let brings = axiom(text(truth(), vec![one(0)]));
    let ten = || set(vec![set(vec![theta(1, 0); 5]), set(vec![theta(1, 0); 5])]);
    let same = constraint(equal(ten(), set(vec![set(vec![theta(1, 0); 5]); 1])));
    let paragraph = [vec![brings], vec![same; 40]].concat();
    document([sixteen(), paragraph].concat())
}

fn schema_sets() -> Tree {
    let all = declaring(&product(vec![reference(X); 3]), &sixteen_identifiers());
    let generic = schema(2, &[X], all);
    let user = || schema_set(include(2, 0, vec![reference(96)], &[]));
    let same = constraint(equal(set(vec![user(); 4]), set(vec![user(); 3])));
    let six = abbreviation(96, &[], product(vec![integers(); 6]));
    document([vec![six, generic], vec![same; 38]].concat())
}

fn long_dictionary() -> Tree {
    let user = |name: u32| schema(name, &[], one(0));
    document([sixteen(), (2..22).map(user).collect()].concat())
}

/// A forall over three identifiers of 31 numbers each, and one over six of
/// five; both hold.
fn assignments() -> Tree {
    let digits = |n: u32| set((0..n).map(number).collect());
    let value = || arithmetic(41, arithmetic(43, reference(X), number(6)), reference(Y));
    let small = text(at_most(value(), number(30)), vec![decl(digits(6), &[X, Y])]);
    let numbers = abbreviation(100, &[], comprehension(small, value()));
    let three = text(truth(), vec![decl(reference(100), &[4, 8, 12])]);
    let order = at_most(reference(4), arithmetic(41, reference(12), number(30)));
    let six = text(truth(), vec![decl(digits(5), &[4, 8, 12, 16, X, Y])]);
    let bound = at_most(reference(4), number(4));
    document(vec![numbers, constraint(forall(three, order)), constraint(forall(six, bound))])
}

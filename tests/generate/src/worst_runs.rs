//! The deepest and longest runs: four nested Texts of six identifiers each,
//! over sets of as many members and words as a value has room for.

use coding::make::*;
use coding::Tree;

/// The abbreviation of the set that the identifiers run over.
const ALL: u32 = id(100, 0);
/// The abbreviation of a set as long as can be a member of another.
const LONG: u32 = id(101, 0);

/// The abbreviation of a set of one member.
const ONE: u32 = id(102, 0);

/// Each tree with what it is.
pub fn trees() -> Vec<(&'static str, Tree)> {
    let long = set(vec![reference(LONG)]);
    vec![
        ("four Texts of six over 31 numbers", nested(first_numbers(31), vec![])),
        ("four Texts of six over 62 words", nested(long, vec![numbers_named(LONG, 30)])),
        ("four Texts, five to the 6th", repeated()),
        ("20 sets of 31, each from the last", rebuilt()),
        ("7 quantifiers, last of 31 in each", last_in_each(1, 7)),
        ("255 paragraphs, 12 deep in the last", deep_at_the_end()),
    ]
}

/// {x, y : {0, .., 5} | 6x + y ≤ n − 1 • 6x + y}.
fn first_numbers(n: u32) -> Tree {
    let (x, y) = (id(1, 0), id(2, 0));
    let value = || arithmetic(41, arithmetic(43, reference(x), number(6)), reference(y));
    comprehension(text(at_most(value(), number(n - 1)), vec![decl(numbers(), &[x, y])]), value())
}

fn numbers_named(name: u32, n: u32) -> Tree {
    abbreviation(name, &[], first_numbers(n))
}

/// The six identifiers of the Text at this level.
fn six(level: u32) -> Vec<u32> {
    (0..6).map(|k| id(10 + 6 * level + k, 0)).collect()
}

/// Four Texts, each in the predicate of the one around it, 12 nodes deep. The
/// innermost predicate reads the outermost Text's last identifier and its own,
/// and is true of the first assignment.
fn nested(all: Tree, before: Vec<Tree>) -> Tree {
    let last = |level| reference(six(level)[5]);
    let same = equal(last(0), last(3));
    let deep = (0..4).rev().fold(same, |inner, level| {
        exists(text(inner, vec![decl(reference(ALL), &six(level))]), truth())
    });
    document([before, vec![abbreviation(ALL, &[], all), constraint(deep)]].concat())
}

/// Three Texts of one assignment, and in the innermost a forall over six
/// identifiers of five members of 12 words each, which fill a value.
fn repeated() -> Tree {
    let x = id(1, 0);
    let plus = |n: u32| arithmetic(41, reference(x), number(n));
    let member = set([vec![reference(x)], (1..5).map(plus).collect()].concat());
    let each = text(truth(), vec![decl(set((0..5).map(number).collect()), &[x])]);
    let five = abbreviation(ALL, &[], comprehension(each, member));
    let every = forall(text(truth(), vec![decl(reference(ALL), &six(3))]), truth());
    let deep = (0..3).rev().fold(every, |inner, level| {
        exists(text(inner, vec![decl(reference(ALL), &six(level))]), truth())
    });
    document(vec![five, constraint(deep)])
}

/// Sets of 31 numbers, each the one before with its members counted down:
/// every member is added below all others.
fn rebuilt() -> Tree {
    let x = id(1, 0);
    let turned = |from: u32| {
        let each = text(truth(), vec![decl(reference(from), &[x])]);
        comprehension(each, arithmetic(42, number(30), reference(x)))
    };
    let name = |i: u32| id(101 + i, 0);
    let chain = (0..20).map(|i| abbreviation(name(i), &[], turned(name(i) - 4)));
    document(std::iter::once(numbers_named(ALL, 31)).chain(chain).collect())
}

/// Quantifiers, each in the body of the one around it, which only the last
/// assignment of its Text reaches: one identifier or more of 31 numbers each,
/// the others up to six of one. A call that keeps a frame for each member that
/// it has passed keeps them all.
pub fn last_in_each(long: usize, levels: u32) -> Tree {
    let level = |inner: Tree, level: u32| {
        let all = six(level);
        let (long, short) = all.split_at(long);
        let lines = vec![decl(reference(ALL), long), decl(reference(ONE), short)];
        exists(text(all_last(long), lines), inner)
    };
    let deep = (0..levels).fold(truth(), level);
    let before = (0..252).map(|_| constraint(truth())).collect();
    let one = abbreviation(ONE, &[], set(vec![number(0)]));
    document([before, vec![numbers_named(ALL, 31), one, constraint(deep)]].concat())
}

/// The identifiers have the last of 31 numbers.
fn all_last(identifiers: &[u32]) -> Tree {
    let references: Vec<Tree> = identifiers.iter().map(|&each| reference(each)).collect();
    match identifiers {
        [one] => equal(reference(*one), number(30)),
        all => equal(tuple(references), tuple(vec![number(30); all.len()])),
    }
}

/// 254 paragraphs, and a last one that is 12 nodes deep by Texts and sets: calls that keep a frame for each paragraph have the most then.
fn deep_at_the_end() -> Tree {
    let deep = set(vec![set(vec![number(1)])]);
    let line = |set: Tree| vec![decl(set, &[id(1, 0)])];
    let inner = equal(deep.clone(), deep);
    let texts = (0..3).fold(inner, |inner, _| exists(text(inner, line(numbers())), truth()));
    let before = (0..254).map(|_| constraint(truth())).collect();
    document([before, vec![constraint(texts)]].concat())
}

fn numbers() -> Tree {
    set((0..6).map(number).collect())
}

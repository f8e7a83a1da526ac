//! Document 02, ask 10: 39 where a type would contain itself, and 33 where two
//! different formers stand side by side, beside such a type or not.

use crate::table::*;
use crate::write::*;

pub fn rows(t: &mut Table) {
    two_relations(t);
    members_of_a_set(t);
    matching_parts(t);
    different_formers(t);
    bindings(t);
    equations_before(t);
    later_nodes(t);
    near_misses(t);
}

/// Generic relations: from things to things, from things to sets of them, and
/// between any two sorts of things.
const ALIKE: u32 = A;
const TO_SETS: u32 = B;
const ANY: u32 = C;
/// Two more names for a row's own.
const LEFT: u32 = D;
const RIGHT: u32 = 100;
const GIVENS: [u32; 2] = [104, 108];
const PARAMETERS: [u32; 2] = [112, 116];

fn x() -> Tree {
    reference(X)
}

fn alike() -> Tree {
    reference(ALIKE)
}

fn to_sets() -> Tree {
    reference(TO_SETS)
}

/// The three relations, then the paragraphs.
fn with(paragraphs: Vec<Tree>) -> Vec<Tree> {
    let relations = vec![
        abbreviation(ALIKE, &[X], product(vec![x(), x()])),
        abbreviation(TO_SETS, &[X], product(vec![x(), power(x())])),
        abbreviation(ANY, &[X, Y], product(vec![x(), reference(Y)])),
    ];
    [relations, paragraphs].concat()
}

fn with_equal(left: Tree, right: Tree) -> Vec<Tree> {
    with(vec![constraint(equal(left, right))])
}

/// Every order of three.
fn orders(three: [Tree; 3]) -> Vec<Vec<Tree>> {
    let [a, b, c] = three;
    let turns = |mut turned: Vec<Tree>| {
        let turn = move |_| {
            turned.rotate_left(1);
            turned.clone()
        };
        (0..3).map(turn).collect::<Vec<_>>()
    };
    [turns(vec![a.clone(), b.clone(), c.clone()]), turns(vec![a, c, b])].concat()
}

fn two_relations(t: &mut Table) {
    t.group("ask 10, two generic relations");
    t.refuses(with_equal(alike(), to_sets()), 39, 21, 0);
    t.refuses(with_equal(to_sets(), alike()), 39, 21, 0);
    t.refuses(with(vec![constraint(member(alike(), set(vec![to_sets()])))]), 39, 22, 0);
    t.refuses(with(vec![abbreviation(LEFT, &[], set(vec![alike(), to_sets()]))]), 39, 33, 0);
    // Between integers: ℤ and ℙ ℤ stand side by side.
    t.refuses(with_equal(alike(), generic(TO_SETS, vec![int()])), 33, 21, 0);
    t.refuses(with_equal(generic(ALIKE, vec![int()]), to_sets()), 33, 21, 0);
}

/// All members of a Set count together, in whatever order they stand.
fn members_of_a_set(t: &mut Table) {
    t.group("ask 10, members of a Set");
    let integer_pairs = product(vec![int(), int()]);
    for (third, number) in [(number(1), 33), (integer_pairs, 33), (reference(ANY), 39)] {
        for members in orders([alike(), to_sets(), third]) {
            t.refuses(with(vec![abbreviation(LEFT, &[], set(members))]), number, 33, 0);
        }
    }
}

/// One equation, whose matching parts say x = t for each part t on the right.
fn matching_parts(t: &mut Table) {
    t.group("ask 10, matching parts");
    let y = || reference(Y);
    let equal_to = |parts: Vec<Tree>| {
        let left = abbreviation(LEFT, &[X], product(vec![x(); 3]));
        let right = abbreviation(RIGHT, &[X, Y], product(parts));
        vec![left, right, constraint(equal(reference(LEFT), reference(RIGHT)))]
    };
    let pairs = || product(vec![x(), x()]);
    for parts in orders([x(), power(x()), pairs()]) {
        t.refuses(equal_to(parts), 33, 21, 0);
    }
    // ℙ ℙ ℙ .. is equal to its power and to the power of that.
    for parts in orders([x(), power(x()), power(power(x()))]) {
        t.refuses(equal_to(parts), 39, 21, 0);
    }
    // x = ℙ (x × ℤ) and x = ℙ (y × y): y is both x and ℤ.
    let (known, open) = (product(vec![x(), int()]), product(vec![y(), y()]));
    for parts in orders([x(), power(known), power(open)]) {
        t.refuses(equal_to(parts), 33, 21, 0);
    }
}

/// Beside a type inside itself, two sets with equal or different formers.
fn different_formers(t: &mut Table) {
    t.group("ask 10, different formers");
    let [one, other] = GIVENS.map(reference);
    let [first, second] = PARAMETERS.map(reference);
    let component = |name| schema_set(include(name, 0, vec![], &[]));
    let integers = |n| product(vec![int(); n]);
    let beside = [
        (one.clone(), one.clone(), 39),
        (one.clone(), other, 33),
        (first.clone(), first.clone(), 39),
        (first.clone(), second, 33),
        (first, one, 33),
        (integers(3), integers(3), 39),
        (integers(2), integers(3), 33),
        (int(), power(int()), 33),
        (component(1), component(1), 39),
        (component(1), component(2), 33),
    ];
    for (left, right, number) in beside {
        let pairs = (tuple(vec![alike(), left.clone()]), tuple(vec![to_sets(), right.clone()]));
        let turned = (tuple(vec![left, alike()]), tuple(vec![right, to_sets()]));
        for (left, right) in [pairs, turned] {
            let declared =
                [(1, X), (2, Y)].map(|(name, x)| plain_schema(name, vec![decl(int(), &[x])]));
            let claim = schema(3, &PARAMETERS, text(equal(left, right), vec![]));
            t.refuses(
                with([vec![given(&GIVENS)], declared.to_vec(), vec![claim]].concat()),
                number,
                21,
                0,
            );
        }
    }
}

/// Two generic sets of bindings, of the same and of different identifiers.
fn bindings(t: &mut Table) {
    t.group("ask 10, bindings");
    let bound = |name: u32, lines: Vec<Tree>| schema(name, &[X], text(truth(), lines));
    let set_of = |name: u32| schema_set(include(name, 0, vec![x()], &[]));
    for (second, number) in [(B, 39), (D, 33)] {
        t.refuses(
            vec![
                bound(1, vec![decl(x(), &[A, B])]),
                bound(2, vec![decl(x(), &[A]), decl(power(x()), &[second])]),
                abbreviation(LEFT, &[X], set_of(1)),
                abbreviation(RIGHT, &[X], set_of(2)),
                constraint(equal(reference(LEFT), reference(RIGHT))),
            ],
            number,
            21,
            0,
        );
    }
}

/// A node's equations are judged with those of the nodes before it.
fn equations_before(t: &mut Table) {
    t.group("ask 10, equations before");
    let any = || reference(ANY);
    let integer_pairs = product(vec![int(), int()]);
    t.refuses(with_equal(set(vec![any(), to_sets()]), set(vec![alike()])), 39, 21, 0);
    t.refuses(with_equal(set(vec![any(), to_sets()]), set(vec![integer_pairs])), 33, 21, 0);
    t.refuses(
        with_equal(tuple(vec![alike(), number(1)]), tuple(vec![to_sets(), number(1)])),
        39,
        21,
        0,
    );
    let body = comprehension(text(truth(), vec![]), alike());
    t.refuses(with_equal(body, set(vec![to_sets()])), 39, 21, 0);
    // A function on relations between things that are alike.
    let function = abbreviation(LEFT, &[X], product(vec![power(product(vec![x(), x()])), int()]));
    let applied = constraint(equal(apply(reference(LEFT), to_sets()), number(1)));
    t.refuses(with(vec![function, applied]), 39, 37, 0);
    // A component that is such a relation.
    let line = decl(power(product(vec![x(), x()])), &[Y]);
    let one = schema(1, &[X], text(truth(), vec![line]));
    let rows = product(vec![int(), schema_set(include(1, 0, vec![x()], &[]))]);
    let component = select(apply(reference(LEFT), number(1)), Y);
    let selected = constraint(equal(component, to_sets()));
    t.refuses(with(vec![one, abbreviation(LEFT, &[X], rows), selected]), 39, 21, 0);
}

/// Nodes after the first with a finding count for nothing.
fn later_nodes(t: &mut Table) {
    t.group("ask 10, later nodes");
    let inside = || set(vec![alike(), to_sets()]);
    let clash = || set(vec![number(1), int()]);
    let alone = |expression: Tree| with(vec![abbreviation(LEFT, &[], expression)]);
    t.refuses(with_equal(tuple(vec![inside(), number(1)]), number(1)), 39, 33, 0);
    t.refuses(alone(tuple(vec![inside(), clash()])), 39, 33, 0);
    t.refuses(alone(tuple(vec![clash(), inside()])), 33, 33, 0);
    t.refuses(alone(set(vec![inside(), number(1)])), 39, 33, 0);
    for operands in [vec![inside(), number(1)], vec![number(1), inside()]] {
        t.refuses(alone(product(operands.clone())), 39, 33, 0);
        t.refuses(alone(generic(ANY, operands.clone())), 39, 33, 0);
        let [left, right] = operands.try_into().expect("two operands");
        t.refuses(alone(arithmetic(41, left, right)), 39, 33, 0);
    }
    t.refuses(alone(select(inside(), X)), 39, 33, 0);
    t.refuses(with(vec![plain_axiom(vec![decl(inside(), &[Y])])]), 39, 33, 0);
    t.refuses(worked(arithmetic(41, set(vec![]), set(vec![]))), 33, 41, 0);
    t.refuses(worked(product(vec![number(1), int(), number(1)])), 33, 35, 0);
}

fn near_misses(t: &mut Table) {
    t.group("ask 10, near misses");
    let any = || reference(ANY);
    let integer_pairs = product(vec![int(), int()]);
    t.refuses(with_equal(alike(), alike()), 34, 21, 0);
    t.refuses(with_equal(tuple(vec![alike(), to_sets()]), tuple(vec![any(), any()])), 34, 21, 0);
    let nested = set(vec![set(vec![]), set(vec![set(vec![])])]);
    t.refuses(vec![constraint(equal(nested, set(vec![])))], 34, 21, 0);
    t.accepts(with(vec![abbreviation(LEFT, &[], set(vec![alike(), any(), integer_pairs]))]));
    t.accepts(with_equal(set(vec![any(), to_sets()]), set(vec![generic(TO_SETS, vec![int()])])));
}

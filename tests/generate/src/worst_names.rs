//! The documents with the most names and entries that the limits allow.

use crate::brought::*;
use coding::make::*;
use coding::Tree;

/// Each tree with what it is.
pub fn trees() -> Vec<(&'static str, Tree)> {
    vec![
        ("2,048 names, 32 schemas", stroked(32, Naming::Dense)),
        ("2,048 names in 32 classes", stroked(32, Naming::FewClasses)),
        ("1,024 names, 342 Thetas", with_thetas(16, 342, Naming::Dense)),
        ("1,024 names in 16 classes, Thetas", with_thetas(16, 342, Naming::FewClasses)),
        ("3,315 entries", most_entries()),
        ("255 schemas, the first in each", schemas_of_one()),
    ]
}

/// So many schemas of 16 components, and Axioms that bring these with each of
/// the four strokes: 64 names a schema.
pub fn stroked(count: u32, naming: Naming) -> Tree {
    document([schemas(count, naming), stroked_axioms(count, naming)].concat())
}

/// The same with so many Thetas, over all schemas and strokes in turn.
pub fn with_thetas(count: u32, thetas: u32, naming: Naming) -> Tree {
    const IN_RELATION: u32 = 20;
    let many = (0..thetas / IN_RELATION).map(|i| constraint(twenty_thetas(10 * i, count, naming)));
    let few = (0..thetas % IN_RELATION / 2).map(|i| {
        let name = naming.schema(i % count);
        constraint(equal(theta(name, 0), theta(name, 1)))
    });
    let brought = [schemas(count, naming), stroked_axioms(count, naming)].concat();
    document(brought.into_iter().chain(many).chain(few).collect())
}

/// A relation with 24 nodes below it, 20 of them Thetas: of ten schemas from
/// this one on, once more with the next stroke on its right side.
fn twenty_thetas(first: u32, count: u32, naming: Naming) -> Tree {
    let five = |from: u32, stroke: u32| -> Vec<Tree> {
        (from..from + 5).map(|i| theta(naming.schema(i % count), (i + stroke) % STROKES)).collect()
    };
    let side =
        |stroke: u32| tuple([five(first, stroke), vec![tuple(five(first + 5, stroke))]].concat());
    equal(side(0), side(1))
}

/// Components that a schema takes over from the common one, and that Axioms
/// rename, 4; and those that it renames itself, 12.
const COMMON: u32 = 4;
const OWN: u32 = 6;

/// The name of the schema from which the others are made.
const BASE: u32 = 1;

/// Schema i of 16 components: those of the base twice, six of them renamed
/// each time. Three nodes, where other ways to 12 new names take five.
fn derived(i: u32) -> Tree {
    let half = |h: u32| {
        let pair = |k| (base_id(COMMON + k), own_id(i, OWN * h + k));
        include(BASE, 0, vec![], &(0..OWN).map(pair).collect::<Vec<_>>())
    };
    schema(10 + i, &[], conjunction(half(0), half(1)))
}

fn base_id(k: u32) -> u32 {
    id(100 + k, 0)
}

fn own_id(i: u32, k: u32) -> u32 {
    id(1_000 + SIGNATURE * i + k, 0)
}

/// The Axioms over schema i with each stroke, its common components renamed.
fn derived_axioms(i: u32) -> impl Iterator<Item = Tree> {
    (0..STROKES).map(move |stroke| {
        let pair = |k| (base_id(k) + stroke, own_id(i, 2 * OWN + k) + stroke);
        let renames: Vec<_> = (0..COMMON).map(pair).collect();
        bringing(vec![include(10 + i, stroke, vec![], &renames)])
    })
}

/// The base, then so many schemas and the Axioms over them: 65 entries a
/// schema for 20 nodes and five paragraphs.
fn derived_entries(set: &Tree, count: u32) -> Vec<Tree> {
    let components: Vec<u32> = (0..COMMON + OWN).map(base_id).collect();
    let base = schema(BASE, &[], declaring(set, &components));
    let axioms = (0..count).flat_map(derived_axioms);
    std::iter::once(base).chain((0..count).map(derived)).chain(axioms).collect()
}

/// The 64 identifiers that the limit allows, 16 a Given.
fn givens() -> Vec<Tree> {
    let sixteen = |i: u32| (16 * i..16 * (i + 1)).map(|k| id(200 + k, 0)).collect::<Vec<_>>();
    (0..4).map(|i| given(&sixteen(i))).collect()
}

/// 3,315 entries in 255 paragraphs.
fn most_entries() -> Tree {
    document([givens(), derived_entries(&integers(), 50)].concat())
}

/// 3,268 entries in 1,024 nodes.
pub fn longest_entries() -> Tree {
    long_entries(49)
}

/// 65 entries for each of so many schemas, the types of the names with as many
/// words as a size of 32 has: a binding of 15 givens and of a binding of 15
/// givens.
pub fn long_entries(count: u32) -> Tree {
    const INNER: u32 = 2;
    const OUTER: u32 = 3;
    let one = |name| include(name, 0, vec![], &[]);
    let inner: Vec<u32> = (0..SIGNATURE - 1).map(|k| id(300 + k, 0)).collect();
    let nested = decl(schema_set(one(INNER)), &[id(399, 0)]);
    let outer = conjunction(one(INNER), text(truth(), vec![nested]));
    let bindings = vec![
        schema(INNER, &[], declaring(&reference(id(200, 0)), &inner)),
        schema(OUTER, &[], outer),
        bringing(vec![one(OUTER)]),
    ];
    document([givens(), bindings, derived_entries(&schema_set(one(OUTER)), count)].concat())
}

/// 255 paragraphs, each an entry that looks the first of them up.
fn schemas_of_one() -> Tree {
    let components: Vec<u32> = (0..SIGNATURE).map(|k| id(1_000 + k, 0)).collect();
    let first = schema(1, &[], declaring(&integers(), &components));
    let others = (2..=255).map(|name| schema(name, &[], include(1, 0, vec![], &[])));
    document(std::iter::once(first).chain(others).collect())
}

//! Readings R8 to R19: 21, 22, 31 to 38 and the dictionary.

use crate::table::*;
use crate::write::*;

pub fn rows(t: &mut Table) {
    r8_areas(t);
    r9_actuals_before_ref(t);
    r10_include_order(t);
    r10_theta_by_number(t);
    r11_stroke_then_renames(t);
    r12_powers(t);
    r13_unmentioned_parameter(t);
    r14_component_not_settled_yet(t);
    r15_pieces_are_settled(t);
    r16_names_between_paragraphs(t);
    r17_sixteen_identifiers(t);
    r17_component_sizes(t);
    r18_dictionary_order(t);
    r19_scope(t);
    types_are_finite(t);
    generic_towers_end(t);
}

/// A schema 1 with component X : ℤ, and one with parameter A and X : A.
fn one() -> Tree {
    plain_schema(1, vec![decl(int(), &[X])])
}

fn generic_one() -> Tree {
    schema(1, &[A], text(truth(), vec![decl(reference(A), &[X])]))
}

fn plain(name: u32) -> Tree {
    include(name, 0, vec![], &[])
}

fn r8_areas(t: &mut Table) {
    t.group("R8, areas");
    let words = doc(vec![given(&[A]), given(&[B])]);
    t.checks_in(&words, (0, AREA - 1), (21, 0));
    t.checks_in(&words, (0, AREA), (22, 0));
    t.checks_in(&words, (8, AREA), (22, 1));
    t.checks_in(&words, (9, AREA), (22, 2));
    t.checks_in(&words, (16, AREA), (22, 2));
    t.checks_in(&words, (17, AREA), (0, 0));
    let one = doc(vec![given(&[A])]);
    t.checks_in(&one, (AREA, AREA - 1), (21, 0));
    t.checks_in(&one, (0, AREA), (22, 0));
    t.checks_in(&one, (8, AREA), (22, 1));
    // 22 comes after all else in its paragraph.
    let bad = doc(vec![abbreviation(A, &[], reference(B))]);
    t.checks_in(&bad, (1, AREA), (31, nth(&bad, 30, 0)));
}

fn r9_actuals_before_ref(t: &mut Table) {
    t.group("R9, actuals before a Ref");
    let words = vec![constraint(equal(generic(A, vec![reference(B)]), number(1)))];
    t.refuses(words, 31, 30, 0);
    let f = abbreviation(A, &[X, Y], product(vec![reference(X), reference(Y)]));
    let once = generic(A, vec![int()]);
    t.refuses(vec![f.clone(), abbreviation(B, &[], once)], 32, 30, 2);
    t.accepts(vec![f.clone(), abbreviation(B, &[], generic(A, vec![int(), int()]))]);
    t.refuses(vec![f.clone(), abbreviation(B, &[], generic(A, vec![int(), number(1)]))], 33, 30, 2);
    // Actuals on a name without parameters, and on a name of a Text.
    t.refuses(vec![given(&[A]), abbreviation(B, &[], generic(A, vec![int()]))], 32, 30, 0);
}

fn r10_include_order(t: &mut Table) {
    t.group("R10, order at an Include");
    // 31 before the actuals, 32 before them too.
    let bad = || reference(100);
    t.refuses(vec![plain_axiom(vec![include(9, 0, vec![bad()], &[])])], 31, 12, 0);
    t.refuses(vec![one(), plain_axiom(vec![include(1, 0, vec![bad()], &[])])], 32, 12, 0);
    let number_actual = plain_axiom(vec![include(1, 0, vec![number(1)], &[])]);
    t.refuses(vec![generic_one(), number_actual], 33, 12, 0);
    let open_actual = plain_axiom(vec![include(1, 0, vec![set(vec![])], &[])]);
    t.refuses(vec![generic_one(), open_actual], 34, 12, 0);
    // 37 goes before 36: with 37 the Include merges nothing.
    let clash = vec![decl(power(int()), &[X]), include(1, 0, vec![], &[(100, 104)])];
    t.refuses(vec![one(), plain_schema(2, clash)], 37, 12, 0);
    let merged = vec![decl(power(int()), &[X]), plain(1)];
    t.refuses(vec![one(), plain_schema(2, merged)], 36, 12, 0);
}

fn r10_theta_by_number(t: &mut Table) {
    t.group("R10, Theta by number");
    let thetas = |name, stroke| constraint(equal(theta(name, stroke), theta(name, stroke)));
    t.refuses(vec![thetas(1, 0)], 31, 39, 0);
    t.refuses(vec![one(), thetas(1, 0)], 31, 39, 0);
    t.accepts(vec![one(), plain_axiom(vec![plain(1)]), thetas(1, 0)]);
    t.refuses(vec![one(), plain_axiom(vec![plain(1)]), thetas(1, 1)], 31, 39, 0);
    // A generic schema: 31 while the identifier is absent, then 32.
    t.refuses(vec![generic_one(), thetas(1, 0)], 31, 39, 0);
    t.refuses(vec![generic_one(), plain_axiom(vec![decl(int(), &[X])]), thetas(1, 0)], 32, 39, 0);
    // A component that cannot take the stroke gives only 37; others give 31.
    let stroked = plain_schema(1, vec![decl(int(), &[X + 1])]);
    t.refuses(vec![stroked, thetas(1, 2)], 37, 39, 0);
    let mixed = plain_schema(1, vec![decl(int(), &[X + 1, Y])]);
    t.refuses(vec![mixed.clone(), thetas(1, 2)], 31, 39, 0);
    t.refuses(vec![mixed, plain_axiom(vec![decl(int(), &[Y + 2])]), thetas(1, 2)], 37, 39, 0);
    // Of a generic abbreviation: 31.
    t.refuses(vec![one(), abbreviation(X, &[A], reference(A)), thetas(1, 0)], 31, 39, 0);
}

fn r11_stroke_then_renames(t: &mut Table) {
    t.group("R11, stroke, then renames");
    let two = || plain_schema(1, vec![decl(int(), &[X]), decl(power(int()), &[Y])]);
    let with = |stroke, renames: &[(u32, u32)]| {
        vec![two(), plain_schema(2, vec![include(1, stroke, vec![], renames)])]
    };
    t.accepts(with(1, &[(X + 1, Y)]));
    t.refuses(with(1, &[(X, Y)]), 37, 12, 0);
    t.accepts(with(0, &[(X, X)]));
    t.refuses(with(0, &[(X, Y)]), 37, 12, 0);
    t.refuses(with(0, &[(X, 100), (X, 104)]), 37, 12, 0);
    t.refuses(with(0, &[(X, 100), (X, 100)]), 37, 12, 0);
    t.refuses(with(0, &[(X, 100), (Y, 100)]), 37, 12, 0);
    let (before, swapped) = ([2, 1, 0, 5, 2, X, 1, Y, 3, 1], [2, 2, 0, 5, 2, X, 3, 1, Y, 1]);
    t.records(&doc(with(0, &[(X, Y), (Y, X)])), &coded(&[&before, &swapped]));
    // Stroke 0 on a stroked component is no stroke.
    let stroked = plain_schema(1, vec![decl(int(), &[X + 1])]);
    t.accepts(vec![stroked.clone(), plain_axiom(vec![plain(1)])]);
    t.refuses(vec![stroked, plain_axiom(vec![include(1, 1, vec![], &[])])], 37, 12, 0);
}

fn r12_powers(t: &mut Table) {
    t.group("R12, powers");
    t.refuses(vec![abbreviation(A, &[], power(number(1)))], 33, 36, 0);
    t.refuses(vec![abbreviation(A, &[], product(vec![int(), number(1)]))], 33, 35, 0);
    t.refuses(vec![plain_axiom(vec![decl(number(1), &[X])])], 33, 11, 0);
    t.refuses(vec![abbreviation(A, &[], set(vec![number(1), int(), reference(B)]))], 31, 30, 0);
    t.refuses(vec![abbreviation(A, &[], set(vec![number(1), int()]))], 33, 33, 0);
}

fn r13_unmentioned_parameter(t: &mut Table) {
    t.group("R13, a parameter not mentioned");
    let f = || abbreviation(A, &[X], int());
    t.refuses(vec![f(), constraint(equal(reference(A), int()))], 34, 21, 0);
    t.accepts(vec![f(), constraint(equal(generic(A, vec![int()]), int()))]);
    t.refuses(vec![f(), plain_axiom(vec![decl(reference(A), &[X])])], 34, 11, 0);
}

fn r14_component_not_settled_yet(t: &mut Table) {
    t.group("R14, a component not settled yet");
    let bound = || vec![one(), plain_axiom(vec![plain(1)])];
    let with = |p: Tree| bound().into_iter().chain([constraint(p)]).collect::<Vec<_>>();
    t.accepts(with(equal(select(theta(1, 0), X), number(1))));
    t.refuses(with(equal(select(theta(1, 0), Y), number(1))), 35, 38, 0);
    t.refuses(with(equal(select(number(1), X), number(1))), 35, 38, 0);
    // ({} 1).x: the result is settled by no node before the Select.
    let open = apply(set(vec![]), number(1));
    t.refuses(with(equal(select(open, X), number(1))), 35, 38, 0);
    let pair = set(vec![tuple(vec![number(1), theta(1, 0)])]);
    t.accepts(with(equal(select(apply(pair, number(1)), X), number(1))));
}

fn r15_pieces_are_settled(t: &mut Table) {
    t.group("R15, pieces are settled");
    let inner = comprehension(text(truth(), vec![decl(set(vec![]), &[X])]), reference(X));
    t.refuses(vec![constraint(equal(inner, set(vec![number(1)])))], 34, 11, 0);
    // The body of a Comprehension is of the piece around it.
    let body = comprehension(text(truth(), vec![]), set(vec![]));
    let sets = set(vec![set(vec![number(1)])]);
    t.accepts(vec![constraint(equal(body, sets))]);
}

fn r16_names_between_paragraphs(t: &mut Table) {
    t.group("R16, names between paragraphs");
    let brings = || plain_axiom(vec![plain(1)]);
    t.refuses(vec![one(), brings(), brings()], 36, 12, 1);
    t.refuses(vec![one(), brings(), given(&[X])], 36, 2, 0);
    t.refuses(vec![one(), brings(), abbreviation(X, &[], int())], 36, 5, 0);
    t.refuses(vec![one(), brings(), plain_axiom(vec![decl(int(), &[X])])], 36, 11, 1);
    t.refuses(vec![one(), given(&[X]), brings()], 36, 12, 0);
    t.accepts(vec![one(), plain_axiom(vec![decl(int(), &[X]), plain(1)])]);
    t.accepts(vec![one(), plain_axiom(vec![plain(1), plain(1)])]);
    // At the line as it is visited, before later lines.
    let lines = vec![plain(1), decl(reference(100), &[Y])];
    t.refuses(vec![one(), brings(), plain_axiom(lines)], 36, 12, 1);
    // Inner Texts and schemas may use the name again.
    t.accepts(vec![one(), brings(), plain_schema(2, vec![plain(1)])]);
    // A Conjunction merges equal types alone.
    let wide = plain_schema(2, vec![decl(power(int()), &[X])]);
    t.accepts(vec![one(), schema(3, &[], conjunction(plain(1), plain(1)))]);
    t.refuses(vec![one(), wide, schema(3, &[], conjunction(plain(1), plain(2)))], 36, 15, 0);
}

/// A schema of 16 components: four Texts in Conjunctions.
fn sixteen(name: u32, first: u32) -> Tree {
    let part = |i: u32| {
        let ids: Vec<u32> = (0..4).map(|j| 4 * (first + 4 * i + j)).collect();
        text(truth(), vec![decl(int(), &ids)])
    };
    let two = |i| conjunction(part(i), part(i + 1));
    schema(name, &[], conjunction(two(0), two(2)))
}

fn r17_sixteen_identifiers(t: &mut Table) {
    t.group("R17, sixteen identifiers");
    let first = || sixteen(1, 10);
    t.accepts(vec![first(), plain_axiom(vec![plain(1)])]);
    let more = decl(int(), &[4 * 30]);
    let schema_text = |lines| vec![first(), plain_schema(2, lines)];
    t.refuses(schema_text(vec![plain(1), more.clone()]), 38, 11, 4);
    t.refuses(schema_text(vec![more.clone(), plain(1)]), 38, 12, 0);
    t.accepts(schema_text(vec![decl(int(), &[4 * 10]), plain(1)]));
    let quantified = forall(text(truth(), vec![plain(1), more.clone()]), truth());
    t.refuses(vec![first(), constraint(quantified)], 38, 11, 4);
    let joined = conjunction(plain(1), text(truth(), vec![more]));
    t.refuses(vec![first(), schema(2, &[], joined)], 38, 15, 3);
}

fn r17_component_sizes(t: &mut Table) {
    t.group("R17, sizes of components");
    // X : A × A × A × A × A × A with A of size 5 is 31, of size 6 over 32.
    let wide = schema(1, &[A], text(truth(), vec![decl(product(vec![reference(A); 6]), &[X])]));
    let four = |n: usize| product(vec![int(); n]);
    let use_it = |n| schema_set(include(1, 0, vec![four(n)], &[]));
    t.accepts(vec![wide.clone(), constraint(equal(use_it(4), use_it(4)))]);
    t.refuses(vec![wide.clone(), constraint(equal(use_it(5), use_it(5)))], 38, 12, 0);
    // A parameter that is not mentioned may be of any size.
    let idle = schema(2, &[A], text(truth(), vec![decl(int(), &[X])]));
    let b = abbreviation(B, &[], product(vec![four(6), four(6), four(6)]));
    let large = product(vec![reference(B), reference(B)]);
    let used = schema_set(include(2, 0, vec![large.clone()], &[]));
    t.accepts(vec![b.clone(), idle, constraint(equal(used.clone(), used))]);
    // 36 goes before 38.
    let lines = vec![decl(int(), &[X]), include(1, 0, vec![large], &[])];
    t.refuses(vec![b.clone(), wide, plain_schema(3, lines)], 36, 12, 0);
    t.refuses(vec![b, abbreviation(C, &[], tuple(vec![reference(B), reference(B)]))], 38, 5, 1);
}

fn r18_dictionary_order(t: &mut Table) {
    t.group("R18, order of the dictionary");
    t.records(&doc(vec![given(&[B, A])]), &[2, 5, 6, 11, 6, 1, B, 0, 3, 2, B, 1, A, 0, 3, 2, A]);
    let lines = vec![decl(int(), &[Y, X])];
    t.records(&doc(vec![plain_axiom(lines)]), &[2, 5, 4, 9, 4, 1, X, 0, 1, 1, Y, 0, 1]);
    t.records(&doc(vec![plain_schema(7, vec![])]), &[1, 3, 5, 2, 7, 0, 5, 0]);
    let generic = abbreviation(X, &[A, B], product(vec![reference(B), reference(A)]));
    t.records(&doc(vec![generic]), &[1, 3, 10, 1, X, 2, 3, 4, 2, 6, 2, 6, 1]);
}

fn r19_scope(t: &mut Table) {
    t.group("R19, scope");
    // Texts, then parameters, then earlier paragraphs; lines do not see their
    // own Text's identifiers.
    let self_seen = plain_axiom(vec![decl(int(), &[X]), decl(reference(X), &[Y])]);
    t.refuses(vec![self_seen], 31, 30, 0);
    let inner = text(member(reference(A), int()), vec![decl(int(), &[A])]);
    t.accepts(vec![schema(1, &[A], inner)]);
    let own = abbreviation(A, &[A], reference(A));
    t.records(&doc(vec![own]), &[1, 3, 6, 1, A, 1, 3, 6, 1]);
    // Theta looks in Texts too.
    let within = text(equal(theta(1, 0), theta(1, 0)), vec![decl(power(int()), &[X])]);
    t.accepts(vec![one(), constraint(forall(within, truth()))]);
    // Document order, not node order, says which paragraph is earlier.
    let nodes = [vec![30, A], vec![5, B, 0, 1], vec![2, A], vec![1, 3, 2]];
    t.checks(&join(&nodes), (0, 0));
    let nodes = [vec![30, A], vec![5, B, 0, 1], vec![2, A], vec![1, 2, 3]];
    t.checks(&join(&nodes), (31, 1));
}

fn types_are_finite(t: &mut Table) {
    t.group("types are finite");
    let id = abbreviation(
        A,
        &[X],
        comprehension(
            text(truth(), vec![decl(reference(X), &[Y])]),
            tuple(vec![reference(Y), reference(Y)]),
        ),
    );
    let inner = abbreviation(B, &[], apply(set(vec![]), set(vec![])));
    t.refuses(vec![inner], 34, 5, 0);
    // A ∈ A of a given A: the power of A and A have different formers.
    let in_itself = constraint(member(reference(A), reference(A)));
    t.refuses(vec![given(&[A]), in_itself], 33, 22, 0);
    // A type variable against itself succeeds.
    let twice = set(vec![set(vec![]), set(vec![]), set(vec![number(1)])]);
    t.accepts(vec![id, abbreviation(B, &[], twice)]);
}

fn generic_towers_end(t: &mut Table) {
    t.group("towers of generic names end");
    // f[X] == ℙ(X × X); f[f[f[...]]] nested ten times in each of many places.
    let f = abbreviation(A, &[X], product(vec![reference(X); 6]));
    let tower = (0..9).fold(int(), |t, _| generic(A, vec![t]));
    t.refuses(vec![f, abbreviation(B, &[], tower)], 38, 5, 1);
}

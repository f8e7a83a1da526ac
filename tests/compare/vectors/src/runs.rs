//! Readings R23 to R28 and document 02's ask 5: 51 to 55 and the list of values.

use crate::table::*;
use crate::write::*;

pub fn rows(t: &mut Table) {
    r23_operands_first(t);
    apply_takes_the_only_pair(t);
    apply_looks_at_all_members(t);
    apply_takes_a_long_table(t);
    apply_compares_whole_arguments(t);
    r24_members_one_at_a_time(t);
    r25_decls(t);
    paragraphs_fail(t);
    connectives_skip(t);
    quantifiers(t);
    r26_member(t);
    r27_unused_abbreviation(t);
    r28_list(t);
    integers_end_at_32_bits(t);
    run_order_of_findings(t);
}

/// The kinds of the nodes that such a run lists.
fn lists(t: &mut Table, paragraphs: Vec<Tree>, finding: (u32, u32), kinds: &[u32]) {
    t.runs(&doc(paragraphs), &[0], finding).listed = Some(Listed::Kinds(kinds.to_vec()));
}

fn r23_operands_first(t: &mut Table) {
    t.group("R23, operands first");
    t.stops(worked(generic(B, vec![int()])), 54, 32, 0);
    t.stops(worked(generic(B, vec![number(1)])), 51, 30, 0);
    let f = abbreviation(B, &[X], reference(X));
    t.stops(vec![f.clone(), abbreviation(A, &[], reference(B))], 54, 30, 1);
    t.stops(vec![f, abbreviation(A, &[], generic(B, vec![number(1)]))], 54, 30, 1);
    let number_b = abbreviation(B, &[], number(1));
    t.stops(vec![number_b, abbreviation(A, &[], generic(B, vec![number(1)]))], 51, 30, 0);
    t.stops(worked(arithmetic(41, set(vec![]), int())), 54, 32, 0);
    t.stops(worked(arithmetic(44, set(vec![]), number(0))), 51, 44, 0);
    t.stops(worked(arithmetic(44, number(1), number(0))), 52, 44, 0);
    t.stops(worked(arithmetic(45, number(1), negative(1))), 52, 45, 0);
    t.stops(vec![constraint(at_most(set(vec![]), int()))], 54, 32, 0);
    t.stops(vec![constraint(at_most(set(vec![]), number(1)))], 51, 23, 0);
    let undefined = || arithmetic(44, number(1), number(0));
    t.stops(worked(apply(int(), undefined())), 54, 32, 0);
    t.stops(worked(apply(number(1), undefined())), 52, 44, 0);
    t.stops(worked(apply(set(vec![number(1)]), undefined())), 52, 44, 0);
    let wide = abbreviation(B, &[], set((0..6).map(number).collect()));
    let long = |last: Vec<Tree>| {
        let parts = (0..5).map(|_| reference(B)).chain(last).collect();
        vec![wide.clone(), abbreviation(A, &[], tuple(parts))]
    };
    t.stops(long(vec![]), 55, 34, 0);
    t.stops(long(vec![int()]), 54, 32, 0);
}

/// Document 02, ask 5.
fn apply_takes_the_only_pair(t: &mut Table) {
    t.group("Apply takes the only pair");
    let of = |pairs: &[(u32, u32)]| set(pairs.iter().map(|&(a, b)| pair(a, b)).collect());
    t.value(apply(of(&[(1, 7)]), number(1)), &[1, 7]);
    let three = || of(&[(1, 7), (2, 9), (3, 8)]);
    t.value(apply(three(), number(1)), &[1, 7]);
    t.value(apply(three(), number(2)), &[1, 9]);
    t.value(apply(three(), number(3)), &[1, 8]);
    t.stops(worked(apply(three(), number(4))), 52, 37, 0);
    t.stops(worked(apply(set(vec![]), number(1))), 52, 37, 0);
    // Two pairs for 1, none for 3; 2 has one.
    let two = || of(&[(1, 7), (1, 5), (2, 9)]);
    t.stops(worked(apply(two(), number(1))), 52, 37, 0);
    t.value(apply(two(), number(2)), &[1, 9]);
    t.stops(worked(apply(two(), number(3))), 52, 37, 0);
    t.stops(worked(apply(of(&[(1, 7), (1, 5), (1, 6)]), number(1))), 52, 37, 0);
    // A pair written twice is one member.
    t.value(apply(of(&[(1, 7), (1, 7)]), number(1)), &[1, 7]);
    // A second part is no argument.
    t.stops(worked(apply(of(&[(7, 1)]), number(1))), 52, 37, 0);
    t.value(apply(of(&[(7, 1), (1, 2)]), number(1)), &[1, 2]);
}

/// Integers, elements and sets sort below the pairs, longer tuples above.
fn apply_looks_at_all_members(t: &mut Table) {
    t.group("Apply looks at all members");
    let triple = |a: u32| tuple(vec![number(a), number(2), number(3)]);
    let no_pairs = || vec![number(1), set(vec![]), triple(1), tuple(vec![number(1); 6])];
    for no_pair in no_pairs() {
        t.stops(worked(apply(set(vec![no_pair.clone()]), number(1))), 51, 37, 0);
        let one = set(vec![pair(1, 2), no_pair.clone()]);
        t.stops(worked(apply(one.clone(), number(1))), 51, 37, 0);
        t.stops(worked(apply(one, number(2))), 51, 37, 0);
        let two = set(vec![pair(1, 2), no_pair, pair(1, 3)]);
        t.stops(worked(apply(two, number(1))), 51, 37, 0);
    }
    let between = set(vec![number(0), pair(1, 2), triple(0)]);
    t.stops(worked(apply(between, number(1))), 51, 37, 0);
    t.stops(worked(apply(number(1), number(1))), 51, 37, 0);
    t.stops(worked(apply(pair(1, 2), number(1))), 51, 37, 0);
    // An element beside one pair for 1, two, none.
    for argument in [1, 2, 3] {
        let pairs = [pair(1, 2), pair(2, 2), pair(2, 3)];
        let members = set(pairs.into_iter().chain([reference(X)]).collect());
        let applied = equal(apply(members, number(argument)), number(2));
        let each = text(truth(), vec![decl(reference(A), &[X])]);
        let words = doc(vec![given(&[A]), constraint(exists(each, applied))]);
        t.runs(&words, &state(&[&[1]]), (51, nth(&words, 37, 0)));
    }
}

/// The table of a state, of ten pairs, as many as 64 words hold.
fn apply_takes_a_long_table(t: &mut Table) {
    t.group("Apply takes a long table");
    let applied_to = |argument| {
        let table = plain_axiom(vec![decl(power(product(vec![int(), int()])), &[B])]);
        doc(vec![table, abbreviation(A, &[], apply(reference(B), number(argument)))])
    };
    // The keys 0 to 8 and one more, with the results 20 to 29.
    let table = |last: i32| {
        let keys = (0..9).chain([last]);
        let pairs = keys.zip(20..).flat_map(|(key, result)| [4, 2, 1, key, 1, result]);
        state(&[&[3, 10].into_iter().chain(pairs).collect::<Vec<i32>>()])
    };
    for (argument, result) in [(0, 20), (9, 29)] {
        let words = applied_to(argument);
        let last = Listed::Last(nth(&words, 37, 0), vec![1, result]);
        t.runs(&words, &table(9), (0, 0)).listed = Some(last);
    }
    for argument in [8, 9] {
        let words = applied_to(argument);
        t.runs(&words, &table(8), (52, nth(&words, 37, 0)));
    }
}

fn apply_compares_whole_arguments(t: &mut Table) {
    t.group("Apply compares whole arguments");
    let numbers = |of: &[u32]| set(of.iter().map(|&n| number(n)).collect());
    let to = |first: Tree, second: u32| tuple(vec![first, number(second)]);
    let of_pairs = |a, b| set(vec![to(pair(1, a), 5), to(pair(1, b), 6)]);
    t.value(apply(of_pairs(2, 3), pair(1, 3)), &[1, 6]);
    t.stops(worked(apply(of_pairs(2, 3), pair(1, 4))), 52, 37, 0);
    t.stops(worked(apply(of_pairs(2, 2), pair(1, 2))), 52, 37, 0);
    let of_sets = |a: &[u32], b: &[u32]| set(vec![to(numbers(a), 5), to(numbers(b), 6)]);
    t.value(apply(of_sets(&[1, 2], &[1, 3]), numbers(&[3, 1])), &[1, 6]);
    t.value(apply(of_sets(&[], &[1]), numbers(&[])), &[1, 5]);
    t.stops(worked(apply(of_sets(&[1, 2], &[1, 3]), numbers(&[1, 4]))), 52, 37, 0);
    t.stops(worked(apply(of_sets(&[1, 2], &[2, 1]), numbers(&[1, 2]))), 52, 37, 0);
    t.stops(worked(apply(set(vec![pair(1, 5)]), numbers(&[1]))), 52, 37, 0);
    // Two elements have a result each, one element that is both has two.
    let table = set(vec![to(reference(X), 5), to(reference(Y), 6)]);
    let applied = equal(apply(table, reference(X)), number(5));
    let over = |guard, body| {
        let each = text(guard, vec![decl(reference(A), &[X, Y])]);
        doc(vec![given(&[A]), constraint(forall(each, body))])
    };
    let two = state(&[&[2]]);
    let others = over(not(equal(reference(X), reference(Y))), applied.clone());
    t.runs(&others, &two, (0, 0));
    let all = over(truth(), applied);
    t.runs(&all, &two, (52, nth(&all, 37, 0)));
}

fn r24_members_one_at_a_time(t: &mut Table) {
    t.group("R24, members one at a time");
    // Members of 12 words each: the sixth other one passes 64 words.
    let names = [100, 104, 108, 112, 116, 120];
    let kept = |i: usize| {
        let members = (0..5).map(|j| number(10 * i as u32 + j)).collect();
        abbreviation(names[i], &[], set(members))
    };
    let all = |members: Vec<Tree>| {
        let kept: Vec<Tree> = (0..6).map(kept).collect();
        kept.into_iter().chain([abbreviation(A, &[], set(members))]).collect::<Vec<_>>()
    };
    let refs = |wanted: &[usize]| wanted.iter().map(|&i| reference(names[i])).collect::<Vec<_>>();
    t.holds(all(refs(&[0, 1, 2, 3, 4, 0])));
    t.stops(all(refs(&[0, 1, 2, 3, 4, 5])), 55, 33, 6);
    // Five numbers and four sets pass 64 words at the last set, before ℤ.
    let mixed = |last: Tree| {
        let members = refs(&[0, 1, 2, 3, 4]).into_iter().chain([last]).collect();
        all(members)
    };
    t.holds(mixed(number(1)));
    t.stops(mixed(int()), 54, 32, 0);
    let early = vec![tuple(refs(&[0, 1])), tuple(refs(&[2, 3])), tuple(refs(&[4, 5])), int()];
    t.stops(all(early), 55, 33, 6);
}

fn r25_decls(t: &mut Table) {
    t.group("R25, Decls");
    let x_in = |e: Tree| doc(vec![axiom(text(truth(), vec![decl(e, &[X])]))]);
    let one = state(&[&[1, 1]]);
    let mut answers = |e: Tree, number, kind| {
        let words = x_in(e);
        t.runs(&words, &one, (number, nth(&words, kind, 0)));
    };
    answers(set(vec![number(2)]), 1, 11);
    answers(power(int()), 51, 36);
    answers(product(vec![int(), int()]), 51, 35);
    answers(number(5), 51, 31);
    // The Axiom's lines do not see its own identifiers.
    answers(set(vec![reference(X)]), 51, 30);
    t.runs(&x_in(int()), &one, (0, 0));
    // A quantifier's Decl is worked out as a value.
    let over = |lines| vec![constraint(forall(text(truth(), lines), truth()))];
    t.stops(over(vec![decl(number(1), &[X]), decl(int(), &[Y])]), 51, 11, 0);
    t.stops(over(vec![decl(set(vec![]), &[X]), decl(int(), &[Y])]), 54, 32, 0);
    t.stops(over(vec![decl(set(vec![]), &[X]), include(1, 0, vec![], &[])]), 54, 12, 0);
    // The E is worked out anew for each identifier.
    let words = doc(vec![axiom(text(truth(), vec![decl(set(vec![number(1)]), &[X, Y])]))]);
    let twice = t.runs(&words, &state(&[&[1, 1], &[1, 1]]), (0, 0));
    twice.listed = Some(Listed::Kinds(vec![31, 33, 31, 33]));
}

fn paragraphs_fail(t: &mut Table) {
    t.group("paragraphs fail");
    let no = || not(truth());
    t.fails(vec![constraint(no())], 3);
    t.fails(vec![axiom(text(no(), vec![]))], 4);
    t.holds(vec![plain_schema(1, vec![decl(number(1), &[X])])]);
    let sized = doc(vec![given(&[A]), constraint(equal(reference(A), set(vec![])))]);
    t.runs(&sized, &state(&[&[0]]), (0, 0));
    t.runs(&sized, &state(&[&[1]]), (1, 5));
}

fn connectives_skip(t: &mut Table) {
    t.group("connectives skip");
    let bad = || equal(int(), int());
    let no = || not(truth());
    t.holds(vec![constraint(or(truth(), bad()))]);
    t.holds(vec![constraint(implies(no(), bad()))]);
    t.holds(vec![constraint(not(and(no(), bad())))]);
    t.stops(vec![constraint(and(truth(), bad()))], 54, 32, 0);
}

fn quantifiers(t: &mut Table) {
    t.group("quantifiers");
    let upto = |n: u32| set((0..n).map(number).collect());
    let over = |p, n| text(p, vec![decl(upto(n), &[X])]);
    let is = |n| equal(reference(X), number(n));
    t.holds(vec![constraint(forall(over(is(1), 3), is(1)))]);
    t.fails(vec![constraint(exists(over(is(1), 3), is(2)))], 14);
    t.holds(vec![constraint(exists(text(truth(), vec![]), truth()))]);
    // exists stops at a true: the last member would divide by zero.
    let one_over = || {
        let divisor = arithmetic(42, number(1), reference(X));
        equal(arithmetic(44, number(6), divisor), number(6))
    };
    t.holds(vec![constraint(exists(over(truth(), 2), one_over()))]);
    t.stops(vec![constraint(forall(over(truth(), 2), one_over()))], 52, 44, 0);
    // First identifier slowest: (0, 0), (0, 1), (1, 0), (1, 1).
    let pairs = comprehension(
        text(truth(), vec![decl(upto(2), &[X, Y])]),
        tuple(vec![reference(X), reference(Y)]),
    );
    let tuples = [[0, 0], [0, 1], [1, 0], [1, 1]].map(|[x, y]| vec![4, 2, 1, x, 1, y]);
    let run = t.runs(&doc(worked(pairs)), &[0], (0, 0));
    run.listed = Some(Listed::OfKind(34, tuples.to_vec()));
}

fn r26_member(t: &mut Table) {
    t.group("R26, Member");
    let is_in = |v, e| vec![constraint(member(v, e))];
    t.holds(is_in(set(vec![]), power(reference(B))));
    lists(t, is_in(number(1), int()), (0, 0), &[31]);
    lists(t, is_in(pair(1, 2), product(vec![int(), int()])), (0, 0), &[31, 31, 34]);
    t.stops(is_in(pair(1, 2), product(vec![int(), int(), int()])), 51, 35, 0);
    t.stops(is_in(number(1), number(1)), 51, 31, 1);
    t.stops(is_in(number(1), select(int(), X)), 54, 38, 0);
    // The first miss ends it.
    let missed = product(vec![set(vec![number(9)]), number(3)]);
    t.fails(is_in(pair(1, 2), missed), 9);
}

fn r27_unused_abbreviation(t: &mut Table) {
    t.group("R27, an Abbreviation that nobody uses");
    t.stops(worked(power(reference(B))), 51, 30, 0);
    t.stops(worked(product(vec![reference(B), int()])), 51, 30, 0);
    t.stops(worked(theta(1, 0)), 54, 39, 0);
    t.stops(worked(schema_set(include(1, 0, vec![], &[]))), 54, 40, 0);
}

fn r28_list(t: &mut Table) {
    t.group("R28, the list");
    let sum = arithmetic(41, number(1), number(2));
    lists(t, worked(set(vec![sum])), (0, 0), &[31, 31, 41, 33]);
    let broken = arithmetic(44, number(1), number(0));
    lists(t, worked(set(vec![broken])), (52, 3), &[31, 31]);
    let words = doc(vec![given(&[A]), constraint(equal(reference(A), reference(A)))]);
    let elements = vec![3, 1, 2, A as i32, 0];
    let both = vec![elements.clone(), elements];
    t.runs(&words, &state(&[&[1]]), (0, 0)).listed = Some(Listed::OfKind(30, both));
    t.runs(&words, &state(&[&[2]]), (0, 0)).listed = Some(Listed::Kinds(vec![30, 30]));
}

fn integers_end_at_32_bits(t: &mut Table) {
    t.group("integers end at 32 bits");
    let low = || arithmetic(42, negative(2_147_483_647), number(1));
    t.value(low(), &[1, i32::MIN]);
    t.stops(worked(arithmetic(42, low(), number(1))), 53, 42, 2);
    t.value(arithmetic(44, low(), number(1)), &[1, i32::MIN]);
    t.value(arithmetic(45, low(), number(2_147_483_647)), &[1, 2_147_483_646]);
    t.value(arithmetic(44, low(), number(2_147_483_647)), &[1, -2]);
    t.stops(worked(arithmetic(43, low(), negative(1))), 53, 43, 0);
}

fn run_order_of_findings(t: &mut Table) {
    t.group("order of a run's findings");
    let words = doc(vec![given(&[A])]);
    t.runs(&words, &[], (21, 0)).work = AREA - 1;
    t.runs(&words, &[], (41, 0));
}

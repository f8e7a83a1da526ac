//! Documents at a limit and one past it, one maker for each limit.

use crate::number::encode_somehow;
use crate::rng::Rng;
use coding::make::*;
use coding::{join, Tree};

/// A document at one limit or one past it.
pub fn at_a_limit(rng: &mut Rng) -> Vec<u32> {
    let tree = match rng.below(12) {
        0 => deep_predicate(rng),
        1 => deep_expression(rng),
        2 => deep_schema(rng),
        3 => nested_texts(rng),
        4 => text_identifiers(rng),
        5 => nodes_below(rng),
        6 => globals(rng),
        7 => paragraphs(rng),
        8 => operand_count(rng),
        9 => plain_word(rng),
        10 => return node_count(rng),
        _ => return word_count(rng),
    };
    encode_somehow(rng, &tree)
}

/// A number that is the limit, one less, or one or two more.
fn near(rng: &mut Rng, limit: usize) -> usize {
    *rng.pick(&[limit - 1, limit, limit, limit + 1, limit + 1, limit + 2])
}

fn around(n: usize, start: Tree, wrap: impl Fn(Tree) -> Tree) -> Tree {
    (0..n).fold(start, |tree, _| wrap(tree))
}

/// Document, Constraint, then predicates down to a depth near 12.
fn deep_predicate(rng: &mut Rng) -> Tree {
    let depth = near(rng, 12);
    let kind = rng.from(24, 28);
    let deep = around(depth - 3, truth(), |p| match kind {
        24 => not(p),
        28 => forall(text(truth(), vec![]), p),
        _ => arithmetic(kind as u32, truth(), p),
    });
    document(vec![given(&[4]), constraint(deep)])
}

/// An Abbreviation whose E goes down to a depth near 12.
fn deep_expression(rng: &mut Rng) -> Tree {
    let depth = near(rng, 12);
    let form = rng.below(4);
    let deep = around(depth - 3, integers(), |e| match form {
        0 => power(e),
        1 => set(vec![e]),
        2 => tuple(vec![e, number(1)]),
        _ => product(vec![integers(), e]),
    });
    document(vec![abbreviation(4, &[], deep)])
}

/// Conjunctions in Conjunctions down to a depth near 12.
fn deep_schema(rng: &mut Rng) -> Tree {
    let depth = near(rng, 12);
    let left = rng.percent(50);
    let leaf = || text(truth(), vec![]);
    let deep = around(depth - 4, leaf(), |s| match left {
        true => conjunction(s, leaf()),
        false => conjunction(leaf(), s),
    });
    document(vec![schema(1, &[], deep)])
}

/// Texts in Texts, near 4: by predicates, by Decls, or beside one another.
fn nested_texts(rng: &mut Rng) -> Tree {
    let count = near(rng, 4);
    let form = rng.below(3);
    let innermost = text(truth(), vec![decl(integers(), &[4])]);
    let nested = around(count - 1, innermost, |t| match form {
        0 => text(forall(t, truth()), vec![]),
        1 => text(truth(), vec![decl(comprehension(t, number(1)), &[8])]),
        _ => text(exists(text(truth(), vec![]), not(exists(t, truth()))), vec![]),
    });
    match rng.below(3) {
        0 => document(vec![axiom(nested)]),
        1 => document(vec![schema(1, &[], nested)]),
        _ => document(vec![constraint(forall(nested, truth()))]),
    }
}

/// Near 6 identifiers in the Decl lines of one Text.
fn text_identifiers(rng: &mut Rng) -> Tree {
    let mut left = near(rng, 6);
    let mut next = 1;
    let mut lines = Vec::new();
    while left > 0 && lines.len() < 6 {
        let n = rng.from(1, left.min(6));
        let ids: Vec<u32> = (next..next + n as u32).map(|name| id(name, 0)).collect();
        lines.push(decl(integers(), &ids));
        next += n as u32;
        left -= n;
    }
    let text = text(truth(), lines);
    match rng.below(3) {
        0 => document(vec![axiom(text)]),
        1 => document(vec![schema(1, &[], text)]),
        _ => document(vec![constraint(exists(text, truth()))]),
    }
}

/// An expression of exactly so many nodes, with types that fit.
fn sized_set(rng: &mut Rng, nodes: usize) -> Tree {
    let mut tree = integers();
    let mut count = 1;
    while count < nodes {
        let left = nodes - count;
        if left == 1 || (tree.depth() < 6 && rng.percent(30)) {
            tree = power(tree);
            count += 1;
        } else {
            let more = rng.from(1, 5.min(left - 1));
            let parts = [vec![tree], (0..more).map(|_| integers()).collect()].concat();
            tree = product(parts);
            count += 1 + more;
        }
    }
    tree
}

/// Near 24 nodes below a Decl, Include, Abbreviation or relation.
fn nodes_below(rng: &mut Rng) -> Tree {
    let count = near(rng, 24);
    let whole = sized_set(rng, count);
    match rng.below(4) {
        0 => document(vec![axiom(text(truth(), vec![decl(whole, &[4])]))]),
        1 => document(vec![abbreviation(4, &[], whole)]),
        2 => {
            let generic = schema(1, &[4], text(truth(), vec![]));
            let user = schema(2, &[], include(1, 0, vec![whole], &[]));
            document(vec![generic, user])
        }
        _ => {
            let left = rng.from(1, count - 1);
            let kind = rng.from(21, 23) as u32;
            let (a, b) = (sized_set(rng, left), sized_set(rng, count - left));
            document(vec![constraint(arithmetic(kind, a, b))])
        }
    }
}

/// Near 64 identifiers in Given, Axiom Decl and Abbreviation together.
fn globals(rng: &mut Rng) -> Tree {
    let mut left = near(rng, 64);
    let mut next = 1;
    let mut paragraphs = Vec::new();
    while left > 0 {
        let most = [16, 6, 1][rng.below(3)].min(left);
        let n = rng.from(1, most);
        let ids: Vec<u32> = (next..next + n as u32).map(|name| id(name, 0)).collect();
        paragraphs.push(match n {
            1 => abbreviation(ids[0], &[], number(1)),
            2..=6 => axiom(text(truth(), vec![decl(integers(), &ids)])),
            _ => given(&ids),
        });
        next += n as u32;
        left -= n;
    }
    rng.shuffle(&mut paragraphs);
    document(paragraphs)
}

/// Near 255 paragraphs.
fn paragraphs(rng: &mut Rng) -> Tree {
    let count = near(rng, 255);
    document((0..count).map(|_| constraint(truth())).collect())
}

/// Each kind's operand count at its ends and one past them.
fn operand_count(rng: &mut Rng) -> Tree {
    let ids = |n: usize| (1..=n as u32).map(|name| id(name, 0)).collect::<Vec<_>>();
    let numbers = |n: usize| (0..n).map(|_| number(1)).collect::<Vec<_>>();
    let kept = |e: Tree| abbreviation(400, &[], e);
    let paragraph = match rng.below(9) {
        0 => given(&ids(*rng.pick(&[0, 1, 16, 17]))),
        1 => schema(1, &ids(*rng.pick(&[0, 4, 5])), text(truth(), vec![])),
        2 => abbreviation(400, &ids(*rng.pick(&[0, 4, 5])), number(1)),
        3 => {
            let lines = *rng.pick(&[0, 6, 7]) as u32;
            let line = |i: u32| decl(integers(), &[id(1 + i, 0)]);
            axiom(text(truth(), (0..lines).map(line).collect()))
        }
        4 => axiom(text(truth(), vec![decl(integers(), &ids(*rng.pick(&[0, 1, 6, 7])))])),
        5 => {
            let renames: Vec<(u32, u32)> =
                (0..*rng.pick(&[0, 6, 7])).map(|i| (4 + i, 40 + i)).collect();
            let actuals = vec![integers(); *rng.pick(&[0, 4, 5])];
            schema(1, &[], include(9, rng.below(5) as u32, actuals, &renames))
        }
        6 => kept(generic(4, numbers(*rng.pick(&[0, 4, 5])))),
        7 => kept(set(numbers(*rng.pick(&[0, 6, 7])))),
        _ => {
            let parts = numbers(*rng.pick(&[1, 2, 6, 7]));
            kept(if rng.percent(50) { tuple(parts) } else { product(parts) })
        }
    };
    document(vec![paragraph])
}

/// Each plain word at the ends of its range and one past them.
fn plain_word(rng: &mut Rng) -> Tree {
    let ident = *rng.pick(&[3, 4, 65_535, 65_536]);
    let name = *rng.pick(&[0, 1, 16_383, 16_384]);
    let stroke = *rng.pick(&[0, 3, 4]);
    document(vec![match rng.below(7) {
        0 => given(&[ident]),
        1 => axiom(text(truth(), vec![decl(integers(), &[ident])])),
        2 => abbreviation(ident, &[8], number(*rng.pick(&[0, 2_147_483_647, 2_147_483_648]))),
        3 => schema(name, &[ident], text(truth(), vec![])),
        4 => schema(7, &[], include(name, stroke, vec![], &[(ident, 8), (12, ident)])),
        5 => abbreviation(8, &[], theta(name, stroke)),
        _ => abbreviation(8, &[], select(reference(ident), ident)),
    }])
}

/// 1,024 nodes or one more or less.
fn node_count(rng: &mut Rng) -> Vec<u32> {
    let nodes = near(rng, 1_024);
    let mut paragraphs = Vec::new();
    let mut left = nodes - 1;
    while left > 0 {
        let n = if left <= 9 { left } else { rng.from(4, 7) };
        paragraphs.push(wide_constraint(n));
        left -= n;
    }
    encode_somehow(rng, &document(paragraphs))
}

/// A Constraint of exactly n nodes, n at least 2.
fn wide_constraint(n: usize) -> Tree {
    constraint(around(n - 2, truth(), not))
}

/// 16,384 words or one more or less, the last node being too long.
fn word_count(rng: &mut Rng) -> Vec<u32> {
    let words = near(rng, 16_384);
    let count = rng.from(1, 30);
    let last = words - 1 - 2 * count - (count - 1);
    let mut nodes = vec![vec![20]; count - 1];
    nodes.push(vec![rng.from(1, 2) as u32; last]);
    join(&nodes)
}

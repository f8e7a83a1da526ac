//! One error of a chosen sort, put into a document that was mostly accepted.

use crate::raw::odd_word;
use crate::rng::Rng;
use coding::make::*;
use coding::{Operand, Tree};

/// The sorts of errors, by the finding that they aim at.
pub const SORTS: [u32; 9] = [16, 31, 32, 33, 34, 35, 36, 37, 38];

/// Puts an error of this sort somewhere; what comes of it is the checker's to
/// say.
pub fn inject(rng: &mut Rng, tree: &mut Tree, sort: u32) {
    match sort {
        16 => write_twice(rng, tree),
        31 => unknown_name(rng, tree),
        32 => wrong_count(rng, tree),
        33 => other_type(rng, tree),
        34 => leave_open(rng, tree),
        35 => no_component(rng, tree),
        36 => clash(rng, tree),
        37 => bad_rename(rng, tree),
        _ => too_large(rng, tree),
    }
}

fn is_expr(tree: &Tree) -> bool {
    (30..=46).contains(&tree.kind)
}

/// Changes one of the nodes that meet a condition, if there is one.
fn change(
    rng: &mut Rng,
    tree: &mut Tree,
    wanted: impl Fn(&Tree) -> bool,
    how: impl FnOnce(&mut Rng, &mut Tree),
) {
    let places = tree.places(wanted);
    if !places.is_empty() {
        let place = *rng.pick(&places);
        how(rng, tree.at(place).expect("the place of a node"));
    }
}

fn write_twice(rng: &mut Rng, tree: &mut Tree) {
    change(
        rng,
        tree,
        |t| matches!(t.kind, 2 | 11),
        |rng, node| {
            let first = usize::from(node.kind == 11);
            let word = node.operands[rng.from(first, node.operands.len() - 1)].clone();
            node.operands.push(word);
        },
    );
}

fn unknown_name(rng: &mut Rng, tree: &mut Tree) {
    match rng.below(3) {
        0 => {
            // Paragraphs in another order: names before their declaration.
            let n = tree.operands.len();
            let (a, b) = (rng.below(n), rng.below(n));
            tree.operands.swap(a, b);
        }
        1 => {
            let at = rng.below(tree.operands.len());
            tree.operands.remove(at);
        }
        _ => change(
            rng,
            tree,
            |t| matches!(t.kind, 12 | 30 | 39),
            |rng, node| {
                if let Operand::Word(word) = &mut node.operands[0] {
                    *word = match rng.percent(50) {
                        true => rng.from(4, 60) as u32,
                        false => odd_word(rng, *word).clamp(4, 16_383),
                    };
                }
            },
        ),
    }
}

fn wrong_count(rng: &mut Rng, tree: &mut Tree) {
    change(
        rng,
        tree,
        |t| matches!(t.kind, 12 | 30),
        |rng, node| {
            let add = rng.percent(60);
            if node.kind == 30 {
                match add || node.operands.len() == 1 {
                    true => node.operands.push(Operand::Node(integers())),
                    false => drop(node.operands.pop()),
                }
                return;
            }
            let Operand::Word(a) = node.operands[2] else { return };
            if add || a == 0 {
                node.operands.insert(3, Operand::Node(integers()));
                node.operands[2] = Operand::Word(a + 1);
            } else {
                node.operands.remove(3);
                node.operands[2] = Operand::Word(a - 1);
            }
        },
    );
}

fn other_type(rng: &mut Rng, tree: &mut Tree) {
    change(rng, tree, is_expr, |rng, node| {
        let old = node.clone();
        *node = match rng.below(8) {
            0 => number(rng.below(4) as u32),
            1 => integers(),
            2 => set(vec![old]),
            3 => tuple(vec![old.clone(), old]),
            4 => power(old),
            5 => apply(old, number(1)),
            6 => arithmetic(41, old, number(1)),
            _ => product(vec![old, integers()]),
        };
    });
}

fn leave_open(rng: &mut Rng, tree: &mut Tree) {
    let relation = |t: &Tree| matches!(t.kind, 21 | 22);
    match rng.below(3) {
        0 => change(rng, tree, relation, |_, node| *node = equal(set(vec![]), set(vec![]))),
        1 => change(rng, tree, |t| t.kind == 33, |_, node| node.operands.clear()),
        _ => change(rng, tree, is_expr, |rng, node| {
            *node = match rng.below(3) {
                0 => set(vec![]),
                1 => set(vec![set(vec![]), set(vec![])]),
                _ => apply(set(vec![]), node.clone()),
            };
        }),
    }
}

fn no_component(rng: &mut Rng, tree: &mut Tree) {
    let selects = !tree.places(|t| t.kind == 38).is_empty();
    if selects && rng.percent(50) {
        change(
            rng,
            tree,
            |t| t.kind == 38,
            |rng, node| {
                node.operands[1] = Operand::Word(id(rng.from(1, 9) as u32, rng.below(4) as u32));
            },
        );
        return;
    }
    change(rng, tree, is_expr, |rng, node| {
        let old = match rng.percent(20) {
            true => apply(set(vec![]), node.clone()),
            false => node.clone(),
        };
        *node = select(old, id(rng.from(1, 9) as u32, 0));
    });
}

/// Lines and paragraphs that bring a name again.
fn clash(rng: &mut Rng, tree: &mut Tree) {
    let includes = tree.places(|t| t.kind == 12);
    let schemas = tree.places(|t| t.kind == 4);
    match rng.below(4) {
        0 | 1 if !includes.is_empty() => {
            let place = *rng.pick(&includes);
            let again = tree.at(place).expect("an Include").clone();
            let brings = || Operand::Node(axiom(text(truth(), vec![again.clone()])));
            tree.operands.push(brings());
            if rng.percent(60) {
                tree.operands.push(brings());
            }
        }
        2 if !schemas.is_empty() => {
            let place = *rng.pick(&schemas);
            let schema = tree.at(place).expect("a Schema").clone();
            let merged = other_component(rng, &schema);
            tree.operands.push(Operand::Node(merged));
        }
        _ => {
            let name = id(rng.from(1, 9) as u32, 0);
            let paragraph = match rng.percent(50) {
                true => given(&[name]),
                false => abbreviation(name, &[], integers()),
            };
            tree.operands.push(Operand::Node(paragraph));
        }
    }
}

/// A Text or Conjunction that merges the schema with a component of another
/// type.
fn other_component(rng: &mut Rng, of: &Tree) -> Tree {
    let word = |operand: &Operand| match operand {
        Operand::Word(word) => *word,
        Operand::Node(_) => 4,
    };
    let mut of = of.clone();
    let declared = match of.places(|t| t.kind == 11).first() {
        Some(&place) => word(&of.at(place).expect("a Decl").operands[1]),
        None => 4,
    };
    let actuals = vec![integers(); word(&of.operands[1]) as usize];
    let one = include(word(&of.operands[0]), 0, actuals, &[]);
    let other = decl(power(power(power(integers()))), &[declared]);
    match rng.below(3) {
        0 => schema(16_000, &[], text(truth(), vec![one, other])),
        1 => schema(16_000, &[], text(truth(), vec![other, one])),
        _ => schema(16_000, &[], conjunction(one, text(truth(), vec![other]))),
    }
}

fn bad_rename(rng: &mut Rng, tree: &mut Tree) {
    change(
        rng,
        tree,
        |t| matches!(t.kind, 12 | 39),
        |rng, node| {
            if node.kind == 39 || rng.percent(40) {
                node.operands[1] = Operand::Word(rng.from(1, 3) as u32);
                return;
            }
            for _ in 0..rng.from(1, 2) {
                let old = id(rng.from(1, 9) as u32, rng.below(4) as u32 / 3);
                let new = id(rng.from(1, 9) as u32, 0);
                node.operands.extend([Operand::Word(old), Operand::Word(new)]);
            }
        },
    );
}

/// A declared type or an actual with two wide names beside it, so that its
/// size is near or past 32.
fn too_large(rng: &mut Rng, tree: &mut Tree) {
    let (six, more) = (id(16_001, 0), id(16_002, 0));
    let parts = rng.from(2, 3);
    change(
        rng,
        tree,
        |t| matches!(t.kind, 5 | 11 | 12),
        |_, node| {
            for operand in &mut node.operands {
                if let Operand::Node(child) = operand {
                    *child = product(vec![child.clone(), reference(more), reference(six)]);
                    return;
                }
            }
        },
    );
    let wide = abbreviation(six, &[], product(vec![integers(); 6]));
    let wider = abbreviation(more, &[], product(vec![reference(six); parts]));
    tree.operands.splice(0..0, [Operand::Node(wide), Operand::Node(wider)]);
}

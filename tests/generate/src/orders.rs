//! Documents in which several findings meet at one node or near it, so that
//! their order shows.

use crate::rng::Rng;
use coding::make::*;
use coding::Tree;

const X: u32 = 20;
const Y: u32 = 24;
const Z: u32 = 28;
const UNKNOWN: u32 = 4_000;

pub fn order_document(rng: &mut Rng) -> Tree {
    match rng.below(10) {
        9 => former_order(rng),
        0 | 1 => include_order(rng),
        2 => reference_order(rng),
        3 | 4 => global_order(rng),
        5 => text_order(rng),
        6 => scope_order(rng),
        _ => piece_order(rng),
    }
}

/// Wide names: 96 is a product of six, 100 of four of these, both as sets.
fn wide_names() -> Vec<Tree> {
    let six = abbreviation(96, &[], product(vec![integers(); 6]));
    vec![six, abbreviation(100, &[], product(vec![reference(96); 4]))]
}

/// An E that is a good set, or no set, open, of an unknown name, too wide, or
/// with a component that is not there.
fn some_set(rng: &mut Rng) -> Tree {
    match rng.below(17) {
        16 => tuple(vec![set(vec![]), number(1)]),
        0..=5 => integers(),
        6 | 7 => power(integers()),
        8 => number(1),
        9 => set(vec![]),
        10 => reference(UNKNOWN),
        11 => reference(100),
        12 => product(vec![reference(100), reference(96)]),
        13 => power(number(2)),
        14 => select(number(1), X),
        _ => apply(set(vec![]), number(1)),
    }
}

fn some_name(rng: &mut Rng) -> u32 {
    *rng.pick(&[X, X, Y, Y, Z, X + 1, Y + 1, X + 2])
}

fn some_renames(rng: &mut Rng) -> Vec<(u32, u32)> {
    let n = [0, 0, 0, 1, 1, 2, 2, 3][rng.below(8)];
    let mut pairs: Vec<(u32, u32)> = (0..n).map(|_| (some_name(rng), some_name(rng))).collect();
    if rng.percent(10) {
        // An old name twice, to the same or to other new names.
        let old = *rng.pick(&[X, Y]);
        pairs = vec![(old, some_name(rng)), (old, *rng.pick(&[100, 104]))];
    }
    pairs
}

/// An Include of schema 1, 2, or one that is not there, with any count of
/// actuals, any stroke, any renames.
fn some_include(rng: &mut Rng) -> Tree {
    let name = *rng.pick(&[1, 1, 1, 1, 2, 2, 2, 2, 3]);
    let right = name as usize - 1;
    let count = if rng.percent(80) { right } else { rng.below(4) };
    let actuals = (0..count).map(|_| some_set(rng)).collect();
    let stroke = [0, 0, 0, 1, 2][rng.below(5)];
    let renames = some_renames(rng);
    include(name, stroke, actuals, &renames)
}

/// Schema 1 has no parameter, schema 2 has one, by which a component can be
/// too wide.
fn two_schemas(rng: &mut Rng) -> Vec<Tree> {
    let stroke = u32::from(rng.percent(15));
    let one = vec![decl(integers(), &[X]), decl(power(integers()), &[Y + stroke])];
    let wide = if rng.percent(50) { reference(4) } else { product(vec![reference(4); 2]) };
    let two = vec![decl(wide, &[X]), decl(integers(), &[Z])];
    vec![schema(1, &[], text(truth(), one)), schema(2, &[4], text(truth(), two))]
}

/// An Include as a line after others, as a schema, in a Conjunction, in a
/// SchemaSet.
fn include_order(rng: &mut Rng) -> Tree {
    let mut paragraphs = wide_names();
    paragraphs.extend(two_schemas(rng));
    if rng.percent(30) {
        paragraphs.push(axiom(text(truth(), vec![some_include(rng)])));
    }
    let user = some_include(rng);
    paragraphs.push(match rng.below(6) {
        0 => axiom(text(truth(), vec![decl(some_set(rng), &[some_name(rng)]), user])),
        1 => axiom(text(truth(), vec![user, some_include(rng)])),
        2 => schema(9, &[], text(truth(), vec![some_include(rng), user])),
        3 => schema(9, &[], conjunction(user, some_include(rng))),
        4 => schema(9, &[], user),
        _ => constraint(equal(schema_set(user.clone()), schema_set(user))),
    });
    document(paragraphs)
}

/// Refs with and without actuals, on names of every sort.
fn reference_order(rng: &mut Rng) -> Tree {
    let f = abbreviation(104, &[4], product(vec![reference(4), integers()]));
    let g = abbreviation(
        108,
        &[4, 8],
        match rng.percent(50) {
            true => reference(8),
            false => product(vec![reference(8), reference(4)]),
        },
    );
    let mut paragraphs = wide_names();
    paragraphs.extend([f, g, given(&[112])]);
    let some_ref = |rng: &mut Rng| {
        let name = *rng.pick(&[104, 104, 108, 108, 112, 4, X, UNKNOWN]);
        let count = [0, 0, 1, 1, 2, 2, 3][rng.below(7)];
        generic(name, (0..count).map(|_| some_set(rng)).collect())
    };
    let left = some_ref(rng);
    let right = if rng.percent(50) { some_ref(rng) } else { some_set(rng) };
    paragraphs.push(match rng.below(5) {
        0 => constraint(equal(left, right)),
        1 => constraint(member(left, right)),
        2 => abbreviation(200, &[4], set(vec![left, right])),
        3 => abbreviation(200, &[], product(vec![left, right])),
        _ => constraint(forall(text(equal(left, right), vec![decl(integers(), &[X])]), truth())),
    });
    document(paragraphs)
}

/// Names that an Axiom's Include brings, met by every sort of paragraph before
/// or after, with other findings beside.
fn global_order(rng: &mut Rng) -> Tree {
    let mut paragraphs = wide_names();
    paragraphs.extend(two_schemas(rng));
    let brings = axiom(text(truth(), vec![include(1, 0, vec![], &[])]));
    let meets = match rng.below(6) {
        0 => given(&[Z, X]),
        1 => abbreviation(X, &[], some_set(rng)),
        2 => abbreviation(*rng.pick(&[X, Y]), &[4], some_set(rng)),
        3 => axiom(text(truth(), vec![decl(some_set(rng), &[*rng.pick(&[X, Y, Z])])])),
        4 => {
            let lines = vec![decl(some_set(rng), &[some_name(rng)]), some_include(rng)];
            axiom(text(truth(), lines))
        }
        _ => axiom(text(equal(reference(X), number(1)), vec![some_include(rng)])),
    };
    match rng.percent(70) {
        true => paragraphs.extend([brings, meets]),
        false => paragraphs.extend([meets, brings]),
    }
    if rng.percent(30) {
        paragraphs.push(constraint(equal(reference(X), reference(X))));
    }
    document(paragraphs)
}

/// Texts whose lines and predicate each may have a finding, beside a body.
fn text_order(rng: &mut Rng) -> Tree {
    let mut paragraphs = wide_names();
    paragraphs.extend(two_schemas(rng));
    let line = |rng: &mut Rng| match rng.percent(35) {
        true => some_include(rng),
        false => decl(some_set(rng), &[some_name(rng)]),
    };
    let lines: Vec<Tree> = (0..rng.from(1, 3)).map(|_| line(rng)).collect();
    let relation = |rng: &mut Rng| match rng.below(4) {
        0 => truth(),
        1 => equal(reference(some_name(rng)), reference(some_name(rng))),
        2 => member(reference(some_name(rng)), some_set(rng)),
        _ => at_most(number(1), reference(some_name(rng))),
    };
    let inner = text(relation(rng), lines);
    paragraphs.push(match rng.below(4) {
        0 => constraint(forall(inner, relation(rng))),
        1 => constraint(equal(comprehension(inner, some_set(rng)), set(vec![some_set(rng)]))),
        2 => schema(9, &[X], conjunction(inner, text(relation(rng), vec![]))),
        _ => axiom(inner),
    });
    document(paragraphs)
}

/// One name with several types around a Ref: which of them it has.
fn scope_order(rng: &mut Rng) -> Tree {
    // A set and an element of it, by the choice of a type.
    let pair = || tuple(vec![number(1), number(1)]);
    let sets = [integers(), power(integers()), product(vec![integers(), integers()])];
    let elements = [number(1), integers(), pair()];
    let line = |rng: &mut Rng| match rng.percent(60) {
        true => vec![decl(rng.pick(&sets).clone(), &[X])],
        false => vec![],
    };
    let (outer, middle, inner) = (line(rng), line(rng), line(rng));
    let wanted = match rng.below(4) {
        0 => equal(set(vec![reference(X)]), set(vec![])),
        _ => equal(reference(X), rng.pick(&elements).clone()),
    };
    let innermost = match rng.below(3) {
        0 => forall(text(wanted, inner), truth()),
        1 => exists(text(truth(), inner), wanted),
        _ => equal(comprehension(text(wanted, inner), number(1)), set(vec![])),
    };
    let global = axiom(text(truth(), outer));
    let parameters: &[u32] = if rng.percent(60) { &[X] } else { &[Y] };
    let seen = text(innermost, middle);
    let user = match rng.below(3) {
        0 => schema(1, parameters, seen),
        1 => schema(1, parameters, conjunction(text(truth(), line(rng)), seen)),
        _ => constraint(forall(seen, truth())),
    };
    document(vec![global, user])
}

/// Two sets of types that are equal or nearly so: givens, parameters, bindings
/// with other names, generic names with two parameters.
fn former_order(rng: &mut Rng) -> Tree {
    let component =
        |name: u32, id: u32| schema(name, &[], text(truth(), vec![decl(integers(), &[id])]));
    let pairs = abbreviation(108, &[4, 8], product(vec![reference(4), reference(8)]));
    let left = some_former(rng, 2);
    let right = match rng.below(4) {
        0 => left.clone(),
        1 => reference(108),
        2 => some_former(rng, 2),
        _ => one_name_changed(rng, &left),
    };
    let bound = vec![include(1, 0, vec![], &[]), include(2, 0, vec![], &[])];
    let body = match rng.below(4) {
        0 => member(tuple(vec![number(1), left]), reference(108)),
        1 => exists(text(truth(), bound), equal(theta(rng.from(1, 2) as u32, 0), theta(1, 0))),
        _ => equal(left, right),
    };
    let user = schema(9, &[40, 44], text(body, vec![]));
    document(vec![given(&[32, 36]), component(1, X), component(2, Y), pairs, user])
}

/// The same set with another given or parameter in one place.
fn one_name_changed(rng: &mut Rng, former: &Tree) -> Tree {
    let mut former = former.clone();
    let places = former.places(|tree| tree.kind == 30);
    if !places.is_empty() {
        let place = *rng.pick(&places);
        let changed = reference(*rng.pick(&[32, 36, 40, 44]));
        *former.at(place).expect("the place of a node") = changed;
    }
    former
}

fn some_former(rng: &mut Rng, room: usize) -> Tree {
    if room > 0 && rng.percent(50) {
        return match rng.percent(40) {
            true => power(some_former(rng, room - 1)),
            false => {
                let n = rng.from(2, 3);
                product((0..n).map(|_| some_former(rng, room - 1)).collect())
            }
        };
    }
    match rng.below(9) {
        0 => integers(),
        1 => reference(32),
        2 => reference(36),
        3 | 4 => reference(40),
        5 | 6 => reference(44),
        7 => schema_set(include(rng.from(1, 2) as u32, 0, vec![], &[])),
        _ => schema_set(include(1, 0, vec![], &[(X, *rng.pick(&[X, Y]))])),
    }
}

/// 116: f[X] relates X to itself; 120: g[X] takes a pair of X and a set of X;
/// 124: h[X] is a pair of two sets of X. g applied to h has no finite type.
fn knots() -> Vec<Tree> {
    let over = |lines, body| comprehension(text(truth(), lines), body);
    let x = || decl(reference(4), &[X]);
    let same = over(vec![x()], tuple(vec![reference(X), reference(X)]));
    let pair = tuple(vec![tuple(vec![reference(X), reference(Y)]), number(1)]);
    let g = over(vec![x(), decl(power(reference(4)), &[Y])], pair);
    vec![
        abbreviation(116, &[4], same),
        abbreviation(120, &[4], g),
        abbreviation(124, &[4], tuple(vec![reference(4), reference(4)])),
    ]
}

/// An expression with several findings in it, by chance.
fn some_expr(rng: &mut Rng, room: usize) -> Tree {
    if room == 0 || rng.percent(20) {
        return match rng.below(8) {
            0 => some_set(rng),
            1 => reference(*rng.pick(&[116, 120, 124])),
            2 => apply(reference(120), reference(124)),
            3 => set(vec![]),
            4 => integers(),
            _ => number(1),
        };
    }
    let less = room - 1;
    let some = |rng: &mut Rng, least: usize| {
        let n = rng.from(least, 3);
        (0..n).map(|_| some_expr(rng, less)).collect::<Vec<_>>()
    };
    match rng.below(9) {
        0..=2 => set(some(rng, 1)),
        3 => tuple(some(rng, 2)),
        4 => product(some(rng, 2)),
        5 => power(some_expr(rng, less)),
        6 => apply(reference(*rng.pick(&[116, 120, 124])), some_expr(rng, less)),
        7 => apply(some_expr(rng, less), some_expr(rng, less)),
        _ => arithmetic(rng.from(41, 45) as u32, some_expr(rng, less), some_expr(rng, less)),
    }
}

/// One piece with several findings: which node comes first.
fn piece_order(rng: &mut Rng) -> Tree {
    let mut paragraphs = knots();
    if rng.percent(50) {
        paragraphs.extend(wide_names());
    }
    paragraphs.push(schema(1, &[4, 8], text(truth(), vec![decl(reference(4), &[X])])));
    let room = rng.from(1, 3);
    let (left, right) = (some_expr(rng, room), some_expr(rng, room - 1));
    paragraphs.push(match rng.below(6) {
        0 => constraint(equal(left, right)),
        1 => constraint(member(left, right)),
        2 => constraint(at_most(left, right)),
        3 => axiom(text(truth(), vec![decl(left, &[X]), decl(right, &[Y])])),
        4 => abbreviation(200, &[], left),
        _ => schema(2, &[], include(1, 0, vec![left, right], &[])),
    });
    document(paragraphs)
}

//! Documents about one rule: sizes near 32, signatures near 16, dictionaries
//! near their area, types too large to write out.

use crate::rng::Rng;
use coding::make::*;
use coding::Tree;

pub fn special_document(rng: &mut Rng) -> Tree {
    match rng.below(8) {
        0 => declared_size(rng),
        1 => component_size(rng),
        2 => signature_count(rng),
        3 => long_dictionary(rng),
        4 => tower(rng),
        5 => function_tower(rng),
        6 => open_component(rng),
        _ => theta_cases(rng),
    }
}

const X: u32 = 20;
const Y: u32 = 24;

/// An E of type power t with t of exactly this size, by paragraphs before it.
fn sized(rng: &mut Rng, size: usize, before: &mut Vec<Tree>) -> Tree {
    if size <= 7 {
        return match (size, rng.percent(50)) {
            (1, _) => integers(),
            (2, _) | (_, true) => power(sized(rng, size - 1, before)),
            (n, false) => product(vec![integers(); n - 1]),
        };
    }
    let part = rng.from(1, size - 3);
    let tree = sized(rng, part, before);
    let name = id(100 + before.len() as u32, 0);
    before.push(abbreviation(name, &[], tree));
    match rng.percent(70) {
        true => product(vec![reference(name), sized(rng, size - 1 - part, before)]),
        false => power(sized(rng, size - 1, before)),
    }
}

/// A Decl or Abbreviation whose declared type has a size near 32.
fn declared_size(rng: &mut Rng) -> Tree {
    let size = rng.from(30, 34);
    let mut paragraphs = Vec::new();
    let set = sized(rng, size, &mut paragraphs);
    paragraphs.push(match rng.below(3) {
        0 => abbreviation(8, &[], set),
        1 => axiom(text(truth(), vec![decl(set, &[8])])),
        _ => constraint(forall(text(truth(), vec![decl(set, &[8])]), truth())),
    });
    document(paragraphs)
}

/// An Include whose component has a size near 32 by its actual.
fn component_size(rng: &mut Rng) -> Tree {
    let times = rng.from(2, 6);
    let wide = product(vec![reference(4); times]);
    let mut lines = vec![decl(wide, &[X])];
    if rng.percent(30) {
        lines.push(decl(power(reference(4)), &[Y]));
    }
    let mut paragraphs = vec![schema(1, &[4], text(truth(), lines))];
    let size = (31 / times + rng.below(2)).max(1);
    let actual = sized(rng, size, &mut paragraphs);
    let user = include(1, rng.below(4) as u32, vec![actual], &[]);
    paragraphs.push(match rng.below(4) {
        0 => schema(2, &[], user),
        1 => axiom(text(truth(), vec![user])),
        2 => schema(2, &[], text(truth(), vec![decl(power(integers()), &[X]), user])),
        _ => constraint(equal(schema_set(user), set(vec![]))),
    });
    document(paragraphs)
}

/// Signatures of near 16 identifiers by lines and Conjunctions.
fn signature_count(rng: &mut Rng) -> Tree {
    let part = |name: u32, first: u32, n: u32| {
        let ids: Vec<u32> = (first..first + n).map(|name| id(name, 0)).collect();
        schema(name, &[], text(truth(), vec![decl(integers(), &ids)]))
    };
    let last = rng.from(2, 6) as u32;
    let paragraphs = vec![part(1, 1, 6), part(2, 7 - rng.below(3) as u32, 6), part(3, 13, last)];
    let one = |name| include(name, 0, vec![], &[]);
    let whole = match rng.below(4) {
        0 => schema(9, &[], text(truth(), vec![one(1), one(2), one(3)])),
        1 => schema(9, &[], conjunction(conjunction(one(1), one(2)), one(3))),
        2 => schema(9, &[], conjunction(one(1), text(truth(), vec![one(2), one(3)]))),
        _ => axiom(text(truth(), vec![one(1), decl(integers(), &[400]), one(2), one(3)])),
    };
    document([paragraphs, vec![whole]].concat())
}

/// Many schemas of many words, so that an area of 16,384 words is passed.
fn long_dictionary(rng: &mut Rng) -> Tree {
    let ids: Vec<u32> = (1..=6).map(|name| id(name, 0)).collect();
    let mut paragraphs = Vec::new();
    let size = rng.from(20, 32);
    let wide = sized(rng, size, &mut paragraphs);
    paragraphs.push(schema(1, &[], text(truth(), vec![decl(wide, &ids)])));
    let twice = conjunction(include(1, 0, vec![], &[]), include(1, 1, vec![], &[]));
    paragraphs.push(schema(2, &[], twice));
    for name in 3..rng.from(4, 60) as u32 {
        paragraphs.push(schema(name, &[], include(2, 0, vec![], &[])));
    }
    document(paragraphs)
}

/// f[X] == X × ... × X, applied to itself many times.
fn tower(rng: &mut Rng) -> Tree {
    let width = rng.from(2, 6);
    let f = abbreviation(4, &[X], product(vec![reference(X); width]));
    let levels = rng.from(1, 8);
    let tower = |start: Tree| (0..levels).fold(start, |t, _| generic(4, vec![t]));
    let use_it = match rng.below(4) {
        0 => abbreviation(8, &[], tower(integers())),
        1 => constraint(equal(tower(integers()), tower(integers()))),
        2 => constraint(equal(tower(integers()), tower(power(integers())))),
        _ => constraint(equal(tower(set(vec![])), tower(integers()))),
    };
    document(vec![f, use_it])
}

/// f[X] == {x : X • (x, (x, ..., x))}: f (f (f ... 1)) has a type that grows
/// by a factor at each level.
pub fn function_tower(rng: &mut Rng) -> Tree {
    let width = rng.from(2, 6);
    let wide = tuple(vec![reference(Y); width]);
    let pairs = comprehension(
        text(truth(), vec![decl(reference(X), &[Y])]),
        tuple(vec![reference(Y), wide]),
    );
    let f = abbreviation(4, &[X], pairs);
    let levels = rng.from(1, 8);
    let tower = |start: Tree| (0..levels).fold(start, |t, _| apply(reference(4), t));
    let use_it = match rng.below(4) {
        0 => abbreviation(8, &[], tower(number(1))),
        1 => constraint(equal(tower(number(1)), tower(number(2)))),
        2 => constraint(equal(tower(number(1)), tower(integers()))),
        _ => constraint(member(tower(number(1)), set(vec![tower(number(1))]))),
    };
    document(vec![f, use_it])
}

/// Selects whose binding is settled before, after, or never.
fn open_component(rng: &mut Rng) -> Tree {
    let one = schema(1, &[], text(truth(), vec![decl(integers(), &[X])]));
    let brings = axiom(text(truth(), vec![include(1, 0, vec![], &[])]));
    let bound = || theta(1, 0);
    let name = *rng.pick(&[X, X, X, Y]);
    let of = |e: Tree| select(e, name);
    let pair = |e: Tree| set(vec![tuple(vec![number(1), e])]);
    let body = match rng.below(6) {
        0 => equal(of(bound()), number(1)),
        1 => equal(of(apply(pair(bound()), number(1))), number(2)),
        2 => equal(of(apply(set(vec![]), number(1))), number(1)),
        3 => equal(
            tuple(vec![apply(set(vec![]), bound()), of(bound())]),
            tuple(vec![number(1), number(2)]),
        ),
        4 => equal(set(vec![of(bound())]), set(vec![])),
        _ => equal(of(number(1)), of(bound())),
    };
    document(vec![one, brings, constraint(body)])
}

/// Thetas of plain, stroked and generic schemas in Texts of many sorts.
fn theta_cases(rng: &mut Rng) -> Tree {
    let stroke_of_y = rng.below(2) as u32;
    let parameters: &[u32] = if rng.percent(25) { &[4] } else { &[] };
    let lines = vec![decl(integers(), &[X]), decl(power(integers()), &[Y + stroke_of_y])];
    let s = schema(1, parameters, text(truth(), lines));
    let stroke = rng.below(3) as u32;
    let mut around = Vec::new();
    for id in [X + stroke, Y + stroke, Y + stroke_of_y, X] {
        if rng.percent(75) && !around.contains(&id) {
            around.push(id);
        }
    }
    let mut paragraphs = vec![s];
    if rng.percent(20) {
        paragraphs.push(abbreviation(X + stroke, &[8], reference(8)));
    }
    let same = match rng.below(3) {
        0 => equal(theta(1, stroke), theta(1, stroke)),
        1 => equal(select(theta(1, stroke), Y + stroke_of_y), number(1)),
        _ => equal(select(theta(1, stroke), Y + stroke_of_y), integers()),
    };
    let lines = match around.is_empty() {
        true => vec![],
        false => vec![decl(integers(), &around)],
    };
    let hidden: Vec<u32> =
        [X + stroke, Y + stroke].into_iter().filter(|_| rng.percent(50)).collect();
    paragraphs.push(match rng.below(3) {
        0 => constraint(exists(text(truth(), lines), same)),
        1 => schema(9, &hidden, text(same, lines)),
        _ => schema(9, &hidden, text(exists(text(truth(), vec![]), same), lines)),
    });
    document(paragraphs)
}

//! Names that Axioms bring by Includes, which the limit of 64 names does not
//! count: schemas of many components, and Axioms over them with every stroke.

use crate::rng::Rng;
use coding::make::*;
use coding::Tree;

/// The most identifiers in the Decl lines of one Text.
const IN_TEXT: usize = 6;
/// The most identifiers of a signature.
pub const SIGNATURE: u32 = 16;
pub const STROKES: u32 = 4;
/// The first of the names that a rename gives.
const FRESH: u32 = 9_000;

/// Which numbers the components and the schemas have.
#[derive(Clone, Copy)]
pub enum Naming {
    /// One after another.
    Dense,
    /// As few classes of identifiers and of schema names modulo 1,024 as there
    /// can be.
    FewClasses,
}

impl Naming {
    /// The name of the component with this number.
    pub fn component(self, i: u32) -> u32 {
        match self {
            Naming::Dense => 1_000 + i,
            Naming::FewClasses => 256 * (i % 64) + 1 + i / 64,
        }
    }

    pub fn schema(self, i: u32) -> u32 {
        match self {
            Naming::Dense => 1 + i,
            Naming::FewClasses => 1_024 * (i % 16) + 4 + i / 16,
        }
    }

    /// The unstroked identifiers of 16 components, of schema i alone.
    fn components(self, i: u32) -> Vec<u32> {
        (SIGNATURE * i..SIGNATURE * (i + 1)).map(|c| id(self.component(c), 0)).collect()
    }
}

/// A schema expression that declares the identifiers: a Text for each six.
pub fn declaring(set: &Tree, identifiers: &[u32]) -> Tree {
    let texts = identifiers.chunks(IN_TEXT).map(|six| text(truth(), vec![decl(set.clone(), six)]));
    texts.reduce(conjunction).expect("some identifiers")
}

/// An Axiom of such Includes.
pub fn bringing(includes: Vec<Tree>) -> Tree {
    axiom(text(truth(), includes))
}

/// So many schemas of 16 components each, no two with a common name.
pub fn schemas(count: u32, naming: Naming) -> Vec<Tree> {
    let each = |i| schema(naming.schema(i), &[], declaring(&integers(), &naming.components(i)));
    (0..count).map(each).collect()
}

/// An Axiom over each of the schemas with each stroke.
pub fn stroked_axioms(count: u32, naming: Naming) -> Vec<Tree> {
    let pairs = (0..count).flat_map(|i| (0..STROKES).map(move |stroke| (i, stroke)));
    pairs.map(|(i, stroke)| bringing(vec![plain(naming.schema(i), stroke)])).collect()
}

fn plain(name: u32, stroke: u32) -> Tree {
    include(name, stroke, vec![], &[])
}

/// A few schemas and Axioms over them, in any order that keeps the schemas
/// first, with renames, Thetas, and in some documents a name that an earlier
/// Axiom has.
pub fn brought_document(rng: &mut Rng) -> Tree {
    let naming = *rng.pick(&[Naming::Dense, Naming::FewClasses]);
    let count = *rng.pick(&[1, 1, 2, 3, 5, 9]);
    let mut axioms = Vec::new();
    for i in 0..count {
        for stroke in 0..STROKES {
            if rng.percent(70) {
                axioms.push(renamed_axiom(rng, naming, i, stroke));
            }
        }
    }
    if rng.percent(25) {
        let (i, stroke) = (rng.below(count as usize) as u32, rng.below(4) as u32);
        axioms.push(renamed_axiom(rng, naming, i, stroke));
    }
    rng.shuffle(&mut axioms);
    let mut last = Vec::new();
    for _ in 0..rng.below(4) {
        last.push(some_user(rng, naming, count));
    }
    document([schemas(count, naming), axioms, last].concat())
}

/// An Axiom over the schema, with some components renamed: mostly to names of
/// their own.
fn renamed_axiom(rng: &mut Rng, naming: Naming, i: u32, stroke: u32) -> Tree {
    let most = *rng.pick(&[0, 0, 1, 6]);
    let mut renames = Vec::new();
    for k in 0..most {
        let old = SIGNATURE * i + 2 * k;
        let new = match rng.percent(4) {
            true => id(naming.component(rng.below(16) as u32), stroke),
            false => id(FRESH + STROKES * old + stroke, rng.below(4) as u32),
        };
        renames.push((id(naming.component(old), stroke), new));
    }
    bringing(vec![include(naming.schema(i), stroke, vec![], &renames)])
}

/// A paragraph that looks a brought name up, or declares one anew.
fn some_user(rng: &mut Rng, naming: Naming, count: u32) -> Tree {
    let component = naming.component(rng.below((SIGNATURE * count) as usize) as u32);
    let identifier = id(component, rng.below(4) as u32);
    let name = naming.schema(rng.below(count as usize) as u32);
    let (left, right) = (rng.below(4) as u32, rng.below(4) as u32);
    match rng.below(5) {
        0 => constraint(equal(theta(name, left), theta(name, right))),
        1 => constraint(at_most(reference(identifier), number(7))),
        2 => constraint(equal(select(theta(name, left), id(component, 0)), number(1))),
        3 => given(&[id(FRESH - 1, 0), identifier]),
        _ => abbreviation(identifier, &[], number(1)),
    }
}

//! The form of a value in a state: well formed, or 41 at its entry. The
//! document declares [A]; x : ℤ, and A has 2 elements.

use crate::table::*;
use crate::write::*;

/// The words of x, and whether they are a value.
const FORMS: &[(&[i32], bool)] = &[
    (&[1, -1], true),
    (&[1], false),
    (&[1, 1, 1], false),
    (&[2, 4, 1], true),
    (&[2, 4, 2], false),
    (&[2, 4, -1], false),
    (&[2, 8, 0], false),
    (&[3, 0], true),
    (&[3, -1], false),
    (&[3, 2, 1, 1, 1, 1], false),
    (&[3, 2, 1, 2, 1, 1], false),
    (&[3, 2, 1, -1, 1, 0], true),
    (&[4, 1, 1, 1], false),
    (&[4, 2, 1, 1, 3, 0], true),
    (&[5, 0], false),
];

pub fn rows(t: &mut Table) {
    t.group("forms of values");
    let document = doc(vec![given(&[A]), plain_axiom(vec![decl(int(), &[B])])]);
    for &(words, well_formed) in FORMS {
        let finding = if well_formed { (0, 0) } else { (41, 2) };
        t.stated(&document, &state(&[&[2], words]), finding);
    }
}

//! "Typing rules": settled types, their words and sizes. Parts are shared, for
//! a settled type inside a piece can be far too large to write out; what is
//! declared or stands in a component has at most size 32.

use crate::tree::Identifier;
use std::collections::BTreeMap;
use std::rc::Rc;

#[derive(Debug)]
pub enum Type {
    Integer,
    Given(Identifier),
    /// A parameter by its place, counted from 1.
    Parameter(u32),
    Power(Rc<Type>),
    Product(Vec<Rc<Type>>),
    /// Identifiers ascending.
    Binding(Vec<(Identifier, Rc<Type>)>),
}

/// Identifiers, ascending, each with its settled type.
pub type Signature = BTreeMap<Identifier, Rc<Type>>;

/// The largest size of a declared type or component type (38).
pub const MOST_SIZE: u32 = 32;

/// The binding of a signature.
pub fn binding(signature: &Signature) -> Type {
    Type::Binding(signature.iter().map(|(&id, t)| (id, Rc::clone(t))).collect())
}

impl Type {
    fn parts(&self) -> Vec<&Rc<Type>> {
        match self {
            Type::Integer | Type::Given(_) | Type::Parameter(_) => Vec::new(),
            Type::Power(part) => vec![part],
            Type::Product(parts) => parts.iter().collect(),
            Type::Binding(parts) => parts.iter().map(|(_, part)| part).collect(),
        }
    }

    /// Does the type's size, each former counted once, pass 32? Looks at no
    /// more than 33 formers.
    pub fn is_oversize(&self) -> bool {
        fn spend(t: &Type, left: &mut u32) -> bool {
            if *left == 0 {
                return false;
            }
            *left -= 1;
            t.parts().into_iter().all(|part| spend(part, left))
        }
        let mut left = MOST_SIZE;
        !spend(self, &mut left)
    }

    /// Type words in prefix order: 1 ℤ; 2 g; 3 power; 4 n parts; 5 n
    /// (identifier, type); 6 i.
    pub fn words(&self) -> Vec<u32> {
        let mut words = Vec::new();
        self.write(&mut words);
        words
    }

    fn write(&self, words: &mut Vec<u32>) {
        match self {
            Type::Integer => words.push(1),
            Type::Given(g) => words.extend([2, *g]),
            Type::Power(part) => {
                words.push(3);
                part.write(words);
            }
            Type::Product(parts) => {
                words.extend([4, parts.len() as u32]);
                parts.iter().for_each(|part| part.write(words));
            }
            Type::Binding(parts) => {
                words.extend([5, parts.len() as u32]);
                for (identifier, part) in parts {
                    words.push(*identifier);
                    part.write(words);
                }
            }
            Type::Parameter(i) => words.extend([6, *i]),
        }
    }
}

/// Are the types equal? One of the two has at most size 32, so that the walk
/// is short however large the other is.
pub fn same(a: &Type, b: &Type) -> bool {
    match (a, b) {
        (Type::Integer, Type::Integer) => true,
        (Type::Given(g), Type::Given(h)) => g == h,
        (Type::Parameter(i), Type::Parameter(j)) => i == j,
        (Type::Power(s), Type::Power(t)) => same(s, t),
        (Type::Product(s), Type::Product(t)) => {
            s.len() == t.len() && s.iter().zip(t).all(|(s, t)| same(s, t))
        }
        (Type::Binding(s), Type::Binding(t)) => {
            s.len() == t.len() && s.iter().zip(t).all(|((i, s), (j, t))| i == j && same(s, t))
        }
        _ => false,
    }
}

/// The type with the actuals' element types put for the parameters.
pub fn instantiate(t: &Rc<Type>, actuals: &[Rc<Type>]) -> Rc<Type> {
    let put = |part: &Rc<Type>| instantiate(part, actuals);
    Rc::new(match &**t {
        Type::Integer | Type::Given(_) => return Rc::clone(t),
        Type::Parameter(i) => return Rc::clone(&actuals[*i as usize - 1]),
        Type::Power(part) => Type::Power(put(part)),
        Type::Product(parts) => Type::Product(parts.iter().map(put).collect()),
        Type::Binding(parts) => {
            Type::Binding(parts.iter().map(|(id, part)| (*id, put(part))).collect())
        }
    })
}

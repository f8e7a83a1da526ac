//! The generator's own types and names, by which it builds documents that are
//! mostly accepted.

use std::collections::BTreeMap;

#[derive(Clone, PartialEq, Eq, Debug)]
pub enum Ty {
    Int,
    Given(u32),
    /// A parameter by its place, from 0.
    Param(usize),
    Power(Box<Ty>),
    Product(Vec<Ty>),
    Binding(Vec<(u32, Ty)>),
}

pub type Sig = BTreeMap<u32, Ty>;

/// A name of an earlier paragraph.
#[derive(Clone)]
pub struct Global {
    pub id: u32,
    pub parameters: usize,
    pub ty: Ty,
}

/// A schema of an earlier paragraph.
#[derive(Clone)]
pub struct SchemaOf {
    pub name: u32,
    pub parameters: usize,
    pub sig: Sig,
}

pub fn power_of(t: Ty) -> Ty {
    Ty::Power(Box::new(t))
}

pub fn binding_of(sig: &Sig) -> Ty {
    Ty::Binding(sig.iter().map(|(&id, t)| (id, t.clone())).collect())
}

impl Ty {
    pub fn size(&self) -> usize {
        match self {
            Ty::Int | Ty::Given(_) | Ty::Param(_) => 1,
            Ty::Power(part) => 1 + part.size(),
            Ty::Product(parts) => 1 + parts.iter().map(Ty::size).sum::<usize>(),
            Ty::Binding(parts) => 1 + parts.iter().map(|(_, part)| part.size()).sum::<usize>(),
        }
    }

    /// The type with these for its parameters.
    pub fn with(&self, actuals: &[Ty]) -> Ty {
        match self {
            Ty::Int | Ty::Given(_) => self.clone(),
            Ty::Param(i) => actuals[*i].clone(),
            Ty::Power(part) => power_of(part.with(actuals)),
            Ty::Product(parts) => {
                Ty::Product(parts.iter().map(|part| part.with(actuals)).collect())
            }
            Ty::Binding(parts) => {
                Ty::Binding(parts.iter().map(|(id, part)| (*id, part.with(actuals))).collect())
            }
        }
    }

    /// Finds parameters that make this type the target; false where none do.
    pub fn matches(&self, target: &Ty, found: &mut Vec<Option<Ty>>) -> bool {
        match (self, target) {
            (Ty::Param(i), _) => match &found[*i] {
                Some(earlier) => earlier == target,
                None => {
                    found[*i] = Some(target.clone());
                    true
                }
            },
            (Ty::Power(s), Ty::Power(t)) => s.matches(t, found),
            (Ty::Product(s), Ty::Product(t)) => {
                s.len() == t.len() && s.iter().zip(t).all(|(s, t)| s.matches(t, found))
            }
            (Ty::Binding(s), Ty::Binding(t)) => {
                s.len() == t.len()
                    && s.iter().zip(t).all(|((i, s), (j, t))| i == j && s.matches(t, found))
            }
            _ => self == target,
        }
    }
}

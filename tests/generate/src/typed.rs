//! Expressions and predicates made by their types, over the names in scope.

use crate::rng::Rng;
use crate::types::*;
use coding::make::*;
use coding::Tree;
use std::collections::BTreeMap;

/// What the generator makes documents for.
#[derive(Clone, Copy, PartialEq, Eq)]
pub enum Aim {
    /// All of the typing rules.
    Check,
    /// Mostly what a run can work out.
    Run,
}

/// Names in scope while a document grows.
pub struct Typed<'a> {
    pub rng: &'a mut Rng,
    pub aim: Aim,
    pub globals: Vec<Global>,
    pub schemas: Vec<SchemaOf>,
    pub parameters: Vec<u32>,
    pub texts: Vec<Sig>,
    /// Text nodes on the way down to here.
    pub open_texts: usize,
}

/// Integers that are small, or at an end of some range.
const NUMBERS: [u32; 14] =
    [0, 1, 1, 2, 2, 3, 5, 7, 46_340, 46_341, 65_536, 1_073_741_824, 2_147_483_646, 2_147_483_647];

impl<'a> Typed<'a> {
    pub fn new(rng: &'a mut Rng, aim: Aim) -> Typed<'a> {
        let (globals, schemas, parameters, texts) = Default::default();
        Typed { rng, aim, globals, schemas, parameters, texts, open_texts: 0 }
    }

    /// The names that a Ref sees, each with its parameter count and type.
    pub fn visible(&self) -> BTreeMap<u32, (usize, Ty)> {
        let mut seen = BTreeMap::new();
        for global in &self.globals {
            seen.insert(global.id, (global.parameters, global.ty.clone()));
        }
        for (i, &id) in self.parameters.iter().enumerate() {
            seen.insert(id, (0, power_of(Ty::Param(i))));
        }
        for text in &self.texts {
            seen.extend(text.iter().map(|(&id, t)| (id, (0, t.clone()))));
        }
        seen
    }

    /// A type that the names in scope can write, of a small size.
    pub fn some_type(&mut self, room: usize) -> Ty {
        let small = room.saturating_sub(1);
        match self.rng.below(12) {
            0..=3 => Ty::Int,
            4..=6 => self.base_type(),
            7 | 8 if room > 1 => power_of(self.some_type(small)),
            9 if room > 1 => {
                let n = [2, 2, 2, 3, 4, 6][self.rng.below(6)];
                Ty::Product((0..n).map(|_| self.some_type(small)).collect())
            }
            10 if self.aim == Aim::Check => self.binding_type(),
            _ => self.type_of_a_name(),
        }
    }

    /// A given or parameter in scope, else ℤ.
    fn base_type(&mut self) -> Ty {
        let mut bases = vec![Ty::Int];
        for (id, (_, t)) in self.visible() {
            match t {
                Ty::Power(part) if *part == Ty::Given(id) => bases.push(*part),
                Ty::Power(part)
                    if matches!(*part, Ty::Param(_)) && self.parameters.contains(&id) =>
                {
                    bases.push(*part)
                }
                _ => {}
            }
        }
        self.rng.pick(&bases).clone()
    }

    fn binding_type(&mut self) -> Ty {
        let plain: Vec<Ty> =
            self.schemas.iter().filter(|s| s.parameters == 0).map(|s| binding_of(&s.sig)).collect();
        match plain.is_empty() {
            true => Ty::Int,
            false => self.rng.pick(&plain).clone(),
        }
    }

    fn type_of_a_name(&mut self) -> Ty {
        let types: Vec<Ty> =
            self.visible().into_values().filter(|(p, _)| *p == 0).map(|(_, t)| t).collect();
        match types.is_empty() {
            true => Ty::Int,
            false => self.rng.pick(&types).clone(),
        }
    }

    pub fn some_number(&mut self) -> Tree {
        match self.rng.below(6) {
            0 => number(*self.rng.pick(&NUMBERS)),
            1 => negative(self.rng.below(9) as u32),
            _ => number(self.rng.below(6) as u32),
        }
    }

    /// An E of the type, of at most so many nodes where that can be had.
    pub fn expr_within(&mut self, t: &Ty, room: usize, nodes: usize) -> Option<Tree> {
        let mut best = None;
        for fuel in [room, room.min(4), room.min(3), room.min(2)] {
            if let Some(tree) = self.expr(t, fuel) {
                if tree.count() <= nodes {
                    return Some(tree);
                }
                best = Some(tree);
            }
        }
        best
    }

    /// An E of the type in at most so many levels, or nothing where the
    /// generator finds none.
    pub fn expr(&mut self, t: &Ty, room: usize) -> Option<Tree> {
        if room == 0 {
            return None;
        }
        if room == 1 || self.rng.percent(35) {
            if let Some(leaf) = self.leaf(t) {
                return Some(leaf);
            }
        }
        if room > 1 {
            for _ in 0..3 {
                if let Some(tree) = self.compound(t, room) {
                    return Some(tree);
                }
            }
        }
        self.leaf(t)
    }

    fn leaf(&mut self, t: &Ty) -> Option<Tree> {
        let mut leaves: Vec<Tree> = Vec::new();
        for (id, (parameters, type_)) in self.visible() {
            if parameters == 0 && type_ == *t {
                leaves.push(reference(id));
            }
        }
        match t {
            Ty::Int => leaves.push(number(self.rng.below(6) as u32)),
            Ty::Power(part) if **part == Ty::Int && self.may_be_unrunnable() => {
                leaves.push(integers())
            }
            Ty::Power(_) if self.rng.percent(8) => leaves.push(set(vec![])),
            Ty::Binding(_) if self.may_be_unrunnable() => leaves.extend(self.thetas(t)),
            _ => {}
        }
        match leaves.is_empty() {
            true => None,
            false => Some(self.rng.pick(&leaves).clone()),
        }
    }

    /// In runnable documents few values are such that no run works them out.
    fn may_be_unrunnable(&mut self) -> bool {
        self.aim == Aim::Check || self.rng.percent(4)
    }

    /// The Thetas that have this type here.
    fn thetas(&self, t: &Ty) -> Vec<Tree> {
        let seen = self.visible();
        let mut found = Vec::new();
        for schema in self.schemas.iter().filter(|s| s.parameters == 0) {
            for stroke in 0..4 {
                let mut parts = Vec::new();
                for &id in schema.sig.keys() {
                    let stroked = if stroke == 0 || id % 4 == 0 { id + stroke } else { 0 };
                    match seen.get(&stroked) {
                        Some((0, part)) => parts.push((id, part.clone())),
                        _ => break,
                    }
                }
                if parts.len() == schema.sig.len() && Ty::Binding(parts) == *t {
                    found.push(theta(schema.name, stroke));
                }
            }
        }
        found
    }

    fn compound(&mut self, t: &Ty, room: usize) -> Option<Tree> {
        let less = room - 1;
        match self.rng.below(10) {
            0 => self.apply(t, less),
            1 if self.may_be_unrunnable() => self.select(t, less),
            2 | 3 if self.may_be_unrunnable() => self.generic(t, less),
            _ => match t {
                Ty::Int => self.arithmetic(less),
                Ty::Power(part) => self.set_of(part, less),
                Ty::Product(parts) => Some(tuple(self.each(parts, less)?)),
                _ => self.apply(t, less),
            },
        }
    }

    fn each(&mut self, types: &[Ty], room: usize) -> Option<Vec<Tree>> {
        types.iter().map(|t| self.expr(t, room)).collect()
    }

    fn arithmetic(&mut self, room: usize) -> Option<Tree> {
        if self.rng.percent(20) && room >= 1 {
            return Some(self.some_number());
        }
        let kind = self.rng.from(41, 45) as u32;
        let left = self.expr(&Ty::Int, room)?;
        Some(arithmetic(kind, left, self.expr(&Ty::Int, room)?))
    }

    fn apply(&mut self, t: &Ty, room: usize) -> Option<Tree> {
        let functions: Vec<(u32, Ty)> = self
            .visible()
            .into_iter()
            .filter_map(|(id, (p, f))| match f {
                Ty::Power(pair) if p == 0 => match *pair {
                    Ty::Product(parts) if parts.len() == 2 && parts[1] == *t => {
                        Some((id, parts[0].clone()))
                    }
                    _ => None,
                },
                _ => None,
            })
            .collect();
        if !functions.is_empty() && self.rng.percent(70) {
            let (id, argument) = self.rng.pick(&functions).clone();
            return Some(apply(reference(id), self.expr(&argument, room)?));
        }
        if room < 3 {
            return None;
        }
        let argument = self.some_type(1);
        if self.rng.percent(50) {
            return self.applied_pairs(&argument, t, room - 2);
        }
        let pair = Ty::Product(vec![argument.clone(), t.clone()]);
        let function = self.expr(&power_of(pair), room.min(3))?;
        Some(apply(function, self.expr(&argument, room)?))
    }

    /// Pairs, some of which have the argument that they are applied to.
    fn applied_pairs(&mut self, argument: &Ty, result: &Ty, room: usize) -> Option<Tree> {
        let applied_to = self.expr(argument, room)?;
        let mut pairs = Vec::new();
        for _ in 0..self.rng.from(1, 3) {
            let first = match self.rng.percent(60) {
                true => applied_to.clone(),
                false => self.expr(argument, room)?,
            };
            pairs.push(tuple(vec![first, self.expr(result, room)?]));
        }
        Some(apply(set(pairs), applied_to))
    }

    /// A component of some binding in scope.
    fn select(&mut self, t: &Ty, room: usize) -> Option<Tree> {
        let mut bindings: Vec<Ty> = self.schemas.iter().map(|s| binding_of(&s.sig)).collect();
        bindings.extend(self.visible().into_values().map(|(_, t)| t));
        let mut found = Vec::new();
        for binding in bindings {
            if let Ty::Binding(parts) = &binding {
                for (id, part) in parts.iter().filter(|(_, part)| part == t) {
                    let _ = part;
                    found.push((*id, binding.clone()));
                }
            }
        }
        if found.is_empty() {
            return None;
        }
        let (id, binding) = self.rng.pick(&found).clone();
        Some(select(self.expr(&binding, room.min(2))?, id))
    }

    /// A generic abbreviation that can have this type, with or without
    /// actuals.
    fn generic(&mut self, t: &Ty, room: usize) -> Option<Tree> {
        let mut found = Vec::new();
        for (id, (parameters, type_)) in self.visible() {
            let mut actuals = vec![None; parameters];
            if parameters > 0 && type_.matches(t, &mut actuals) {
                found.push((id, actuals));
            }
        }
        if found.is_empty() {
            return None;
        }
        let (id, actuals) = self.rng.pick(&found).clone();
        if actuals.iter().all(Option::is_some) && self.rng.percent(50) {
            return Some(reference(id));
        }
        let mut given = Vec::new();
        for actual in actuals {
            let t = actual.unwrap_or(Ty::Int);
            given.push(self.expr(&power_of(t), room)?);
        }
        Some(generic(id, given))
    }

    /// How often a set is a Power, a Product or a SchemaSet: in runnable
    /// documents seldom, since most of these have over 64 words.
    fn listed_percent(&self) -> usize {
        match self.aim {
            Aim::Check => 45,
            Aim::Run => 12,
        }
    }

    /// An E of type power t.
    fn set_of(&mut self, t: &Ty, room: usize) -> Option<Tree> {
        if self.rng.percent(self.listed_percent()) {
            match t {
                Ty::Power(part) => {
                    return Some(power(self.expr(&power_of((**part).clone()), room)?))
                }
                Ty::Product(parts) => {
                    let sets: Vec<Ty> = parts.iter().cloned().map(power_of).collect();
                    return Some(product(self.each(&sets, room)?));
                }
                Ty::Binding(_) if self.may_be_unrunnable() => return self.schema_set(t, room),
                _ => {}
            }
        }
        if self.rng.percent(25) && room >= 3 && self.open_texts < 4 {
            let (tree, sig) = self.text(room - 1, 2);
            self.texts.push(sig);
            let body = self.expr(t, room);
            self.texts.pop();
            return Some(comprehension(tree, body?));
        }
        let n = self.rng.from(1, 3);
        Some(set((0..n).map(|_| self.expr(t, room)).collect::<Option<Vec<_>>>()?))
    }

    fn schema_set(&mut self, t: &Ty, room: usize) -> Option<Tree> {
        for _ in 0..4 {
            let (tree, sig) = self.include(room)?;
            if binding_of(&sig) == *t {
                return Some(schema_set(tree));
            }
        }
        None
    }

    /// A predicate in at most so many levels.
    pub fn pred(&mut self, room: usize) -> Tree {
        if room < 3 {
            return truth();
        }
        match self.rng.below(12) {
            0 => truth(),
            1 => not(self.pred(room - 1)),
            2 | 3 => {
                let kind = self.rng.from(25, 27) as u32;
                let left = self.pred(room - 1);
                arithmetic(kind, left, self.pred(room - 1))
            }
            4 | 5 if self.open_texts < 4 && room >= 4 => {
                let kind = self.rng.from(28, 29) as u32;
                let (tree, sig) = self.text(room - 1, 3);
                self.texts.push(sig);
                let body = self.pred(room - 1);
                self.texts.pop();
                arithmetic(kind, tree, body)
            }
            _ => self.relation(room - 1).unwrap_or_else(truth),
        }
    }

    fn relation(&mut self, room: usize) -> Option<Tree> {
        let room = room.min(4);
        let t = self.some_type(2);
        match self.rng.below(3) {
            0 => {
                let left = self.expr_within(&t, room, 11)?;
                Some(equal(left, self.expr_within(&t, room, 11)?))
            }
            1 => {
                let left = self.expr_within(&t, room, 11)?;
                let right = match self.rng.percent(50) {
                    true => self.tested_set(&t, room),
                    false => self.expr_within(&power_of(t), room, 11),
                };
                Some(member(left, right?))
            }
            _ => {
                let left = self.expr_within(&Ty::Int, room, 11)?;
                Some(at_most(left, self.expr_within(&Ty::Int, room, 11)?))
            }
        }
    }

    /// An E that Member can test against: ℤ, givens, Power and Product of
    /// such, else any E of type power t.
    pub fn tested_set(&mut self, t: &Ty, room: usize) -> Option<Tree> {
        if room < 2 || self.rng.percent(15) {
            return self.expr(&power_of(t.clone()), room);
        }
        match t {
            Ty::Int => Some(integers()),
            Ty::Power(part) => Some(power(self.tested_set(part, room - 1)?)),
            Ty::Product(parts) => {
                let parts: Option<Vec<Tree>> =
                    parts.iter().map(|part| self.tested_set(part, room - 1)).collect();
                Some(product(parts?))
            }
            _ => self.expr(&power_of(t.clone()), room),
        }
    }
}

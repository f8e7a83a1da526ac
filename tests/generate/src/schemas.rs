//! Texts, Includes and schemas made by their signatures.

use crate::typed::{Aim, Typed};
use crate::types::*;
use coding::make::*;
use coding::Tree;

impl Typed<'_> {
    /// A name for a component or local variable, from a small pool so that
    /// names meet and hide one another.
    pub fn local_name(&mut self) -> u32 {
        let stroke = [0, 0, 0, 0, 0, 1, 2, 3][self.rng.below(8)];
        id(self.rng.from(1, 9) as u32, stroke)
    }

    /// A Text in at most so many levels with so many lines at most, and its
    /// signature.
    pub fn text(&mut self, room: usize, lines: usize) -> (Tree, Sig) {
        self.open_texts += 1;
        let mut sig = Sig::new();
        let mut made = Vec::new();
        let mut declared = 0;
        for _ in 0..self.rng.from(0, lines) {
            let Some((tree, more)) = self.line(room - 1, &mut declared) else { continue };
            if merges(&sig, &more) {
                sig.extend(more);
                made.push(tree);
            }
        }
        self.texts.push(sig);
        let predicate = match self.rng.percent(40) {
            true => truth(),
            false => self.pred(room - 1),
        };
        self.open_texts -= 1;
        let sig = self.texts.pop().expect("pushed above");
        let twice = made.iter().flat_map(declares).collect::<Vec<_>>();
        let distinct = twice.iter().collect::<std::collections::BTreeSet<_>>().len() == twice.len();
        match distinct || self.rng.percent(3) {
            true => (text(predicate, made), sig),
            false => (text(truth(), vec![]), Sig::new()),
        }
    }

    fn line(&mut self, room: usize, declared: &mut usize) -> Option<(Tree, Sig)> {
        let includes = match self.aim {
            Aim::Check => 30,
            Aim::Run => 1,
        };
        if self.rng.percent(includes) && !self.schemas.is_empty() {
            return self.include(room);
        }
        if *declared >= 5 {
            return None;
        }
        let t = self.some_type(2);
        let set = self.expr_within(&power_of(t.clone()), (room - 1).min(4), 20)?;
        let n = [1, 1, 1, 2][self.rng.below(4)];
        *declared += n;
        let ids: Vec<u32> = (0..n).map(|_| self.local_name()).collect();
        let sig = ids.iter().map(|&id| (id, t.clone())).collect();
        Some((decl(set, &ids), sig))
    }

    /// An Include of a schema in scope: stroke, renames, actuals; and its
    /// signature.
    pub fn include(&mut self, room: usize) -> Option<(Tree, Sig)> {
        if self.schemas.is_empty() || room == 0 {
            return None;
        }
        let schema = self.rng.pick(&self.schemas).clone();
        let mut types = Vec::new();
        let mut actuals = Vec::new();
        for _ in 0..schema.parameters {
            let t = self.some_type(2);
            actuals.push(self.expr_within(&power_of(t.clone()), (room - 1).min(3), 8)?);
            types.push(t);
        }
        let stroke = match schema.sig.keys().all(|id| id % 4 == 0) && self.rng.percent(40) {
            true => self.rng.from(1, 3) as u32,
            false => 0,
        };
        let stroked: Vec<u32> = schema.sig.keys().map(|id| id + stroke).collect();
        let renames = self.renames(&stroked);
        let mut sig = Sig::new();
        for (id, t) in stroked.iter().zip(schema.sig.values()) {
            let renamed = renames.iter().find(|(old, _)| old == id).map_or(*id, |(_, new)| *new);
            sig.insert(renamed, t.with(&types));
        }
        Some((include(schema.name, stroke, actuals, &renames), sig))
    }

    /// Rename pairs with distinct old names and a distinct outcome.
    fn renames(&mut self, ids: &[u32]) -> Vec<(u32, u32)> {
        if ids.is_empty() || self.rng.percent(60) {
            return Vec::new();
        }
        if ids.len() >= 2 && self.rng.percent(30) {
            let i = self.rng.below(ids.len() - 1);
            return vec![(ids[i], ids[i + 1]), (ids[i + 1], ids[i])];
        }
        let mut pairs: Vec<(u32, u32)> = Vec::new();
        for &old in ids.iter().take(6) {
            let new = self.local_name();
            let used = ids.contains(&new) || pairs.iter().any(|&(_, earlier)| earlier == new);
            if !used && self.rng.percent(50) {
                pairs.push((old, new));
            }
        }
        self.rng.shuffle(&mut pairs);
        pairs
    }

    /// A schema expression and its signature.
    pub fn schema_expr(&mut self, room: usize) -> (Tree, Sig) {
        match self.rng.below(4) {
            0 => {
                if let Some(made) = self.include(room) {
                    return made;
                }
            }
            1 if room > 4 => {
                let (left, sig) = self.schema_expr(room - 1);
                let (right, more) = self.schema_expr(room - 1);
                if merges(&sig, &more) {
                    let all = sig.into_iter().chain(more).collect();
                    return (conjunction(left, right), all);
                }
                return (left, sig);
            }
            _ => {}
        }
        self.text(room, 4)
    }
}

/// The identifiers of a Decl.
fn declares(line: &Tree) -> Vec<u32> {
    if line.kind != 11 {
        return Vec::new();
    }
    let word = |operand: &coding::Operand| match operand {
        coding::Operand::Word(word) => Some(*word),
        coding::Operand::Node(_) => None,
    };
    line.operands.iter().filter_map(word).collect()
}

/// Do the signatures merge, in at most 16 identifiers?
fn merges(sig: &Sig, more: &Sig) -> bool {
    let agree = more.iter().all(|(id, t)| sig.get(id).is_none_or(|earlier| earlier == t));
    let new = more.keys().filter(|id| !sig.contains_key(id)).count();
    agree && sig.len() + new <= 16 && more.values().all(|t| t.size() <= 32)
}

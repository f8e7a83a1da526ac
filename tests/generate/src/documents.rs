//! Whole documents that are mostly accepted.

use crate::rng::Rng;
use crate::typed::{Aim, Typed};
use crate::types::*;
use coding::make::*;
use coding::Tree;

/// A document for the check or for the run.
pub fn typed_document(rng: &mut Rng, aim: Aim) -> Tree {
    let count = rng.from(2, 9);
    let mut typed = Typed::new(rng, aim);
    let mut paragraphs = vec![typed.given_paragraph()];
    for _ in 0..count {
        if let Some(paragraph) = typed.paragraph() {
            paragraphs.push(paragraph);
        }
    }
    document(paragraphs)
}

/// Levels that a paragraph may take below the Document.
const ROOM: usize = 11;

impl Typed<'_> {
    fn paragraph(&mut self) -> Option<Tree> {
        let choice = self.rng.below(20);
        match (self.aim, choice) {
            (_, 0) => Some(self.given_paragraph()),
            (Aim::Check, 1..=7) => Some(self.schema_paragraph()),
            (Aim::Run, 1) => Some(self.schema_paragraph()),
            (_, 8..=12) => self.axiom_paragraph(),
            (_, 13..=16) => self.abbreviation_paragraph(),
            _ => {
                let predicate = self.mostly_true();
                Some(constraint(predicate))
            }
        }
    }

    /// In runnable documents a predicate that seldom ends the run.
    fn mostly_true(&mut self) -> Tree {
        let predicate = self.pred(ROOM - 4);
        match self.aim == Aim::Run && self.rng.percent(75) {
            true => or(predicate, truth()),
            false => predicate,
        }
    }

    /// A name that no paragraph has used.
    fn global_name(&mut self) -> u32 {
        loop {
            let name = match self.rng.below(10) {
                0 => 65_535 - self.rng.below(20) as u32,
                1 | 2 => self.local_name(),
                _ => id(self.rng.from(20, 400) as u32, self.rng.below(8) as u32 / 5),
            };
            if !self.globals.iter().any(|global| global.id == name) {
                return name;
            }
        }
    }

    fn define(&mut self, id: u32, parameters: usize, ty: Ty) {
        self.globals.push(Global { id, parameters, ty });
    }

    fn given_paragraph(&mut self) -> Tree {
        let mut ids = Vec::new();
        for _ in 0..self.rng.from(1, 2) {
            let id = self.global_name();
            self.define(id, 0, power_of(Ty::Given(id)));
            ids.push(id);
        }
        given(&ids)
    }

    fn schema_paragraph(&mut self) -> Tree {
        let name = loop {
            let name = self.rng.from(1, 30) as u32;
            if !self.schemas.iter().any(|schema| schema.name == name) {
                break name;
            }
        };
        self.parameters = self.some_parameters();
        let (body, sig) = self.schema_expr(ROOM - 2);
        let tree = schema(name, &self.parameters, body);
        let parameters = std::mem::take(&mut self.parameters).len();
        self.schemas.push(SchemaOf { name, parameters, sig });
        tree
    }

    fn some_parameters(&mut self) -> Vec<u32> {
        let n = [0, 0, 0, 1, 1, 2, 3, 4][self.rng.below(8)];
        let mut ids: Vec<u32> = Vec::new();
        while ids.len() < n {
            let id = id(self.rng.from(10, 16) as u32, 0);
            if !ids.contains(&id) {
                ids.push(id);
            }
        }
        ids
    }

    fn abbreviation_paragraph(&mut self) -> Option<Tree> {
        let name = self.global_name();
        if self.aim == Aim::Check || self.rng.percent(10) {
            self.parameters = self.some_parameters();
        }
        let t = self.some_type(3);
        let body = self.expr_within(&t, 5, 23);
        let parameters = std::mem::take(&mut self.parameters);
        let tree = abbreviation(name, &parameters, body?);
        self.define(name, parameters.len(), t);
        Some(tree)
    }

    /// Decl lines with new names, and Includes that bring none twice.
    fn axiom_paragraph(&mut self) -> Option<Tree> {
        self.open_texts = 1;
        let mut lines = Vec::new();
        let mut sig = Sig::new();
        for _ in 0..self.rng.from(1, 3) {
            let Some((tree, more)) = self.axiom_line(&sig) else { continue };
            sig.extend(more);
            lines.push(tree);
        }
        self.texts.push(sig);
        let predicate = match self.rng.percent(50) {
            true => truth(),
            false => self.mostly_true(),
        };
        self.open_texts = 0;
        let sig = self.texts.pop().expect("pushed above");
        for (id, t) in sig {
            self.define(id, 0, t);
        }
        Some(axiom(text(predicate, lines)))
    }

    fn axiom_line(&mut self, sig: &Sig) -> Option<(Tree, Sig)> {
        if self.aim == Aim::Check && self.rng.percent(40) {
            let (tree, more) = self.include(ROOM - 3)?;
            let clash = more.keys().any(|id| {
                sig.contains_key(id) || self.globals.iter().any(|global| global.id == *id)
            });
            let fits = !clash && more.len() + sig.len() <= 16;
            return fits.then_some((tree, more));
        }
        let t = self.some_type(3);
        let set = match self.aim == Aim::Run && self.rng.percent(85) {
            true => self.tested_set(&t, 5),
            false => self.expr_within(&power_of(t.clone()), 5, 20),
        }?;
        let mut more = Sig::new();
        for _ in 0..self.rng.from(1, 2) {
            let name = self.global_name();
            if !sig.contains_key(&name) && sig.len() + more.len() < 6 {
                more.insert(name, t.clone());
            }
        }
        let mut ids: Vec<u32> = more.keys().copied().collect();
        self.rng.shuffle(&mut ids);
        (!ids.is_empty()).then(|| (decl(set, &ids), more))
    }
}

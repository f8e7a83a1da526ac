//! Trees that obey the sorts and counts of the list of kinds, with any names:
//! most are readable, few are well typed.

use crate::rng::Rng;
use coding::make::*;
use coding::Tree;

/// How many identifiers the names come from; a small number makes names meet.
pub struct Shape<'a> {
    pub rng: &'a mut Rng,
    pub names: usize,
}

impl Shape<'_> {
    pub fn document(&mut self) -> Tree {
        let paragraphs = self.rng.from(0, 7);
        document((0..paragraphs).map(|_| self.paragraph(9)).collect())
    }

    fn identifier(&mut self) -> u32 {
        match self.rng.below(40) {
            0 => 65_535,
            _ => id(self.rng.from(1, self.names) as u32, self.rng.below(4) as u32 / 2),
        }
    }

    fn identifiers(&mut self, least: usize, most: usize) -> Vec<u32> {
        let n = self.rng.from(least, most);
        (0..n).map(|_| self.identifier()).collect()
    }

    fn schema_name(&mut self) -> u32 {
        self.rng.from(1, 4) as u32
    }

    fn paragraph(&mut self, room: usize) -> Tree {
        match self.rng.below(5) {
            0 => given(&self.identifiers(1, 3)),
            1 => axiom(self.text(room)),
            2 => {
                let parameters = self.identifiers(0, 2);
                let name = self.schema_name();
                schema(name, &parameters, self.schema_expr(room))
            }
            3 => {
                let parameters = self.identifiers(0, 2);
                let identifier = self.identifier();
                abbreviation(identifier, &parameters, self.expr(room.min(4)))
            }
            _ => constraint(self.pred(room)),
        }
    }

    fn schema_expr(&mut self, room: usize) -> Tree {
        match self.rng.below(4) {
            0 => self.include(room.min(4)),
            1 if room > 3 => conjunction(self.schema_expr(room - 2), self.schema_expr(room - 2)),
            _ => self.text(room),
        }
    }

    fn text(&mut self, room: usize) -> Tree {
        let predicate = self.pred(room.saturating_sub(2));
        let lines = self.rng.from(0, 3);
        let line = |shape: &mut Self| match shape.rng.below(3) {
            0 => shape.include(room.min(4)),
            _ => {
                let identifiers = shape.identifiers(1, 2);
                decl(shape.expr(room.min(3)), &identifiers)
            }
        };
        text(predicate, (0..lines).map(|_| line(self)).collect())
    }

    fn include(&mut self, room: usize) -> Tree {
        let actuals = self.rng.below(3) / 2;
        let renames = self.rng.below(4) / 2;
        let pairs: Vec<(u32, u32)> =
            (0..renames).map(|_| (self.identifier(), self.identifier())).collect();
        let (name, stroke) = (self.schema_name(), self.rng.below(4) as u32);
        let actuals = (0..actuals).map(|_| self.expr(room.saturating_sub(1))).collect();
        include(name, stroke, actuals, &pairs)
    }

    fn pred(&mut self, room: usize) -> Tree {
        if room < 3 {
            return truth();
        }
        let sides = |shape: &mut Self| (shape.expr(room.min(4) - 1), shape.expr(room.min(4) - 1));
        match self.rng.below(9) {
            0 => truth(),
            1..=3 => {
                let kind = self.rng.from(21, 23) as u32;
                let (left, right) = sides(self);
                arithmetic(kind, left, right)
            }
            4 => not(self.pred(room - 1)),
            5 => {
                let kind = self.rng.from(25, 27) as u32;
                let left = self.pred(room - 1);
                arithmetic(kind, left, self.pred(room - 1))
            }
            _ => {
                let kind = self.rng.from(28, 29) as u32;
                let text = self.text(room - 2);
                arithmetic(kind, text, self.pred(room - 2))
            }
        }
    }

    fn exprs(&mut self, least: usize, most: usize, room: usize) -> Vec<Tree> {
        let n = self.rng.from(least, most);
        (0..n).map(|_| self.expr(room)).collect()
    }

    fn leaf(&mut self) -> Tree {
        match self.rng.below(6) {
            0 => number(self.rng.below(4) as u32),
            1 => integers(),
            2 => set(vec![]),
            3 => theta(self.schema_name(), self.rng.below(4) as u32),
            _ => reference(self.identifier()),
        }
    }

    fn expr(&mut self, room: usize) -> Tree {
        if room < 2 || self.rng.percent(30) {
            return self.leaf();
        }
        let less = room - 1;
        match self.rng.below(11) {
            0 => generic(self.identifier(), self.exprs(0, 2, less)),
            1 => set(self.exprs(0, 3, less)),
            2 => tuple(self.exprs(2, 3, less)),
            3 => product(self.exprs(2, 3, less)),
            4 => power(self.expr(less)),
            5 => apply(self.expr(less), self.expr(less)),
            6 => select(self.expr(less), self.identifier()),
            7 if room > 2 => schema_set(self.include(less)),
            8 if room > 3 => comprehension(self.text(less), self.expr(less)),
            9 => {
                let kind = self.rng.from(41, 45) as u32;
                arithmetic(kind, self.expr(less), self.expr(less))
            }
            _ => self.leaf(),
        }
    }
}

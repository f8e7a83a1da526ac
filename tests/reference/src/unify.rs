//! Equations between types with unknowns, as a shared graph of cells: an
//! equation joins the classes of two cells and of all parts that match by it,
//! so that the work is bounded by the number of cells and not by the size of
//! the types written out. Joining asks nothing about finiteness: a class that
//! comes to stand inside itself is joined on like any other, and found after.

use crate::tree::Identifier;
use crate::types::Type;
use std::rc::Rc;

/// A cell of the graph, by its place.
pub type Cell = usize;

#[derive(Clone, PartialEq, Eq, Debug)]
pub enum Former {
    Unknown,
    Integer,
    Given(Identifier),
    Parameter(u32),
    Power,
    Product,
    Binding(Vec<Identifier>),
}

#[derive(Default)]
pub struct Graph {
    formers: Vec<Former>,
    parts: Vec<Vec<Cell>>,
    /// The next cell of the same class; a class's head links to itself.
    links: Vec<Cell>,
}

impl Graph {
    fn cell(&mut self, former: Former, parts: Vec<Cell>) -> Cell {
        let cell = self.formers.len();
        self.formers.push(former);
        self.parts.push(parts);
        self.links.push(cell);
        cell
    }

    pub fn unknown(&mut self) -> Cell {
        self.cell(Former::Unknown, Vec::new())
    }

    pub fn integer(&mut self) -> Cell {
        self.cell(Former::Integer, Vec::new())
    }

    pub fn power(&mut self, part: Cell) -> Cell {
        self.cell(Former::Power, vec![part])
    }

    pub fn product(&mut self, parts: Vec<Cell>) -> Cell {
        self.cell(Former::Product, parts)
    }

    /// A settled type, with the given cells for its parameters; without cells
    /// a parameter stands for itself.
    pub fn enter(&mut self, t: &Type, actuals: &[Cell]) -> Cell {
        match t {
            Type::Integer => self.integer(),
            Type::Given(g) => self.cell(Former::Given(*g), Vec::new()),
            Type::Parameter(i) => match actuals.get(*i as usize - 1) {
                Some(&actual) => actual,
                None => self.cell(Former::Parameter(*i), Vec::new()),
            },
            Type::Power(part) => {
                let part = self.enter(part, actuals);
                self.power(part)
            }
            Type::Product(parts) => {
                let parts = parts.iter().map(|part| self.enter(part, actuals)).collect();
                self.product(parts)
            }
            Type::Binding(parts) => {
                let names = parts.iter().map(|(name, _)| *name).collect();
                let parts = parts.iter().map(|(_, part)| self.enter(part, actuals)).collect();
                self.cell(Former::Binding(names), parts)
            }
        }
    }

    /// The head of the cell's class.
    pub fn head(&self, mut cell: Cell) -> Cell {
        while self.links[cell] != cell {
            cell = self.links[cell];
        }
        cell
    }

    /// Joins the classes of the two cells and of all matching parts; false
    /// where two different formers come to stand side by side.
    pub fn join(&mut self, a: Cell, b: Cell) -> bool {
        let (a, b) = (self.head(a), self.head(b));
        if a == b {
            return true;
        }
        if self.formers[a] == Former::Unknown {
            self.links[a] = b;
            return true;
        }
        self.links[b] = a;
        if self.formers[b] == Former::Unknown {
            return true;
        }
        let (left, right) = (self.parts[a].clone(), self.parts[b].clone());
        self.formers[a] == self.formers[b]
            && left.len() == right.len()
            && left.into_iter().zip(right).all(|(s, t)| self.join(s, t))
    }

    /// Types are finite: no class stands inside itself.
    pub fn is_finite(&self) -> bool {
        let mut marks = vec![Mark::Fresh; self.links.len()];
        (0..self.links.len()).all(|cell| self.ends(cell, &mut marks))
    }

    fn ends(&self, cell: Cell, marks: &mut Vec<Mark>) -> bool {
        let head = self.head(cell);
        match marks[head] {
            Mark::Done => true,
            Mark::Open => false,
            Mark::Fresh => {
                marks[head] = Mark::Open;
                let all = self.parts[head].iter().all(|&part| self.ends(part, marks));
                marks[head] = Mark::Done;
                all
            }
        }
    }

    /// The component's cell, where every solution has a binding with it.
    pub fn component(&self, cell: Cell, identifier: Identifier) -> Option<Cell> {
        let head = self.head(cell);
        match &self.formers[head] {
            Former::Binding(names) => {
                let at = names.iter().position(|&name| name == identifier)?;
                Some(self.parts[head][at])
            }
            _ => None,
        }
    }

    pub fn settler(&self) -> Settler<'_> {
        Settler { graph: self, known: vec![None; self.links.len()] }
    }
}

#[derive(Clone, Copy, PartialEq)]
enum Mark {
    Fresh,
    Open,
    Done,
}

/// Settled types of a graph, each class worked out once.
pub struct Settler<'a> {
    graph: &'a Graph,
    known: Vec<Option<Option<Rc<Type>>>>,
}

impl Settler<'_> {
    /// The cell's one type, or nothing where an unknown is left in it.
    pub fn settle(&mut self, cell: Cell) -> Option<Rc<Type>> {
        let head = self.graph.head(cell);
        if let Some(known) = &self.known[head] {
            return known.clone();
        }
        let settled = self.settle_head(head);
        self.known[head] = Some(settled.clone());
        settled
    }

    fn settle_head(&mut self, head: Cell) -> Option<Rc<Type>> {
        let graph = self.graph;
        let mut parts = Vec::new();
        for &part in &graph.parts[head] {
            parts.push(self.settle(part)?);
        }
        Some(Rc::new(match &graph.formers[head] {
            Former::Unknown => return None,
            Former::Integer => Type::Integer,
            Former::Given(g) => Type::Given(*g),
            Former::Parameter(i) => Type::Parameter(*i),
            Former::Power => Type::Power(parts.remove(0)),
            Former::Product => Type::Product(parts),
            Former::Binding(names) => Type::Binding(names.iter().copied().zip(parts).collect()),
        }))
    }
}

#[cfg(test)]
mod tests {
    use super::*;

    /// What equations come to, all joined before they are judged.
    #[derive(PartialEq, Debug)]
    enum Outcome {
        Solvable,
        Clash,
        Inside,
    }

    use Outcome::{Clash, Inside, Solvable};

    const ONE: Identifier = 4;
    const OTHER: Identifier = 8;

    /// The outcome of equations between cells that `make` builds over two
    /// unknowns, the same in every order and with the sides exchanged.
    fn outcome(make: impl Fn(&mut Graph, Cell, Cell) -> Vec<(Cell, Cell)>) -> Outcome {
        let judged = |turn: usize, exchanged: bool| {
            let mut graph = Graph::default();
            let (x, y) = (graph.unknown(), graph.unknown());
            let mut equations = make(&mut graph, x, y);
            let count = equations.len();
            equations.rotate_left(turn % count);
            let sides = |(a, b)| if exchanged { (b, a) } else { (a, b) };
            match equations.into_iter().map(sides).all(|(a, b)| graph.join(a, b)) {
                false => Clash,
                true if graph.is_finite() => Solvable,
                true => Inside,
            }
        };
        let first = judged(0, false);
        for turn in 0..4 {
            assert_eq!(judged(turn, false), first);
            assert_eq!(judged(turn, true), first);
        }
        first
    }

    fn given(graph: &mut Graph, name: Identifier) -> Cell {
        graph.enter(&Type::Given(name), &[])
    }

    fn parameter(graph: &mut Graph, i: u32) -> Cell {
        graph.enter(&Type::Parameter(i), &[])
    }

    fn binding(graph: &mut Graph, names: [Identifier; 2], parts: [Cell; 2]) -> Cell {
        graph.cell(Former::Binding(names.to_vec()), parts.to_vec())
    }

    #[test]
    fn a_type_inside_itself() {
        assert_eq!(outcome(|graph, x, _| vec![(x, graph.power(x))]), Inside);
        let by_two = |graph: &mut Graph, x, y| vec![(x, graph.power(y)), (y, graph.power(x))];
        assert_eq!(outcome(by_two), Inside);
        let by_parts = |graph: &mut Graph, x, y| {
            let power = graph.power(y);
            vec![(graph.product(vec![x, x]), graph.product(vec![y, power]))]
        };
        assert_eq!(outcome(by_parts), Inside);
    }

    #[test]
    fn an_unknown_equal_to_itself() {
        assert_eq!(outcome(|_, x, y| vec![(x, x), (x, y), (y, x)]), Solvable);
        assert_eq!(outcome(|graph, x, _| vec![(graph.power(x), graph.power(x))]), Solvable);
    }

    /// x = ℙ x solves x = ℙ ℙ x too, by one infinite type.
    #[test]
    fn two_ways_into_itself() {
        let once_and_twice = |graph: &mut Graph, x, _| {
            let power = graph.power(x);
            vec![(x, graph.power(power)), (x, power)]
        };
        assert_eq!(outcome(once_and_twice), Inside);
    }

    #[test]
    fn a_clash_beside_a_type_inside_itself() {
        let number =
            |graph: &mut Graph, x, y| vec![(x, y), (x, graph.power(y)), (x, graph.integer())];
        assert_eq!(outcome(number), Clash);
        let elsewhere = |graph: &mut Graph, x, y| {
            vec![(x, graph.power(x)), (y, graph.integer()), (y, given(graph, ONE))]
        };
        assert_eq!(outcome(elsewhere), Clash);
    }

    /// x = ℙ (x × ℤ) and x = ℙ (y × y): y is x and ℤ.
    #[test]
    fn a_clash_behind_a_type_inside_itself() {
        let round = |graph: &mut Graph, x, y| {
            let integer = graph.integer();
            let (left, right) = (graph.product(vec![x, integer]), graph.product(vec![y, y]));
            vec![(x, graph.power(left)), (x, graph.power(right))]
        };
        assert_eq!(outcome(round), Clash);
    }

    #[test]
    fn different_formers() {
        let givens =
            |graph: &mut Graph, x, _| vec![(x, given(graph, ONE)), (x, given(graph, OTHER))];
        assert_eq!(outcome(givens), Clash);
        let parameters =
            |graph: &mut Graph, x, _| vec![(x, parameter(graph, 1)), (x, parameter(graph, 2))];
        assert_eq!(outcome(parameters), Clash);
        let lengths = |graph: &mut Graph, x, y| {
            vec![(x, graph.product(vec![y, y])), (x, graph.product(vec![y, y, x]))]
        };
        assert_eq!(outcome(lengths), Clash);
    }

    #[test]
    fn bindings() {
        let of = |other: [Identifier; 2]| {
            outcome(move |graph, x, y| {
                let power = graph.power(y);
                let left = binding(graph, [ONE, OTHER], [x, x]);
                vec![(left, binding(graph, other, [y, power]))]
            })
        };
        assert_eq!(of([ONE, OTHER]), Inside);
        assert_eq!(of([ONE, OTHER + 1]), Clash);
    }
}

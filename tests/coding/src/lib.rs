//! Trees of any kinds and operands, and the words that code them. Nothing here
//! knows what is readable: damaged trees are coded like sound ones.

pub mod make;

/// A node: its kind and its operand words, some of which are nodes.
#[derive(Clone, PartialEq, Eq, Debug)]
pub struct Tree {
    pub kind: u32,
    pub operands: Vec<Operand>,
}

#[derive(Clone, PartialEq, Eq, Debug)]
pub enum Operand {
    Word(u32),
    Node(Tree),
}

impl Tree {
    pub fn children(&self) -> impl Iterator<Item = &Tree> {
        self.operands.iter().filter_map(|operand| match operand {
            Operand::Node(tree) => Some(tree),
            Operand::Word(_) => None,
        })
    }

    /// The number of nodes, this one counted.
    pub fn count(&self) -> usize {
        1 + self.children().map(Tree::count).sum::<usize>()
    }

    /// The number of nodes on the longest way down, this one counted.
    pub fn depth(&self) -> usize {
        1 + self.children().map(Tree::depth).max().unwrap_or(0)
    }

    /// The node at this place of the walk that visits a node before its
    /// operands.
    pub fn at(&mut self, place: usize) -> Option<&mut Tree> {
        if place == 0 {
            return Some(self);
        }
        let mut left = place - 1;
        for operand in &mut self.operands {
            if let Operand::Node(child) = operand {
                let count = child.count();
                if left < count {
                    return child.at(left);
                }
                left -= count;
            }
        }
        None
    }

    /// The places, in that walk, of the nodes that meet a condition.
    pub fn places(&self, wanted: impl Fn(&Tree) -> bool) -> Vec<usize> {
        fn walk(
            tree: &Tree,
            next: &mut usize,
            wanted: &dyn Fn(&Tree) -> bool,
            out: &mut Vec<usize>,
        ) {
            if wanted(tree) {
                out.push(*next);
            }
            *next += 1;
            tree.children().for_each(|child| walk(child, next, wanted, out));
        }
        let mut out = Vec::new();
        walk(self, &mut 0, &wanted, &mut out);
        out
    }
}

/// Words of a document whose nodes have these words.
pub fn join(nodes: &[Vec<u32>]) -> Vec<u32> {
    let mut words = vec![nodes.len() as u32];
    let mut offset = 1 + 2 * nodes.len() as u32;
    for node in nodes {
        words.extend([offset, node.len() as u32]);
        offset += node.len() as u32;
    }
    words.extend(nodes.iter().flatten());
    words
}

/// Codes a tree with operands first, left to right.
pub fn encode(tree: &Tree) -> Vec<u32> {
    fn walk(tree: &Tree, nodes: &mut Vec<Vec<u32>>) -> u32 {
        let mut words = vec![tree.kind];
        for operand in &tree.operands {
            words.push(match operand {
                Operand::Word(word) => *word,
                Operand::Node(child) => walk(child, nodes),
            });
        }
        nodes.push(words);
        nodes.len() as u32
    }
    let mut nodes = Vec::new();
    walk(tree, &mut nodes);
    join(&nodes)
}

/// Codes a tree with operands first, depth first, each node's operands visited
/// in the order into which `arrange` brings their places.
pub fn encode_arranged(tree: &Tree, arrange: &mut dyn FnMut(&mut [usize])) -> Vec<u32> {
    fn walk(tree: &Tree, arrange: &mut dyn FnMut(&mut [usize]), nodes: &mut Vec<Vec<u32>>) -> u32 {
        let is_node = |&at: &usize| matches!(tree.operands[at], Operand::Node(_));
        let mut places: Vec<usize> = (0..tree.operands.len()).filter(is_node).collect();
        arrange(&mut places);
        let mut numbers = vec![0; tree.operands.len()];
        for at in places {
            if let Operand::Node(child) = &tree.operands[at] {
                numbers[at] = walk(child, arrange, nodes);
            }
        }
        let word = |(operand, number)| match operand {
            &Operand::Word(word) => word,
            Operand::Node(_) => number,
        };
        let operands = tree.operands.iter().zip(numbers).map(word);
        nodes.push(std::iter::once(tree.kind).chain(operands).collect());
        nodes.len() as u32
    }
    let mut nodes = Vec::new();
    walk(tree, arrange, &mut nodes);
    join(&nodes)
}

/// Codes a tree in another order in which operands are lower: of the nodes
/// whose operands are all numbered, oldest first, `pick` chooses the next.
pub fn encode_in_order(tree: &Tree, pick: &mut dyn FnMut(usize) -> usize) -> Vec<u32> {
    let mut all = Vec::new();
    collect(tree, usize::MAX, &mut all);
    let mut waiting: Vec<usize> = all.iter().map(|node| node.tree.children().count()).collect();
    let mut ready: Vec<usize> = (0..all.len()).filter(|&i| waiting[i] == 0).collect();
    let mut numbers = vec![0; all.len()];
    let mut nodes = Vec::new();
    while !ready.is_empty() {
        let i = ready.remove(pick(ready.len()));
        let mut children = all[i].children.iter();
        let mut words = vec![all[i].tree.kind];
        for operand in &all[i].tree.operands {
            words.push(match operand {
                Operand::Word(word) => *word,
                Operand::Node(_) => numbers[*children.next().expect("a child each")],
            });
        }
        nodes.push(words);
        numbers[i] = nodes.len() as u32;
        if let Some(left) = waiting.get_mut(all[i].parent) {
            *left -= 1;
            if *left == 0 {
                ready.push(all[i].parent);
            }
        }
    }
    join(&nodes)
}

struct Collected<'a> {
    tree: &'a Tree,
    parent: usize,
    children: Vec<usize>,
}

fn collect<'a>(tree: &'a Tree, parent: usize, all: &mut Vec<Collected<'a>>) -> usize {
    let place = all.len();
    all.push(Collected { tree, parent, children: Vec::new() });
    for child in tree.children() {
        let at = collect(child, place, all);
        all[place].children.push(at);
    }
    place
}

//! Makes a case that shows a difference small: takes away whatever the
//! difference does not need. Smaller cases are made one at a time.

use generate::Case;
use reference::kinds::{is_listed, slots, Slot};
use reference::layout;
use reference::state::{roles, Role};
use std::collections::BTreeMap;

/// The most cases that one shrinking tries.
const TRIES: usize = 6_000;
/// Words of an area whose length does not matter.
const AREA: usize = 16_384;

type Nodes = Vec<Vec<u32>>;
type Lazy<'a, T> = Box<dyn Iterator<Item = T> + 'a>;

/// A smaller case that still differs.
pub fn shrink(case: &Case, differs: &dyn Fn(&Case) -> bool) -> Case {
    let mut best = case.clone();
    let mut tries = 0;
    loop {
        let found = smaller_cases(&best).find(|smaller| {
            tries += 1;
            tries > TRIES || (weight(smaller) < weight(&best) && differs(smaller))
        });
        match found {
            Some(smaller) if tries <= TRIES => best = smaller,
            _ => return best,
        }
    }
}

/// What shrinking makes less: words, then their sum.
fn weight(case: &Case) -> (usize, u64) {
    let areas = [case.dictionary, case.work, case.output];
    let plain = areas.into_iter().filter(|&words| words != AREA).count();
    let sum = |words: &[u32]| words.iter().map(|&word| u64::from(word)).sum::<u64>();
    let words = case.document.len() + case.state.len() + plain;
    (words, sum(&case.document) + sum(&case.state) + u64::from(case.dirt))
}

fn smaller_cases(case: &Case) -> Lazy<'_, Case> {
    let plain = vec![
        Case { dictionary: AREA, ..case.clone() },
        Case { work: AREA, ..case.clone() },
        Case { output: AREA, ..case.clone() },
        Case { dirt: 0, ..case.clone() },
        Case { state: vec![0], ..case.clone() },
    ];
    let documents: Lazy<Case> = match layout::parts(&case.document) {
        Some(parts) => {
            let nodes = parts.into_iter().map(|part| case.document[part].to_vec()).collect();
            Box::new(
                smaller_trees(nodes).flat_map(|nodes| with_document(case, coding::join(&nodes))),
            )
        }
        None => Box::new(fewer_words(case.document.clone()).map(|document| {
            let output = followed(case, document.len());
            Case { document, output, ..case.clone() }
        })),
    };
    let states = smaller_states(&case.state).map(|state| Case { state, ..case.clone() });
    Box::new(plain.into_iter().chain(documents).chain(states))
}

/// The case with another document, and with the state's entries that this one
/// still asks for or the state as it is.
fn with_document(case: &Case, document: Vec<u32>) -> [Case; 2] {
    let state = refitted(case, &document);
    let output = followed(case, document.len());
    let as_it_is = Case { document, output, ..case.clone() };
    [Case { state, ..as_it_is.clone() }, as_it_is]
}

/// The output area's length for a document of so many words: where it is not
/// the usual one, as many words more or less than the document as before.
fn followed(case: &Case, words: usize) -> usize {
    match case.output {
        AREA => AREA,
        output => (output + words).saturating_sub(case.document.len()),
    }
}

/// Stretches of so many things, from halves down to single ones.
fn stretches(length: usize) -> impl Iterator<Item = (usize, usize)> {
    let halves = std::iter::successors(Some(length.div_ceil(2)), |&n| (n > 1).then_some(n / 2));
    halves.filter(|&n| n > 0).flat_map(move |n| {
        (0..length).step_by(n).map(move |start| (start, (start + n).min(length)))
    })
}

/// The words without a stretch of them, or with one made 0 or 1.
fn fewer_words(words: Vec<u32>) -> impl Iterator<Item = Vec<u32>> {
    let length = words.len();
    let lower = (0..length.min(200)).flat_map(|at| [(at, 0), (at, 1)]);
    let others = words.clone();
    let shorter =
        stretches(length).map(move |(start, end)| [&words[..start], &words[end..]].concat());
    shorter.chain(lower.map(move |(at, word)| {
        let mut changed = others.clone();
        changed[at] = word;
        changed
    }))
}

/// Which operand words of a node are nodes; none where it cannot be read.
fn node_slots(node: &[u32]) -> Vec<usize> {
    if node.is_empty() || !is_listed(node[0]) {
        return Vec::new();
    }
    let slots = slots(node).unwrap_or_default();
    let is_node = |(_, slot): &(usize, &Slot)| matches!(slot, Slot::Node(_));
    slots.iter().enumerate().filter(is_node).map(|(i, _)| i + 1).collect()
}

/// Fewer paragraphs, then one other node at a time.
fn smaller_trees(nodes: Nodes) -> Lazy<'static, Nodes> {
    let before = reached(&nodes);
    let last = nodes.len();
    let paragraphs = nodes.last().map_or(0, |node| node.len() - 1);
    let (first, second) = (nodes.clone(), nodes);
    let kept = before.clone();
    let without = stretches(paragraphs).map(move |(start, end)| {
        let mut nodes = first.clone();
        nodes[last - 1].drain(1 + start..1 + end);
        swept(nodes, &kept)
    });
    let single = (1..=last).rev().flat_map(move |k| {
        let (nodes, before) = (second.clone(), before.clone());
        other_nodes(&nodes, k).into_iter().map(move |other| {
            let mut nodes = nodes.clone();
            nodes[k - 1] = other;
            swept(nodes, &before)
        })
    });
    Box::new(without.chain(single))
}

/// What could stand in node k's place: a leaf, an operand's operand, fewer
/// words, lower words.
fn other_nodes(nodes: &[Vec<u32>], k: usize) -> Vec<Vec<u32>> {
    let node = &nodes[k - 1];
    let mut others = leaves(node);
    others.extend(operands_of_operands(nodes, k));
    for at in 1..node.len() {
        others.extend(without_words(node, at));
    }
    others.extend(lower_words(node));
    others
}

/// A leaf of the node's sort.
fn leaves(node: &[u32]) -> Vec<Vec<u32>> {
    match node[0] {
        20..=29 => vec![vec![20]],
        30..=46 => vec![vec![32], vec![33], vec![31, 0]],
        10 => node.get(1).map(|&predicate| vec![10, predicate]).into_iter().collect(),
        _ => Vec::new(),
    }
}

fn operands_of_operands(nodes: &[Vec<u32>], k: usize) -> Vec<Vec<u32>> {
    let node = &nodes[k - 1];
    let mut others = Vec::new();
    for at in node_slots(node) {
        let child = node[at] as usize;
        if child >= 1 && child < k {
            for below in node_slots(&nodes[child - 1]) {
                let mut other = node.clone();
                other[at] = nodes[child - 1][below];
                others.push(other);
            }
        }
    }
    others
}

/// Without one operand word, or two, with or without a lower count before it.
fn without_words(node: &[u32], at: usize) -> Vec<Vec<u32>> {
    let mut others = Vec::new();
    for length in [1, 2] {
        for counted in [None, Some(2), Some(3)] {
            let mut other = node.to_vec();
            if at + length > other.len() {
                continue;
            }
            if let Some(count) = counted {
                if count >= at || other[count] == 0 {
                    continue;
                }
                other[count] -= 1;
            }
            other.drain(at..at + length);
            others.push(other);
        }
    }
    others
}

/// With one plain word lower.
fn lower_words(node: &[u32]) -> Vec<Vec<u32>> {
    let is_node = node_slots(node);
    let mut others = Vec::new();
    for at in (1..node.len().min(40)).filter(|at| !is_node.contains(at)) {
        for lower in [0, 1, 4, 8] {
            if lower < node[at] {
                let mut other = node.to_vec();
                other[at] = lower;
                others.push(other);
            }
        }
    }
    others
}

/// The nodes that the last one reaches.
fn reached(nodes: &[Vec<u32>]) -> Vec<bool> {
    let mut reached = vec![false; nodes.len()];
    if let Some(last) = reached.last_mut() {
        *last = true;
    }
    for k in (1..=nodes.len()).rev() {
        if reached[k - 1] {
            for at in node_slots(&nodes[k - 1]) {
                let child = nodes[k - 1][at] as usize;
                if child >= 1 && child < k {
                    reached[child - 1] = true;
                }
            }
        }
    }
    reached
}

/// Takes away the nodes that were reached and are so no longer, and numbers
/// the others anew.
fn swept(nodes: Nodes, before: &[bool]) -> Nodes {
    let after = reached(&nodes);
    let mut numbers = vec![0; nodes.len() + 1];
    let mut kept = Vec::new();
    for (i, mut node) in nodes.into_iter().enumerate() {
        if before[i] && !after[i] {
            continue;
        }
        for at in node_slots(&node) {
            let child = node[at] as usize;
            if child <= i {
                node[at] = numbers[child];
            }
        }
        kept.push(node);
        numbers[i + 1] = kept.len() as u32;
    }
    kept
}

/// The state with the entries that the smaller document still asks for.
fn refitted(case: &Case, document: &[u32]) -> Vec<u32> {
    let entries = || -> Option<Vec<u32>> {
        let parts = layout::parts(&case.state)?;
        let old = roles(&reference::read(&case.document).ok()?);
        let name = |role: &Role| match role {
            Role::Given(id) | Role::Declared(id) => *id,
        };
        let words = parts.into_iter().map(|part| case.state[part].to_vec());
        let named: BTreeMap<u32, Vec<u32>> = old.iter().map(name).zip(words).collect();
        let new = roles(&reference::read(document).ok()?);
        let entry = |role: &Role| named.get(&name(role)).cloned().unwrap_or(vec![1, 0]);
        Some(coding::join(&new.iter().map(entry).collect::<Vec<_>>()))
    };
    entries().unwrap_or_else(|| case.state.clone())
}

fn smaller_states(state: &[u32]) -> Lazy<'static, Vec<u32>> {
    let Some(parts) = layout::parts(state) else {
        return Box::new(fewer_words(state.to_vec()));
    };
    let entries: Nodes = parts.into_iter().map(|part| state[part].to_vec()).collect();
    let count = entries.len();
    let fewer = entries.clone();
    let without = (0..count).map(move |i| {
        let mut others = fewer.clone();
        others.remove(i);
        coding::join(&others)
    });
    let other = (0..count).flat_map(move |i| {
        let entries = entries.clone();
        let short = vec![vec![1, 0], vec![3, 0], vec![1]].into_iter();
        let words = fewer_words(entries[i].clone()).filter(|words| !words.is_empty());
        short.chain(words).map(move |entry| {
            let mut others = entries.clone();
            others[i] = entry;
            coding::join(&others)
        })
    });
    Box::new(without.chain(other))
}

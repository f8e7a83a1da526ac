//! A document as an indented tree with node numbers.

use reference::kinds::{is_listed, slots, Slot};
use reference::layout;

/// The document's text: a tree from the last node down, then the nodes that
/// it does not reach; words where not even the layout is sound.
pub fn document(words: &[u32]) -> String {
    let Some(parts) = layout::parts(words) else {
        return format!("  words, no sound layout: {}\n", in_row(words));
    };
    let nodes: Vec<&[u32]> = parts.into_iter().map(|part| &words[part]).collect();
    let mut shown = vec![false; nodes.len()];
    let mut text = String::new();
    for k in (1..=nodes.len()).rev() {
        if !shown[k - 1] {
            node(&nodes, k, 1, &mut shown, &mut text);
        }
    }
    text + &format!("  words: {}\n", in_row(words))
}

fn in_row(words: &[u32]) -> String {
    let shown: Vec<String> = words.iter().take(400).map(u32::to_string).collect();
    let more = if words.len() > 400 { " ..." } else { "" };
    format!("{}{more}", shown.join(" "))
}

fn node(nodes: &[&[u32]], k: usize, depth: usize, shown: &mut [bool], text: &mut String) {
    shown[k - 1] = true;
    let words = nodes[k - 1];
    *text += &format!("{:>4}{}{}", k, "  ".repeat(depth), kind_name(words[0]));
    let known = if is_listed(words[0]) { slots(words) } else { None };
    let Some(slots) = known else {
        *text += &format!(" {}\n", in_row(words));
        return;
    };
    let mut below = Vec::new();
    for (slot, &word) in slots.iter().zip(&words[1..]) {
        match slot {
            Slot::Identifier => *text += &format!(" {}", identifier(word)),
            Slot::Node(_) => {
                *text += &format!(" #{word}");
                below.push(word as usize);
            }
            _ => *text += &format!(" {word}"),
        }
    }
    text.push('\n');
    for child in below {
        if child >= 1 && child < k {
            node(nodes, child, depth + 1, shown, text);
        }
    }
}

/// An identifier as its name with its stroke.
fn identifier(word: u32) -> String {
    format!("n{}{}", word / 4, ["", "'", "?", "!"][word as usize % 4])
}

fn kind_name(kind: u32) -> &'static str {
    const PARAGRAPHS: [&str; 6] =
        ["Document", "Given", "Axiom", "Schema", "Abbreviation", "Constraint"];
    const PREDICATES: [&str; 10] =
        ["true", "=", "member", "≤", "not", "and", "or", "implies", "forall", "exists"];
    const EXPRESSIONS: [&str; 17] = [
        "Ref",
        "Number",
        "ℤ",
        "Set",
        "Tuple",
        "Product",
        "Power",
        "Apply",
        "Select",
        "Theta",
        "SchemaSet",
        "+",
        "−",
        "×",
        "div",
        "mod",
        "Comprehension",
    ];
    match kind {
        1..=6 => PARAGRAPHS[kind as usize - 1],
        10 => "Text",
        11 => "Decl",
        12 => "Include",
        15 => "Conjunction",
        20..=29 => PREDICATES[kind as usize - 20],
        30..=46 => EXPRESSIONS[kind as usize - 30],
        _ => "kind",
    }
}

/// A state's entries, each read signed.
pub fn state(words: &[u32]) -> String {
    let signed = |words: &[u32]| {
        let all: Vec<String> =
            words.iter().take(80).map(|&word| (word as i32).to_string()).collect();
        all.join(" ")
    };
    match layout::parts(words) {
        Some(parts) => {
            let entry = |(i, part): (usize, std::ops::Range<usize>)| {
                format!("  entry {}: {}\n", i + 1, signed(&words[part]))
            };
            parts.into_iter().enumerate().map(entry).collect()
        }
        None => format!("  words, no sound layout: {}\n", signed(words)),
    }
}

//! The examples of docs/FINDINGS.md, each with its call and its answer as the
//! page says them.

use crate::table::{code, Listed, Vector, AREA};

const PAGE: &str = include_str!("../../../../docs/FINDINGS.md");

/// The heading under which the examples stand as words.
const HEADING: &str = "## 9. ";

/// The rows of the tables whose last column is headed Answer.
pub fn page() -> Vec<Vector> {
    let start = PAGE.find(HEADING).expect("the page has its examples");
    let rows = PAGE[start..].lines().filter(|line| line.starts_with("| "));
    rows.filter_map(vector).collect()
}

fn vector(line: &str) -> Option<Vector> {
    let line = line.replace("\\|", "¦");
    let cells: Vec<&str> = line.trim_matches('|').split('|').map(str::trim).collect();
    let [first, .., nodes, call, said] = cells[..] else { panic!("{line}: too few columns") };
    if said == "Answer" {
        return None;
    }
    let (answer, listed) = told(said);
    let after = |what: &str| said.strip_prefix(what);
    let state = match call.split_once("entries ") {
        Some((_, entries)) => coding::join(&words(entries)),
        None => vec![0],
    };
    Some(Vector {
        name: format!("docs/FINDINGS.md, {first}, {nodes}"),
        call: symbol(call),
        document: coding::join(&words(nodes)),
        state,
        dictionary: area(call, "dictionary area of "),
        work: area(call, "work area of "),
        output: area(call, "output area of "),
        answer,
        recorded: after("accepted, dictionary ").map(|dictionary| words(dictionary).concat()),
        written: after("written as ").map(|nodes| coding::join(&words(nodes))),
        listed,
    })
}

fn symbol(call: &str) -> &'static str {
    match call.split(',').next() {
        Some("check") => "z_check",
        Some("fit") => "z_fit",
        Some("run") => "z_run",
        Some("canonical") => "z_canonical",
        _ => panic!("{call}: no call"),
    }
}

/// Words in backticks, in groups between commas.
fn words(text: &str) -> Vec<Vec<u32>> {
    let groups = text.trim_matches('`').split(',');
    groups.map(|group| group.split_whitespace().map(word).collect()).collect()
}

/// A word, written signed in a state.
fn word(text: &str) -> u32 {
    text.parse::<i64>().unwrap_or_else(|_| panic!("{text}: no word")) as u32
}

/// The number of words that the call's text says after `name`.
fn area(call: &str, name: &str) -> usize {
    let Some((_, after)) = call.split_once(name) else { return AREA };
    let number = after.split_whitespace().next().expect("a number of words");
    number.replace(',', "").parse().expect("a number of words")
}

/// The answer, and of a run that holds the last value of its list.
fn told(answer: &str) -> (u64, Option<Listed>) {
    let place = |text: &str| text.parse::<u32>().unwrap_or_else(|_| panic!("{answer}: no place"));
    if let Some(node) = answer.strip_prefix("fails at ") {
        return (code((1, place(node))), None);
    }
    if let Some(last) = answer.strip_prefix("holds, last value ") {
        let (value, node) = last.split_once(" at ").expect("a value at a node");
        let value = words(value).concat().into_iter().map(|word| word as i32).collect();
        return (0, Some(Listed::Last(place(node), value)));
    }
    if answer.starts_with("accepted") || answer.starts_with("written") {
        return (0, None);
    }
    let (number, node) = answer.split_once(" at ").expect("a number at a place");
    (code((place(number), place(node))), None)
}

#[cfg(test)]
mod tests {
    /// Numbers of findings that the page shows, each by an example at least;
    /// 1 is a run that fails. Finding 11 is words that are no nodes.
    const NUMBERS: [&[u64]; 5] = [
        &[0, 1],
        &[12, 13, 14, 15, 16, 17, 21, 22, 27],
        &[31, 32, 33, 34, 35, 36, 37, 38, 39],
        &[41, 42],
        &[51, 52, 53, 54, 55],
    ];

    #[test]
    fn each_number_has_an_example() {
        let shown: Vec<u64> = crate::page().iter().map(|v| v.answer >> 32).collect();
        for number in NUMBERS.concat() {
            assert!(shown.contains(&number), "no example of {number}");
        }
    }
}

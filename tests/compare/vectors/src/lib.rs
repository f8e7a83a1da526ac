//! The table of vectors: what each call must answer on a document, a state and
//! areas. The tests of `reference` hold it against the reference, those of
//! `compare` against the proved library too. Document 01's marked cases stand
//! in it beside others; they are also proved (crate `marked`).

mod codings;
mod enumerated;
mod fits;
mod inside;
mod marked;
mod nodes;
mod page;
pub mod prints;
mod reading;
mod run_nodes;
mod runs;
mod states;
mod table;
mod typing;
mod values;
mod write;

pub use page::page;
pub use table::{Listed, Table, Vector};

/// All of them but the examples of docs/FINDINGS.md, which are `page`.
pub fn table() -> Vec<Vector> {
    let mut table = Table::default();
    marked::rows(&mut table);
    reading::rows(&mut table);
    nodes::rows(&mut table);
    typing::rows(&mut table);
    inside::rows(&mut table);
    states::rows(&mut table);
    fits::rows(&mut table);
    values::rows(&mut table);
    runs::rows(&mut table);
    run_nodes::rows(&mut table);
    enumerated::rows(&mut table);
    codings::rows(&mut table);
    table.vectors
}

#[cfg(test)]
mod tests {
    use std::collections::HashMap;

    #[test]
    fn no_case_stands_twice() {
        let mut names = HashMap::new();
        let mut twice = vec![];
        for v in crate::table() {
            let areas = (v.dictionary, v.work, v.output);
            let case = (v.call, v.document, v.state, areas);
            if let Some(first) = names.insert(case, v.name.clone()) {
                twice.push(format!("{} is {first}", v.name));
            }
        }
        assert!(twice.is_empty(), "{}", twice.join("; "));
    }
}

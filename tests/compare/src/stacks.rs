//! Prints the KiB of stack that each call takes on the worst documents.
//!
//! stacks

use compare::measure::Timed;
use compare::stack::taken;
use compare::table::Table;
use generate::{worst, Case};

fn main() {
    let calls = Timed::all();
    let row = |(name, case): (&str, Case)| {
        let kib = |call: &Timed| Some(taken(call, &case) as f64 / 1024.0);
        (name.to_string(), calls.iter().map(kib).collect())
    };
    let cases = worst::cases().into_iter().chain(worst::refused_cases());
    let columns = calls.iter().map(Timed::name).collect();
    let table = Table { title: "KiB of stack", columns, rows: cases.map(row).collect() };
    table.with_largest("largest").print();
}

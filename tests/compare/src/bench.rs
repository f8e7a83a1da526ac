//! The benchmark: the same documents to the library and to the reference, and
//! tables of the ratios of their times, of the library's times, and of the
//! factors by which these grow.
//!
//! bench [--seed N] [--count M] [--call NAME] [--documents NAME]

use compare::calls::NOT_LINKED;
use compare::growth;
use compare::measure::{Timed, Times};
use compare::table::Table;
use generate::{series, worst, Case};
use std::process::ExitCode;

/// A row of the tables: what the documents are, and the documents.
type Documents = (String, Vec<Case>);

struct Options {
    arguments: Vec<String>,
}

impl Options {
    fn value(&self, name: &str) -> Option<&String> {
        let at = self.arguments.iter().position(|argument| argument == name)?;
        self.arguments.get(at + 1)
    }

    fn number(&self, name: &str, default: u64) -> u64 {
        self.value(name).map_or(default, |text| text.parse().expect("a number"))
    }

    /// Does the name contain what the option asks for, if it asks?
    fn chosen(&self, option: &str, name: &str) -> bool {
        self.value(option).map_or(true, |part| name.contains(part))
    }
}

fn main() -> ExitCode {
    let options = Options { arguments: std::env::args().collect() };
    let calls: Vec<Timed> =
        Timed::all().into_iter().filter(|call| options.chosen("--call", call.name())).collect();
    let documents: Vec<Documents> = all_documents(&options)
        .into_iter()
        .filter(|(name, _)| options.chosen("--documents", name))
        .collect();
    let times: Vec<Vec<Times>> = documents
        .iter()
        .map(|(_, cases)| calls.iter().map(|call| call.times(cases)).collect())
        .collect();
    let table = |title, number: fn(&Times) -> f64| Table {
        title,
        columns: calls.iter().map(Timed::name).collect(),
        rows: rows(&documents, &times, number),
    };
    print_ratios(table("ratio", Times::ratio));
    table("library's microseconds", |times| times.library).print();
    print_longest(&calls, &documents, &times);
    print_growth(&options, &calls);
    println!("not in the library yet: {NOT_LINKED:?}");
    ExitCode::SUCCESS
}

fn rows(
    documents: &[Documents],
    times: &[Vec<Times>],
    number: fn(&Times) -> f64,
) -> Vec<(String, Vec<Option<f64>>)> {
    let row = |((name, _), times): (&Documents, &Vec<Times>)| {
        (name.clone(), times.iter().map(|times| Some(number(times))).collect())
    };
    documents.iter().zip(times).map(row).collect()
}

fn print_ratios(table: Table) {
    let worst = table.largest().into_iter().flatten().fold(0.0, f64::max);
    table.with_largest("worst").print();
    println!("a ratio over 1 means that the library is slower; the largest is {worst:.2}\n");
}

/// For each call the document on which the library takes longest.
fn print_longest(calls: &[Timed], documents: &[Documents], times: &[Vec<Times>]) {
    println!("\nlongest documents");
    for (i, call) in calls.iter().enumerate() {
        let library = |row: &usize| times[*row][i].library;
        let slower = |a: &usize, b: &usize| library(a).total_cmp(&library(b));
        if let Some(row) = (0..documents.len()).max_by(slower) {
            println!("{:<13}{:>10.3} ms  {}", call.name(), library(&row) / 1e3, documents[row].0);
        }
    }
}

fn print_growth(options: &Options, calls: &[Timed]) {
    let chosen = |one: &series::Series| options.chosen("--documents", one.doubling);
    let all: Vec<series::Series> = series::all().into_iter().filter(chosen).collect();
    println!();
    let table = growth::factors(&all, calls);
    let largest = table.largest().into_iter().flatten().fold(0.0, f64::max);
    table.with_largest("largest").print();
    println!("the largest factor where a number doubles is {largest:.2}");
}

fn all_documents(options: &Options) -> Vec<Documents> {
    let (seed, count) = (options.number("--seed", 1), options.number("--count", 300));
    let one = |(name, case): (&str, Case)| (name.to_string(), vec![case]);
    let empty = worst::case("empty document", vec![1, 3, 1, 1]);
    let made = vec![
        ("mixed".to_string(), mixed(seed, count)),
        ("mixed, under 200 words".to_string(), small(seed, count)),
        one(("empty document", empty)),
    ];
    let worst = worst::cases().into_iter().chain(worst::refused_cases()).map(one);
    made.into_iter().chain(worst).collect()
}

fn small(seed: u64, count: u64) -> Vec<Case> {
    mixed(seed, count).into_iter().filter(|case| case.document.len() < 200).collect()
}

/// Documents that both accept, as the generator makes them, whose runs end
/// soon.
fn mixed(seed: u64, count: u64) -> Vec<Case> {
    let wanted = |case: &Case| {
        let families = ["typed", "runnable", "values at their ends"];
        let ended = || reference::run(&case.document, &case.state, 16_384, 20_000).ending;
        families.contains(&case.family) && ended() != reference::Ending::OutOfSteps
    };
    (0..count * 20)
        .map(|index| generate::case(seed, index))
        .filter(wanted)
        .take(count as usize)
        .map(|case| Case { dictionary: 16_384, work: 16_384, ..case })
        .collect()
}

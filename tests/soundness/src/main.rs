//! Demand 3, tested on the reference alone: for accepted documents with
//! fitting states the run is never 51, and each listed value has the accepted
//! type of its node. Also shows which findings the generator reaches.
//!
//! This says nothing about the proved library; tests/compare does.
//!
//! soundness [--seed N] [--count M] [--from I] [--quiet 1]

use generate::Case;
use reference::values::is_of;
use reference::{fit, run, Ending, WORK_WORDS};
use std::collections::BTreeMap;
use std::process::ExitCode;

/// Steps after which a run is left alone.
const STEPS: u64 = 20_000;

#[derive(Default)]
struct Survey {
    families: BTreeMap<(&'static str, u32), usize>,
    numbers: BTreeMap<u32, usize>,
    fitting: usize,
    values: usize,
    unfinished: usize,
    broken: Vec<u64>,
}

fn main() -> ExitCode {
    let arguments: Vec<String> = std::env::args().collect();
    let number = |name: &str, default: u64| {
        let at = arguments.iter().position(|argument| argument == name);
        at.map_or(default, |at| arguments[at + 1].parse().expect("a number"))
    };
    let (seed, count) = (number("--seed", 1), number("--count", 20_000));
    let from = number("--from", 0);
    let mut survey = Survey::default();
    for index in from..from + count {
        let case = generate::case(seed, index);
        if !survey.add(&case) {
            survey.broken.push(index);
        }
    }
    if number("--quiet", 0) == 0 {
        survey.show_findings();
    }
    survey.report(seed, count)
}

impl Survey {
    /// Adds a case; false where it breaks the demand.
    fn add(&mut self, case: &Case) -> bool {
        let (document, state) = (&case.document, &case.state);
        let ended = run(document, state, case.work, STEPS);
        let run_number = match ended.ending {
            Ending::Holds => 1,
            Ending::FailsAt(_) => 2,
            Ending::Refused(finding) => finding.number,
            Ending::OutOfSteps => 0,
        };
        let fitted = fit(document, state, case.dictionary, case.work);
        let fit_number = fitted.as_ref().err().map_or(0, |finding| finding.number);
        *self.families.entry((case.family, fit_number)).or_default() += 1;
        *self.numbers.entry(fit_number).or_default() += 1;
        if run_number < 11 || run_number > 50 {
            *self.numbers.entry(1_000 + run_number).or_default() += 1;
        }
        self.unfinished += usize::from(ended.ending == Ending::OutOfSteps);
        let Ok(checked) = fit(document, state, usize::MAX, WORK_WORDS) else {
            return true;
        };
        let ended = run(document, state, WORK_WORDS, STEPS);
        self.fitting += 1;
        self.values += ended.list.len();
        let is_51 = matches!(ended.ending, Ending::Refused(finding) if finding.number == 51);
        !is_51 && ended.list.iter().all(|(node, value)| is_of(value, &checked.node_types[node]))
    }

    /// Which findings each family reaches.
    fn show_findings(&self) {
        let mut family = "";
        for ((name, number), times) in &self.families {
            if *name != family {
                family = name;
                print!("\n{family:>22}:");
            }
            print!(" {number}={times}");
        }
        println!("\nfit and run (1001 holds, 1002 fails, 10nn run's numbers):");
        println!("{:?}", self.numbers);
    }

    fn report(&self, seed: u64, count: u64) -> ExitCode {
        println!(
            "soundness: seed {seed}, {count} cases, {} accepted with a fitting state,",
            self.fitting
        );
        println!("{} values listed, {} runs too long to finish", self.values, self.unfinished);
        if self.broken.is_empty() && self.fitting > 0 {
            return ExitCode::SUCCESS;
        }
        println!("demand 3 is broken at the cases {:?}", self.broken);
        ExitCode::FAILURE
    }
}

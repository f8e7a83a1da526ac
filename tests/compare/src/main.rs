//! The comparison: cases by seed to the library and to the reference.
//!
//! compare [--seed N] [--count M] [--from I] [--show K] [--trace 1]
//!
//! Stops after K differences, 3 where not said. With --trace 1 each case's
//! number is printed before it is compared, so that a library that crashes or
//! hangs can be asked again with --from.
//!
//! Ends with 0 where all answers are equal and each number of the calls
//! compared is reached often enough; 1 where not.

use compare::calls::{Call, Difference, ARCHIVE, CALLS, NOT_LINKED};
use compare::expected::number;
use compare::{numberings, printed, program, show, shrink};
use generate::Case;
use std::collections::BTreeMap;
use std::process::ExitCode;
use std::time::Instant;

/// How often each number must be reached, in a comparison as long as the
/// gate's.
const REACHED: usize = 20;
const GATE: u64 = 20_000;

struct Options {
    seed: u64,
    count: u64,
    from: u64,
    trace: u64,
    show: u64,
}

#[derive(Default)]
struct Tally {
    numbers: BTreeMap<u32, usize>,
    compared: usize,
    unfinished: usize,
}

fn main() -> ExitCode {
    let Some(options) = options() else {
        eprintln!("compare [--seed N] [--count M] [--from I] [--show K] [--trace 1]");
        return ExitCode::from(2);
    };
    let start = Instant::now();
    let mut tallies: Vec<Tally> = CALLS.iter().map(|_| Tally::default()).collect();
    let mut differences = 0u64;
    for index in options.from..options.from + options.count {
        if options.trace > 0 {
            eprintln!("case {index}");
        }
        let case = generate::case(options.seed, index);
        for (call, tally) in CALLS.iter().zip(&mut tallies) {
            if !compare(call, tally, &case) {
                differences += 1;
                report(call, &case, options.seed, index);
                if differences == options.show {
                    println!("stopped after {differences} differences");
                    return ExitCode::FAILURE;
                }
            }
        }
    }
    let short = summary(&tallies, &options, start);
    let seldom = seldom_compared(&options);
    ExitCode::from(u8::from(differences > 0 || short || !seldom))
}

/// What is compared on each tenth case alone: the lines of z_print, the words
/// of two numberings, and the printed finding of the program that Z_PROGRAM
/// names; false where one differs.
fn seldom_compared(options: &Options) -> bool {
    let printed = each_tenth(options, "z_print", |case, _| printed::difference(case));
    let canonical = CALLS.iter().find(|call| call.name == "z_canonical");
    let numbered = canonical.map_or(true, |call| {
        let difference = |case: &Case, _| numberings::difference(call, case);
        each_tenth(options, "z_canonical, two numberings", difference)
    });
    let Ok(path) = std::env::var("Z_PROGRAM") else {
        println!("Z_PROGRAM names no program: the printed finding is not compared");
        return printed && numbered;
    };
    let difference = |case: &Case, index| program::difference(&path, &program::input(case, index));
    printed && numbered && each_tenth(options, &path, difference)
}

/// Compares something on each tenth case; false where one differs.
fn each_tenth(
    options: &Options,
    name: &str,
    difference: impl Fn(&Case, u64) -> Option<String>,
) -> bool {
    let mut compared = 0;
    for index in (options.from..options.from + options.count).step_by(10) {
        let case = generate::case(options.seed, index);
        if let Some(difference) = difference(&case, index) {
            println!("{name} differs at seed {}, case {index}:", options.seed);
            print!("{}", show::document(&case.document));
            println!("{difference}");
            return false;
        }
        compared += 1;
    }
    println!("{name}: {compared} cases compared");
    true
}

fn options() -> Option<Options> {
    let mut options = Options { seed: 1, count: GATE, from: 0, trace: 0, show: 3 };
    let mut arguments = std::env::args().skip(1);
    while let Some(name) = arguments.next() {
        let value = arguments.next()?.parse().ok()?;
        match name.as_str() {
            "--seed" => options.seed = value,
            "--count" => options.count = value,
            "--from" => options.from = value,
            "--trace" => options.trace = value,
            "--show" => options.show = value,
            _ => return None,
        }
    }
    Some(options)
}

/// Compares one call on one case; false where the answers differ.
fn compare(call: &Call, tally: &mut Tally, case: &Case) -> bool {
    let Some(expected) = (call.expected)(case) else {
        tally.unfinished += 1;
        return true;
    };
    tally.compared += 1;
    *tally.numbers.entry(number(expected.answer)).or_default() += 1;
    call.difference(case, &expected).is_none()
}

fn differs(call: &Call, case: &Case) -> Option<Difference> {
    (call.expected)(case).and_then(|expected| call.difference(case, &expected))
}

fn report(call: &Call, case: &Case, seed: u64, index: u64) {
    // Only a case with the same two numbers shows the same difference.
    let numbers = |case: &Case| differs(call, case).map(|difference| difference.numbers);
    let wanted = numbers(case);
    let small = shrink::shrink(case, &|smaller| numbers(smaller) == wanted);
    let name = call.name;
    println!("{name} differs at seed {seed}, case {index} ({}), shrunk:", case.family);
    print!("{}", show::document(&small.document));
    println!("  state:\n{}", show::state(&small.state));
    let (dictionary, work, output) = (small.dictionary, small.work, small.output);
    println!("  areas: dictionary {dictionary} words, work {work}, output {output}");
    println!("  {}\n", differs(call, &small).map_or(String::new(), |found| found.text));
}

/// Prints what was compared; true where a number was reached too seldom.
fn summary(tallies: &[Tally], options: &Options, start: Instant) -> bool {
    let mut short = false;
    println!("seed {}, {} cases, library {ARCHIVE}", options.seed, options.count);
    for (call, tally) in CALLS.iter().zip(tallies) {
        let Tally { numbers, compared, unfinished } = tally;
        println!("{}: {compared} compared, {unfinished} runs too long", call.name);
        let counts: Vec<String> = numbers.iter().map(|(n, times)| format!("{n}:{times}")).collect();
        println!("  findings {}", counts.join(" "));
        for number in call.numbers {
            let times = numbers.get(number).copied().unwrap_or(0);
            if times < REACHED && options.count >= GATE {
                println!("  {number} is reached {times} times, fewer than {REACHED}");
                short = true;
            }
        }
    }
    println!("not in the library yet: {NOT_LINKED:?}");
    println!("{:.1} seconds", start.elapsed().as_secs_f64());
    short
}

//! The times of a call: the library's and the reference's on the same cases,
//! with the areas that the call takes cleared for both.

use crate::calls::{Call, Slices, CALLS};
use crate::printed::Checked;
use crate::timed;
use generate::Case;
use std::hint::black_box;
use std::time::{Duration, Instant};

/// The least time that one round takes: short, so that some rounds fall where
/// the machine does nothing else.
const ROUND: Duration = Duration::from_millis(2);
/// The least time that all rounds take, and the fewest rounds; the fastest
/// counts.
const ROUNDS: Duration = Duration::from_millis(300);
const FEWEST: usize = 3;

/// Microseconds a call.
#[derive(Clone, Copy)]
pub struct Times {
    pub library: f64,
    pub reference: f64,
}

/// A call that is timed.
#[derive(Clone, Copy)]
pub enum Timed {
    Call(&'static Call),
    /// z_print, whose answer is no finding.
    Print,
}

#[derive(Clone, Copy, PartialEq)]
enum Side {
    Library,
    Reference,
}

impl Times {
    /// Over 1 where the library is slower.
    pub fn ratio(&self) -> f64 {
        self.library / self.reference
    }
}

impl Timed {
    /// All calls.
    pub fn all() -> Vec<Timed> {
        CALLS.iter().map(Timed::Call).chain([Timed::Print]).collect()
    }

    pub fn name(&self) -> &'static str {
        match self {
            Timed::Call(call) => call.name,
            Timed::Print => "z_print",
        }
    }

    /// The times of a call on a case, on average over the cases: the fastest
    /// round of each side, rounds of both in turn, so that what else the
    /// machine does falls on both.
    pub fn times(&self, cases: &[Case]) -> Times {
        let mut times = Times { library: f64::INFINITY, reference: f64::INFINITY };
        self.rounds(cases, |round| {
            let start = Instant::now();
            let mut rounds = 0;
            while rounds < FEWEST || start.elapsed() < ROUNDS {
                times.library = times.library.min(round(Side::Library));
                times.reference = times.reference.min(round(Side::Reference));
                rounds += 1;
            }
        });
        times
    }

    /// The library's microseconds on a case, of one round.
    pub fn library(&self, case: &Case) -> f64 {
        let mut time = 0.0;
        self.rounds(std::slice::from_ref(case), |round| time = round(Side::Library));
        time
    }

    /// Prepares the cases, and hands on what times a round of one side.
    fn rounds(&self, cases: &[Case], measure: impl FnMut(&mut dyn FnMut(Side) -> f64)) {
        match self {
            Timed::Call(call) => call_rounds(call, cases, measure),
            Timed::Print => print_rounds(cases, measure),
        }
    }
}

fn call_rounds(call: &Call, cases: &[Case], mut measure: impl FnMut(&mut dyn FnMut(Side) -> f64)) {
    let longest = |length: fn(&Case) -> usize| cases.iter().map(length).max().unwrap_or(0);
    let area = |taken: bool, words: usize| vec![0; if taken { words } else { 0 }];
    let mut dictionary = area(call.dictionary, longest(|case| case.dictionary));
    let mut work = area(call.work, longest(|case| case.work));
    let mut output = area(call.output, longest(|case| case.output));
    measure(&mut |side| {
        let function = if side == Side::Library { call.function } else { call.reference };
        let turn = |case: &Case| {
            let dictionary = part(&mut dictionary, case.dictionary);
            let (work, output) = (part(&mut work, case.work), part(&mut output, case.output));
            let (document, state) = (&case.document[..], &case.state[..]);
            let slices = &mut Slices { document, state, dictionary, work, output };
            black_box(function(black_box(slices)));
        };
        one_round(cases, turn)
    })
}

/// The first words of an area, cleared.
fn part(area: &mut [u32], words: usize) -> &mut [u32] {
    let words = words.min(area.len());
    area[..words].fill(0);
    &mut area[..words]
}

fn print_rounds(cases: &[Case], mut measure: impl FnMut(&mut dyn FnMut(Side) -> f64)) {
    let checked = |case: &Case| Checked::new(&case.document, case.dictionary);
    let checked: Vec<Checked> = cases.iter().map(checked).collect();
    measure(&mut |side| {
        one_round(&checked, |checked| match side {
            Side::Library => {
                black_box(grillsonnet::print(checked.answer(), black_box(&checked.area)));
            }
            Side::Reference => {
                let size = grillsonnet::enough(checked.area.len());
                black_box(timed::z_print(black_box(&checked.found), size));
            }
        })
    })
}

/// Microseconds a turn.
fn one_round<T>(cases: &[T], mut turn: impl FnMut(&T)) -> f64 {
    let start = Instant::now();
    let mut turns = 0;
    while start.elapsed() < ROUND {
        cases.iter().for_each(&mut turn);
        turns += cases.len();
    }
    start.elapsed().as_secs_f64() * 1e6 / turns as f64
}

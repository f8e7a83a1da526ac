//! How cost grows: the library's times on series of documents in which one
//! number doubles, and the factor from each step to the next. A factor near 2
//! is a cost that grows as the number does, near 4 as its square.

use crate::measure::Timed;
use crate::table::Table;
use generate::series::Series;

const PASSES: usize = 20;

/// The factors of the series, a row for each step.
pub fn factors(all: &[Series], calls: &[Timed]) -> Table {
    let columns = calls.iter().map(Timed::name).collect();
    Table { title: "factor", columns, rows: all.iter().flat_map(|one| rows(one, calls)).collect() }
}

fn rows(series: &Series, calls: &[Timed]) -> Vec<(String, Vec<Option<f64>>)> {
    let times = times(series, calls);
    let factors = |step: usize| -> Vec<Option<f64>> {
        times.iter().map(|call| Some(call[step + 1] / call[step])).collect()
    };
    let name = |step: usize| {
        let (from, to) = (series.steps[step].0, series.steps[step + 1].0);
        format!("{}: {from} to {to}", series.doubling)
    };
    (0..series.steps.len() - 1).map(|step| (name(step), factors(step))).collect()
}

/// The library's times, for each call on each step: the fastest of some passes
/// over the series, so that what else the machine does for a while falls on
/// one pass and not on one step.
fn times(series: &Series, calls: &[Timed]) -> Vec<Vec<f64>> {
    let mut times = vec![vec![f64::INFINITY; series.steps.len()]; calls.len()];
    for _ in 0..PASSES {
        for (call, times) in calls.iter().zip(&mut times) {
            for ((_, case), time) in series.steps.iter().zip(times) {
                *time = time.min(call.library(case));
            }
        }
    }
    times
}

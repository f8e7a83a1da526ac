//! The files of examples/fluid-monitor are those that are made here, and the
//! reference and the proved library answer on them what README.md says.

mod library;

use example_files::answers::{Run, AREA};
use example_files::entries::words;
use example_files::fluid_monitor::files::{self, EXAMPLE};
use example_files::fluid_monitor::monitor::{record, Reading, FAR, NEAR, RATE, READINGS};
use example_files::fluid_monitor::state::entries;
use reference::values::Value;
use reference::{check, Ending, WORK_WORDS};

fn run_after(ticks: u32, expected: &'static str) -> Run {
    Run { document: files::document(), state: files::recorded_after(ticks), expected }
}

fn near() -> Run {
    run_after(NEAR, "near.expected")
}

fn far() -> Run {
    run_after(FAR, "far.expected")
}

/// The node of the last paragraph, which says that the displayed volume is the
/// volume drawn off; the Document's last operand is the document's last word.
fn last_paragraph() -> u32 {
    *files::document().last().expect("words")
}

#[test]
fn files_are_as_made() {
    EXAMPLE.assert_made(files::all());
}

#[test]
fn the_clock_is_lost_far_from_the_start() {
    let clocks = |ticks| record(ticks).iter().map(|reading| reading.clock).collect::<Vec<_>>();
    let near = NEAR as i32;
    assert_eq!(clocks(NEAR), (near..near + READINGS as i32).collect::<Vec<_>>());
    assert_eq!(clocks(FAR), [FAR as i32; READINGS]);
}

#[test]
fn the_document_is_accepted() {
    EXAMPLE.assert_accepted("volume.z", "volume.expected");
}

/// README.md names the node of each paragraph, and quotes the listing's last
/// lines before the Document's.
#[test]
fn the_readme_quotes_the_files() {
    EXAMPLE.assert_paragraphs_named(&files::document());
    let (readme, listing) = (EXAMPLE.text("README.md"), EXAMPLE.text("volume.txt"));
    assert!(listing.lines().rev().skip(1).take(3).all(|line| readme.contains(line)));
}

#[test]
fn both_states_fit() {
    for run in [near(), far()] {
        let checked = check(&run.document, AREA, WORK_WORDS).expect("accepted");
        assert_eq!(run.fitted().expect("it fits").dictionary.words(), checked.dictionary.words());
    }
}

#[test]
fn runs_end_as_the_files_and_the_readme_say() {
    [near(), far()].iter().for_each(|run| EXAMPLE.assert_ends(run));
}

#[test]
fn far_from_the_start_the_run_fails_at_the_last_paragraph() {
    assert_eq!(far().outcome().ending, Ending::FailsAt(last_paragraph()));
}

/// The run ends with drawn(1), a portion more than what is shown.
#[test]
fn the_second_tick_is_the_first_to_differ() {
    let readings = record(FAR);
    assert_eq!(readings[0].shown, readings[0].drawn);
    assert_eq!(readings[1].drawn, readings[1].shown + RATE);
    let list = far().outcome().list;
    let (_, last) = list.last().expect("values");
    assert_eq!(*last, Value::Integer(readings[1].drawn));
}

/// It is the float and not the distance: with the clock in whole numbers the
/// run holds there too.
#[test]
fn a_whole_clock_holds_far_from_the_start() {
    let exact =
        |(clock, reading): (i32, Reading)| Reading { clock, shown: RATE * clock, ..reading };
    let readings: Vec<Reading> = (FAR as i32..).zip(record(FAR)).map(exact).collect();
    let run = Run { state: words(&entries(&readings)), ..far() };
    assert_eq!(run.outcome().ending, Ending::Holds);
}

#[test]
fn the_library_answers_the_same() {
    library::assert_answers_alike(vec![near(), far()]);
}

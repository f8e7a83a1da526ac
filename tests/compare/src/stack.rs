//! The stack that a call takes: calls on threads with a stack of their own.

use crate::calls::{Call, Slices};
use crate::measure::Timed;
use crate::printed::Checked;
use generate::Case;
use std::thread;

/// Runs something on a thread with so many bytes of stack and a guard page
/// below them. What takes more ends the process.
pub fn on_stack<T: Send>(bytes: usize, run: impl FnOnce() -> T + Send) -> T {
    thread::scope(|scope| {
        let thread = thread::Builder::new().stack_size(bytes).spawn_scoped(scope, run);
        thread.expect("a thread starts").join().expect("it returns")
    })
}

/// Bytes of stack that a measurement has.
const ROOM: usize = 16 << 20;
/// Bytes at its lower end that are not looked at, and those at its upper end
/// that the measurement itself takes.
const END: usize = 64 << 10;
const PATTERN: u64 = 0x5AFE_5AFE_5AFE_5AFE;

/// Bytes of stack that a call takes on a case: so far below its caller a word
/// was written.
pub fn taken(call: &Timed, case: &Case) -> usize {
    match call {
        Timed::Call(call) => measured(prepared(call, case)),
        Timed::Print => {
            let checked = Checked::new(&case.document, case.dictionary);
            let (answer, area) = (checked.answer(), checked.area);
            measured(move || {
                std::hint::black_box(grillsonnet::print(answer, &area));
            })
        }
    }
}

/// The call on a case, with areas of its own.
pub fn prepared(call: &'static Call, case: &Case) -> impl FnOnce() + Send {
    let (document, state) = (case.document.clone(), case.state.clone());
    let area = |taken: bool, words: usize| vec![0; if taken { words } else { 0 }];
    let mut dictionary = area(call.dictionary, case.dictionary);
    let mut work = area(call.work, case.work);
    let mut output = area(call.output, case.output);
    move || {
        std::hint::black_box((call.function)(&mut Slices {
            document: &document,
            state: &state,
            dictionary: &mut dictionary,
            work: &mut work,
            output: &mut output,
        }));
    }
}

/// Fills the stack below with a pattern, runs, and looks for the lowest word
/// that is another.
fn measured(run: impl FnOnce() + Send) -> usize {
    on_stack(ROOM, || {
        let here = 0u64;
        let top = &raw const here as usize & !7;
        let (low, high) = (top - (ROOM - END), top - 1_024);
        fill(low, high);
        run();
        top - first_other(low, high)
    })
}

#[inline(never)]
fn fill(low: usize, high: usize) {
    for at in (low..high).step_by(8) {
        // The thread's own stack, below all frames.
        unsafe { (at as *mut u64).write_volatile(PATTERN) };
    }
}

#[inline(never)]
fn first_other(low: usize, high: usize) -> usize {
    let is_other = |at: &usize| unsafe { (*at as *const u64).read_volatile() } != PATTERN;
    (low..high).step_by(8).find(is_other).unwrap_or(high)
}

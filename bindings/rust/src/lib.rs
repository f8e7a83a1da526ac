//! The proved library's calls as safe functions. Each takes any words and any
//! areas.

pub mod answer;
mod raw;

pub use answer::{Answer, Ending, Finding};

/// Words of the work area that a check, a fit and a run need.
pub const WORK_WORDS: usize = 16_384;

/// Bytes that always suffice to print a check with this many words of
/// dictionary area: the text, and the zero that ends it.
pub const fn enough(dictionary_words: usize) -> usize {
    11 * dictionary_words + 34
}

/// Reading: 11 to 17 with the node, or readable.
pub fn read(document: &[u32]) -> Result<(), Finding> {
    answer::of_finding(unsafe { raw::z_read(document.as_ptr(), document.len()) })
}

/// A document with a state: reading's finding first, then 41 with the entry, 0
/// for its pairs.
pub fn state(document: &[u32], state: &[u32]) -> Result<(), Finding> {
    answer::of_finding(unsafe {
        raw::z_state(document.as_ptr(), document.len(), state.as_ptr(), state.len())
    })
}

/// The check: after acceptance the dictionary area holds the dictionary with
/// zeros after it, after a refusal zeros. The work area is zero after it.
pub fn check(document: &[u32], dictionary: &mut [u32], work: &mut [u32]) -> Result<(), Finding> {
    answer::of_finding(unsafe {
        raw::z_check(
            document.as_ptr(),
            document.len(),
            dictionary.as_mut_ptr(),
            dictionary.len(),
            work.as_mut_ptr(),
            work.len(),
        )
    })
}

/// The check, then the state: 41, and 42 for a value that does not fit its
/// type. The areas as after a check.
pub fn fit(
    document: &[u32],
    state: &[u32],
    dictionary: &mut [u32],
    work: &mut [u32],
) -> Result<(), Finding> {
    answer::of_finding(unsafe {
        raw::z_fit(
            document.as_ptr(),
            document.len(),
            state.as_ptr(),
            state.len(),
            dictionary.as_mut_ptr(),
            dictionary.len(),
            work.as_mut_ptr(),
            work.len(),
        )
    })
}

/// The run of a document on a state. The work area is zero after it.
pub fn run(document: &[u32], state: &[u32], work: &mut [u32]) -> Result<Ending, Finding> {
    answer::of_run(unsafe {
        raw::z_run(
            document.as_ptr(),
            document.len(),
            state.as_ptr(),
            state.len(),
            work.as_mut_ptr(),
            work.len(),
        )
    })
}

/// A readable document written again in the one numbering that its tree has:
/// reading's finding, then 27 at 0 where the output area has fewer words than
/// the document. The output area holds the result, which has as many words as
/// the document, with zeros after it; after a refusal zeros.
pub fn canonical(document: &[u32], output: &mut [u32]) -> Result<(), Finding> {
    answer::of_finding(unsafe {
        raw::z_canonical(document.as_ptr(), document.len(), output.as_mut_ptr(), output.len())
    })
}

/// The lines of a check's answer and its dictionary area; nothing where the
/// words are no dictionary of a check and print longer than one could.
pub fn print(checked: Result<(), Finding>, dictionary: &[u32]) -> Option<String> {
    let mut bytes = vec![0; enough(dictionary.len())];
    let length = unsafe {
        let code = checked.code();
        raw::z_print(code, dictionary.as_ptr(), dictionary.len(), bytes.as_mut_ptr(), bytes.len())
    };
    bytes.truncate(length);
    String::from_utf8(bytes).ok().filter(|text| !text.is_empty())
}

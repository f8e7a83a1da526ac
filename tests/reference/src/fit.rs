//! The fit call: checks a document, then a state against its dictionary: 41,
//! then 42.

use crate::check::{check_tree, Checked};
use crate::finding::{demand, Finding};
use crate::reading::read;
use crate::state::{read_state, Role, State};
use crate::values::is_of;
use crate::WORK_WORDS;

/// Fits a state to a document, with areas of these lengths.
pub fn fit(
    words: &[u32],
    state: &[u32],
    dictionary: usize,
    work: usize,
) -> Result<Checked, Finding> {
    fit_recording(words, state, dictionary, work, true)
}

/// The same, leaving the dictionary's words in the area; both areas are zero
/// where it leaves none.
pub fn fit_into(
    words: &[u32],
    state: &[u32],
    dictionary: &mut [u32],
    work: &mut [u32],
) -> Result<(), Finding> {
    dictionary.fill(0);
    work.fill(0);
    let checked = fit_recording(words, state, dictionary.len(), work.len(), false)?;
    let found = checked.dictionary.words();
    dictionary[..found.len()].copy_from_slice(&found);
    Ok(())
}

fn fit_recording(
    words: &[u32],
    state: &[u32],
    dictionary: usize,
    work: usize,
    record: bool,
) -> Result<Checked, Finding> {
    let document = read(words)?;
    demand(work >= WORK_WORDS, 21, 0)?;
    let checked = check_tree(&document, dictionary, record)?;
    let state = read_state(&document, state)?;
    has_recorded_types(&checked, &state)?;
    Ok(checked)
}

/// 42: each value has its recorded type.
fn has_recorded_types(checked: &Checked, state: &State) -> Result<(), Finding> {
    for (i, role) in state.roles.iter().enumerate() {
        if let Role::Declared(identifier) = role {
            let value = &state.values[identifier];
            let entries = &checked.dictionary.entries;
            let recorded = entries
                .iter()
                .find(|entry| entry.class as u32 == 1 && entry.name == *identifier)
                .expect("an accepted document records each declared identifier");
            demand(is_of(value, &recorded.type_), 42, i as u32 + 1)?;
        }
    }
    Ok(())
}

//! The printed finding of z_print: the reference's answer and dictionary area
//! to the library, its lines against the reference's.

use generate::Case;
use grillsonnet::Finding;
use reference::dictionary::Dictionary;

/// Words of the program's areas.
const AREA: usize = 16_384;

/// A check's answer as the reference has it, and the dictionary area after it.
pub struct Checked {
    pub found: Result<Dictionary, reference::Finding>,
    pub area: Vec<u32>,
}

impl Checked {
    /// The check of a document, with a dictionary area of so many words.
    pub fn new(document: &[u32], dictionary: usize) -> Checked {
        let found = reference::check(document, dictionary, reference::WORK_WORDS);
        let found = found.map(|checked| checked.dictionary);
        let mut area = found.as_ref().map_or(vec![], Dictionary::words);
        area.resize(dictionary, 0);
        Checked { found, area }
    }

    /// The answer as the library takes it.
    pub fn answer(&self) -> Result<(), Finding> {
        let finding = |f: &reference::Finding| Finding { number: f.number, place: f.place };
        self.found.as_ref().map(|_| ()).map_err(finding)
    }
}

/// The difference between the library's lines and the reference's, if any.
pub fn difference(case: &Case) -> Option<String> {
    let checked = Checked::new(&case.document, AREA);
    let input: Vec<u8> = case.document.iter().flat_map(|word| word.to_le_bytes()).collect();
    let expected = reference::print(&input);
    let found = grillsonnet::print(checked.answer(), &checked.area).unwrap_or_default();
    (found != expected).then(|| format!("library:\n{found}\nreference:\n{expected}"))
}

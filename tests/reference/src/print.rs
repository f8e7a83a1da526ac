//! The printed finding.

use crate::check::check;
use crate::dictionary::Dictionary;
use crate::finding::Finding;
use crate::WORK_WORDS;

/// What the program prints for these input bytes: four bytes a word, low byte
/// first; a length not divisible by 4 or over 65,536 bytes is 11.
pub fn print(input: &[u8]) -> String {
    let checked = match words(input) {
        Some(words) => check(&words, 16_384, WORK_WORDS).map(|checked| checked.dictionary),
        None => Err(Finding { number: 11, place: 0 }),
    };
    lines(&checked)
}

/// The lines of a check's answer.
pub fn lines(checked: &Result<Dictionary, Finding>) -> String {
    match checked {
        Ok(dictionary) => accepted(dictionary),
        Err(finding) => format!("refused {} at {}\n", finding.number, finding.place),
    }
}

fn words(input: &[u8]) -> Option<Vec<u32>> {
    if input.len() % 4 != 0 || input.len() > 65_536 {
        return None;
    }
    let word = |bytes: &[u8]| u32::from_le_bytes([bytes[0], bytes[1], bytes[2], bytes[3]]);
    Some(input.chunks(4).map(word).collect())
}

/// A first line with dictionary words and entries, then a line per entry:
/// class, identifier, parameter count, a colon, type words.
fn accepted(dictionary: &Dictionary) -> String {
    let mut text = format!("accepted {} {}\n", dictionary.length(), dictionary.entries.len());
    for entry in &dictionary.entries {
        let class = entry.class as u32;
        text += &format!("{class} {} {} :", entry.name, entry.parameters);
        for word in entry.type_.words() {
            text += &format!(" {word}");
        }
        text.push('\n');
    }
    text
}

//! The program's printed finding: the same bytes to its standard input and to
//! the reference.

use generate::Case;
use std::io::Write;
use std::process::{Command, Stdio};

/// The bytes of a case: its document's words, low byte first, in a few cases
/// with a byte or more too many or too few.
pub fn input(case: &Case, index: u64) -> Vec<u8> {
    let mut bytes: Vec<u8> = case.document.iter().flat_map(|word| word.to_le_bytes()).collect();
    match index % 23 {
        0 => bytes.push(case.dirt as u8),
        1 => drop(bytes.pop()),
        2 => bytes.resize(65_536 + (case.dirt % 9) as usize, 0),
        _ => {}
    }
    bytes
}

/// What the program prints for these bytes.
pub fn output(path: &str, input: &[u8]) -> Result<Vec<u8>, std::io::Error> {
    let mut child = Command::new(path).stdin(Stdio::piped()).stdout(Stdio::piped()).spawn()?;
    let mut stdin = child.stdin.take().expect("piped");
    // A program may stop reading once the input is too long.
    let _ = stdin.write_all(input);
    drop(stdin);
    Ok(child.wait_with_output()?.stdout)
}

/// The difference between the program's output and the reference's, if any.
pub fn difference(path: &str, input: &[u8]) -> Option<String> {
    let expected = reference::print(input);
    match output(path, input) {
        Ok(found) if found == expected.as_bytes() => None,
        Ok(found) => {
            let found = String::from_utf8_lossy(&found).into_owned();
            Some(format!("program:\n{found}\nreference:\n{expected}"))
        }
        Err(error) => Some(format!("the program does not run: {error}")),
    }
}

//! The printed finding: of input bytes, for the reference and the program, and
//! of findings and dictionary areas, for the library.

const PRINTED_INPUT: &str = "accepted 9 1\n1 4 0 : 3 2 4\n";

fn bytes(words: &[u32]) -> Vec<u8> {
    words.iter().flat_map(|word| word.to_le_bytes()).collect()
}

/// Input bytes, and what is printed.
pub fn inputs() -> Vec<(Vec<u8>, &'static str)> {
    let printed_input = bytes(&[2, 5, 2, 7, 2, 2, 4, 1, 1]);
    // the identifier 260 has the bytes 4 1 0 0, low byte first
    let low_byte_first = bytes(&[2, 5, 2, 7, 2, 2, 260, 1, 1]);
    vec![
        (printed_input[1..].to_vec(), "refused 11 at 0\n"),
        (printed_input, PRINTED_INPUT),
        (low_byte_first, "accepted 9 1\n1 260 0 : 3 2 260\n"),
        (bytes(&[1, 3, 1, 1]), "accepted 1 0\n"),
        (vec![], "refused 11 at 0\n"),
        (vec![1, 2, 3, 4, 5], "refused 11 at 0\n"),
        (vec![0; 65_540], "refused 11 at 0\n"),
    ]
}

/// A finding's number and place ((0, 0) where accepted), the words of the
/// dictionary area, and what is printed.
pub const FINDINGS: &[((u32, u32), &[u32], &str)] = &[
    ((0, 0), &[1, 3, 6, 1, 4, 0, 3, 2, 4], PRINTED_INPUT),
    ((0, 0), &[1, 3, 6, 1, 4, 0, 3, 2, 4, 0, 0], PRINTED_INPUT),
    ((0, 0), &[0], "accepted 1 0\n"),
    ((11, 0), &[], "refused 11 at 0\n"),
    ((38, 1024), &[], "refused 38 at 1024\n"),
    ((39, 12), &[], "refused 39 at 12\n"),
];

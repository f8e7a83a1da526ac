//! The calls as the archive has them (../../grillsonnet.h): a slice is a
//! pointer and a length.

extern "C" {
    pub fn z_read(document: *const u32, words: usize) -> u64;

    pub fn z_state(
        document: *const u32,
        words: usize,
        state: *const u32,
        state_words: usize,
    ) -> u64;

    pub fn z_check(
        document: *const u32,
        words: usize,
        dictionary: *mut u32,
        dictionary_words: usize,
        work: *mut u32,
        work_words: usize,
    ) -> u64;

    pub fn z_fit(
        document: *const u32,
        words: usize,
        state: *const u32,
        state_words: usize,
        dictionary: *mut u32,
        dictionary_words: usize,
        work: *mut u32,
        work_words: usize,
    ) -> u64;

    pub fn z_run(
        document: *const u32,
        words: usize,
        state: *const u32,
        state_words: usize,
        work: *mut u32,
        work_words: usize,
    ) -> u64;

    pub fn z_canonical(
        document: *const u32,
        words: usize,
        output: *mut u32,
        output_words: usize,
    ) -> u64;

    pub fn z_print(
        finding: u64,
        dictionary: *const u32,
        dictionary_words: usize,
        text: *mut u8,
        size: usize,
    ) -> usize;
}

//! The functions of libwundaleth.a for callers in Rust; include/wundaleth.h says what holds of each of them and of its
//! caller. The tests, the bench and docs/graph take them from here.

#![allow(dead_code)] // hardly a program calls all nine

extern "C" {
    pub fn wundaleth_check(
        voice: *const u8,
        voice_length: usize,
        lexicon: *const u8,
        lexicon_length: usize,
        work: *mut u8,
        work_length: usize,
    ) -> i32;
    pub fn wundaleth_word_to_code(
        voice: *const u8,
        voice_length: usize,
        lexicon: *const u8,
        lexicon_length: usize,
        word: *const u8,
        word_length: usize,
        work: *mut u8,
        work_length: usize,
    ) -> i32;
    pub fn wundaleth_words_to_codes(
        voice: *const u8,
        voice_length: usize,
        lexicon: *const u8,
        lexicon_length: usize,
        items: *const u8,
        items_length: usize,
        work: *mut u8,
        work_length: usize,
        out: *mut u8,
        out_length: usize,
    ) -> i32;
    pub fn wundaleth_code_to_word(
        voice: *const u8,
        voice_length: usize,
        lexicon: *const u8,
        lexicon_length: usize,
        code: u32,
        work: *mut u8,
        work_length: usize,
        out: *mut u8,
        out_length: usize,
    ) -> i32;
    pub fn wundaleth_list(
        voice: *const u8,
        voice_length: usize,
        lexicon: *const u8,
        lexicon_length: usize,
        work: *mut u8,
        work_length: usize,
        out: *mut u8,
        out_length: usize,
    ) -> i32;
    pub fn wundaleth_canonical(
        voice: *const u8,
        voice_length: usize,
        lexicon: *const u8,
        lexicon_length: usize,
        work: *mut u8,
        work_length: usize,
        further: *mut u8,
        further_length: usize,
        out: *mut u8,
        out_length: usize,
    ) -> i32;
    pub fn wundaleth_decode(
        voice: *const u8,
        voice_length: usize,
        lexicon: *const u8,
        lexicon_length: usize,
        frames: *const u8,
        frames_length: usize,
        n: u32,
        work: *mut u8,
        work_length: usize,
        out: *mut u8,
        out_length: usize,
    ) -> i32;
    pub fn wundaleth_pack(
        words: u32,
        codes: *const u32,
        codes_length: usize,
        out: *mut u8,
        out_length: usize,
    ) -> i32;
    pub fn wundaleth_unpack(
        words: u32,
        n: u32,
        packed: *const u8,
        packed_length: usize,
        out: *mut u8,
        out_length: usize,
    ) -> i32;
}

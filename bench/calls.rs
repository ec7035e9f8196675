//! The functions that bench/codes and bench/stock time, of the library and of bench/plain_codes.c, called with slices.

#[path = "../include/wundaleth.rs"]
mod wundaleth;

use crate::inputs::Input;
use wundaleth::{
    wundaleth_check, wundaleth_code_to_word, wundaleth_word_to_code, wundaleth_words_to_codes,
};

type Check = unsafe extern "C" fn(*const u8, usize, *const u8, usize, *mut u8, usize) -> i32;
type WordToCode = unsafe extern "C" fn(
    *const u8,
    usize,
    *const u8,
    usize,
    *const u8,
    usize,
    *mut u8,
    usize,
) -> i32;
type WordsToCodes = unsafe extern "C" fn(
    *const u8,
    usize,
    *const u8,
    usize,
    *const u8,
    usize,
    *mut u8,
    usize,
    *mut u8,
    usize,
) -> i32;
type CodeToWord = unsafe extern "C" fn(
    *const u8,
    usize,
    *const u8,
    usize,
    u32,
    *mut u8,
    usize,
    *mut u8,
    usize,
) -> i32;

extern "C" {
    fn plain_check(v: *const u8, vn: usize, l: *const u8, ln: usize, w: *mut u8, wn: usize) -> i32;
    fn plain_word_to_code(
        v: *const u8,
        vn: usize,
        l: *const u8,
        ln: usize,
        word: *const u8,
        word_len: usize,
        w: *mut u8,
        wn: usize,
    ) -> i32;
    fn plain_words_to_codes(
        v: *const u8,
        vn: usize,
        l: *const u8,
        ln: usize,
        items: *const u8,
        items_len: usize,
        w: *mut u8,
        wn: usize,
        out: *mut u8,
        out_len: usize,
    ) -> i32;
    fn plain_code_to_word(
        v: *const u8,
        vn: usize,
        l: *const u8,
        ln: usize,
        code: u32,
        w: *mut u8,
        wn: usize,
        out: *mut u8,
        out_len: usize,
    ) -> i32;
    fn plain_keep(v: *const u8, vn: usize, l: *const u8, ln: usize, w: *mut u8, wn: usize) -> i32;
    fn plain_find_code(v: *const u8, word: *const u8, word_len: usize) -> i32;
    fn plain_find_word(v: *const u8, code: u32, out: *mut u8, out_len: usize) -> i32;
}

// In each call every pointer is valid for its length.

#[derive(Clone, Copy)]
pub enum Side {
    Product,
    Plain,
}

pub fn check(side: Side, input: &Input, work: &mut [u8]) -> i32 {
    let call: Check = match side {
        Side::Product => wundaleth_check,
        Side::Plain => plain_check,
    };
    let (v, l) = (&input.voice, &input.lexicon);
    unsafe {
        call(
            v.as_ptr(),
            v.len(),
            l.as_ptr(),
            l.len(),
            work.as_mut_ptr(),
            work.len(),
        )
    }
}

pub fn word_to_code(side: Side, input: &Input, word: &[u8], work: &mut [u8]) -> i32 {
    let call: WordToCode = match side {
        Side::Product => wundaleth_word_to_code,
        Side::Plain => plain_word_to_code,
    };
    let (v, l) = (&input.voice, &input.lexicon);
    unsafe {
        call(
            v.as_ptr(),
            v.len(),
            l.as_ptr(),
            l.len(),
            word.as_ptr(),
            word.len(),
            work.as_mut_ptr(),
            work.len(),
        )
    }
}

/// The items as the call takes them, a length byte before each.
pub fn words_to_codes(
    side: Side,
    input: &Input,
    items: &[u8],
    work: &mut [u8],
    out: &mut [u8],
) -> i32 {
    let call: WordsToCodes = match side {
        Side::Product => wundaleth_words_to_codes,
        Side::Plain => plain_words_to_codes,
    };
    let (v, l) = (&input.voice, &input.lexicon);
    unsafe {
        call(
            v.as_ptr(),
            v.len(),
            l.as_ptr(),
            l.len(),
            items.as_ptr(),
            items.len(),
            work.as_mut_ptr(),
            work.len(),
            out.as_mut_ptr(),
            out.len(),
        )
    }
}

pub fn code_to_word(side: Side, input: &Input, code: u32, work: &mut [u8], out: &mut [u8]) -> i32 {
    let call: CodeToWord = match side {
        Side::Product => wundaleth_code_to_word,
        Side::Plain => plain_code_to_word,
    };
    let (v, l) = (&input.voice, &input.lexicon);
    unsafe {
        call(
            v.as_ptr(),
            v.len(),
            l.as_ptr(),
            l.len(),
            code,
            work.as_mut_ptr(),
            work.len(),
            out.as_mut_ptr(),
            out.len(),
        )
    }
}

/// Checks the lexicon and keeps it for the plain lookups; W.
pub fn keep(input: &Input, work: &mut [u8]) -> i32 {
    let (v, l) = (&input.voice, &input.lexicon);
    unsafe {
        plain_keep(
            v.as_ptr(),
            v.len(),
            l.as_ptr(),
            l.len(),
            work.as_mut_ptr(),
            work.len(),
        )
    }
}

pub fn find_code(input: &Input, word: &[u8]) -> i32 {
    unsafe { plain_find_code(input.voice.as_ptr(), word.as_ptr(), word.len()) }
}

pub fn find_word_into(input: &Input, code: u32, out: &mut [u8]) -> i32 {
    unsafe { plain_find_word(input.voice.as_ptr(), code, out.as_mut_ptr(), out.len()) }
}

pub fn find_word(input: &Input, code: u32) -> Vec<u8> {
    let mut out = [0; 32];
    let length = find_word_into(input, code, &mut out);
    out[..length as usize].to_vec()
}

#[cfg(marisa)]
mod marisa {
    extern "C" {
        fn marisa_clear();
        fn marisa_add(word: *const u8, length: usize);
        fn marisa_build() -> usize;
        #[link_name = "marisa_find_code"]
        fn find_code(word: *const u8, length: usize) -> i64;
        #[link_name = "marisa_find_word"]
        fn find_word(number: usize, out: *mut u8) -> usize;
    }

    /// Builds the trie of these words; its size in bytes.
    pub fn marisa_trie<'a>(words: impl Iterator<Item = &'a [u8]>) -> usize {
        unsafe {
            marisa_clear();
            for word in words {
                marisa_add(word.as_ptr(), word.len());
            }
            marisa_build()
        }
    }

    pub fn marisa_find_code(word: &[u8]) -> usize {
        unsafe { find_code(word.as_ptr(), word.len()) as usize }
    }

    /// No word in the trie is longer than 64 letters.
    pub fn marisa_find_word(number: usize, out: &mut [u8; 64]) -> usize {
        unsafe { find_word(number, out.as_mut_ptr()) }
    }
}

#[cfg(marisa)]
#[allow(unused_imports)] // bench/stock looks up words only
pub use marisa::{marisa_find_code, marisa_find_word, marisa_trie};

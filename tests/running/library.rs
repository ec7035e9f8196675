//! The product's C interface, called with lent buffers.

#[path = "../../include/wundaleth.rs"]
mod wundaleth;

use crate::buffers::{Buffer, Numbers};
use wundaleth::*;

// In each call every pointer is valid for its length, and the buffers are memory of their own.

pub fn check(voice: &mut Buffer, lexicon: &mut Buffer, work: &mut Buffer) -> i32 {
    unsafe {
        wundaleth_check(
            voice.pointer(),
            voice.length(),
            lexicon.pointer(),
            lexicon.length(),
            work.pointer(),
            work.length(),
        )
    }
}

pub fn word_to_code(
    voice: &mut Buffer,
    lexicon: &mut Buffer,
    word: &mut Buffer,
    work: &mut Buffer,
) -> i32 {
    unsafe {
        wundaleth_word_to_code(
            voice.pointer(),
            voice.length(),
            lexicon.pointer(),
            lexicon.length(),
            word.pointer(),
            word.length(),
            work.pointer(),
            work.length(),
        )
    }
}

pub fn words_to_codes(
    voice: &mut Buffer,
    lexicon: &mut Buffer,
    items: &mut Buffer,
    work: &mut Buffer,
    out: &mut Buffer,
) -> i32 {
    unsafe {
        wundaleth_words_to_codes(
            voice.pointer(),
            voice.length(),
            lexicon.pointer(),
            lexicon.length(),
            items.pointer(),
            items.length(),
            work.pointer(),
            work.length(),
            out.pointer(),
            out.length(),
        )
    }
}

pub fn code_to_word(
    voice: &mut Buffer,
    lexicon: &mut Buffer,
    code: u32,
    work: &mut Buffer,
    out: &mut Buffer,
) -> i32 {
    unsafe {
        wundaleth_code_to_word(
            voice.pointer(),
            voice.length(),
            lexicon.pointer(),
            lexicon.length(),
            code,
            work.pointer(),
            work.length(),
            out.pointer(),
            out.length(),
        )
    }
}

pub fn list(voice: &mut Buffer, lexicon: &mut Buffer, work: &mut Buffer, out: &mut Buffer) -> i32 {
    unsafe {
        wundaleth_list(
            voice.pointer(),
            voice.length(),
            lexicon.pointer(),
            lexicon.length(),
            work.pointer(),
            work.length(),
            out.pointer(),
            out.length(),
        )
    }
}

pub fn canonical(
    voice: &mut Buffer,
    lexicon: &mut Buffer,
    work: &mut Buffer,
    further: &mut Buffer,
    out: &mut Buffer,
) -> i32 {
    unsafe {
        wundaleth_canonical(
            voice.pointer(),
            voice.length(),
            lexicon.pointer(),
            lexicon.length(),
            work.pointer(),
            work.length(),
            further.pointer(),
            further.length(),
            out.pointer(),
            out.length(),
        )
    }
}

pub fn decode(
    voice: &mut Buffer,
    lexicon: &mut Buffer,
    frames: &mut Buffer,
    n: u32,
    work: &mut Buffer,
    out: &mut Buffer,
) -> i32 {
    unsafe {
        wundaleth_decode(
            voice.pointer(),
            voice.length(),
            lexicon.pointer(),
            lexicon.length(),
            frames.pointer(),
            frames.length(),
            n,
            work.pointer(),
            work.length(),
            out.pointer(),
            out.length(),
        )
    }
}

pub fn pack(words: u32, codes: &mut Numbers, out: &mut Buffer) -> i32 {
    unsafe {
        wundaleth_pack(
            words,
            codes.pointer(),
            codes.length(),
            out.pointer(),
            out.length(),
        )
    }
}

pub fn unpack(words: u32, n: u32, packed: &mut Buffer, out: &mut Buffer) -> i32 {
    unsafe {
        wundaleth_unpack(
            words,
            n,
            packed.pointer(),
            packed.length(),
            out.pointer(),
            out.length(),
        )
    }
}

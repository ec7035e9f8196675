//! What the calls about words and codes have to answer, by the words of the scope paper: a depth-first walk writes out
//! every word, a word's place in that row is its code, and a word is looked up by comparing spellings.

use crate::reference::{self, Number, WORK_SPACE};

/// All words of an accepted lexicon in the order of the walk.
pub struct Words {
    /// Print bytes, each word followed by byte 10.
    listing: Vec<u8>,
    /// Where each word begins, and where the listing ends.
    begins: Vec<usize>,
}

/// The words, if none of 2 to 10 applies.
pub fn words(voice: &[u8], lexicon: &[u8]) -> Result<Words, Number> {
    let (voice, lexicon, count) = reference::accepted(voice, lexicon)?;
    let mut words = Words {
        listing: Vec::new(),
        begins: vec![0],
    };
    words.walk(&voice, &lexicon, 0, &mut Vec::new());
    assert_eq!(words.count(), count as usize);
    Ok(words)
}

impl Words {
    /// The vertex goes through its arcs, and each arc enters the vertex it leads to.
    fn walk(
        &mut self,
        voice: &reference::Voice,
        lexicon: &reference::Lexicon,
        vertex: usize,
        spelled: &mut Vec<u8>,
    ) {
        for successor in &lexicon.successors[vertex] {
            if *successor == lexicon.sink() {
                self.listing.extend_from_slice(spelled);
                self.listing.push(10);
                self.begins.push(self.listing.len());
            } else {
                spelled.push(voice.print_bytes[lexicon.letters[*successor]]);
                self.walk(voice, lexicon, *successor, spelled);
                spelled.pop();
            }
        }
    }

    /// W.
    pub fn count(&self) -> usize {
        self.begins.len() - 1
    }

    pub fn listing(&self) -> &[u8] {
        &self.listing
    }

    pub fn word(&self, code: usize) -> &[u8] {
        &self.listing[self.begins[code]..self.begins[code + 1] - 1]
    }

    pub fn code(&self, word: &[u8]) -> Option<usize> {
        (0..self.count()).find(|code| self.word(*code) == word)
    }
}

/// What a call leaves: its answer, and what the output begins with.
pub struct Left<'a> {
    pub answer: i32,
    pub written: &'a [u8],
}

fn refused(number: Number) -> Left<'static> {
    Left {
        answer: -number,
        written: &[],
    }
}

/// The bytes as the answer, or 16 if the output has no room for them.
fn written(bytes: &[u8], out_length: usize) -> Left<'_> {
    if out_length < bytes.len() {
        return refused(16);
    }
    Left {
        answer: bytes.len() as i32,
        written: bytes,
    }
}

/// Numbers 1 to 10, which come first in every call with a lexicon.
fn usable(words: &Result<Words, Number>, work_length: usize) -> Result<&Words, Number> {
    if work_length < WORK_SPACE {
        return Err(1);
    }
    words.as_ref().map_err(|number| *number)
}

pub fn word_to_code(words: &Result<Words, Number>, word: &[u8], work_length: usize) -> i32 {
    match usable(words, work_length) {
        Err(number) => -number,
        Ok(words) => words.code(word).map_or(-13, |code| code as i32),
    }
}

pub fn code_to_word(
    words: &Result<Words, Number>,
    code: u32,
    work_length: usize,
    out_length: usize,
) -> Left<'_> {
    match usable(words, work_length) {
        Err(number) => refused(number),
        Ok(words) if code as usize >= words.count() => refused(15),
        Ok(words) => written(words.word(code as usize), out_length),
    }
}

pub fn list(words: &Result<Words, Number>, work_length: usize, out_length: usize) -> Left<'_> {
    match usable(words, work_length) {
        Err(number) => refused(number),
        Ok(words) => written(words.listing(), out_length),
    }
}

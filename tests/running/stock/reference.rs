//! What words to codes has to answer, by the words of the request: the list is read item by item, and each item is
//! looked up among all words, which a depth-first walk writes out; a word's place in that row is its code.

use crate::reference::{self, Lexicon, Number, Voice, WORK_SPACE};

const MOST_ITEMS: usize = 1_000;
/// What is written for an item: a refusal's number and a code.
pub const ANSWER: usize = 8;

/// All words of an accepted lexicon in the order of the walk.
pub struct Words {
    voice: Voice,
    /// Print bytes, without a gap.
    row: Vec<u8>,
    /// Where each word begins, and where the row ends.
    begins: Vec<usize>,
    /// The codes in the order of their words' bytes.
    sorted: Vec<u32>,
}

/// The words, if none of 2 to 10 applies.
pub fn words(voice: &[u8], lexicon: &[u8]) -> Result<Words, Number> {
    let (voice, lexicon, count) = reference::accepted(voice, lexicon)?;
    let mut words = Words {
        voice,
        row: Vec::new(),
        begins: vec![0],
        sorted: Vec::new(),
    };
    words.walk(&lexicon, 0, &mut Vec::new());
    assert_eq!(words.count(), count as usize);
    let mut sorted: Vec<u32> = (0..count as u32).collect();
    sorted.sort_unstable_by_key(|code| words.word(*code as usize));
    words.sorted = sorted;
    Ok(words)
}

impl Words {
    fn walk(&mut self, lexicon: &Lexicon, vertex: usize, spelled: &mut Vec<u8>) {
        for successor in &lexicon.successors[vertex] {
            if *successor == lexicon.sink() {
                self.row.extend_from_slice(spelled);
                self.begins.push(self.row.len());
            } else {
                spelled.push(self.voice.print_bytes[lexicon.letters[*successor]]);
                self.walk(lexicon, *successor, spelled);
                spelled.pop();
            }
        }
    }

    /// W.
    pub fn count(&self) -> usize {
        self.begins.len() - 1
    }

    pub fn word(&self, code: usize) -> &[u8] {
        &self.row[self.begins[code]..self.begins[code + 1]]
    }

    /// The print bytes of the voice model.
    pub fn letters(&self) -> &[u8] {
        &self.voice.print_bytes
    }

    pub fn code(&self, word: &[u8]) -> Option<u32> {
        let place = self
            .sorted
            .binary_search_by(|code| self.word(*code as usize).cmp(word));
        place.ok().map(|place| self.sorted[place])
    }
}

/// The items of a list, or nothing if the last one runs past the end.
pub fn items(list: &[u8]) -> Option<Vec<&[u8]>> {
    let mut items = Vec::new();
    let mut rest = list;
    while let Some((length, after)) = rest.split_first() {
        let length = usize::from(*length);
        items.push(after.get(..length)?);
        rest = &after[length..];
    }
    Some(items)
}

/// What is written for a word by what word to code answers for it: 0 and the code, or the refusal's number and 0.
pub fn answer(of_word: i32) -> [u8; ANSWER] {
    let (number, code) = if of_word < 0 {
        (-of_word, 0)
    } else {
        (0, of_word)
    };
    let bytes = [number.to_le_bytes(), code.to_le_bytes()].concat();
    bytes.try_into().expect("two numbers of four bytes")
}

/// What is written for all items, or the first of 1 to 10, 19 and 16 that applies.
pub fn words_to_codes(
    words: &Result<Words, Number>,
    list: &[u8],
    work_length: usize,
    out_length: usize,
) -> Result<Vec<u8>, Number> {
    if work_length < WORK_SPACE {
        return Err(1);
    }
    let words = words.as_ref().map_err(|number| *number)?;
    let items = items(list).ok_or(19)?;
    if items.len() > MOST_ITEMS {
        return Err(19);
    }
    if out_length < ANSWER * items.len() {
        return Err(16);
    }
    let code = |item: &&[u8]| words.code(item).map_or(-13, |code| code as i32);
    Ok(items.iter().flat_map(|item| answer(code(item))).collect())
}

//! Links: lists that are known beforehand, and links of every kind that are right or wrong.

use super::{Decoding, Images, Pair};
use crate::buffers::cut;
use crate::damage::with_every_links;
use crate::draw;
use crate::image::{bytes_of, small_lexicon, small_voice, Letter, Lexicon, Voice};
use crate::sketch::{Sketch, ROOT, SINK};

const IMPOSSIBLE: i16 = -32_768;

/// The list of P, all five words, for frames 0 2: by the paper.
const OF_P: [(i64, u32); 5] = [(-2, 0), (-12, 1), (-12, 3), (-21, 2), (-22, 4)];

/// Links of a, i, n and t, and the list of P for frames 0 2. The words are an, at, i, in and it, with codes 0 to 4: an
/// and at leave a, in and it leave i, and nothing leaves n and t.
const LISTS: [([i16; 4], &[(i64, u32)]); 9] = [
    // four links that are equal are as one
    ([-2, -2, -2, -2], &OF_P),
    // n and t are entered, and not left
    ([-2, -2, 900, -900], &OF_P),
    ([-2, -2, IMPOSSIBLE, IMPOSSIBLE], &OF_P),
    // leaving a costs 4 more than leaving i: in passes at
    (
        [-5, -1, 7, 9],
        &[(-5, 0), (-11, 3), (-15, 1), (-21, 2), (-21, 4)],
    ),
    // another word is the best
    (
        [-30, 0, 0, 0],
        &[(-10, 3), (-20, 4), (-21, 2), (-30, 0), (-40, 1)],
    ),
    (
        [0, -30, 0, 0],
        &[(0, 0), (-10, 1), (-21, 2), (-40, 3), (-50, 4)],
    ),
    // a cannot be left; nor i, which is a word all the same; nor any letter
    ([IMPOSSIBLE, -2, -2, -2], &[(-12, 3), (-21, 2), (-22, 4)]),
    ([-2, IMPOSSIBLE, -2, -2], &[(-2, 0), (-12, 1), (-21, 2)]),
    ([IMPOSSIBLE; 4], &[(-21, 2)]),
];

/// Letters with these numbers of states; loops impossible, steps 3, one symbol, emissions 0.
fn voice(states: &[u8], links: &[i16]) -> Voice {
    let letter = |(k, states): (usize, &u8)| Letter {
        print_byte: 33 + k as u8,
        states: *states,
    };
    let mut moves = Vec::new();
    for of_letter in states {
        moves.resize(moves.len() + usize::from(*of_letter) - 1, [IMPOSSIBLE, 3]);
        moves.push([IMPOSSIBLE, 0]);
    }
    Voice {
        letters: states.iter().enumerate().map(letter).collect(),
        links: links.to_vec(),
        symbols: 1,
        emissions: vec![0; moves.len()],
        moves,
    }
}

/// Words of their own nodes, whose codes are their places in the row.
fn words(words: &[&[u8]]) -> Lexicon {
    let letters: Vec<u8> = words.concat();
    let sink = letters.len() as u16 + 1;
    let mut successors = vec![Vec::new()];
    for word in words {
        let first = successors.len() as u16;
        successors[0].push(first);
        successors.extend((1..word.len() as u16).map(|k| vec![first + k]));
        successors.push(vec![sink]);
    }
    Lexicon {
        letters,
        successors,
    }
}

impl Decoding {
    pub(super) fn links(&mut self) {
        self.begin("links", &[0, 2, 3]);
        self.links_of_small_lexicon();
        self.links_of_letters();
        for letters in [1, 2, 2, 3, 5] {
            self.links_sections(letters);
        }
    }

    fn links_of_small_lexicon(&mut self) {
        let lexicon = small_lexicon().bytes();
        let mut voice = small_voice();
        for (links, known) in LISTS {
            voice.links = links.to_vec();
            let pair = Pair::of(voice.bytes(), lexicon.clone());
            for n in 1..=8 {
                let listed = known.len().min(n as usize);
                self.call_for(Ok(&known[..listed]), &pair, pair.call(&[0, 2], n));
            }
        }
        // one link for all letters, as before
        for (link, known) in [(-2, &OF_P[..]), (IMPOSSIBLE, &[(-21, 2)])] {
            voice.links = vec![link];
            let pair = Pair::of(voice.bytes(), lexicon.clone());
            self.call_for(Ok(known), &pair, pair.call(&[0, 2], 8));
        }
    }

    /// As many frames as a word has states, so that its score is the sum of its links and steps.
    fn links_of_letters(&mut self) {
        // by the letters entered the words would have 110, 110 and 11, by the first link 2 each
        let three = words(&[&[0, 1, 2], &[0, 2, 1], &[2, 0, 1]]);
        let known = [(101, 1), (101, 2), (11, 0)];
        self.hold_to_list(&voice(&[1; 3], &[1, 10, 100]), &three, 3, &known);
        // words that end in letter 1 stay
        self.hold_to_list(
            &voice(&[1; 3], &[1, IMPOSSIBLE, 100]),
            &three,
            3,
            &known[..2],
        );
        // by the letter, not by its states
        let mixed = words(&[&[0, 1], &[1, 0], &[1, 1]]);
        let model = voice(&[2, 1], &[7, -40]);
        self.hold_to_list(&model, &mixed, 3, &[(10, 0), (-37, 1)]);
        self.hold_to_list(&model, &mixed, 2, &[(-40, 2)]);
        // a letter after itself, and one letter alone
        let same = words(&[&[0, 0, 0]]);
        self.hold_to_list(&voice(&[1, 1], &[-4, 50]), &same, 3, &[(-8, 0)]);
        self.hold_to_list(&voice(&[1], &[-4]), &same, 3, &[(-8, 0)]);
        // the highest and the lowest link in one word; and 64 of them
        let ends = words(&[&[0, 1, 0], &[1, 0, 1], &[1, 1, 1]]);
        let known = [(0, 0), (0, 1), (-65_534, 2)];
        self.hold_to_list(&voice(&[1, 1], &[32_767, -32_767]), &ends, 3, &known);
        let links: Vec<i16> = (0..64).collect();
        let (falling, rising): (Vec<u8>, Vec<u8>) = ((32..64).rev().collect(), (0..32).collect());
        let long = words(&[&rising, &falling]);
        let known = [(1_488, 1), (465, 0)];
        self.hold_to_list(&voice(&[1; 64], &links), &long, 32, &known);
    }

    fn hold_to_list(
        &mut self,
        model: &Voice,
        lexicon: &Lexicon,
        length: usize,
        known: &[(i64, u32)],
    ) {
        let pair = Pair::of(model.bytes(), lexicon.bytes());
        let frames = vec![0; length];
        self.call_for(Ok(known), &pair, pair.call(&frames, 8));
    }

    /// Links in both forms and in none, with more scores than their count and with fewer; and the voice model cut at
    /// every length in and about them, with what was cut off behind it in memory.
    fn links_sections(&mut self, letters: u8) {
        let states: Vec<u8> = (0..letters).map(|k| 1 + k % 4).collect();
        let mut voice = draw::voice_of(&mut self.random, &states, 2);
        let mut sketch = Sketch::new();
        let all: Vec<u8> = (0..letters).collect();
        sketch.chain(ROOT, &all, SINK);
        sketch.chain(ROOT, &[0, 0], SINK);
        let lexicon = sketch.lexicon(&mut self.random).bytes();
        for (voice, known) in with_every_links(&voice) {
            let pair = Pair::of(voice, lexicon.clone());
            let frames = self.frames_for(&pair);
            let refusal = self.call(&pair.images, pair.call(&frames, 3)).err();
            self.hold_reference_to(known.unwrap_or(refusal.unwrap_or(0)), refusal);
        }
        let links_at = bytes_of(&voice.fields_before_links()).len();
        for count in [1, usize::from(letters)] {
            voice.links.resize(count, -1);
            let pair = Pair::of(voice.bytes(), lexicon.clone());
            let frames = self.frames_for(&pair);
            for length in links_at - 2..(links_at + 2 * count + 6).min(pair.voice.len()) {
                let mut call = pair.call(&frames, 3);
                call.voice = cut(&pair.voice, length);
                let images = Images::of(call.voice.bytes, call.lexicon.bytes);
                let refusal = self.call(&images, call).err();
                self.hold_reference_to(2, refusal);
            }
        }
    }

    fn hold_reference_to(&mut self, known: i32, refusal: Option<i32>) {
        let refusal = refusal.unwrap_or(0);
        if refusal != known {
            self.difference(&format!(
                "the reference says {refusal} where {known} is known"
            ));
        }
    }
}

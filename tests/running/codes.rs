//! Word to code, code to word, and listing, called with images, words, codes and outputs of every kind and held to the
//! reference: the answer, every output and work byte, and every byte of the inputs and around the buffers.

mod large;
mod lookups;
mod near_misses;
mod reference;
mod refusals;
mod several_ways;

use crate::buffers::{whole, Buffer, Lent};
use crate::counts::Counts;
use crate::draw;
use crate::image::{Lexicon, Voice};
use crate::library;
use crate::random::Random;
use crate::reference::{Number, WORK_SPACE};
use crate::ways::Backs;
use crate::work::Work;
use reference::Words;

const OF_IMAGES: [usize; 10] = [1, 2, 3, 4, 5, 6, 7, 8, 9, 10];
const SHOWN_DIFFERENCES: usize = 10;
const SHOWN_BYTES: usize = 400;
/// More room than any word takes.
const ROOM: usize = 40;

/// Two images, and what the reference reads in them.
struct Images {
    voice: Vec<u8>,
    lexicon: Vec<u8>,
    /// What follows each of them in memory.
    behind: [Vec<u8>; 2],
    words: Result<Words, Number>,
}

impl Images {
    fn new(voice: Vec<u8>, lexicon: Vec<u8>) -> Images {
        Images::cut(&voice, voice.len(), &lexicon, lexicon.len())
    }

    fn cut(voice: &[u8], of_voice: usize, lexicon: &[u8], of_lexicon: usize) -> Images {
        let (voice, after_voice) = voice.split_at(of_voice);
        let (lexicon, after_lexicon) = lexicon.split_at(of_lexicon);
        Images {
            voice: voice.to_vec(),
            lexicon: lexicon.to_vec(),
            behind: [after_voice.to_vec(), after_lexicon.to_vec()],
            words: reference::words(voice, lexicon),
        }
    }

    fn of(voice: &Voice, lexicon: &Lexicon) -> Images {
        Images::new(voice.bytes(), lexicon.bytes())
    }

    /// W, or 0 if the images are refused.
    fn count(&self) -> usize {
        self.words.as_ref().map_or(0, Words::count)
    }

    /// The word of a code below W.
    fn word(&self, code: usize) -> Vec<u8> {
        self.words
            .as_ref()
            .map_or(Vec::new(), |words| words.word(code).to_vec())
    }

    /// How long the listing is.
    fn length(&self) -> usize {
        self.words.as_ref().map_or(0, |words| words.listing().len())
    }
}

struct Codes {
    random: Random,
    voice: Buffer,
    lexicon: Buffer,
    word: Buffer,
    work: Work,
    out: Buffer,
    word_to_code: Counts,
    code_to_word: Counts,
    listing: Counts,
    backs: Backs,
    group: &'static str,
    differences: usize,
}

/// Runs all groups; says how many faults there are.
pub fn run(seed: u64) -> usize {
    let mut random = Random::from_seed(seed);
    let numbers = |more: &[usize]| Counts::of(&[&OF_IMAGES, more].concat());
    let mut codes = Codes {
        work: Work::new(&mut random, WORK_SPACE),
        random,
        voice: Buffer::new(),
        lexicon: Buffer::new(),
        word: Buffer::new(),
        out: Buffer::new(),
        word_to_code: numbers(&[13]),
        code_to_word: numbers(&[15, 16]),
        listing: numbers(&[16]),
        backs: Backs::default(),
        group: "",
        differences: 0,
    };
    codes.examples();
    codes.every_word(2_000);
    codes.near_misses(900);
    codes.outputs(250);
    codes.damaged_images(12_000);
    codes.any_bytes(600);
    codes.every_length(20);
    codes.several_at_once(8_000);
    codes.work_spaces(60);
    codes.limits();
    codes.large();
    codes.several_ways(400);
    codes.report()
}

impl Codes {
    fn report(&self) -> usize {
        let tables = [
            ("word to code", "code", &self.word_to_code),
            ("code to word", "word", &self.code_to_word),
            ("listing", "listed", &self.listing),
        ];
        let (mut missing, mut calls) = (0, 0);
        for (name, value, counts) in tables {
            println!("{name}");
            missing += counts.missing();
            counts.print(value);
            calls += counts.calls();
        }
        self.backs.print();
        println!(
            "words and codes: {calls} calls, {} differences",
            self.differences
        );
        self.differences + missing + self.backs.missing()
    }

    /// Opens a group in the tables of word to code, code to word and listing: all have the refusals `of_images` due, each
    /// its own of `others` too. Where none is due, the call is not made.
    fn begin(&mut self, group: &'static str, of_images: &[usize], others: [&[usize]; 3]) {
        let tables = [
            &mut self.word_to_code,
            &mut self.code_to_word,
            &mut self.listing,
        ];
        for (counts, others) in tables.into_iter().zip(others) {
            let due = [of_images, others].concat();
            if !due.is_empty() {
                counts.begin(group, &due);
            }
        }
        self.group = group;
    }

    fn hold(&mut self, images: &Images, work_length: usize) {
        let lent = |bytes, behind| Lent { bytes, behind };
        let voice = lent(&images.voice, &images.behind[0]);
        let lexicon = lent(&images.lexicon, &images.behind[1]);
        self.voice.hold(voice, &mut self.random);
        self.lexicon.hold(lexicon, &mut self.random);
        self.work.hold(work_length, &mut self.random);
    }

    fn hold_out(&mut self, length: usize) {
        let old = self.random.bytes(length);
        self.out.hold(whole(&old), &mut self.random);
    }

    /// One call, held to the reference, whose answer is returned; so are the next two.
    fn call_word_to_code(&mut self, images: &Images, word: Lent, work_length: usize) -> i32 {
        self.hold(images, work_length);
        self.word.hold(word, &mut self.random);
        let answer = library::word_to_code(
            &mut self.voice,
            &mut self.lexicon,
            &mut self.word,
            &mut self.work.buffer,
        );
        let expected = reference::word_to_code(&images.words, word.bytes, work_length);
        self.word_to_code.add(expected);
        let fault = if self.word.unchanged() {
            self.fault(answer, expected)
        } else {
            Some("the word or bytes around it changed")
        };
        if let Some(fault) = fault {
            let call = format!("word to code of {:?}", word.bytes);
            self.difference(&call, answer, expected, fault);
        }
        expected
    }

    fn call_code_to_word(
        &mut self,
        images: &Images,
        code: u32,
        work_length: usize,
        out_length: usize,
    ) -> i32 {
        self.hold(images, work_length);
        self.hold_out(out_length);
        let answer = library::code_to_word(
            &mut self.voice,
            &mut self.lexicon,
            code,
            &mut self.work.buffer,
            &mut self.out,
        );
        let left = reference::code_to_word(&images.words, code, work_length, out_length);
        self.code_to_word.add(left.answer);
        let fault = self.fault_in_output(answer, &left);
        if let Some(fault) = fault {
            let call = format!("code to word of {code}, output of {out_length} bytes");
            self.difference(&call, answer, left.answer, fault);
        }
        left.answer
    }

    fn call_list(&mut self, images: &Images, work_length: usize, out_length: usize) -> i32 {
        self.hold(images, work_length);
        self.hold_out(out_length);
        let answer = library::list(
            &mut self.voice,
            &mut self.lexicon,
            &mut self.work.buffer,
            &mut self.out,
        );
        let left = reference::list(&images.words, work_length, out_length);
        self.listing.add(left.answer);
        let fault = self.fault_in_output(answer, &left);
        if let Some(fault) = fault {
            let call = format!("listing, output of {out_length} bytes");
            self.difference(&call, answer, left.answer, fault);
        }
        left.answer
    }

    fn fault_in_output(&self, answer: i32, left: &reference::Left) -> Option<&'static str> {
        if answer == left.answer && !self.out.begins_with(left.written) {
            return Some("output bytes or bytes around them differ");
        }
        self.fault(answer, left.answer)
    }

    fn fault(&self, answer: i32, expected: i32) -> Option<&'static str> {
        if answer != expected {
            Some("another answer")
        } else if !self.voice.unchanged() || !self.lexicon.unchanged() {
            Some("an image or bytes around it changed")
        } else if !self.work.is_left_by(expected) {
            Some("work bytes or bytes around them differ")
        } else {
            None
        }
    }

    fn difference(&mut self, call: &str, answer: i32, expected: i32, fault: &str) {
        self.differences += 1;
        if self.differences > SHOWN_DIFFERENCES {
            return;
        }
        let group = self.group;
        println!(
            "difference in '{group}', {call}: {fault}; answered {answer}, expected {expected}"
        );
        for (name, buffer) in [("voice model", &self.voice), ("lexicon", &self.lexicon)] {
            let shown = &buffer.contents()[..buffer.length().min(SHOWN_BYTES)];
            println!("  {name} of {} bytes: {shown:?}", buffer.length());
        }
        println!("  work space of {} bytes", self.work.buffer.length());
    }

    /// A call whose answer is known from how the images were made. The reference is tested too.
    fn hold_reference_to(&mut self, known: i32, answer: i32) {
        if answer != known {
            self.differences += 1;
            let group = self.group;
            println!("the reference says {answer} in '{group}' to a call made for {known}");
        }
    }

    /// The word of these bytes, with enough work space.
    fn code_of(&mut self, images: &Images, word: &[u8]) -> i32 {
        self.call_word_to_code(images, whole(word), WORK_SPACE)
    }

    /// The word of this code, with enough work space and output.
    fn word_of(&mut self, images: &Images, code: u32) -> i32 {
        self.call_code_to_word(images, code, WORK_SPACE, ROOM)
    }

    /// All three calls, with enough of everything.
    fn call_all(&mut self, images: &Images, word: &[u8], code: u32, work_length: usize) {
        let length = images.length();
        self.call_word_to_code(images, whole(word), work_length);
        self.call_code_to_word(images, code, work_length, ROOM);
        self.call_list(images, work_length, length);
    }

    /// An accepted lexicon of at most some hundred words.
    fn accepted(&mut self) -> Images {
        loop {
            let random = &mut self.random;
            let sketch = draw::any_words(random);
            let voice = draw::voice_for(random, &sketch);
            let images = Images::of(&voice, &sketch.lexicon(random));
            if images.words.is_ok() {
                return images;
            }
        }
    }
}

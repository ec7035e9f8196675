//! Words to codes: lists of items looked up in one call and held to the reference: the answer, every byte of the output
//! and of the work space, and every byte of the images, of the list and around the buffers. Each item of an answered
//! list is looked up by itself too, with word to code, which has to answer the same.

mod examples;
mod items;
mod large;
mod lists;
mod reference;
mod refusals;

use crate::buffers::{whole, Buffer, Lent};
use crate::counts::Counts;
use crate::image::{Lexicon, Voice};
use crate::library;
use crate::random::Random;
use crate::reference::{Number, WORK_SPACE};
use crate::ways::Backs;
use crate::work::Work;
use items::Items;
use reference::{Words, ANSWER};

/// Values, and the refusals in the order in which they are tested.
const ALL: [usize; 13] = [0, 1, 2, 3, 4, 5, 6, 7, 8, 9, 10, 19, 16];
const SHOWN_DIFFERENCES: usize = 10;
const SHOWN_BYTES: usize = 400;
/// So many bytes of the list lie behind an item that is looked up by itself.
const BEHIND: usize = 40;

/// Two images, and what the reference reads in them.
struct Images {
    voice: Vec<u8>,
    lexicon: Vec<u8>,
    /// What follows each of them in memory.
    behind: [Vec<u8>; 2],
    words: Result<Words, Number>,
}

impl Images {
    fn new(voice: Vec<u8>, lexicon: Vec<u8>) -> Images {
        Images::cut(&voice, voice.len(), &lexicon, lexicon.len())
    }

    fn cut(voice: &[u8], of_voice: usize, lexicon: &[u8], of_lexicon: usize) -> Images {
        let (voice, after_voice) = voice.split_at(of_voice);
        let (lexicon, after_lexicon) = lexicon.split_at(of_lexicon);
        Images {
            voice: voice.to_vec(),
            lexicon: lexicon.to_vec(),
            behind: [after_voice.to_vec(), after_lexicon.to_vec()],
            words: reference::words(voice, lexicon),
        }
    }

    fn of(voice: &Voice, lexicon: &Lexicon) -> Images {
        Images::new(voice.bytes(), lexicon.bytes())
    }

    /// W, or 0 if the images are refused.
    fn count(&self) -> usize {
        self.words.as_ref().map_or(0, Words::count)
    }

    /// Any word, or a byte that is none if the images are refused.
    fn any_word(&self, random: &mut Random) -> Vec<u8> {
        match &self.words {
            Ok(words) => words.word(random.below(words.count())).to_vec(),
            Err(_) => vec![33],
        }
    }
}

/// What a call is lent beside the images: the list, and so many bytes.
#[derive(Clone, Copy)]
struct Call<'a> {
    list: Lent<'a>,
    work: usize,
    out: usize,
}

/// A call with buffers that are just long enough.
fn call_with(list: &[u8]) -> Call<'_> {
    let items = reference::items(list).map_or(0, |items| items.len());
    Call {
        list: whole(list),
        work: WORK_SPACE,
        out: ANSWER * items,
    }
}

/// The list of these items, none of more than 255 bytes.
fn list_of<Item: AsRef<[u8]>>(items: &[Item]) -> Vec<u8> {
    let mut list = Vec::new();
    for item in items {
        let item = item.as_ref();
        list.push(u8::try_from(item.len()).expect("an item's length in a byte"));
        list.extend_from_slice(item);
    }
    list
}

struct Stock {
    random: Random,
    voice: Buffer,
    lexicon: Buffer,
    list: Buffer,
    word: Buffer,
    work: Work,
    out: Buffer,
    counts: Counts,
    items: Items,
    backs: Backs,
    differences: usize,
}

/// Runs all groups; says how many faults there are.
pub fn run(seed: u64) -> usize {
    let mut random = Random::from_seed(seed);
    let mut stock = Stock {
        work: Work::new(&mut random, WORK_SPACE),
        random,
        voice: Buffer::new(),
        lexicon: Buffer::new(),
        list: Buffer::new(),
        word: Buffer::new(),
        out: Buffer::new(),
        counts: Counts::of(&ALL[1..]),
        items: Items::default(),
        backs: Backs::default(),
        differences: 0,
    };
    stock.examples();
    stock.any_lists(5_000);
    stock.several_ways(1_500);
    stock.numbers_of_items(4);
    stock.lengths(16);
    stock.every_byte(20);
    stock.cut_lists(200);
    stock.outputs(300);
    stock.work_spaces(104);
    stock.damaged_images(12_000);
    stock.any_bytes(3_000);
    stock.every_length(20);
    stock.several_at_once(10_000);
    stock.limits();
    stock.large();
    stock.report()
}

impl Stock {
    fn report(&self) -> usize {
        println!("words to codes");
        self.counts.print("answered");
        self.items.print();
        self.backs.print();
        println!(
            "stock lists: {} calls, {} differences",
            self.counts.calls(),
            self.differences
        );
        let missing = self.counts.missing() + self.items.missing() + self.backs.missing();
        self.differences + missing
    }

    fn hold(&mut self, images: &Images, call: Call) {
        let lent = |bytes, behind| Lent { bytes, behind };
        let random = &mut self.random;
        self.voice
            .hold(lent(&images.voice, &images.behind[0]), random);
        self.lexicon
            .hold(lent(&images.lexicon, &images.behind[1]), random);
        self.list.hold(call.list, random);
        self.work.hold(call.work, random);
        let old = random.bytes(call.out);
        self.out.hold(whole(&old), random);
    }

    /// One call, held to the reference, whose answer is returned.
    fn call(&mut self, images: &Images, call: Call) -> i32 {
        self.hold(images, call);
        let answer = library::words_to_codes(
            &mut self.voice,
            &mut self.lexicon,
            &mut self.list,
            &mut self.work.buffer,
            &mut self.out,
        );
        let list = call.list.bytes;
        let due = reference::words_to_codes(&images.words, list, call.work, call.out);
        let expected = match &due {
            Ok(written) => (written.len() / ANSWER) as i32,
            Err(number) => -number,
        };
        self.counts.add(expected);
        let written = due.unwrap_or_default();
        if let Some(fault) = self.fault(answer, expected, &written) {
            self.difference(&format!("{fault}; answered {answer}, expected {expected}"));
        } else if expected > 0 {
            self.look_up_alone(list);
        }
        expected
    }

    fn fault(&self, answer: i32, expected: i32, written: &[u8]) -> Option<&'static str> {
        if answer != expected {
            Some("another answer")
        } else if !self.voice.unchanged() || !self.lexicon.unchanged() {
            Some("an image or bytes around it changed")
        } else if !self.list.unchanged() {
            Some("the list or bytes around it changed")
        } else if !self.work.is_left_by(expected) {
            Some("work bytes or bytes around them differ")
        } else if !self.out.begins_with(written) {
            Some("output bytes or bytes around them differ")
        } else {
            None
        }
    }

    /// After a call that answered: the 8 bytes of every item are what word to code answers for that item alone, with
    /// the following items behind it in memory.
    fn look_up_alone(&mut self, list: &[u8]) {
        let mut at = 0;
        for (i, item) in reference::items(list)
            .unwrap_or_default()
            .iter()
            .enumerate()
        {
            let behind = &list[at + 1 + item.len()..];
            at += 1 + item.len();
            let lent = Lent {
                bytes: item,
                behind: &behind[..behind.len().min(BEHIND)],
            };
            self.word.hold(lent, &mut self.random);
            self.work.hold(WORK_SPACE, &mut self.random);
            let of_word = library::word_to_code(
                &mut self.voice,
                &mut self.lexicon,
                &mut self.word,
                &mut self.work.buffer,
            );
            let written = &self.out.contents()[ANSWER * i..ANSWER * (i + 1)];
            if written != reference::answer(of_word) {
                let told = format!("item {i} is {written:?}, and word to code answers {of_word}");
                self.difference(&told);
            }
            self.items.add(item, of_word >= 0);
        }
        self.items.end();
    }

    fn difference(&mut self, what: &str) {
        self.differences += 1;
        if self.differences > SHOWN_DIFFERENCES {
            return;
        }
        println!("difference in '{}': {what}", self.counts.group());
        for (name, buffer) in [
            ("voice model", &self.voice),
            ("lexicon", &self.lexicon),
            ("list", &self.list),
            ("output", &self.out),
        ] {
            let shown = &buffer.contents()[..buffer.length().min(SHOWN_BYTES)];
            println!("  {name} of {} bytes: {shown:?}", buffer.length());
        }
        println!("  work space of {} bytes", self.work.buffer.length());
    }

    /// A call with buffers that are just long enough, whose answer is known from how it was made.
    fn call_for(&mut self, known: i32, images: &Images, list: &[u8]) {
        let answer = self.call(images, call_with(list));
        self.hold_reference_to(known, answer);
    }

    /// The reference is tested too.
    fn hold_reference_to(&mut self, known: i32, answer: i32) {
        if answer != known {
            self.difference(&format!(
                "the reference says {answer} to a call made for {known}"
            ));
        }
    }
}

//! Prints the stack that a call takes, for each exported function with a lexicon the most over the bench's inputs.
//! Words are also looked up in all lexicons of bench/codes, since a search may go down a level for each letter, and the
//! canonical image is also written of all lists of bench/canonical.

#[allow(dead_code)]
mod calls;
#[allow(dead_code)]
mod canonical_inputs;
#[allow(dead_code)]
#[path = "../tests/running/draw.rs"]
mod draw;
#[allow(dead_code)]
#[path = "../tests/running/image.rs"]
mod image;
mod inputs;
#[allow(dead_code)]
mod items;
mod lexicons;
#[allow(dead_code)]
#[path = "../tests/running/random.rs"]
mod random;
#[allow(dead_code)]
#[path = "../tests/running/sketch.rs"]
mod sketch;

use inputs::Input;
use random::Random;

/// The same fields as in stack.c.
#[repr(C)]
struct Call {
    which: u32,
    code: u32,
    voice: *const u8,
    lexicon: *const u8,
    word: *const u8,
    items: *const u8,
    voice_len: usize,
    lexicon_len: usize,
    word_len: usize,
    items_len: usize,
    work: *mut u8,
    further: *mut u8,
    out: *mut u8,
    work_len: usize,
    further_len: usize,
    out_len: usize,
    answer: i32,
    used: usize,
}

extern "C" {
    fn stack_of(call: *mut Call);
}

/// The calls in the order of stack.c.
const CALLS: [&str; 7] = [
    "check",
    "word_to_code",
    "words_to_codes",
    "code_to_word",
    "list",
    "decode",
    "canonical",
];
const WORD_TO_CODE: usize = 1;
const WORDS_TO_CODES: usize = 2;
const CANONICAL: usize = 6;

/// What include/wundaleth.h promises that no call reaches.
const LIMIT: usize = 16_384;

/// Room for the listing of any accepted lexicon: 2^20 words of 32 letters and byte 10.
const LISTING: usize = 33 << 20;

/// What a call is made with.
struct Asked<'a> {
    name: &'a str,
    voice: &'a [u8],
    lexicon: &'a [u8],
    word: &'a [u8],
    items: &'a [u8],
    code: u32,
}

impl<'a> Asked<'a> {
    fn of(name: &'a str, voice: &'a [u8], lexicon: &'a [u8]) -> Asked<'a> {
        Asked {
            name,
            voice,
            lexicon,
            word: &[],
            items: &[],
            code: 0,
        }
    }
}

struct Lent {
    work: Vec<u8>,
    further: Vec<u8>,
    out: Vec<u8>,
    /// By the calls in their order.
    most: [usize; CALLS.len()],
}

impl Lent {
    /// Prints the answer and the bytes of stack.
    fn measure(&mut self, which: usize, asked: &Asked) {
        let mut call = Call {
            which: which as u32,
            code: asked.code,
            voice: asked.voice.as_ptr(),
            lexicon: asked.lexicon.as_ptr(),
            word: asked.word.as_ptr(),
            items: asked.items.as_ptr(),
            voice_len: asked.voice.len(),
            lexicon_len: asked.lexicon.len(),
            word_len: asked.word.len(),
            items_len: asked.items.len(),
            work: self.work.as_mut_ptr(),
            further: self.further.as_mut_ptr(),
            out: self.out.as_mut_ptr(),
            work_len: self.work.len(),
            further_len: self.further.len(),
            out_len: self.out.len(),
            answer: 0,
            used: 0,
        };
        // Each pointer is valid for its length.
        unsafe { stack_of(&mut call) };
        assert!(call.used > 0, "no thread to call from");
        let (name, of, answer, used) = (asked.name, CALLS[which], call.answer, call.used);
        println!("{name:<38} {of:<15} answer {answer:>9}: {used:>6} bytes");
        self.most[which] = used.max(self.most[which]);
    }

    /// These calls with an input: word to code with a longest word, words to codes with 1,000 items, of which that word
    /// is the first, and code to word with the last code. A lexicon that is refused has no words.
    fn measure_all(&mut self, calls: &[usize], input: &Input) {
        let words = calls::keep(input, &mut self.work);
        let stock = (words > 0).then(|| items::stocks(input, &mut self.work));
        let mut asked = Asked::of(input.name, &input.voice, &input.lexicon);
        if let Some([stock, _]) = &stock {
            asked.word = &stock.items[0];
            asked.items = &stock.bytes;
            asked.code = words as u32 - 1;
        }
        for which in calls {
            self.measure(*which, &asked);
        }
    }
}

fn main() {
    let mut lent = Lent {
        work: vec![0; 64_000],
        further: vec![0; 262_144],
        out: vec![0; LISTING],
        most: [0; CALLS.len()],
    };
    let every: Vec<usize> = (0..CALLS.len()).collect();
    for input in inputs::inputs(&mut Random::from_seed(1)) {
        lent.measure_all(&every, &input);
    }
    for input in lexicons::all(&mut Random::from_seed(1)) {
        lent.measure_all(&[WORD_TO_CODE, WORDS_TO_CODES], &input);
    }
    let families = canonical_inputs::families(&mut Random::from_seed(1));
    for input in families.iter().flat_map(|family| &family.inputs) {
        let name = format!("{}, {}", input.name, input.order);
        lent.measure(CANONICAL, &Asked::of(&name, &input.voice, &input.lexicon));
    }
    let mut kept = true;
    for (name, most) in CALLS.iter().zip(lent.most) {
        let over = if most < LIMIT { "" } else { ", over the limit" };
        println!("stack of wundaleth_{name}: {most} bytes of {LIMIT}{over}");
        kept &= most < LIMIT;
    }
    assert!(kept);
}

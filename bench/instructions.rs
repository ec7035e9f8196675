//! Makes calls of one kind and prints a line for each: its table, its name, and the answer with a sum over the output.
//! The first argument says which: decoding, once with every case of bench/decode, in both forms of links; word to code,
//! with three words for each lexicon of bench/codes; or words to codes, with both lists of bench/stock for each.
//! bench/instructions runs it under callgrind, which counts what each call executes.

#[allow(dead_code)]
mod calls;
#[allow(dead_code)]
mod decode_cases;
#[allow(dead_code)]
mod decode_inputs;
#[allow(dead_code)]
#[path = "../tests/running/draw.rs"]
mod draw;
#[allow(dead_code)]
#[path = "../tests/running/image.rs"]
mod image;
#[allow(dead_code)]
mod inputs;
#[allow(dead_code)]
mod items;
mod lexicons;
#[allow(dead_code)]
#[path = "../tests/running/random.rs"]
mod random;
#[allow(dead_code)]
#[path = "../tests/running/sketch.rs"]
mod sketch;
#[path = "../include/wundaleth.rs"]
mod wundaleth;

use calls::Side;
use decode_cases::{cases, Case};
use decode_inputs::Links;
use random::Random;

/// At a page's start: how many instructions memset takes to clear it depends on where it lies.
#[repr(align(4096))]
struct Work([u8; 64_000]);

fn sum(out: &[u8]) -> u64 {
    out.iter().fold(0, |sum, byte| {
        sum.wrapping_mul(31).wrapping_add((*byte).into())
    })
}

/// One call, with a work space as calls leave it.
fn print_decoding(name: &str, case: &Case, work: &mut Work) {
    let mut out = [0; 64];
    let answer = case.call(wundaleth::wundaleth_decode, &mut work.0, &mut out);
    let (links, sum) = (case.links.name(), sum(&out));
    println!("decoding, one call, {links}\t{name}\t{answer} {sum:x}");
}

fn print_decodings(links: Links, work: &mut Work) {
    let cases = cases(links);
    for case in &cases.table {
        let (input, length, n) = (&case.input, case.frames.len(), case.n);
        let name = format!("{}, {} places, T {length}, n {n}", input.name, input.places);
        print_decoding(&name, case, work);
    }
    for series in &cases.series {
        for (size, case) in &series.cases {
            let name = format!("series over {}, {size}", series.name);
            print_decoding(&name, case, work);
        }
    }
}

/// A search goes deepest for a longest word. The near-word is the other word with a change.
fn print_lookups(work: &mut Work) {
    for input in lexicons::all(&mut Random::from_seed(1)) {
        let [words, near_words] = items::stocks(&input, &mut work.0);
        for (kind, word) in [
            ("a longest word", &words.items[0]),
            ("any word", &words.items[3]),
            ("a near-word", &near_words.items[3]),
        ] {
            let answer = calls::word_to_code(Side::Product, &input, word, &mut work.0);
            println!("word to code, one call\t{}, {kind}\t{answer}", input.name);
        }
    }
}

#[cfg(words_to_codes)]
fn print_lists(work: &mut Work) {
    let mut out = [0; 8 * items::ITEMS];
    for input in lexicons::all(&mut Random::from_seed(1)) {
        for stock in items::stocks(&input, &mut work.0) {
            let (side, items) = (Side::Product, &stock.bytes);
            let answer = calls::words_to_codes(side, &input, items, &mut work.0, &mut out);
            let (name, list, sum) = (input.name, stock.name, sum(&out));
            println!("words to codes, 1,000 items\t{name}, {list}\t{answer} {sum:x}");
        }
    }
}

/// A library from before that call does not have it.
#[cfg(not(words_to_codes))]
fn print_lists(_: &mut Work) {}

/// A thread's stack begins at a page too, whatever the environment holds.
fn main() {
    let kind = std::env::args().nth(1).unwrap_or_default();
    let calls = std::thread::spawn(move || {
        let mut work = Box::new(Work([0; 64_000]));
        match kind.as_str() {
            "word_to_code" => print_lookups(&mut work),
            "words_to_codes" => print_lists(&mut work),
            _ => {
                print_decodings(Links::One, &mut work);
                print_decodings(Links::ByLetter, &mut work);
            }
        }
    });
    assert!(calls.join().is_ok());
}

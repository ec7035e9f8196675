//! Times the product's word to code and code to word beside the plain ones: whole calls on the same words, call about
//! call, and the plain lookups alone beside a marisa trie. Prints medians. bench/stock times lists of words.

#[allow(dead_code)]
mod calls;
#[allow(dead_code)]
#[path = "../tests/running/draw.rs"]
mod draw;
#[allow(dead_code)]
#[path = "../tests/running/image.rs"]
mod image;
#[allow(dead_code)]
mod inputs;
mod lexicons;
#[allow(dead_code)]
#[path = "../tests/running/random.rs"]
mod random;
#[allow(dead_code)]
#[path = "../tests/running/sketch.rs"]
mod sketch;

use calls::{check, code_to_word, word_to_code, Side};
use inputs::Input;
use random::Random;
use std::time::Instant;

const WORDS: usize = 64;
/// Each word 25 times: with fewer the median over words that take unlike times jumps from run to run.
const SAMPLES: usize = 25 * WORDS;
/// Microseconds that word to code may take more than checking, even where the plain one takes less than half of that.
const ALLOWED: f64 = 2.0;
/// Lookups alone are timed in rows of so many.
const ROW: usize = 4_096;
const ROWS: usize = 11;

/// A word and its code.
type Entry = (Vec<u8>, u32);

fn median(mut samples: Vec<f64>) -> f64 {
    samples.sort_by(f64::total_cmp);
    samples[samples.len() / 2]
}

/// Microseconds of one call.
fn timed(call: impl FnOnce() -> i32) -> f64 {
    let begin = Instant::now();
    std::hint::black_box(call());
    begin.elapsed().as_secs_f64() * 1e6
}

/// All words with their codes, by the plain lookup.
fn all_words(input: &Input, work: &mut [u8]) -> Vec<Entry> {
    let count = calls::keep(input, work);
    assert!(count > 0, "{}: {count}", input.name);
    let word = |code| (calls::find_word(input, code), code);
    (0..count as u32).map(word).collect()
}

/// Both sides give the same, and what was looked up.
fn compare(input: &Input, entries: &[Entry], work: &mut [u8]) {
    for (word, code) in entries {
        for side in [Side::Product, Side::Plain] {
            let mut out = [0; 32];
            assert_eq!(word_to_code(side, input, word, work), *code as i32);
            let length = code_to_word(side, input, *code, work, &mut out);
            assert_eq!(length, word.len() as i32);
            assert_eq!(&out[..word.len()], &word[..]);
        }
    }
}

/// Of the product and of the plain one: the calls' medians, their ratio, and what the calls take more than checks do.
/// Where so much is allowed at least, also what the product may take more: that, or twice what the plain one does.
fn print_row(
    name: &str,
    direction: &str,
    calls: [Vec<f64>; 2],
    checks: &[Vec<f64>; 2],
    allowed: Option<f64>,
) {
    let more = |k: usize| {
        let differences = calls[k].iter().zip(&checks[k]);
        median(differences.map(|(call, check)| call - check).collect())
    };
    let more = [more(0), more(1)];
    let [product, plain] = calls.map(median);
    let ratio = product / plain;
    print!("  {name:<20}{direction:<14}{product:>12.1}{plain:>10.1}{ratio:>8.2}");
    print!("{:>16.2}{:>12.2}", more[0], more[1]);
    match allowed {
        Some(least) => println!("{:>10.2}", least.max(2.0 * more[1])),
        None => println!(),
    }
}

/// Whole calls in both directions with these words. A check of the same side goes before, untimed, so that neither side
/// begins with what the other one left in the processor.
fn time_calls(name: &str, input: &Input, entries: &[Entry], work: &mut [u8]) {
    let mut to_code = [Vec::new(), Vec::new()];
    let mut to_word = [Vec::new(), Vec::new()];
    let mut checks = [Vec::new(), Vec::new()];
    let mut out = [0; 32];
    for (word, code) in entries.iter().cycle().take(SAMPLES) {
        for (k, side) in [Side::Product, Side::Plain].into_iter().enumerate() {
            check(side, input, work);
            checks[k].push(timed(|| check(side, input, work)));
            to_code[k].push(timed(|| word_to_code(side, input, word, work)));
            to_word[k].push(timed(|| code_to_word(side, input, *code, work, &mut out)));
        }
    }
    print_row(name, "word to code", to_code, &checks, Some(ALLOWED));
    print_row("", "code to word", to_word, &checks, None);
}

/// Any words, and then words of about the same length where lengths differ much.
fn whole_calls(input: &Input, words: &[Entry], random: &mut Random, work: &mut [u8]) {
    let lengths = words.iter().map(|entry| entry.0.len());
    let (shortest, longest) = (lengths.clone().min(), lengths.max());
    let (name, nodes, arcs, count) = (input.name, input.nodes, input.arcs, words.len());
    let letters = format!("{} to {}", shortest.unwrap_or(0), longest.unwrap_or(0));
    println!("{name}: {count} words of {letters} letters, {nodes} nodes, {arcs} arcs");
    let all: Vec<&Entry> = words.iter().collect();
    time_some("any words", input, &all, random, work);
    for (shortest, longest) in [(1, 8), (9, 16), (17, 24), (25, 32)] {
        let fits = |entry: &&Entry| (shortest..=longest).contains(&entry.0.len());
        let of_length: Vec<&Entry> = words.iter().filter(fits).collect();
        if !of_length.is_empty() && of_length.len() < words.len() {
            let name = format!("{shortest} to {longest} letters");
            time_some(&name, input, &of_length, random, work);
        }
    }
}

/// The first and the last of these words and others between them.
fn time_some(name: &str, input: &Input, words: &[&Entry], random: &mut Random, work: &mut [u8]) {
    let mut some = vec![words[0].clone(), words[words.len() - 1].clone()];
    some.resize_with(WORDS, || (*random.pick(words)).clone());
    compare(input, &some, work);
    time_calls(name, input, &some, work);
}

/// Nanoseconds of one lookup, the median of rows of many.
fn row_of<T>(items: &[T], mut lookup: impl FnMut(&T)) -> f64 {
    let mut rows = Vec::new();
    for _ in 0..ROWS {
        let begin = Instant::now();
        items.iter().for_each(&mut lookup);
        rows.push(begin.elapsed().as_secs_f64() * 1e9 / items.len() as f64);
    }
    median(rows)
}

fn lookups_alone(input: &Input, words: &[Entry], random: &mut Random, work: &mut [u8]) {
    calls::keep(input, work);
    let some: Vec<Entry> = (0..ROW).map(|_| random.pick(words).clone()).collect();
    let mut out = [0; 32];
    let to_code = row_of(&some, |entry| {
        std::hint::black_box(calls::find_code(input, &entry.0));
    });
    let to_word = row_of(&some, |entry| {
        std::hint::black_box(calls::find_word_into(input, entry.1, &mut out));
    });
    let (name, bytes) = (input.name, input.lexicon.len());
    print!("{name:<30}{to_code:>12.0}{to_word:>14.0}{bytes:>10}");
    marisa(words, &some);
}

#[cfg(marisa)]
fn marisa(words: &[Entry], some: &[Entry]) {
    let bytes = calls::marisa_trie(words.iter().map(|entry| entry.0.as_slice()));
    let of_marisa: Vec<(&[u8], usize)> = some
        .iter()
        .map(|entry| (entry.0.as_slice(), calls::marisa_find_code(&entry.0)))
        .collect();
    let mut out = [0; 64];
    for (word, number) in &of_marisa {
        let length = calls::marisa_find_word(*number, &mut out);
        assert_eq!(&out[..length], *word);
    }
    let to_code = row_of(&of_marisa, |entry| {
        std::hint::black_box(calls::marisa_find_code(entry.0));
    });
    let to_word = row_of(&of_marisa, |entry| {
        std::hint::black_box(calls::marisa_find_word(entry.1, &mut out));
    });
    println!("{to_code:>14.0}{to_word:>14.0}{bytes:>10}");
}

#[cfg(not(marisa))]
fn marisa(_: &[Entry], _: &[Entry]) {
    println!();
}

fn main() {
    let mut work = vec![0; 64_000];
    let mut random = Random::from_seed(1);
    let inputs = lexicons::all(&mut random);
    println!(
        "whole calls in microseconds, checking included; then what they take more than checking,"
    );
    println!("and what word to code may take more at most: twice what the plain one does, or 2");
    println!(
        "{:<36}{:>12}{:>10}{:>8}{:>16}{:>12}{:>10}",
        "", "product", "plain", "ratio", "product more", "plain more", "at most"
    );
    for input in &inputs {
        let words = all_words(input, &mut work);
        whole_calls(input, &words, &mut random, &mut work);
    }
    println!("\nlookups alone in nanoseconds; bytes of the lexicon image and of the trie");
    println!(
        "{:<30}{:>12}{:>14}{:>10}{:>14}{:>14}{:>10}",
        "", "plain code", "plain word", "image", "marisa number", "marisa word", "trie"
    );
    for input in &inputs {
        let words = all_words(input, &mut work);
        lookups_alone(input, &words, &mut random, &mut work);
    }
}

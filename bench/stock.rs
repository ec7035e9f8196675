//! Times words to codes with lists of 1,000 items beside a plain one in C, call about call, beside as many calls with a
//! word each, and beside the lookups of a marisa trie. Prints medians, and the worst ratio to the plain one. It stands
//! apart from bench/codes, where a call looks up one word and nearly all of it is checking: here one check serves 1,000
//! lookups, so that what a lookup takes is seen, which there is less than calls of checking differ by.

#[allow(dead_code)]
mod calls;
#[allow(dead_code)]
#[path = "../tests/running/draw.rs"]
mod draw;
#[allow(dead_code)]
#[path = "../tests/running/image.rs"]
mod image;
#[allow(dead_code)]
mod inputs;
mod items;
mod lexicons;
#[allow(dead_code)]
#[path = "../tests/running/random.rs"]
mod random;
#[allow(dead_code)]
#[path = "../tests/running/sketch.rs"]
mod sketch;

use calls::{check, word_to_code, words_to_codes, Side};
use inputs::Input;
use items::{Stock, ITEMS};
use random::Random;

extern "C" {
    fn clock_gettime(clock: i32, time: *mut [i64; 2]) -> i32;
}

const SIDES: [Side; 2] = [Side::Product, Side::Plain];
/// Both sides are called in turn as often as a second holds, within these bounds. Half of the calls are timed.
const SECOND: f64 = 1e6;
const FEWEST: usize = 11;
const MOST: usize = 301;
/// How often 1,000 calls with a word each are timed.
const SINGLES: usize = 5;
/// How often marisa's lookups of all items are timed.
#[cfg(marisa)]
const ROWS: usize = 101;

/// Linux's number for the processor time of this process.
const PROCESSOR_TIME: i32 = 2;

/// Microseconds of processor time so far, so that what else runs on the machine counts as little as can be.
fn now() -> f64 {
    let mut time = [0; 2];
    // seconds and nanoseconds, 64 bits each
    unsafe { clock_gettime(PROCESSOR_TIME, &mut time) };
    time[0] as f64 * 1e6 + time[1] as f64 / 1e3
}

fn timed<T>(call: impl FnOnce() -> T) -> f64 {
    let begin = now();
    std::hint::black_box(call());
    now() - begin
}

fn median(mut samples: Vec<f64>) -> f64 {
    samples.sort_by(f64::total_cmp);
    samples[samples.len() / 2]
}

struct Lent {
    work: Vec<u8>,
    out: Vec<u8>,
}

fn list_call(side: Side, input: &Input, stock: &Stock, lent: &mut Lent) -> i32 {
    words_to_codes(side, input, &stock.bytes, &mut lent.work, &mut lent.out)
}

/// Eight bytes: the refusal or 0, the code or 0.
fn result(answer: i32) -> [u8; 8] {
    let numbers = [(-answer).max(0), answer.max(0)];
    std::array::from_fn(|k| numbers[k / 4].to_le_bytes()[k % 4])
}

/// Both sides give the same bytes, and for each item what the product gives for the item alone.
fn compare(input: &Input, stock: &Stock, lent: &mut Lent) {
    let name = format!("{}, {}", input.name, stock.name);
    let alone = |item: &Vec<u8>| result(word_to_code(SIDES[0], input, item, &mut lent.work));
    let expected: Vec<u8> = stock.items.iter().flat_map(alone).collect();
    for side in SIDES {
        lent.out.fill(255);
        let answer = list_call(side, input, stock, lent);
        assert_eq!(answer, ITEMS as i32, "{name}");
        assert!(lent.out == expected, "{name}: other bytes");
    }
}

/// Of a list, in microseconds.
struct Times {
    /// The call with the list, of the product and of the plain one.
    lists: [f64; 2],
    /// What it takes more than checking just before it.
    more: [f64; 2],
    /// Of the product's call to the plain one that follows it: what else the machine does then counts for both.
    ratio: f64,
    /// As many calls of the product with a word each.
    singles: f64,
}

fn times(input: &Input, stock: &Stock, lent: &mut Lent) -> Times {
    let mut lists = [Vec::new(), Vec::new()];
    let mut more = [Vec::new(), Vec::new()];
    let once = timed(|| SIDES.map(|side| list_call(side, input, stock, lent)));
    let samples = (SECOND / 2.0 / once) as usize;
    for _ in 0..samples.clamp(FEWEST, MOST) {
        for (k, side) in SIDES.into_iter().enumerate() {
            // once untimed, so that neither side begins with what the other one left in the processor
            list_call(side, input, stock, lent);
            let check = timed(|| check(side, input, &mut lent.work));
            let list = timed(|| list_call(side, input, stock, lent));
            lists[k].push(list);
            more[k].push(list - check);
        }
    }
    let ratios = lists[0].iter().zip(&lists[1]);
    Times {
        ratio: median(ratios.map(|(product, plain)| product / plain).collect()),
        lists: lists.map(median),
        more: more.map(median),
        singles: singles(input, stock, lent),
    }
}

fn singles(input: &Input, stock: &Stock, lent: &mut Lent) -> f64 {
    let mut all = || {
        for item in &stock.items {
            std::hint::black_box(word_to_code(SIDES[0], input, item, &mut lent.work));
        }
    };
    median((0..SINGLES).map(|_| timed(&mut all)).collect())
}

/// Microseconds of marisa's lookups of all items, if it is there. The trie is built before.
#[cfg(marisa)]
fn marisa(stock: &Stock) -> Option<f64> {
    let all = || {
        for item in &stock.items {
            std::hint::black_box(calls::marisa_find_code(item));
        }
    };
    Some(median((0..ROWS).map(|_| timed(all)).collect()))
}

#[cfg(not(marisa))]
fn marisa(_: &Stock) -> Option<f64> {
    None
}

#[cfg(marisa)]
fn build_trie(input: &Input, work: &mut [u8]) {
    let count = calls::keep(input, work) as u32;
    let words: Vec<Vec<u8>> = (0..count)
        .map(|code| calls::find_word(input, code))
        .collect();
    calls::marisa_trie(words.iter().map(Vec::as_slice));
}

#[cfg(not(marisa))]
fn build_trie(_: &Input, _: &mut [u8]) {}

fn print_head() {
    println!("lists of 1,000 items in microseconds of processor time, checking included, and as many calls with a");
    println!("word each; then nanoseconds an item, without checking");
    print!("{:<50}{:>9}{:>9}{:>7}", "", "product", "plain", "ratio");
    print!("{:>13}{:>12}", "1,000 calls", "product ns");
    println!("{:>10}{:>11}", "plain ns", "marisa ns");
}

fn print_row(input: &Input, stock: &Stock, times: &Times) {
    let [product, plain] = times.lists;
    print!(
        "{:<30}{:<20}{product:>9.1}{plain:>9.1}",
        input.name, stock.name
    );
    print!("{:>7.2}{:>13.0}", times.ratio, times.singles);
    let each = |microseconds: f64| microseconds * 1e3 / ITEMS as f64;
    print!("{:>12.0}{:>10.0}", each(times.more[0]), each(times.more[1]));
    match marisa(stock) {
        Some(lookups) => println!("{:>11.0}", each(lookups)),
        None => println!(),
    }
}

/// The worst ratio of some lexicons, and where it is.
struct Worst {
    ratio: f64,
    place: String,
}

fn time_lists(inputs: &[Input], lent: &mut Lent) -> Worst {
    let mut worst = Worst {
        ratio: 0.0,
        place: String::new(),
    };
    for input in inputs {
        build_trie(input, &mut lent.work);
        for stock in items::stocks(input, &mut lent.work) {
            compare(input, &stock, lent);
            let times = times(input, &stock, lent);
            print_row(input, &stock, &times);
            if times.ratio > worst.ratio {
                worst.ratio = times.ratio;
                worst.place = format!("{}, {}", input.name, stock.name);
            }
        }
    }
    worst
}

fn main() {
    let mut lent = Lent {
        work: vec![0; 64_000],
        out: vec![0; 8 * ITEMS],
    };
    let inputs = lexicons::all(&mut Random::from_seed(1));
    let (usual, hard) = inputs.split_at(inputs.len() - lexicons::HARD);
    print_head();
    let worst = time_lists(usual, &mut lent);
    println!("worst ratio: {:.2} ({})", worst.ratio, worst.place);
    println!("lexicons built so that a search goes astray:");
    let worst = time_lists(hard, &mut lent);
    println!("worst ratio: {:.2} ({})", worst.ratio, worst.place);
}

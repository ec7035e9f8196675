//! Times the product's decoding, with all its checking, beside a plain token-passing decoder that checks nothing, and
//! beside decoding word by word, on the same inputs, in turn; prints the medians and the ratios for each form of links,
//! then three series with one link, which are also written to a file, from which bench/plot draws.

mod decode_cases;
mod decode_inputs;
#[allow(dead_code)]
#[path = "../tests/running/draw.rs"]
mod draw;
#[allow(dead_code)]
#[path = "../tests/running/image.rs"]
mod image;
#[allow(dead_code)]
#[path = "../tests/running/random.rs"]
mod random;
#[allow(dead_code)]
#[path = "../tests/running/sketch.rs"]
mod sketch;
#[path = "../include/wundaleth.rs"]
mod wundaleth;

use decode_cases::{cases, Case, Decode, Series};
use decode_inputs::Links;
use wundaleth::wundaleth_decode;

macro_rules! decoders {
    ($($name:ident)*) => {
        extern "C" {
            $(fn $name(
                voice: *const u8,
                voice_len: usize,
                lexicon: *const u8,
                lexicon_len: usize,
                frames: *const u8,
                frames_len: usize,
                n: u32,
                work: *mut u8,
                work_len: usize,
                out: *mut u8,
                out_len: usize,
            ) -> i32;)*
        }
    };
}

decoders!(plain_decode word_by_word);

extern "C" {
    fn clock_gettime(clock: i32, time: *mut [i64; 2]) -> i32;
}

/// Linux's number for the processor time of this process.
const PROCESSOR_TIME: i32 = 2;

/// Microseconds of processor time so far, so that what else runs on the machine counts as little as can be.
fn now() -> f64 {
    let mut time = [0; 2];
    // seconds and nanoseconds, 64 bits each
    unsafe { clock_gettime(PROCESSOR_TIME, &mut time) };
    time[0] as f64 * 1e6 + time[1] as f64 / 1e3
}

/// For a figure a decoder is called in rounds, at least and at most so many, until it has taken about so many
/// microseconds.
const ROUNDS: (usize, usize) = (3, 200);
const SPENT: f64 = 50_000.0;
/// Word by word is left out where a call would take about a second or more: so many frames times states of words.
const MOST_STEPS: u64 = 160_000_000;

/// Microseconds a call.
struct Times {
    product: f64,
    plain: f64,
    /// Of product to plain, of calls that follow each other: what else the machine does then counts for both.
    ratio: f64,
    by_words: Option<f64>,
}

impl Case {
    /// Calls so often in a row; microseconds a call.
    fn time(&self, decode: Decode, calls: usize, work: &mut [u8]) -> f64 {
        let mut out = [0; 64];
        let begin = now();
        for _ in 0..calls {
            std::hint::black_box(self.call(decode, work, &mut out));
        }
        (now() - begin) / calls as f64
    }

    /// All decoders give the same hits; then they are timed in turn.
    fn times(&self, work: &mut [u8]) -> Times {
        let mut decoders: Vec<Decode> = vec![wundaleth_decode, plain_decode];
        if self.input.states_of_words * (self.frames.len() as u64) < MOST_STEPS {
            decoders.push(word_by_word);
        }
        let mut lists = Vec::new();
        for decode in &decoders {
            let mut out = [0; 64];
            lists.push((self.call(*decode, work, &mut out), out));
        }
        assert!(lists.iter().all(|list| *list == lists[0]), "{lists:?}");
        let once = self.time(plain_decode, 1, work);
        // short calls in rows of about 100 microseconds
        let calls = (100.0 / once) as usize + 1;
        let mut samples = vec![Vec::new(); decoders.len()];
        for round in 0..ROUNDS.1 {
            for (k, decode) in decoders.iter().enumerate() {
                let least = if k < 2 { ROUNDS.0 } else { 1 };
                if round < least || samples[k].iter().sum::<f64>() * (calls as f64) < SPENT {
                    samples[k].push(self.time(*decode, calls, work));
                }
            }
        }
        let in_turn = samples[0].iter().zip(&samples[1]);
        let ratio = median(in_turn.map(|(product, plain)| product / plain).collect());
        let medians: Vec<f64> = samples.into_iter().map(median).collect();
        Times {
            ratio,
            product: medians[0],
            plain: medians[1],
            by_words: medians.get(2).copied(),
        }
    }
}

fn median(mut samples: Vec<f64>) -> f64 {
    samples.sort_by(f64::total_cmp);
    samples[samples.len() / 2]
}

fn shown(time: Option<f64>) -> String {
    time.map_or("-".to_string(), |time| format!("{time:.1}"))
}

/// All inputs, T and n; returns the worst ratio to the plain decoder for T = 50 and for more frames: of the scope
/// paper's five words, where a frame takes some 50 nanoseconds, and of all larger lexicons.
fn table(form: &str, cases: &[Case], work: &mut [u8]) -> [[f64; 2]; 2] {
    let head = ["product µs", "plain µs", "ratio", "words µs", "ratio"];
    let head: String = head.iter().map(|name| format!("{name:>12}")).collect();
    println!(
        "{form:<24}{:>7}{:>6}{:>8}{:>6}{:>3}{head}",
        "places", "arcs", "words", "T", "n"
    );
    let mut worst = [[0f64; 2]; 2];
    for case in cases {
        let (input, length, n) = (&case.input, case.frames.len(), case.n);
        let times = case.times(work);
        let ratio = times.ratio;
        let of_words = times.by_words.map(|time| times.product / time);
        println!(
            "{:<24}{:>7}{:>6}{:>8}{length:>6}{n:>3}{:>12.1}{:>12.1}{ratio:>12.2}{:>12}{:>12}",
            input.name,
            input.places,
            input.arcs,
            input.words,
            times.product,
            times.plain,
            shown(times.by_words),
            of_words.map_or("-".to_string(), |ratio| format!("{ratio:.4}")),
        );
        let worst = &mut worst[usize::from(input.words > 5)][usize::from(length > 50)];
        *worst = worst.max(ratio);
    }
    worst
}

/// The table of one form of links, and its worst ratios. A library may be older than the form.
fn print_form(links: Links, work: &mut [u8]) {
    let cases = cases(links);
    let form = links.name();
    if cases.are_refused(wundaleth_decode, work) {
        println!("{form}: refused by this library, left out");
        return;
    }
    let worst = table(form, &cases.table, work);
    for (name, worst) in ["five words", "from 20 nodes up"].iter().zip(worst) {
        println!(
            "worst ratio to plain, {form}, {name}: {:.2} for T = 50, {:.2} for T of 300 and 1,000",
            worst[0], worst[1]
        );
    }
}

/// One series: what grows, and the times. They are printed and added to the file's rows.
fn print_series(series: &Series, work: &mut [u8], rows: &mut String) {
    let name = series.name;
    println!();
    println!(
        "{:>12}{:>14}{:>14}{:>14}{:>14}",
        name, "product µs", "µs each", "plain µs", "words µs"
    );
    for (size, case) in &series.cases {
        let times = case.times(work);
        let (product, plain) = (times.product, times.plain);
        let each = product / *size as f64;
        let by_words = shown(times.by_words);
        println!("{size:>12}{product:>14.1}{each:>14.4}{plain:>14.1}{by_words:>14}");
        *rows += &format!("{name},{size},{product:.1},{plain:.1},{by_words}\n");
    }
}

fn main() {
    let file = std::env::args().nth(1).unwrap_or("series.csv".to_string());
    let work = &mut vec![0; 64_000];
    print_form(Links::One, work);
    println!();
    print_form(Links::ByLetter, work);
    let mut rows = "series,size,product,plain,word by word\n".to_string();
    for series in &cases(Links::One).series {
        print_series(series, work, &mut rows);
    }
    match std::fs::write(&file, rows) {
        Ok(()) => println!("written: {file}"),
        Err(error) => println!("not written: {file}: {error}"),
    }
}

//! Times the product's canonical images beside a plain builder, which checks nothing, on the same inputs, in turn, and
//! prints the medians: of the whole call, of checking alone, of what the call takes more, of the plain builder, and of
//! the ratio of these two; then the worst ratio of each kind of list, and how times grow with the words. Both have to
//! write the same bytes.

mod canonical_inputs;
#[allow(dead_code)]
#[path = "../tests/running/draw.rs"]
mod draw;
#[allow(dead_code)]
#[path = "../tests/running/image.rs"]
mod image;
#[allow(dead_code)]
#[path = "../tests/running/random.rs"]
mod random;
#[allow(dead_code)]
#[path = "../tests/running/sketch.rs"]
mod sketch;
#[path = "../include/wundaleth.rs"]
mod wundaleth;

use canonical_inputs::{families, Family, Input};
use random::Random;
use wundaleth::{wundaleth_canonical, wundaleth_check};

extern "C" {
    fn plain_canonical(
        voice: *const u8,
        lexicon: *const u8,
        further: *mut u8,
        out: *mut u8,
        out_len: usize,
    ) -> i32;
    fn clock_gettime(clock: i32, time: *mut [i64; 2]) -> i32;
}

const SAMPLES: usize = 61;
const WORK: usize = 64_000;
const FURTHER: usize = 262_144;
/// Room for any canonical image.
const IMAGE: usize = 10_000;

/// Linux's number for the processor time of this process.
const PROCESSOR_TIME: i32 = 2;

/// Microseconds of processor time so far, so that what else runs on the machine counts as little as can be.
fn now() -> f64 {
    let mut time = [0; 2];
    // seconds and nanoseconds, 64 bits each
    unsafe { clock_gettime(PROCESSOR_TIME, &mut time) };
    time[0] as f64 * 1e6 + time[1] as f64 / 1e3
}

fn timed<T>(call: impl FnOnce() -> T) -> f64 {
    let begin = now();
    std::hint::black_box(call());
    now() - begin
}

fn median(mut samples: Vec<f64>) -> f64 {
    samples.sort_by(f64::total_cmp);
    samples[samples.len() / 2]
}

/// At a page's start: the plain builder keeps its tables there, and how many instructions memset takes to clear a space
/// depends on where it lies.
#[repr(align(4096))]
struct Space<const N: usize>([u8; N]);

struct Lent {
    work: Box<Space<WORK>>,
    further: Box<Space<FURTHER>>,
    out: Box<Space<IMAGE>>,
}

/// In each call every pointer is valid for its length.
impl Input {
    fn check(&self, lent: &mut Lent) -> i32 {
        unsafe {
            wundaleth_check(
                self.voice.as_ptr(),
                self.voice.len(),
                self.lexicon.as_ptr(),
                self.lexicon.len(),
                lent.work.0.as_mut_ptr(),
                WORK,
            )
        }
    }

    fn product(&self, lent: &mut Lent) -> i32 {
        unsafe {
            wundaleth_canonical(
                self.voice.as_ptr(),
                self.voice.len(),
                self.lexicon.as_ptr(),
                self.lexicon.len(),
                lent.work.0.as_mut_ptr(),
                WORK,
                lent.further.0.as_mut_ptr(),
                FURTHER,
                lent.out.0.as_mut_ptr(),
                IMAGE,
            )
        }
    }

    fn plain(&self, lent: &mut Lent) -> i32 {
        unsafe {
            plain_canonical(
                self.voice.as_ptr(),
                self.lexicon.as_ptr(),
                lent.further.0.as_mut_ptr(),
                lent.out.0.as_mut_ptr(),
                IMAGE,
            )
        }
    }

    /// The canonical image, which both sides write. Checking counts as many words as the list has.
    fn image(&self, lent: &mut Lent) -> Vec<u8> {
        let name = format!("{}, {}", self.name, self.order);
        assert_eq!(self.check(lent), self.words.len() as i32, "{name}");
        let length = self.product(lent);
        assert!(length > 0, "{name}: {length}");
        let image = lent.out.0[..length as usize].to_vec();
        lent.out.0.fill(0);
        assert_eq!(self.plain(lent), length, "{name}");
        assert!(lent.out.0.starts_with(&image), "{name}: other bytes");
        image
    }
}

/// Microseconds.
struct Times {
    product: f64,
    check: f64,
    /// What a call takes more than checking just before it.
    more: f64,
    plain: f64,
    /// Of the last two, in calls that follow each other: what else the machine does then counts for both.
    ratio: f64,
}

/// Each side is called once before, untimed, so that neither begins with what the other one left in the processor.
fn times(input: &Input, lent: &mut Lent) -> Times {
    let mut samples = [const { Vec::new() }; 5];
    for _ in 0..SAMPLES {
        input.product(lent);
        let check = timed(|| input.check(lent));
        let product = timed(|| input.product(lent));
        input.plain(lent);
        let plain = timed(|| input.plain(lent));
        let more = product - check;
        for (list, sample) in samples
            .iter_mut()
            .zip([product, check, more, plain, more / plain])
        {
            list.push(sample);
        }
    }
    let [product, check, more, plain, ratio] = samples.map(median);
    Times {
        product,
        check,
        more,
        plain,
        ratio,
    }
}

fn number(bytes: &[u8]) -> usize {
    u16::from_le_bytes([bytes[0], bytes[1]]).into()
}

/// One row for each input, and the worst ratio.
fn table(family: &Family, lent: &mut Lent) -> Vec<Times> {
    let head = [
        "words", "letters", "stored", "written", "product", "check", "more", "plain", "ratio",
    ];
    let head: String = head.iter().map(|name| format!("{name:>9}")).collect();
    println!("{:<29}{:<9}{head}", family.name, "order");
    let row = |input: &Input| {
        let image = input.image(lent);
        let times = times(input, lent);
        let sizes = [
            input.words.len(),
            input.letters(),
            number(&input.lexicon),
            number(&image),
        ];
        let sizes: String = sizes.iter().map(|size| format!("{size:>9}")).collect();
        println!(
            "{:<29}{:<9}{sizes}{:>9.1}{:>9.1}{:>9.1}{:>9.1}{:>9.2}",
            input.name,
            input.order,
            times.product,
            times.check,
            times.more,
            times.plain,
            times.ratio
        );
        times
    };
    let rows: Vec<Times> = family.inputs.iter().map(row).collect();
    let worst = rows.iter().map(|times| times.ratio).fold(0.0, f64::max);
    println!("worst ratio, {}: {worst:.2}\n", family.name);
    rows
}

/// Nanoseconds a word, of lists that differ in their length, for each order in which they are stored.
fn growth(family: &Family, rows: &[Times]) {
    println!("growth with the words, nanoseconds a word");
    println!(
        "{:<9}{:>8}{:>9}{:>9}{:>9}",
        "order", "words", "check", "more", "plain"
    );
    for order in ["rising", "falling", "shuffled"] {
        let of_order = family
            .inputs
            .iter()
            .zip(rows)
            .filter(|(input, _)| input.order == order);
        for (input, times) in of_order {
            let words = input.words.len();
            let each = |time: f64| time * 1e3 / words as f64;
            println!(
                "{order:<9}{words:>8}{:>9.0}{:>9.0}{:>9.0}",
                each(times.check),
                each(times.more),
                each(times.plain)
            );
        }
    }
}

#[cfg(openfst)]
mod openfst {
    use super::{median, number, timed, Family, Input, Lent};
    use std::collections::HashSet;

    extern "C" {
        fn openfst_of_graph(lexicon: *const u8) -> usize;
        fn openfst_of_words(words: *const u8, count: usize) -> usize;
    }

    const SAMPLES: usize = 5;

    /// A state is what may follow, so there are as many as there are different lists in the canonical image.
    fn states(image: &[u8]) -> usize {
        let mut rest = &image[2 + number(image)..];
        let mut lists = HashSet::new();
        while rest.len() > 2 {
            let (list, later) = rest.split_at(2 + 2 * number(rest));
            lists.insert(list);
            rest = later;
        }
        lists.len()
    }

    fn median_of(call: impl Fn() -> usize, states: usize) -> f64 {
        assert_eq!(call(), states);
        median((0..SAMPLES).map(|_| timed(&call)).collect())
    }

    /// Of lists that are stored shuffled.
    pub fn table(families: &[Family], lent: &mut Lent) {
        println!("OpenFst: determinising and minimising, microseconds");
        println!(
            "{:<29}{:>9}{:>9}{:>12}{:>12}",
            "shuffled", "words", "states", "of graph", "of words"
        );
        let inputs = families.iter().flat_map(|family| &family.inputs);
        for input in inputs.filter(|input| input.order == "shuffled") {
            row(input, lent);
        }
    }

    fn row(input: &Input, lent: &mut Lent) {
        let states = states(&input.image(lent));
        let mut slots = Vec::new();
        for word in &input.words {
            slots.push(word.len() as u8);
            slots.extend(word);
        }
        let words = input.words.len();
        // what is passed is valid for as much as is read of it
        let of_graph = median_of(
            || unsafe { openfst_of_graph(input.lexicon.as_ptr()) },
            states,
        );
        let of_words = median_of(
            || unsafe { openfst_of_words(slots.as_ptr(), words) },
            states,
        );
        println!(
            "{:<29}{words:>9}{states:>9}{of_graph:>12.0}{of_words:>12.0}",
            input.name
        );
    }
}

#[cfg(not(openfst))]
mod openfst {
    pub fn table(_: &[super::Family], _: &mut super::Lent) {}
}

/// One call with each input, for callgrind, which counts what it executes; a line for each, with its family.
fn call_once(families: &[Family], lent: &mut Lent) {
    for family in families {
        for input in &family.inputs {
            println!("{}\t{}", family.name, input.product(lent));
        }
    }
}

fn main() {
    let lent = &mut Lent {
        work: Box::new(Space([0; WORK])),
        further: Box::new(Space([0; FURTHER])),
        out: Box::new(Space([0; IMAGE])),
    };
    let families = families(&mut Random::from_seed(1));
    if std::env::args().nth(1).is_some_and(|mode| mode == "once") {
        call_once(&families, lent);
        return;
    }
    println!("stored, written: nodes. Microseconds of processor time; more: than checking; ratio: of more to plain\n");
    let rows: Vec<Vec<Times>> = families.iter().map(|family| table(family, lent)).collect();
    growth(&families[0], &rows[0]);
    let clearing = (0..SAMPLES).map(|_| timed(|| lent.further.0.fill(0)));
    let clearing = median(clearing.collect());
    println!("in more and in plain: {clearing:.1} microseconds a call for clearing the further work space\n");
    openfst::table(&families, lent);
}

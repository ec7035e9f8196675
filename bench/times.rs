//! Times two libraries' decoding and the plain decoder in turn on the cases of bench/decode with 50 and 300 frames, and
//! prints a line for each: its links, its part of the table, its name, and the ratios of the library called old and of
//! the one called new to the plain decoder. bench/times links it with them.

#[allow(dead_code)]
mod decode_cases;
#[allow(dead_code)]
mod decode_inputs;
#[allow(dead_code)]
#[path = "../tests/running/draw.rs"]
mod draw;
#[allow(dead_code)]
#[path = "../tests/running/image.rs"]
mod image;
#[allow(dead_code)]
#[path = "../tests/running/random.rs"]
mod random;
#[allow(dead_code)]
#[path = "../tests/running/sketch.rs"]
mod sketch;

use decode_cases::{cases, Case, Decode};
use decode_inputs::Links;

macro_rules! decoders {
    ($($name:ident)*) => {
        extern "C" {
            $(fn $name(
                voice: *const u8,
                voice_len: usize,
                lexicon: *const u8,
                lexicon_len: usize,
                frames: *const u8,
                frames_len: usize,
                n: u32,
                work: *mut u8,
                work_len: usize,
                out: *mut u8,
                out_len: usize,
            ) -> i32;)*
        }
    };
}

decoders!(old_decode new_decode plain_decode);

extern "C" {
    fn clock_gettime(clock: i32, time: *mut [i64; 2]) -> i32;
}

/// Linux's number for the processor time of this process.
const PROCESSOR_TIME: i32 = 2;

/// Microseconds of processor time so far.
fn now() -> f64 {
    let mut time = [0; 2];
    // seconds and nanoseconds, 64 bits each
    unsafe { clock_gettime(PROCESSOR_TIME, &mut time) };
    time[0] as f64 * 1e6 + time[1] as f64 / 1e3
}

/// A case is timed in rounds, at least so many, until they have taken so many microseconds.
const ROUNDS: usize = 5;
const SPENT: f64 = 40_000.0;

/// At a page's start, whatever the program is linked with.
#[repr(align(4096))]
struct Work([u8; 64_000]);

fn time(case: &Case, decode: Decode, calls: usize, work: &mut Work) -> f64 {
    let mut out = [0; 64];
    let begin = now();
    for _ in 0..calls {
        std::hint::black_box(case.call(decode, &mut work.0, &mut out));
    }
    now() - begin
}

/// The least of each one's rounds, since what else the machine does can only add to a time; old and new to plain.
fn ratios(case: &Case, work: &mut Work) -> [f64; 2] {
    let decoders: [Decode; 3] = [old_decode, new_decode, plain_decode];
    let lists = decoders.map(|decode| {
        let mut out = [0; 64];
        (case.call(decode, &mut work.0, &mut out), out)
    });
    assert!(lists.iter().all(|list| *list == lists[0]), "{lists:?}");
    // short calls in rows of about 100 microseconds
    let calls = (100.0 / time(case, decoders[0], 1, work)) as usize + 1;
    let mut least = [f64::MAX; 3];
    let begin = now();
    let mut round = 0;
    while round < ROUNDS || now() - begin < SPENT {
        // each in turn is the first
        for k in (0..3).map(|k| (round + k) % 3) {
            least[k] = least[k].min(time(case, decoders[k], calls, work));
        }
        round += 1;
    }
    [least[0] / least[2], least[1] / least[2]]
}

/// A form of links that the old library does not know has no lines.
fn print_form(links: Links, work: &mut Work) {
    let cases = cases(links);
    if cases.are_refused(old_decode, &mut work.0) {
        return;
    }
    for case in cases.table.iter().filter(|case| case.frames.len() < 1_000) {
        let (form, input, length, n) = (links.name(), &case.input, case.frames.len(), case.n);
        let part = if input.words > 5 {
            "from 20 nodes up"
        } else {
            "five words"
        };
        let [old, new] = ratios(case, work);
        println!(
            "{form}\t{part}, T {length}\t{}, {} places, T {length}, n {n}\t{old:.4}\t{new:.4}",
            input.name, input.places
        );
    }
}

fn main() {
    let mut work = Box::new(Work([0; 64_000]));
    print_form(Links::One, &mut work);
    print_form(Links::ByLetter, &mut work);
}

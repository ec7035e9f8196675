//! Times the product's checking beside the plain one on the same inputs, call about call, and prints the medians.

#[allow(dead_code)]
#[path = "../tests/running/draw.rs"]
mod draw;
#[allow(dead_code)]
#[path = "../tests/running/image.rs"]
mod image;
mod inputs;
#[allow(dead_code)]
#[path = "../tests/running/random.rs"]
mod random;
#[allow(dead_code)]
#[path = "../tests/running/sketch.rs"]
mod sketch;
#[path = "../include/wundaleth.rs"]
mod wundaleth;

use inputs::Input;
use std::time::{Duration, Instant};
use wundaleth::wundaleth_check;

type Check = unsafe extern "C" fn(*const u8, usize, *const u8, usize, *mut u8, usize) -> i32;

extern "C" {
    fn plain_check(v: *const u8, vn: usize, l: *const u8, ln: usize, w: *mut u8, wn: usize) -> i32;
}

const SAMPLES: usize = 301;
/// Short calls are timed in rows of about this length.
const SAMPLE: Duration = Duration::from_micros(50);

fn call(check: Check, input: &Input, work: &mut [u8]) -> i32 {
    let (voice, lexicon) = (&input.voice, &input.lexicon);
    // Each pointer is valid for its length.
    unsafe {
        check(
            voice.as_ptr(),
            voice.len(),
            lexicon.as_ptr(),
            lexicon.len(),
            work.as_mut_ptr(),
            work.len(),
        )
    }
}

/// Microseconds a call.
fn sample(check: Check, input: &Input, work: &mut [u8], calls: usize) -> f64 {
    let begin = Instant::now();
    for _ in 0..calls {
        std::hint::black_box(call(check, input, work));
    }
    begin.elapsed().as_secs_f64() * 1e6 / calls as f64
}

fn median(mut samples: Vec<f64>) -> f64 {
    samples.sort_by(f64::total_cmp);
    samples[samples.len() / 2]
}

fn main() {
    let mut work = vec![0; 64_000];
    println!(
        "{:<30}{:>6}{:>6}{:>9}{:>12}{:>12}{:>8}",
        "checking", "nodes", "arcs", "answer", "product µs", "plain µs", "ratio"
    );
    for input in inputs::inputs(&mut random::Random::from_seed(1)) {
        let answer = call(wundaleth_check, &input, &mut work);
        let plain = call(plain_check, &input, &mut work);
        assert_eq!(answer, plain, "{}", input.name);
        let once = sample(plain_check, &input, &mut work, 1);
        let calls = (SAMPLE.as_micros() as f64 / once) as usize + 1;
        let (mut of_product, mut of_plain) = (Vec::new(), Vec::new());
        for _ in 0..SAMPLES {
            of_product.push(sample(wundaleth_check, &input, &mut work, calls));
            of_plain.push(sample(plain_check, &input, &mut work, calls));
        }
        let (product, plain) = (median(of_product), median(of_plain));
        let (name, nodes, arcs) = (input.name, input.nodes, input.arcs);
        let ratio = product / plain;
        println!(
            "{name:<30}{nodes:>6}{arcs:>6}{answer:>9}{product:>12.1}{plain:>12.1}{ratio:>8.2}"
        );
    }
}

//! Packs and unpacks 8 codes by two libraries, called old and new, and by the plain functions; bench/packing links it
//! with them. Without an argument it compares answers and output, times the three in turn, and prints a line for each
//! call and width: nanoseconds of old, new and plain. With the argument packing or unpacking it makes each such call
//! once and prints a line for it; callgrind counts what each executes.

#[allow(dead_code)]
#[path = "../tests/running/random.rs"]
mod random;

use random::Random;
use std::hint::black_box;

type Pack = unsafe extern "C" fn(u32, *const u32, usize, *mut u8, usize) -> i32;
type Unpack = unsafe extern "C" fn(u32, u32, *const u8, usize, *mut u8, usize) -> i32;

macro_rules! packings {
    ($($pack:ident $unpack:ident)*) => {
        extern "C" {
            $(fn $pack(words: u32, codes: *const u32, n: usize, out: *mut u8, out_len: usize) -> i32;
            fn $unpack(
                words: u32,
                n: u32,
                packed: *const u8,
                packed_len: usize,
                out: *mut u8,
                out_len: usize,
            ) -> i32;)*
        }
    };
}

packings!(old_pack old_unpack new_pack new_unpack plain_pack plain_unpack);

extern "C" {
    fn clock_gettime(clock: i32, time: *mut [i64; 2]) -> i32;
}

/// Linux's number for the processor time of this process.
const PROCESSOR_TIME: i32 = 2;

/// Nanoseconds of processor time so far.
fn now() -> f64 {
    let mut time = [0; 2];
    // seconds and nanoseconds, 64 bits each
    unsafe { clock_gettime(PROCESSOR_TIME, &mut time) };
    time[0] as f64 * 1e9 + time[1] as f64
}

struct Side {
    name: &'static str,
    pack: Pack,
    unpack: Unpack,
}

const SIDES: [Side; 3] = [
    Side {
        name: "old",
        pack: old_pack,
        unpack: old_unpack,
    },
    Side {
        name: "new",
        pack: new_pack,
        unpack: new_unpack,
    },
    Side {
        name: "plain",
        pack: plain_pack,
        unpack: plain_unpack,
    },
];

impl Side {
    #[inline(always)]
    fn pack(&self, words: u32, codes: &[u32], out: &mut [u8]) -> i32 {
        let (n, out_len) = (codes.len(), out.len());
        // Each pointer is valid for its length; so below.
        unsafe { (self.pack)(words, codes.as_ptr(), n, out.as_mut_ptr(), out_len) }
    }

    #[inline(always)]
    fn unpack(&self, words: u32, n: u32, packed: &[u8], out: &mut [u8]) -> i32 {
        let (packed_len, out_len) = (packed.len(), out.len());
        unsafe {
            (self.unpack)(
                words,
                n,
                packed.as_ptr(),
                packed_len,
                out.as_mut_ptr(),
                out_len,
            )
        }
    }
}

const WIDTHS: [usize; 4] = [1, 7, 8, 20];
const CODES: usize = 8;
/// Of codes, in turn, so that branches are not predicted from one set alone.
const SETS: usize = 16;
/// Calls between two readings of the clock, of each set as many.
const CALLS: usize = 8_192;
/// A call with one width is timed in rounds until they have taken so many nanoseconds.
const SPENT: f64 = 6e7;
/// Room for eight codes, unpacked.
const ROOM: usize = 4 * CODES;

#[derive(Clone, Copy)]
enum Kind {
    Packing,
    Unpacking,
}

const KINDS: [Kind; 2] = [Kind::Packing, Kind::Unpacking];

impl Kind {
    fn name(self) -> &'static str {
        match self {
            Kind::Packing => "packing",
            Kind::Unpacking => "unpacking",
        }
    }

    #[inline(always)]
    fn call(self, side: &Side, words: u32, set: &Set, out: &mut [u8]) -> i32 {
        match self {
            Kind::Packing => side.pack(words, &set.codes, out),
            Kind::Unpacking => side.unpack(words, CODES as u32, &set.packed, out),
        }
    }
}

struct Set {
    codes: [u32; CODES],
    packed: Vec<u8>,
}

/// The sets of one width.
struct Row {
    width: usize,
    words: u32,
    sets: Vec<Set>,
}

/// Eight codes take as many bytes as a code takes bits. None of the three is asked for them: callgrind would count it.
fn packed(width: usize, codes: &[u32; CODES]) -> Vec<u8> {
    let bit = |at: usize| (codes[at / width] >> (width - 1 - at % width) & 1) as u8;
    let byte = |k: usize| (8 * k..8 * k + 8).fold(0, |byte, at| byte << 1 | bit(at));
    (0..width).map(byte).collect()
}

fn row(width: usize, random: &mut Random) -> Row {
    let words = 1 << width;
    let set = |_| {
        let codes = std::array::from_fn(|_| random.below(words as usize) as u32);
        let packed = packed(width, &codes);
        Set { codes, packed }
    };
    let sets = (0..SETS).map(set).collect();
    Row { width, words, sets }
}

/// The loop is the same for all three, and calls through the same pointers.
#[inline(never)]
fn time(side: &Side, kind: Kind, row: &Row, out: &mut [u8]) -> f64 {
    let begin = now();
    for _ in 0..CALLS / SETS {
        for set in &row.sets {
            black_box(kind.call(side, row.words, set, out));
        }
    }
    (now() - begin) / CALLS as f64
}

/// The least of each one's rounds, since what else the machine does can only add to a time.
fn times(kind: Kind, row: &Row) -> [f64; 3] {
    let mut out = [0; ROOM];
    let mut least = [f64::MAX; 3];
    let begin = now();
    let mut round = 0;
    while now() - begin < SPENT {
        // each in turn is the first
        for k in (0..3).map(|k| (round + k) % 3) {
            least[k] = least[k].min(time(black_box(&SIDES[k]), kind, row, &mut out));
        }
        round += 1;
    }
    least
}

/// Each of the three has to give this answer and write these bytes, none with a refusal, and no others.
fn compare(due: i32, written: &[u8], room: usize, call: impl Fn(&Side, &mut [u8]) -> i32) {
    let before = [0x5a; ROOM];
    let mut after = before;
    after[..written.len()].copy_from_slice(written);
    for side in &SIDES {
        let mut out = before;
        let answer = call(side, &mut out[..room]);
        assert_eq!((answer, out), (due, after), "{}", side.name);
    }
}

fn compare_values(row: &Row) {
    for set in &row.sets {
        let unpacked: Vec<u8> = set.codes.iter().flat_map(|c| c.to_le_bytes()).collect();
        for (kind, due, written) in [
            (Kind::Packing, row.width, &set.packed),
            (Kind::Unpacking, CODES, &unpacked),
        ] {
            compare(due as i32, written, ROOM, |side, out| {
                kind.call(side, row.words, set, out)
            });
        }
    }
}

/// Three codes below 100 take 21 bits.
fn compare_refusals() {
    for (due, words, codes, room) in [
        (-9, 0, &[1, 2, 3][..], ROOM),
        (-9, 1_048_577, &[1, 2, 3], ROOM),
        (-12, 100, &[], ROOM),
        (-12, 100, &[0; 9], ROOM),
        (-15, 100, &[1, 2, 100], ROOM),
        (-16, 100, &[1, 2, 3], 2),
    ] {
        compare(due, &[], room, |side, out| side.pack(words, codes, out));
    }
    for (due, words, n, packed, room) in [
        (-9, 0, 3, &[0, 0, 0][..], ROOM),
        (-9, 1_048_577, 3, &[0, 0, 0], ROOM),
        (-12, 100, 0, &[], ROOM),
        (-12, 100, 9, &[0; 8], ROOM),
        (-14, 100, 3, &[0, 0], ROOM),
        (-14, 100, 3, &[0, 0, 1], ROOM),
        (-15, 100, 3, &[200, 0, 0], ROOM),
        (-16, 100, 3, &[0, 0, 0], 11),
    ] {
        compare(due, &[], room, |side, out| {
            side.unpack(words, n, packed, out)
        });
    }
}

fn print_times(rows: &[Row]) {
    compare_refusals();
    rows.iter().for_each(compare_values);
    for kind in KINDS {
        for row in rows {
            let [old, new, plain] = times(kind, row);
            let (name, width) = (kind.name(), row.width);
            println!("{name}\t{width}\t{old:.3}\t{new:.3}\t{plain:.3}");
        }
    }
}

/// No call of this kind goes before them: each line belongs to one of callgrind's counts.
fn print_calls(kind: Kind, rows: &[Row]) {
    let mut out = [0; ROOM];
    for row in rows {
        for side in &SIDES {
            for set in &row.sets {
                black_box(kind.call(side, row.words, set, &mut out));
                println!("{}\t{}\t{}", kind.name(), row.width, side.name);
            }
        }
    }
}

/// A thread's stack begins at a page, whatever the environment holds.
fn main() {
    let wanted = std::env::args().nth(1);
    let calls = std::thread::spawn(move || {
        let random = &mut Random::from_seed(1);
        let rows = WIDTHS.map(|width| row(width, random));
        match wanted {
            None => print_times(&rows),
            Some(name) => {
                let kind = KINDS.into_iter().find(|kind| kind.name() == name);
                print_calls(kind.expect("packing or unpacking"), &rows);
            }
        }
    });
    assert!(calls.join().is_ok());
}

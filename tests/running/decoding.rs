//! Decoding, called with images, frames and buffers of every kind and held to the word-by-word decoder: the answer, every
//! byte of the output and of the work space, and every byte of what is only read and around the buffers.

mod large;
mod links;
mod lists;
mod refusals;
mod scores;
mod small;
mod word_by_word;

use crate::buffers::{whole, Buffer, Lent};
use crate::counts::Counts;
use crate::image::{small_lexicon, small_voice, Lexicon};
use crate::library;
use crate::random::Random;
use crate::reference::{Number, WORK_SPACE};
use crate::work::Work;
use lists::Lists;
use word_by_word::{Hit, Images};

const ALL: [usize; 14] = [0, 1, 2, 3, 4, 5, 6, 7, 8, 9, 10, 11, 12, 16];
const SHOWN_DIFFERENCES: usize = 10;
const SHOWN_BYTES: usize = 400;
/// Up to so many words and frames, some lists are also made by other readings of the links.
const FEW_WORDS: usize = 48;
const FEW_FRAMES: usize = 60;

/// The arguments of one call.
#[derive(Clone, Copy)]
struct Call<'a> {
    voice: Lent<'a>,
    lexicon: Lent<'a>,
    frames: Lent<'a>,
    n: u32,
    work_length: usize,
    out_length: usize,
}

/// Two images, and what the reference makes of them.
struct Pair {
    voice: Vec<u8>,
    lexicon: Vec<u8>,
    images: Result<Images, Number>,
}

impl Pair {
    fn of(voice: Vec<u8>, lexicon: Vec<u8>) -> Pair {
        let images = Images::of(&voice, &lexicon);
        Pair {
            voice,
            lexicon,
            images,
        }
    }

    /// A call with buffers that are just long enough.
    fn call<'a>(&'a self, frames: &'a [u8], n: u32) -> Call<'a> {
        Call {
            voice: whole(&self.voice),
            lexicon: whole(&self.lexicon),
            frames: whole(frames),
            n,
            work_length: WORK_SPACE,
            out_length: 8 * n.min(100) as usize,
        }
    }
}

struct Decoding {
    random: Random,
    voice: Buffer,
    lexicon: Buffer,
    frames: Buffer,
    work: Work,
    out: Buffer,
    counts: Counts,
    lists: Lists,
    differences: usize,
}

/// Runs all groups; says how many faults there are.
pub fn run(seed: u64) -> usize {
    let mut random = Random::from_seed(seed);
    let mut decoding = Decoding {
        work: Work::new(&mut random, WORK_SPACE),
        random,
        voice: Buffer::new(),
        lexicon: Buffer::new(),
        frames: Buffer::new(),
        out: Buffer::new(),
        counts: Counts::of(&ALL[1..]),
        lists: Lists::new(),
        differences: 0,
    };
    decoding.examples();
    decoding.links();
    decoding.small(26_000);
    decoding.damaged_images(20_000);
    decoding.any_bytes(2_000);
    decoding.every_length(25);
    decoding.work_spaces(280);
    decoding.limits(25);
    decoding.limits_of_images();
    decoding.several_at_once(20_000);
    decoding.extremes(25);
    decoding.every_number_of_frames(10);
    decoding.large(15);
    decoding.very_many_words();
    let missing = decoding.counts.missing() + decoding.lists.missing();
    decoding.counts.print("listed");
    decoding.lists.print();
    println!(
        "decoding: {} calls, {} differences",
        decoding.counts.calls(),
        decoding.differences
    );
    decoding.differences + missing
}

fn bytes_of(hits: &[Hit]) -> Vec<u8> {
    let mut bytes = Vec::new();
    for hit in hits {
        bytes.extend_from_slice(&(hit.score as i32).to_le_bytes());
        bytes.extend_from_slice(&hit.code.to_le_bytes());
    }
    bytes
}

impl Decoding {
    fn begin(&mut self, group: &'static str, due: &[usize]) {
        self.counts.begin(group, due);
        self.lists.begin(group);
    }

    fn hold(&mut self, call: &Call) {
        let random = &mut self.random;
        self.voice.hold(call.voice, random);
        self.lexicon.hold(call.lexicon, random);
        // frames that would be heard if more were read than are lent
        let frames = Lent {
            bytes: call.frames.bytes,
            behind: &[call.frames.behind, &[0; 8]].concat(),
        };
        self.frames.hold(frames, random);
        self.work.hold(call.work_length, random);
        let old = random.bytes(call.out_length);
        self.out.hold(whole(&old), random);
    }

    /// One call, held to the reference, whose hits or refusal are returned.
    fn call(&mut self, images: &Result<Images, Number>, call: Call) -> Result<Vec<Hit>, Number> {
        self.hold(&call);
        let answer = library::decode(
            &mut self.voice,
            &mut self.lexicon,
            &mut self.frames,
            call.n,
            &mut self.work.buffer,
            &mut self.out,
        );
        let (frames, work, out) = (call.frames.bytes, call.work_length, call.out_length);
        let list = word_by_word::decode(images, frames, call.n, work, out);
        if let (Ok(images), Ok(list)) = (images, &list) {
            self.lists.add(list, call.n);
            self.count_links(images, frames, call.n, &list.hits);
        }
        let hits = list.map(|list| list.hits);
        self.compare(call.n, answer, &hits);
        hits
    }

    /// What links the list comes from. For some lists of few words all readings of the links are made, and the right
    /// one has to give the list again.
    fn count_links(&mut self, images: &Images, frames: &[u8], n: u32, hits: &[Hit]) {
        let is_small = images.words.len() <= FEW_WORDS && frames.len() <= FEW_FRAMES;
        let is_tried = images.stored_links > 1 && is_small && self.random.once_in(4);
        let readings = is_tried.then(|| images.readings(frames, n));
        if readings.as_ref().is_some_and(|lists| lists.left != hits) {
            self.difference("the reference lists otherwise if it adds up the links by themselves");
        }
        self.lists.add_links(images, hits, readings.as_ref());
    }

    fn compare(&mut self, n: u32, answer: i32, hits: &Result<Vec<Hit>, Number>) {
        let (expected, written) = match hits {
            Ok(hits) => (hits.len() as i32, bytes_of(hits)),
            Err(number) => (-number, Vec::new()),
        };
        let read_only = [&self.voice, &self.lexicon, &self.frames];
        let what = if answer != expected {
            format!("answered {answer}, expected {expected}")
        } else if !read_only.iter().all(|buffer| buffer.unchanged()) {
            format!("answered {answer}, an image, frames or bytes around them changed")
        } else if !self.work.is_left_by(expected) {
            format!("answered {answer}, work bytes or bytes around them differ")
        } else if !self.out.begins_with(&written) {
            format!("answered {answer}, output bytes or bytes around them differ")
        } else {
            String::new()
        };
        if !what.is_empty() {
            self.difference(&format!("n {n}: {what}, hits {hits:?}"));
        }
        self.counts.add(expected);
    }

    fn difference(&mut self, what: &str) {
        self.differences += 1;
        if self.differences > SHOWN_DIFFERENCES {
            return;
        }
        println!("difference in '{}': {what}", self.counts.group());
        for (name, buffer) in [
            ("voice model", &self.voice),
            ("lexicon", &self.lexicon),
            ("frames", &self.frames),
            ("output", &self.out),
        ] {
            let shown = &buffer.contents()[..buffer.length().min(SHOWN_BYTES)];
            println!("  {name} of {} bytes: {shown:?}", buffer.length());
        }
        println!("  work space of {} bytes", self.work.buffer.length());
    }

    /// A call whose hits, score and code of each, or whose refusal is known from how it was made.
    fn call_for(&mut self, known: Result<&[(i64, u32)], Number>, pair: &Pair, call: Call) {
        let hits = self.call(&pair.images, call);
        let hit = |hit: &Hit| (hit.score, hit.code);
        let pairs = hits.map(|hits| hits.iter().map(hit).collect());
        // the reference is tested too
        if pairs != known.map(<[(i64, u32)]>::to_vec) {
            self.difference(&format!(
                "the reference says {pairs:?} where {known:?} is known"
            ));
        }
    }

    /// The rows of the paper's small lexicon that are about decoding.
    fn examples(&mut self) {
        self.begin("paper", &[0, 10, 11]);
        let (voice, lexicon) = (small_voice().bytes(), small_lexicon());
        let paper = Pair::of(voice.clone(), lexicon.bytes());
        let mut turned = lexicon.clone();
        turned.successors[0] = vec![2, 1];
        let turned = Pair::of(voice.clone(), turned.bytes());
        let five = [(-2, 0), (-12, 1), (-12, 3), (-21, 2), (-22, 4)];
        self.call_for(Ok(&five[..3]), &paper, paper.call(&[0, 2], 3));
        let other = [(-2, 3), (-12, 1), (-12, 4)];
        self.call_for(Ok(&other), &turned, turned.call(&[0, 2], 3));
        self.call_for(Ok(&five), &paper, paper.call(&[0, 2], 8));
        self.call_for(Ok(&[(0, 2)]), &paper, paper.call(&[1], 8));
        self.call_for(Ok(&[(-3, 0)]), &paper, paper.call(&[0, 0, 2], 1));
        // i stays for 999 moves
        let known = [(-999, 2)];
        self.call_for(Ok(&known), &paper, paper.call(&[1; 1_000], 1));
        self.call_for(Err(11), &paper, paper.call(&[1; 1_001], 1));
        let twice = Lexicon {
            letters: vec![0, 0],
            successors: vec![vec![1, 2], vec![3], vec![3]],
        };
        let twice = Pair::of(voice.clone(), twice.bytes());
        self.call_for(Err(10), &twice, twice.call(&[0], 1));
        let apart = Lexicon {
            letters: vec![0, 0, 2, 3],
            successors: vec![vec![1, 2], vec![3], vec![4], vec![5], vec![5]],
        };
        let apart = Pair::of(voice, apart.bytes());
        let known = [(-2, 0), (-12, 1)];
        self.call_for(Ok(&known), &apart, apart.call(&[0, 2], 8));
    }
}

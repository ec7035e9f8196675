//! Canonical images, written from lexicons of every kind and held to the reference: the answer, every byte of the
//! output and of both work spaces, and every byte of the images and around the buffers. What is promised of such an
//! image is held to the library's other calls too.

mod builds;
mod examples;
mod graphs;
mod limits;
mod read_back;
mod reference;
mod refusals;

use crate::buffers::{whole, Buffer, Lent};
use crate::counts::Counts;
use crate::image::{Lexicon, Voice};
use crate::library;
use crate::random::Random;
use crate::reference::{Number, FURTHER_SPACE, WORK_SPACE};
use crate::work::Work;
use read_back::ReadBack;
use std::cmp::Ordering;

/// Values, and the refusals in the order in which they are tested.
const ALL: [usize; 14] = [0, 1, 2, 3, 4, 5, 6, 7, 8, 9, 10, 17, 18, 16];
const SHOWN_DIFFERENCES: usize = 10;
const SHOWN_BYTES: usize = 400;
/// More room than any canonical image takes: 400 letters, 401 lists and 4,000 arcs are 9,206 bytes.
const ROOM: usize = 9_300;

/// Two images, and what the reference makes of them.
struct Images {
    voice: Vec<u8>,
    lexicon: Vec<u8>,
    /// What follows each of them in memory.
    behind: [Vec<u8>; 2],
    canonical: Result<Vec<u8>, Number>,
}

impl Images {
    fn new(voice: Vec<u8>, lexicon: Vec<u8>) -> Images {
        Images::cut(&voice, voice.len(), &lexicon, lexicon.len())
    }

    fn cut(voice: &[u8], of_voice: usize, lexicon: &[u8], of_lexicon: usize) -> Images {
        let (voice, after_voice) = voice.split_at(of_voice);
        let (lexicon, after_lexicon) = lexicon.split_at(of_lexicon);
        Images {
            voice: voice.to_vec(),
            lexicon: lexicon.to_vec(),
            behind: [after_voice.to_vec(), after_lexicon.to_vec()],
            canonical: reference::canonical(voice, lexicon),
        }
    }

    fn of(voice: &Voice, lexicon: &Lexicon) -> Images {
        Images::new(voice.bytes(), lexicon.bytes())
    }

    /// How long the canonical image is, or 0 if there is none.
    fn length(&self) -> usize {
        self.canonical.as_ref().map_or(0, Vec::len)
    }

    /// Buffers that are just long enough.
    fn room(&self) -> Room {
        Room {
            work: WORK_SPACE,
            further: FURTHER_SPACE,
            out: self.canonical.as_ref().map_or(ROOM, Vec::len),
        }
    }
}

/// How long the buffers are that a call is lent beside the images.
#[derive(Clone, Copy)]
struct Room {
    work: usize,
    further: usize,
    out: usize,
}

struct Canonical {
    random: Random,
    voice: Buffer,
    lexicon: Buffer,
    word: Buffer,
    work: Work,
    further: Work,
    out: Buffer,
    counts: Counts,
    sizes: Sizes,
    read_back: ReadBack,
    differences: usize,
}

/// Runs all groups; says how many faults there are.
pub fn run(seed: u64) -> usize {
    let mut random = Random::from_seed(seed);
    let mut canonical = Canonical {
        work: Work::new(&mut random, WORK_SPACE),
        further: Work::new(&mut random, FURTHER_SPACE),
        random,
        voice: Buffer::new(),
        lexicon: Buffer::new(),
        word: Buffer::new(),
        out: Buffer::new(),
        counts: Counts::of(&ALL[1..]),
        sizes: Sizes::default(),
        read_back: ReadBack::default(),
        differences: 0,
    };
    canonical.examples();
    canonical.every_build(2_200);
    canonical.one_word_apart(900);
    canonical.limits_of_lists(10);
    canonical.limits_of_images(16);
    canonical.large(16);
    canonical.outputs(300);
    canonical.spaces(70);
    canonical.damaged_images(10_000);
    canonical.any_bytes(1_500);
    canonical.every_length(12);
    canonical.several_at_once(8_000);
    let missing =
        canonical.counts.missing() + canonical.sizes.missing() + canonical.read_back.missing();
    canonical.counts.print("written");
    canonical.sizes.print();
    canonical.read_back.print();
    println!(
        "canonical images: {} calls, {} differences",
        canonical.counts.calls(),
        canonical.differences
    );
    canonical.differences + missing
}

impl Canonical {
    fn hold(&mut self, images: &Images, room: Room) {
        let lent = |bytes, behind| Lent { bytes, behind };
        let random = &mut self.random;
        self.voice
            .hold(lent(&images.voice, &images.behind[0]), random);
        self.lexicon
            .hold(lent(&images.lexicon, &images.behind[1]), random);
        self.work.hold(room.work, random);
        self.further.hold(room.further, random);
        let old = random.bytes(room.out);
        self.out.hold(whole(&old), random);
    }

    /// One call, held to the reference, whose answer is returned.
    fn call(&mut self, images: &Images, room: Room) -> i32 {
        self.hold(images, room);
        let answer = library::canonical(
            &mut self.voice,
            &mut self.lexicon,
            &mut self.work.buffer,
            &mut self.further.buffer,
            &mut self.out,
        );
        let (expected, written) =
            reference::call(&images.canonical, room.work, room.further, room.out);
        self.counts.add(expected);
        if expected > 0 {
            self.sizes.add(&images.lexicon, written);
        }
        if let Some(fault) = self.fault(answer, expected, written) {
            self.difference(&format!(
                "{fault}; answered {answer}, expected {expected} {:?}",
                &written[..written.len().min(SHOWN_BYTES)]
            ));
        }
        expected
    }

    fn fault(&self, answer: i32, expected: i32, written: &[u8]) -> Option<&'static str> {
        if answer != expected {
            Some("another answer")
        } else if !self.voice.unchanged() || !self.lexicon.unchanged() {
            Some("an image or bytes around it changed")
        } else if !self.work.is_left_by(expected) {
            Some("work bytes or bytes around them differ")
        } else if !self.further.is_left_by(expected) {
            Some("further work bytes or bytes around them differ")
        } else if !self.out.begins_with(written) {
            Some("output bytes or bytes around them differ")
        } else {
            None
        }
    }

    fn difference(&mut self, what: &str) {
        self.differences += 1;
        if self.differences > SHOWN_DIFFERENCES {
            return;
        }
        println!("difference in '{}': {what}", self.counts.group());
        for (name, buffer) in [
            ("voice model", &self.voice),
            ("lexicon", &self.lexicon),
            ("output", &self.out),
        ] {
            let shown = &buffer.contents()[..buffer.length().min(SHOWN_BYTES)];
            println!("  {name} of {} bytes: {shown:?}", buffer.length());
        }
        let (work, further) = (&self.work.buffer, &self.further.buffer);
        println!(
            "  work spaces of {} and {} bytes",
            work.length(),
            further.length()
        );
    }

    /// A call with buffers that are just long enough, whose refusal is known from how the images were made, 0 for none.
    fn call_for(&mut self, known: i32, images: &Images) {
        let answer = self.call(images, images.room());
        self.hold_reference_to(known, answer);
    }

    /// The reference is tested too.
    fn hold_reference_to(&mut self, known: i32, answer: i32) {
        if -answer.min(0) != known {
            self.difference(&format!(
                "the reference says {answer} to a call made for {known}"
            ));
        }
    }

    /// The bytes that the library writes, none if it refuses.
    fn written(&mut self, images: &Images) -> Vec<u8> {
        let answer = self.call(images, images.room());
        self.out.contents()[..answer.max(0) as usize].to_vec()
    }
}

/// Canonical images by their number of nodes beside that of the lexicon they are written from. More nodes come only of
/// lexicons in which the same letters lead to several nodes at once.
#[derive(Default)]
struct Sizes {
    fewer: u64,
    as_many: u64,
    more: u64,
}

impl Sizes {
    fn add(&mut self, lexicon: &[u8], canonical: &[u8]) {
        let nodes = |image: &[u8]| u16::from_le_bytes([image[0], image[1]]);
        let size = match nodes(canonical).cmp(&nodes(lexicon)) {
            Ordering::Less => &mut self.fewer,
            Ordering::Equal => &mut self.as_many,
            Ordering::Greater => &mut self.more,
        };
        *size += 1;
    }

    fn print(&self) {
        println!(
            "canonical images with fewer nodes than the lexicon: {}, with as many: {}, with more: {}",
            self.fewer, self.as_many, self.more
        );
    }

    /// Says how many kinds were seen too rarely: each has to be a fiftieth of all.
    fn missing(&self) -> usize {
        let least = (self.fewer + self.as_many + self.more) / 50;
        let kinds = [self.fewer, self.as_many, self.more];
        let missing = kinds.iter().filter(|seen| **seen < least.max(1)).count();
        if missing > 0 {
            println!("seen too rarely: {missing} of the three sizes");
        }
        missing
    }
}

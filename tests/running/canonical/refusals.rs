//! Images that are refused, with every number, beside lists, outputs and work spaces that would be refused too: the
//! first number that applies is answered. And buffers of every length.

use super::graphs::{self, Fan};
use super::{Canonical, Images, Room, ALL, ROOM};
use crate::damage::{damaged, damaged_voice};
use crate::faults::faulty_images_with;
use crate::image::{small_lexicon, small_voice, Lexicon, Voice};
use crate::reference::{FURTHER_SPACE, WORK_SPACE};
use crate::work::{FURTHER_LENGTHS, LENGTHS};

impl Canonical {
    /// Models of two images that are not refused.
    fn drawn(&mut self) -> (Voice, Lexicon) {
        loop {
            let words = graphs::any_list(&mut self.random);
            let voice = self.voice_for(&words);
            let sketch = graphs::build(&mut self.random, &words);
            let lexicon = sketch.lexicon(&mut self.random);
            let images = Images::of(&voice, &lexicon);
            if images.length() > 0 && images.lexicon.len() < 400 {
                return (voice, lexicon);
            }
        }
    }

    /// With buffers of any length, nearly always long enough.
    fn call_with_any(&mut self, images: &Images) {
        let room = Room {
            work: self.work.any_length(&mut self.random),
            further: self.further.any_length(&mut self.random),
            out: match self.random.below(8) {
                0 => self.random.below(images.length() + 1),
                1 => images.length() + self.random.below(100),
                _ => images.length(),
            },
        };
        self.call(images, room);
    }

    /// Outputs exactly long enough, one short, empty, and longer: later bytes keep their values.
    pub(super) fn outputs(&mut self, lexicons: usize) {
        self.counts.begin("outputs", &[0, 16]);
        for _ in 0..lexicons {
            let (voice, lexicon) = self.drawn();
            let images = Images::of(&voice, &lexicon);
            let (length, mut room) = (images.length(), images.room());
            let any = self.random.below(length);
            for out in [0, 1, 2, any, length / 2, length - 2, length - 1] {
                room.out = out;
                let answer = self.call(&images, room);
                self.hold_reference_to(16, answer);
            }
            for more in [0, 1, 2, 7, 100, length, ROOM] {
                room.out = length + more;
                let answer = self.call(&images, room);
                self.hold_reference_to(0, answer);
            }
        }
    }

    /// Every kind of answer with work spaces of every length: each length of one with enough of the other, and any two.
    pub(super) fn spaces(&mut self, pairs: usize) {
        self.counts.begin("work spaces", &ALL);
        for k in 0..pairs {
            let (images, room) = self.with_conditions(1 << ALL[k % ALL.len()]);
            for (work, further) in lengths_of_both() {
                let short = work < WORK_SPACE || further < FURTHER_SPACE;
                let room = Room {
                    work,
                    further,
                    ..room
                };
                let answer = self.call(&images, room);
                if short != (answer == -1) {
                    self.difference(&format!("the reference says {answer}; too short: {short}"));
                }
            }
            for _ in 0..20 {
                let room = Room {
                    work: *self.random.pick(&LENGTHS),
                    further: *self.random.pick(&FURTHER_LENGTHS),
                    ..room
                };
                self.call(&images, room);
            }
        }
    }

    /// One damage to one of two images that were not refused.
    pub(super) fn damaged_images(&mut self, pairs: usize) {
        let due = [0, 1, 2, 3, 4, 5, 6, 10, 16];
        self.counts.begin("damaged", &due);
        let mut drawn = self.drawn();
        for k in 0..pairs {
            if k % 8 == 0 {
                drawn = self.drawn();
            }
            let (voice, lexicon) = &drawn;
            let images = if self.random.once_in(3) {
                Images::new(damaged_voice(&mut self.random, voice), lexicon.bytes())
            } else {
                Images::new(voice.bytes(), damaged(&mut self.random, &lexicon.fields()))
            };
            self.call_with_any(&images);
        }
    }

    /// Bytes that are no images at all: none, few, or many.
    pub(super) fn any_bytes(&mut self, pairs: usize) {
        self.counts.begin("any bytes", &[1, 2, 3, 4, 5]);
        for _ in 0..pairs {
            let most = *self.random.pick(&[1, 4, 20, 5_000]);
            let (first, second) = (self.random.below(most), self.random.below(most));
            let voice = if self.random.once_in(3) {
                self.random.bytes(first)
            } else {
                small_voice().bytes()
            };
            let mut lexicon = self.random.bytes(second);
            if self.random.once_in(2) {
                lexicon.iter_mut().for_each(|byte| *byte %= 4);
            }
            self.call_with_any(&Images::new(voice, lexicon));
        }
    }

    /// Images cut at every length, with what was cut off behind them in memory.
    pub(super) fn every_length(&mut self, pairs: usize) {
        self.counts.begin("every length", &[0, 2, 4]);
        for k in 0..pairs {
            let (voice, lexicon) = match k {
                0 => (small_voice(), small_lexicon()),
                _ => self.drawn(),
            };
            let (voice, lexicon) = (voice.bytes(), lexicon.bytes());
            for length in 0..=voice.len().min(200) {
                let images = Images::cut(&voice, length, &lexicon, lexicon.len());
                self.call(&images, images.room());
            }
            for length in 0..=lexicon.len() {
                let images = Images::cut(&voice, voice.len(), &lexicon, length);
                self.call(&images, images.room());
            }
        }
    }

    /// Each condition with each other one, and any set of them.
    pub(super) fn several_at_once(&mut self, calls: usize) {
        self.counts.begin("several at once", &ALL);
        for (k, first) in ALL.iter().enumerate().skip(1) {
            for second in &ALL[k..] {
                for _ in 0..8 {
                    let (images, room) = self.with_conditions(1 << first | 1 << second);
                    let answer = self.call(&images, room);
                    if *first == 1 || *first > 10 {
                        self.hold_reference_to(*first as i32, answer);
                    }
                }
            }
        }
        for _ in 0..calls {
            let all = 1 << 19;
            let several = self.random.below(all) & self.random.below(all);
            let fewer = several & self.random.below(all);
            let (images, room) = self.with_conditions(fewer);
            self.call(&images, room);
        }
    }

    /// A call to which conditions apply as wanted, or most of them: bit k of `several` stands for number k.
    fn with_conditions(&mut self, several: usize) -> (Images, Room) {
        let has = |number: usize| several >> number & 1 == 1;
        let of_images = several >> 2 & 0x1ff;
        let (voice, lexicon) = faulty_images_with(&mut self.random, of_images, |random, sketch| {
            if has(17) {
                // 2,197 words, or 512 words of 32 letters
                let long = [&[8; 3][..], &[1; 29]].concat();
                let widths: &[usize] = if random.once_in(2) { &long } else { &[13; 3] };
                sketch.layers(widths, 40);
            }
            if has(18) {
                Fan::draw(random, 14, 5, 31).add_to(sketch);
            }
        });
        let images = Images::new(voice, lexicon);
        let mut room = images.room();
        if has(16) {
            room.out = self.random.below(images.length().max(1));
        }
        if has(1) {
            match self.random.below(3) {
                0 => room.work = self.random.below(WORK_SPACE),
                1 => room.further = self.random.below(FURTHER_SPACE),
                _ => (room.work, room.further) = (WORK_SPACE - 1, FURTHER_SPACE - 1),
            }
        }
        (images, room)
    }
}

/// Each length of one space with enough of the other, and both too short.
fn lengths_of_both() -> Vec<(usize, usize)> {
    let mut both = vec![(0, 0), (WORK_SPACE - 1, FURTHER_SPACE - 1)];
    both.extend(LENGTHS.map(|work| (work, FURTHER_SPACE)));
    both.extend(FURTHER_LENGTHS.map(|further| (WORK_SPACE, further)));
    both
}

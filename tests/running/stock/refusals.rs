//! Images that are refused, with every number, beside lists and outputs that would be refused too: the first number
//! that applies is answered. And buffers of every length.

use super::{call_with, list_of, Call, Images, Stock, ALL, ANSWER};
use crate::buffers::{cut, whole};
use crate::damage::{damaged, damaged_voice};
use crate::draw;
use crate::faults::faulty_images;
use crate::image::{small_lexicon, small_voice, Lexicon, Voice};
use crate::reference::WORK_SPACE;
use crate::sketch::{Sketch, ROOT, SINK};
use crate::work;

impl Stock {
    /// With any items and buffers of any length: often good ones, if the images are.
    fn call_with_any(&mut self, images: &Images, items: &[Vec<u8>]) {
        let list = list_of(items);
        let room = ANSWER * items.len();
        let length = match self.random.below(8) {
            0 => self.random.below(list.len() + 1),
            _ => list.len(),
        };
        let out = match self.random.below(8) {
            0 => self.random.below(room + 1),
            1 => room + self.random.below(100),
            _ => room,
        };
        let call = Call {
            list: cut(&list, length),
            work: self.work.any_length(&mut self.random),
            out,
        };
        self.call(images, call);
    }

    /// Outputs exactly long enough, one short, empty, and longer: later bytes keep their values.
    pub(super) fn outputs(&mut self, lexicons: usize) {
        self.counts.begin("outputs", &[0, 16]);
        for k in 0..lexicons {
            let images = self.accepted();
            let count = match k % 50 {
                0 => 1_000,
                _ => self.random.between(1, 12),
            };
            let list = list_of(&self.any_items(&images, &images, count));
            let (mut call, room) = (call_with(&list), ANSWER * count);
            let any = self.random.below(room);
            for out in [0, 1, 7, any, room / 2, room - 8, room - 1] {
                call.out = out;
                let answer = self.call(&images, call);
                self.hold_reference_to(-16, answer);
            }
            for more in [0, 1, 4, 8, 100] {
                call.out = room + more;
                let answer = self.call(&images, call);
                self.hold_reference_to(count as i32, answer);
            }
            // no items take no room
            call.list = whole(&[]);
            call.out = self.random.below(20);
            let answer = self.call(&images, call);
            self.hold_reference_to(0, answer);
        }
    }

    /// Every kind of answer with work spaces of every length.
    pub(super) fn work_spaces(&mut self, calls: usize) {
        self.counts.begin("work spaces", &ALL);
        for k in 0..calls {
            let (images, list, out) = self.with_conditions(1 << ALL[k % ALL.len()]);
            for work in work::LENGTHS {
                let list = whole(&list);
                let answer = self.call(&images, Call { list, work, out });
                let is_short = work < WORK_SPACE;
                if is_short != (answer == -1) {
                    self.difference(&format!("the reference says {answer} to {work} work bytes"));
                }
            }
        }
    }

    /// Models of two images that are accepted, and the images.
    fn drawn(&mut self) -> (Voice, Lexicon, Images) {
        loop {
            let letters = self.random.between(1, 6);
            let sketch = draw::few_words(&mut self.random, letters);
            let voice = draw::voice_for(&mut self.random, &sketch);
            let lexicon = sketch.lexicon(&mut self.random);
            let images = Images::of(&voice, &lexicon);
            if images.words.is_ok() {
                return (voice, lexicon, images);
            }
        }
    }

    /// One damage to one of two images that were accepted, called with items for those.
    pub(super) fn damaged_images(&mut self, pairs: usize) {
        let due = [0, 1, 2, 3, 4, 5, 6, 10, 19, 16];
        self.counts.begin("damaged", &due);
        let mut drawn = self.drawn();
        for k in 0..pairs {
            if k % 8 == 0 {
                drawn = self.drawn();
            }
            let (voice, lexicon, good) = &drawn;
            let count = self.random.below(6);
            let items = self.any_items(good, good, count);
            let images = if self.random.once_in(3) {
                Images::new(damaged_voice(&mut self.random, voice), lexicon.bytes())
            } else {
                Images::new(voice.bytes(), damaged(&mut self.random, &lexicon.fields()))
            };
            self.call_with_any(&images, &items);
        }
    }

    /// Bytes that are no images, and lists of any bytes for images that are.
    pub(super) fn any_bytes(&mut self, pairs: usize) {
        self.counts.begin("any bytes", &[0, 1, 2, 3, 4, 5, 19, 16]);
        for k in 0..pairs {
            let most = *self.random.pick(&[1, 4, 20, 5_000]);
            let (first, second) = (self.random.below(most), self.random.below(most));
            let mut voice = small_voice().bytes();
            let mut lexicon = small_lexicon().bytes();
            if k % 3 == 0 {
                voice = self.random.bytes(first);
            } else if k % 3 == 1 {
                lexicon = self.random.bytes(second);
                if self.random.once_in(2) {
                    lexicon.iter_mut().for_each(|byte| *byte %= 4);
                }
            }
            let images = Images::new(voice, lexicon);
            let mut list = self.random.bytes(first);
            let (below, out) = (*self.random.pick(&[1, 2, 3, 8, 255]), self.random.below(40));
            list.iter_mut().for_each(|byte| *byte %= below);
            let call = Call {
                list: whole(&list),
                work: self.work.any_length(&mut self.random),
                out,
            };
            self.call(&images, call);
        }
    }

    /// Images cut at every length, with what was cut off behind them in memory, called with words that they had.
    pub(super) fn every_length(&mut self, pairs: usize) {
        self.counts.begin("every length", &[0, 2, 4]);
        for k in 0..pairs {
            let good = match k {
                0 => Images::of(&small_voice(), &small_lexicon()),
                _ => self.drawn().2,
            };
            let list = list_of(&self.any_items(&good, &good, 3));
            let (voice, lexicon) = (&good.voice, &good.lexicon);
            for length in 0..=voice.len().min(200) {
                let images = Images::cut(voice, length, lexicon, lexicon.len());
                self.call(&images, call_with(&list));
            }
            for length in 0..=lexicon.len().min(200) {
                let images = Images::cut(voice, voice.len(), lexicon, length);
                self.call(&images, call_with(&list));
            }
        }
    }

    /// Each condition with each other one, and any set of them.
    pub(super) fn several_at_once(&mut self, calls: usize) {
        self.counts.begin("several at once", &ALL);
        for (k, first) in ALL.iter().enumerate().skip(1) {
            for second in &ALL[k..] {
                for _ in 0..8 {
                    let answer = self.call_with_conditions(1 << first | 1 << second);
                    if *first == 1 || *first > 10 {
                        self.hold_reference_to(-(*first as i32), answer);
                    }
                }
            }
        }
        for _ in 0..calls {
            let all = 1 << 20;
            let several = self.random.below(all) & self.random.below(all);
            let fewer = several & self.random.below(all);
            self.call_with_conditions(fewer);
        }
    }

    fn call_with_conditions(&mut self, several: usize) -> i32 {
        let (images, list, out) = self.with_conditions(several);
        let work = match several >> 1 & 1 {
            0 => WORK_SPACE,
            _ => self.random.below(WORK_SPACE),
        };
        let list = whole(&list);
        self.call(&images, Call { list, work, out })
    }

    /// Images, a list and the output's length, to which conditions from 2 on apply as wanted, or most of them: bit k of
    /// `several` stands for number k.
    fn with_conditions(&mut self, several: usize) -> (Images, Vec<u8>, usize) {
        let has = |number: usize| several >> number & 1 == 1;
        let (voice, lexicon) = faulty_images(&mut self.random, several >> 2 & 0x1ff);
        let images = Images::new(voice, lexicon);
        let count = self.random.between(1, 8);
        let mut list = list_of(&self.any_items(&images, &images, count));
        if has(19) {
            match self.random.below(3) {
                0 => list = vec![0; self.random.between(1_001, 1_100)],
                1 => list.push(self.random.between(1, 255) as u8),
                _ => list.extend([3, b'a', b'n']),
            }
        }
        let room = ANSWER * count;
        let out = if has(16) {
            self.random.below(room)
        } else {
            room
        };
        (images, list, out)
    }

    /// Both sides of 32 letters, 400 nodes, 1,000 places and 1,048,576 words: every call checks anew.
    pub(super) fn limits(&mut self) {
        self.counts.begin("limits", &[0, 5, 7, 8, 9]);
        for (length, number) in [(31, 0), (32, 0), (33, 8)] {
            let mut sketch = Sketch::new();
            let word = draw::word(&mut self.random, 8, length);
            sketch.chain(ROOT, &word, SINK);
            sketch.chain(ROOT, &word[..length - 1], SINK);
            sketch.chain(ROOT, &word[..1], SINK);
            self.call_every_word(number, &sketch, 8, 1);
        }
        for (nodes, number) in [(399, 0), (400, 0), (401, 5)] {
            let mut sketch = Sketch::new();
            draw::fill_up(&mut self.random, &mut sketch, nodes, 64);
            self.call_every_word(number, &sketch, 64, 1);
        }
        for (nodes, number) in [(249, 0), (250, 0), (251, 7)] {
            let mut sketch = Sketch::new();
            draw::fill_up(&mut self.random, &mut sketch, nodes, 8);
            self.call_every_word(number, &sketch, 8, 4);
        }
        let too_many: [(&[usize], usize); 4] =
            [(&[2; 20], 1), (&[2; 21], 0), (&[2; 32], 5), (&[11; 32], 0)];
        for (widths, beside) in too_many {
            self.call_every_word(9, &draw::so_many_words(widths, beside), 64, 1);
        }
        self.call_every_word(0, &draw::so_many_words(&[1], 0), 1, 1);
    }

    /// All words of a few, in the order of their codes; then each twice in any order, with other items among them. The
    /// images are made for a refusal, 0 for none.
    fn call_every_word(&mut self, number: i32, sketch: &Sketch, letters: usize, states: u8) {
        let voice = draw::voice_of(&mut self.random, &vec![states; letters], 2);
        let images = Images::of(&voice, &sketch.lexicon(&mut self.random));
        let mut items: Vec<Vec<u8>> = match &images.words {
            Ok(words) => (0..words.count())
                .map(|code| words.word(code).to_vec())
                .collect(),
            Err(_) => vec![b"a".to_vec()],
        };
        for _ in 0..2 {
            let known = if number > 0 {
                -number
            } else {
                items.len() as i32
            };
            self.call_for(known, &images, &list_of(&items));
            items.extend_from_within(..);
            items.extend(self.any_items(&images, &images, 10));
            self.random.shuffle(&mut items);
        }
    }
}

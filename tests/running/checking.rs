//! Checking, called with images of every kind and held to the reference: the answer, every work byte, and every byte of
//! the images and around the buffers.

mod limits;
mod several;

use crate::buffers::{cut, whole, Buffer, Lent};
use crate::counts::{Counts, Forms};
use crate::damage::{damaged, damaged_voice, link_counts, with_every_links, with_field, EDGES};
use crate::draw;
use crate::faults::faulty_images;
use crate::image::{bytes_of, small_lexicon, small_voice, Field, Lexicon, Voice};
use crate::library;
use crate::random::Random;
use crate::reference::{self, WORK_SPACE};
use crate::sketch::{Sketch, SINK};
use crate::work::{self, Work};

const ALL: [usize; 11] = [0, 1, 2, 3, 4, 5, 6, 7, 8, 9, 10];
const SHOWN_DIFFERENCES: usize = 10;
const SHOWN_BYTES: usize = 400;

struct Checking {
    random: Random,
    voice: Buffer,
    lexicon: Buffer,
    work: Work,
    counts: Counts,
    forms: Forms,
    differences: usize,
}

/// Runs all groups; says how many faults there are.
pub fn run(seed: u64) -> usize {
    let mut random = Random::from_seed(seed);
    let mut checking = Checking {
        work: Work::new(&mut random, WORK_SPACE),
        random,
        voice: Buffer::new(),
        lexicon: Buffer::new(),
        counts: Counts::of(&ALL[1..]),
        forms: Forms::default(),
        differences: 0,
    };
    checking.examples();
    checking.any_images(80_000);
    checking.any_bytes(4_000);
    checking.damaged_images(60_000);
    checking.every_length(120);
    checking.every_field(14);
    checking.links(24);
    checking.equal_spellings(20_000);
    checking.work_spaces(300);
    checking.limits(6);
    checking.several_at_once(20_000);
    checking.large(30);
    let missing = checking.counts.missing() + checking.forms.missing();
    checking.counts.print("accepted");
    checking.forms.print("accepted voice models");
    println!(
        "checking: {} calls, {} differences",
        checking.counts.calls(),
        checking.differences
    );
    checking.differences + missing
}

impl Checking {
    /// One call, held to the reference, whose answer is returned.
    fn call(&mut self, voice: Lent, lexicon: Lent, work_length: usize) -> i32 {
        self.voice.hold(voice, &mut self.random);
        self.lexicon.hold(lexicon, &mut self.random);
        self.work.hold(work_length, &mut self.random);
        let work = &mut self.work.buffer;
        let answer = library::check(&mut self.voice, &mut self.lexicon, work);
        let expected = reference::check(voice.bytes, lexicon.bytes, work_length);
        if answer != expected {
            self.difference(&format!("answered {answer}, expected {expected}"));
        } else if !self.voice.unchanged() || !self.lexicon.unchanged() {
            self.difference(&format!(
                "answered {answer}, an image or bytes around it changed"
            ));
        } else if !self.work.is_left_by(expected) {
            self.difference(&format!(
                "answered {answer}, work bytes or bytes around them differ"
            ));
        }
        self.counts.add(expected);
        if expected > 0 {
            self.forms.add(reference::letters_and_links(voice.bytes));
        }
        expected
    }

    fn difference(&mut self, what: &str) {
        self.differences += 1;
        if self.differences > SHOWN_DIFFERENCES {
            return;
        }
        println!("difference in '{}': {what}", self.counts.group());
        for (name, buffer) in [("voice model", &self.voice), ("lexicon", &self.lexicon)] {
            let shown = &buffer.contents()[..buffer.length().min(SHOWN_BYTES)];
            println!("  {name} of {} bytes: {shown:?}", buffer.length());
        }
        println!("  work space of {} bytes", self.work.buffer.length());
    }

    fn call_with(&mut self, voice: &[u8], lexicon: &[u8]) -> i32 {
        let work_length = self.work.any_length(&mut self.random);
        self.call(whole(voice), whole(lexicon), work_length)
    }

    /// A call whose answer is known from how the images were made: a refusal, W, or 0 for any W.
    fn call_for(&mut self, known: i32, voice: &Voice, lexicon: &Lexicon) {
        let (voice, lexicon) = (voice.bytes(), lexicon.bytes());
        let answer = self.call(whole(&voice), whole(&lexicon), WORK_SPACE);
        self.hold_reference_to(known, answer);
    }

    /// The reference is tested too.
    fn hold_reference_to(&mut self, known: i32, answer: i32) {
        if answer != known && !(known == 0 && answer > 0) {
            self.difference(&format!(
                "the reference says {answer} to images made for {known}"
            ));
        }
    }

    /// The rows of the paper's small lexicon that are about checking.
    fn examples(&mut self) {
        self.counts.begin("paper", &[0, 10]);
        let (voice, lexicon) = (small_voice(), small_lexicon());
        self.call_for(5, &voice, &lexicon);
        let mut turned = lexicon.clone();
        turned.successors[0] = vec![2, 1];
        self.call_for(5, &voice, &turned);
        let mut twice = Sketch::new();
        twice.chain(0, &[0], SINK);
        twice.chain(0, &[0], SINK);
        let twice = twice.lexicon(&mut self.random);
        self.call_for(-10, &voice, &twice);
        let mut apart = Sketch::new();
        apart.chain(0, &[0, 2], SINK);
        apart.chain(0, &[0, 3], SINK);
        let apart = apart.lexicon(&mut self.random);
        self.call_for(2, &voice, &apart);
    }

    /// Images of every kind, now and then a damaged one.
    fn any_images(&mut self, calls: usize) {
        self.counts.begin("random", &ALL);
        for _ in 0..calls {
            let (voice, lexicon) = draw::images(&mut self.random);
            let (mut voice_bytes, mut lexicon_bytes) = (voice.bytes(), lexicon.bytes());
            if self.random.once_in(40) {
                voice_bytes = damaged_voice(&mut self.random, &voice);
            }
            if self.random.once_in(40) {
                lexicon_bytes = damaged(&mut self.random, &lexicon.fields());
            }
            self.call_with(&voice_bytes, &lexicon_bytes);
        }
    }

    /// Bytes that are no images at all: none, few, or many.
    fn any_bytes(&mut self, calls: usize) {
        self.counts.begin("any bytes", &[1, 2, 3, 4, 5]);
        let good = small_voice().bytes();
        for _ in 0..calls {
            let most = *self.random.pick(&[1, 4, 20, 5_000]);
            let (first, second) = (self.random.below(most), self.random.below(most));
            let mut lexicon = self.random.bytes(second);
            if self.random.once_in(2) {
                lexicon.iter_mut().for_each(|byte| *byte %= 4);
            }
            let voice = match self.random.below(3) {
                0 => self.random.bytes(first),
                _ => good.clone(),
            };
            self.call_with(&voice, &lexicon);
        }
    }

    /// One or two damages to a pair of images, most often to one that was accepted.
    fn damaged_images(&mut self, calls: usize) {
        self.counts.begin("damaged", &ALL);
        let mut images = draw::images(&mut self.random);
        for k in 0..calls {
            if k % 8 == 0 {
                images = draw::images(&mut self.random);
            }
            let (mut voice, mut lexicon) = (images.0.bytes(), images.1.bytes());
            let which = self.random.below(8);
            if which < 3 {
                voice = damaged_voice(&mut self.random, &images.0);
            }
            if which > 1 {
                lexicon = damaged(&mut self.random, &images.1.fields());
            }
            self.call_with(&voice, &lexicon);
        }
    }

    /// Images cut at every length, with what was cut off behind them in memory, and with bytes after their ends.
    fn every_length(&mut self, pairs: usize) {
        self.counts.begin("every length", &[0, 2, 3, 4, 5]);
        for k in 0..pairs {
            let (voice, lexicon) = self.short_images();
            let (mut voice, mut lexicon) = (voice.fields(), lexicon.fields());
            if k % 4 == 1 {
                self.random.pick_mut(&mut voice).value = *self.random.pick(&EDGES);
            }
            if k % 4 == 2 {
                self.random.pick_mut(&mut lexicon).value = *self.random.pick(&EDGES);
            }
            let (voice, lexicon) = (bytes_of(&voice), bytes_of(&lexicon));
            for length in 0..=voice.len() {
                self.call(cut(&voice, length), whole(&lexicon), WORK_SPACE);
            }
            for length in 0..=lexicon.len() {
                self.call(whole(&voice), cut(&lexicon, length), WORK_SPACE);
            }
            for extra in [&[0][..], &[0, 0], &[1], &[255, 255, 255]] {
                self.call_with(&[&voice, extra].concat(), &lexicon);
                self.call_with(&voice, &[&lexicon, extra].concat());
                self.call_with(&[&voice, extra].concat(), &[&lexicon, extra].concat());
            }
        }
    }

    /// Every field of some images with every edge value, and one more and one less than it was.
    fn every_field(&mut self, pairs: usize) {
        self.counts.begin("every field", &[0, 2, 3, 4, 5, 6, 10]);
        for _ in 0..pairs {
            let (voice, lexicon) = self.short_images();
            let (voice_fields, lexicon_fields) = (voice.fields(), lexicon.fields());
            let links_at = voice.fields_before_links().len();
            let counts = link_counts(voice.letters.len());
            let (voice, lexicon) = (voice.bytes(), lexicon.bytes());
            for index in 0..voice_fields.len() {
                let mut values = values_for(voice_fields[index]);
                if index == links_at {
                    values.extend(counts.iter().map(|count| *count as u16));
                }
                for value in values {
                    self.call_with(&with_field(&voice_fields, index, value), &lexicon);
                }
            }
            for index in 0..lexicon_fields.len() {
                for value in values_for(lexicon_fields[index]) {
                    self.call_with(&voice, &with_field(&lexicon_fields, index, value));
                }
            }
        }
    }

    /// Links in both forms and in none, with more scores than their count and with fewer; and the voice model cut at
    /// every length in and about its links, with what was cut off behind it in memory.
    fn links(&mut self, models: usize) {
        self.counts.begin("links", &[0, 2, 3]);
        for k in 0..models {
            let any = self.random.between(4, 63);
            let letters = [1, 2, 3, 64, any, 5][k % 6];
            let states: Vec<u8> = (0..letters)
                .map(|_| self.random.between(1, 4) as u8)
                .collect();
            let mut voice = draw::voice_of(&mut self.random, &states, 1 + k / 6);
            let lexicon = Sketch::of_words(&[vec![letters as u8 - 1]]);
            let lexicon = lexicon.lexicon(&mut self.random).bytes();
            for (voice, known) in with_every_links(&voice) {
                let answer = self.call(whole(&voice), whole(&lexicon), WORK_SPACE);
                let known = known.map(|refusal| if refusal == 0 { 1 } else { -refusal });
                self.hold_reference_to(known.unwrap_or(answer), answer);
            }
            let links_at = bytes_of(&voice.fields_before_links()).len();
            for count in [1, letters] {
                voice.links.resize(count, -1);
                let voice = voice.bytes();
                for length in links_at - 2..(links_at + 2 * count + 6).min(voice.len()) {
                    let answer = self.call(cut(&voice, length), whole(&lexicon), WORK_SPACE);
                    self.hold_reference_to(-2, answer);
                }
            }
        }
    }

    /// Accepted images with few fields.
    fn short_images(&mut self) -> (Voice, Lexicon) {
        loop {
            let letters = self.random.between(1, 4);
            let sketch = draw::few_words(&mut self.random, letters);
            let voice = draw::voice_for(&mut self.random, &sketch);
            let lexicon = sketch.lexicon(&mut self.random);
            let (voice_bytes, lexicon_bytes) = (voice.bytes(), lexicon.bytes());
            let short = voice_bytes.len() < 200 && lexicon_bytes.len() < 120;
            if short && reference::check(&voice_bytes, &lexicon_bytes, WORK_SPACE) > 0 {
                return (voice, lexicon);
            }
        }
    }

    /// Words that two full paths spell, wherever these part and meet, beside words that nearly are.
    fn equal_spellings(&mut self, calls: usize) {
        self.counts.begin("equal spellings", &[0, 10]);
        for k in 0..calls {
            let letters = self.random.between(1, 5);
            let (count, longest) = (self.random.between(1, 12), self.random.between(1, 10));
            let words = draw::word_list(&mut self.random, letters, count, longest);
            let mut sketch = Sketch::of_words(&words);
            for _ in 0..self.random.below(6) {
                sketch.split(&mut self.random);
            }
            let known = if k % 2 == 0 { -10 } else { 0 };
            if known == -10 {
                sketch.second_path(&mut self.random, None);
            }
            let voice = draw::voice_for(&mut self.random, &sketch);
            let lexicon = sketch.lexicon(&mut self.random);
            self.call_for(known, &voice, &lexicon);
        }
    }

    /// Every kind of answer with work spaces of every length.
    fn work_spaces(&mut self, pairs: usize) {
        self.counts.begin("work spaces", &ALL);
        for k in 0..pairs {
            let several = self.random.below(1 << 9) & self.random.below(1 << 9);
            let (voice, lexicon) = match k % 3 {
                0 => self.short_images_as_bytes(),
                _ => faulty_images(&mut self.random, several),
            };
            for length in work::LENGTHS {
                self.call(whole(&voice), whole(&lexicon), length);
            }
        }
    }

    fn short_images_as_bytes(&mut self) -> (Vec<u8>, Vec<u8>) {
        let (voice, lexicon) = self.short_images();
        (voice.bytes(), lexicon.bytes())
    }
}

fn values_for(field: Field) -> Vec<u16> {
    let near = [field.value.wrapping_sub(1), field.value.wrapping_add(1)];
    let fits = |value: &u16| field.size == 2 || *value < 256;
    EDGES.iter().copied().chain(near).filter(fits).collect()
}

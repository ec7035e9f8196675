//! Both sides of every limit, with the answer known from how the images were made.

use super::{cut, whole, Checking};
use crate::draw;
use crate::image::{byte, bytes_of, number};
use crate::reference::WORK_SPACE;
use crate::sketch::{Sketch, ROOT, SINK};

fn one_word(letters: &[u8]) -> Sketch {
    Sketch::of_words(&[letters.to_vec()])
}

/// Widths of layers, words beside them, and the answer.
type Words<'a> = (&'a [usize], usize, i32);

/// W at 2^20 in several shapes, where numbers of 16, 32 and 64 bits end, and far beyond.
const WORDS: [Words; 27] = [
    (&[1], 0, 1),
    (&[2; 16], 0, 65_536),
    (&[2; 16], 3, 65_539),
    (&[2; 19], 60, 524_348),
    (&[3, 11, 31, 25, 41], 0, 1_048_575),
    (&[3, 11, 31, 25, 41], 1, 1_048_576),
    (&[3, 11, 31, 25, 41], 2, -9),
    (&[2; 20], 0, 1_048_576),
    (&[2; 20], 1, -9),
    (&[2; 20], 30, -9),
    (&[4; 10], 0, 1_048_576),
    (&[4; 10], 1, -9),
    (&[32; 4], 0, 1_048_576),
    (&[32; 4], 1, -9),
    (&[16; 5], 0, 1_048_576),
    (&[16; 5], 2, -9),
    (&[2; 21], 0, -9),
    (&[2; 31], 0, -9),
    (&[2; 32], 0, -9),
    (&[2; 32], 5, -9),
    (&[16; 8], 0, -9),
    (&[16; 8], 40, -9),
    (&[4; 32], 0, -9),
    (&[4; 32], 7, -9),
    (&[16; 16], 0, -9),
    (&[16; 16], 48, -9),
    (&[11; 32], 0, -9),
];

impl Checking {
    pub(super) fn limits(&mut self, rounds: usize) {
        self.counts
            .begin("limits", &[0, 1, 2, 3, 4, 5, 6, 7, 8, 9, 10]);
        for _ in 0..rounds {
            self.words();
            self.letters_of_a_word();
            self.places();
            self.nodes();
            self.arcs();
            self.counts_of_successors();
            self.letters_and_symbols();
            self.print_bytes_and_states();
            self.every_two();
        }
        self.counts_of_links();
        self.longest_images();
    }

    fn draw_and_call(&mut self, known: i32, sketch: &Sketch) {
        let voice = draw::voice_of(&mut self.random, &[1; 64], 1);
        let lexicon = sketch.lexicon(&mut self.random);
        self.call_for(known, &voice, &lexicon);
    }

    fn words(&mut self) {
        for (widths, beside, known) in WORDS {
            self.draw_and_call(known, &draw::so_many_words(widths, beside));
        }
        // 2^32 + 2^20 words: cut off at 32 bits, they could be accepted
        let mut sketch = Sketch::new();
        sketch.layers(&[2; 32], 0);
        sketch.layers(&[2; 20], 2);
        self.draw_and_call(-9, &sketch);
    }

    /// One word, and one long word beside and across short ones.
    fn letters_of_a_word(&mut self) {
        for length in [
            1, 2, 16, 31, 32, 33, 34, 64, 128, 255, 256, 257, 288, 289, 300, 400,
        ] {
            let known = if length > 32 { -8 } else { 1 };
            let word = draw::word(&mut self.random, 64, length);
            self.draw_and_call(known, &one_word(&word));
        }
        for length in [31, 32, 33, 34, 100] {
            let known = if length > 32 { -8 } else { 0 };
            let mut words = draw::word_list(&mut self.random, 3, 12, 8);
            let mut long = self.random.pick(&words).clone();
            let rest = draw::word(&mut self.random, 3, length - long.len());
            long.extend(rest);
            words.push(long);
            let mut sketch = Sketch::of_words(&words);
            sketch.split(&mut self.random);
            self.draw_and_call(known, &sketch);
        }
    }

    /// Letters 0 to 3 have 1 to 4 states, the others as many as `most`.
    fn places(&mut self) {
        for places in [
            996, 998, 999, 1_000, 1_001, 1_002, 1_003, 1_004, 1_024, 1_200,
        ] {
            for most in [3, 4] {
                let mut sketch = Sketch::new();
                let others = [4, 5, 6, 7, 8, 9, 10, 11];
                while sketch.nodes() < places / most {
                    let length = 30.min(places / most - sketch.nodes());
                    let word: Vec<u8> = (0..length).map(|_| *self.random.pick(&others)).collect();
                    sketch.chain(ROOT, &word, SINK);
                }
                if places % most > 0 {
                    sketch.chain(ROOT, &[(places % most - 1) as u8], SINK);
                }
                let states = [&[1, 2, 3, 4][..], &[most as u8; 8]].concat();
                let voice = draw::voice_of(&mut self.random, &states, 2);
                let known = if places > 1_000 { -7 } else { 0 };
                let lexicon = sketch.lexicon(&mut self.random);
                self.call_for(known, &voice, &lexicon);
            }
        }
    }

    fn nodes(&mut self) {
        for nodes in [1, 2, 255, 256, 257, 399, 400, 401, 402, 500] {
            let mut sketch = Sketch::new();
            draw::fill_up(&mut self.random, &mut sketch, nodes, 64);
            let known = if nodes > 400 { -5 } else { 0 };
            self.draw_and_call(known, &sketch);
        }
        self.draw_and_call(-5, &Sketch::new());
    }

    /// 62 nodes each to 62 others, and a word that adds one arc more than it has letters.
    fn arcs(&mut self) {
        for arcs in [3_998, 3_999, 4_000, 4_001, 4_002] {
            let mut sketch = Sketch::new();
            sketch.layers(&[62, 62], 0);
            let length = arcs - sketch.arcs() - 1;
            let word = draw::word(&mut self.random, 64, length);
            sketch.chain(ROOT, &word, SINK);
            let known = if arcs > 4_000 {
                -5
            } else if length > 32 {
                -8
            } else {
                62 * 62 + 1
            };
            self.draw_and_call(known, &sketch);
            self.cut_at_the_last_count(&sketch);
        }
        for arcs in [3_999, 4_000, 4_001] {
            let sketch = draw::dense(&mut self.random, 400, arcs);
            self.draw_and_call(if arcs > 4_000 { -5 } else { 0 }, &sketch);
        }
    }

    /// The total is tested at each count: with too many arcs, the count that passes 4,000 decides, though its list is cut
    /// off. The last list is one arc to the sink, then comes the reserve: the count ends 4 bytes before the end.
    fn cut_at_the_last_count(&mut self, sketch: &Sketch) {
        let voice = draw::voice_of(&mut self.random, &[1; 64], 1).bytes();
        let lexicon = sketch.lexicon(&mut self.random).bytes();
        for missing in 0..40 {
            self.call(
                whole(&voice),
                cut(&lexicon, lexicon.len() - missing),
                WORK_SPACE,
            );
        }
    }

    /// A count of N + 1 is in range, though no list can be that long: bytes that end after it are 4, after a count of
    /// N + 2 they are 5. All vertices before it lead to the next one.
    fn counts_of_successors(&mut self) {
        let voice = draw::voice_of(&mut self.random, &[1], 1).bytes();
        for (nodes, vertex) in (1..=5).flat_map(|n| (0..=n).map(move |v| (n, v))) {
            for count in [0, 1, nodes, nodes + 1, nodes + 2, 255, 256, 65_535] {
                let mut fields = vec![number(nodes)];
                fields.resize(nodes + 1, byte(0));
                for before in 0..vertex {
                    fields.extend([number(1), number(before + 1)]);
                }
                fields.push(number(count));
                let known = if (1..=nodes + 1).contains(&count) {
                    -4
                } else {
                    -5
                };
                let lexicon = bytes_of(&fields);
                let answer = self.call(whole(&voice), whole(&lexicon), WORK_SPACE);
                self.hold_reference_to(known, answer);
                fields.extend((vertex + 1..=nodes + 2).map(number));
                let longer = bytes_of(&fields);
                for length in lexicon.len() - 2..=longer.len() {
                    self.call(whole(&voice), cut(&longer, length), WORK_SPACE);
                }
            }
        }
    }

    fn letters_and_symbols(&mut self) {
        let lexicon = one_word(&[0]).lexicon(&mut self.random);
        for letters in [1, 2, 63, 64, 65, 66] {
            let known = if letters > 64 { -3 } else { 1 };
            let voice = draw::voice_of(&mut self.random, &vec![2; letters], 3);
            self.call_for(known, &voice, &lexicon);
            let last = one_word(&[letters as u8 - 1]).lexicon(&mut self.random);
            self.call_for(known, &voice, &last);
            let beyond = one_word(&[letters as u8]).lexicon(&mut self.random);
            self.call_for(if letters > 64 { -3 } else { -5 }, &voice, &beyond);
        }
        for symbols in [0, 1, 2, 63, 64, 65, 66, 128, 255] {
            let known = if (1..=64).contains(&symbols) { 1 } else { -3 };
            let voice = draw::voice_of(&mut self.random, &[4, 1, 2], symbols);
            self.call_for(known, &voice, &lexicon);
        }
    }

    /// Every number of links from 0 to 255, with as many scores; and the same cut behind the number, which is judged
    /// before the scores can be missing.
    fn counts_of_links(&mut self) {
        let lexicon = one_word(&[0]).lexicon(&mut self.random);
        for letters in [1, 2, 3, 32, 63, 64] {
            let mut voice = draw::voice_of(&mut self.random, &vec![1; letters], 2);
            let end = bytes_of(&voice.fields_before_links()).len() + 1;
            for count in 0..=255 {
                let is_right = count == 1 || count == letters;
                voice.links.resize(count, -7);
                self.call_for(if is_right { 1 } else { -3 }, &voice, &lexicon);
                let voice = voice.bytes();
                let answer = self.call(cut(&voice, end), whole(&lexicon.bytes()), WORK_SPACE);
                self.hold_reference_to(if is_right { -2 } else { -3 }, answer);
            }
        }
    }

    fn print_bytes_and_states(&mut self) {
        let lexicon = one_word(&[0]).lexicon(&mut self.random);
        for states in 0..=6 {
            let known = if (1..=4).contains(&states) { 1 } else { -3 };
            for of_all in [vec![states], vec![1, states], vec![states, 4, states]] {
                let voice = draw::voice_of(&mut self.random, &of_all, 1);
                self.call_for(known, &voice, &lexicon);
            }
        }
        for (first, second, known) in [
            (33, 126, 1),
            (32, 126, -3),
            (33, 127, -3),
            (33, 33, -3),
            (34, 33, -3),
            (125, 126, 1),
            (126, 126, -3),
            (0, 34, -3),
            (33, 255, -3),
        ] {
            let mut voice = draw::voice_of(&mut self.random, &[1, 2], 1);
            voice.letters[0].print_byte = first;
            voice.letters[1].print_byte = second;
            self.call_for(known, &voice, &lexicon);
        }
    }

    /// The longest voice model, with 64 links, and a lexicon of 400 nodes and 4,000 arcs, cut here and there.
    fn longest_images(&mut self) {
        let mut voice = draw::voice_of(&mut self.random, &[4; 64], 64);
        voice.links.resize(64, -7);
        let voice = voice.bytes();
        let short = one_word(&[63]).lexicon(&mut self.random).bytes();
        let one_state = draw::voice_of(&mut self.random, &[1; 64], 1).bytes();
        let long = draw::dense(&mut self.random, 400, 4_000);
        let long = long.lexicon(&mut self.random).bytes();
        for k in 0..300 {
            let (mut of_voice, mut of_lexicon) = (voice.len(), long.len());
            if k % 30 > 0 {
                of_voice = self.random.below(voice.len());
                of_lexicon = self.random.below(long.len());
            }
            self.call(cut(&voice, of_voice), whole(&short), WORK_SPACE);
            self.call(whole(&one_state), cut(&long, of_lexicon), WORK_SPACE);
        }
    }
}

impl Checking {
    /// Lexicons near the limits in all respects at once, accepted or with a word spelled twice.
    pub(super) fn large(&mut self, rounds: usize) {
        self.counts.begin("large", &[0, 10]);
        for _ in 0..rounds {
            let sketches = [
                draw::dense(&mut self.random, 395, 3_900),
                draw::dense(&mut self.random, 300, 2_500),
                draw::trees(58),
                self.list_of_words(),
            ];
            for mut sketch in sketches {
                self.draw_and_call(0, &sketch);
                sketch.split(&mut self.random);
                self.draw_and_call(0, &sketch);
                sketch.second_path(&mut self.random, None);
                self.draw_and_call(-10, &sketch);
            }
        }
    }

    /// The graph of some hundred words.
    fn list_of_words(&mut self) -> Sketch {
        loop {
            let letters = self.random.between(2, 26);
            let words = draw::word_list(&mut self.random, letters, 150, 9);
            let sketch = Sketch::of_words(&words);
            if sketch.nodes() <= 380 {
                return sketch;
            }
        }
    }
}

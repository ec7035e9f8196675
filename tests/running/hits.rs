//! The tests that run the program hits: what it prints for an input, to the byte, against what is made here from the
//! papers alone. The program is the first argument; a seed may be the second.

#[allow(dead_code)]
mod counts;
#[allow(dead_code)]
mod damage;
#[allow(dead_code)]
mod draw;
mod faults;
#[allow(dead_code)]
mod image;
#[allow(dead_code)]
mod random;
#[allow(dead_code)]
mod reference;
#[allow(dead_code)]
#[path = "decoding/scores.rs"]
mod scores;
#[allow(dead_code)]
mod sketch;
#[allow(dead_code)]
#[path = "decoding/word_by_word.rs"]
mod word_by_word;

use counts::Forms;
use image::{small_lexicon, small_voice, Lexicon};
use random::Random;
use sketch::{Sketch, ROOT, SINK};
use std::collections::BTreeMap;
use std::io::Write;
use std::process::{Command, ExitCode, Stdio};
use std::time::{Duration, Instant};
use word_by_word::{Images, List};

const SEED: u64 = 20_240_501;
const SHOWN_DIFFERENCES: usize = 10;
/// The longest input of which every byte may count: two images of 65,535 bytes with their lengths, n, and 1,001 frames.
const LONGEST: usize = 132_076;

/// How many exact halves have to go each way.
const HALVES: usize = 20;

/// Long enough for the program to have read what was there.
const PAUSE: Duration = Duration::from_millis(4);

struct Program {
    path: String,
    random: Random,
    /// How often each first line was due: a refusal's, or any number of hits.
    seen: BTreeMap<String, usize>,
    /// How many means were due at an exact half, by its sign and the way it goes.
    halves: BTreeMap<&'static str, usize>,
    /// How the links of the voice models were stored for which words were due.
    forms: Forms,
    runs: usize,
    differences: usize,
}

fn main() -> ExitCode {
    let mut words = std::env::args().skip(1);
    let path = words.next().unwrap_or("target/bin/hits".to_string());
    let seed = words.next().and_then(|word| word.parse().ok());
    let begun = Instant::now();
    let mut program = Program {
        path,
        random: Random::from_seed(seed.unwrap_or(SEED)),
        seen: BTreeMap::new(),
        halves: BTreeMap::new(),
        forms: Forms::default(),
        runs: 0,
        differences: 0,
    };
    program.examples();
    program.links_printed();
    program.numbers_printed();
    program.means_printed();
    program.every_length();
    program.in_pieces();
    program.numbers_of_frames();
    program.lengths_given();
    program.long_inputs();
    program.refusals(400);
    program.any_images(1_000);
    program.even_numbers_of_frames(400);
    program.large();
    let missing = program.missing();
    for (first, times) in &program.seen {
        println!("{first:<12}{times:>6}");
    }
    for (way, times) in &program.halves {
        println!("a half {way:<18}{times:>6}");
    }
    program.forms.print("voice models of lists");
    println!(
        "hits: {} runs, {} means at an exact half, {} differences, {:.1} s",
        program.runs,
        program.halves.values().sum::<usize>(),
        program.differences,
        begun.elapsed().as_secs_f64()
    );
    match program.differences + missing {
        0 => ExitCode::SUCCESS,
        faults => {
            println!("FAILED: {faults} faults");
            ExitCode::FAILURE
        }
    }
}

/// An input whose lengths are those of the images.
fn input(voice: &[u8], lexicon: &[u8], n: u8, frames: &[u8]) -> Vec<u8> {
    let mut input = (voice.len() as u16).to_le_bytes().to_vec();
    input.extend_from_slice(voice);
    input.extend((lexicon.len() as u16).to_le_bytes());
    input.extend_from_slice(lexicon);
    input.push(n);
    input.extend_from_slice(frames);
    input
}

/// Takes an image with its length from the input's start: what is there of it, and nothing if a byte of the length is
/// missing.
fn take_image<'a>(input: &mut &'a [u8]) -> &'a [u8] {
    let Some((length, rest)) = input.split_at_checked(2) else {
        *input = &[];
        return &[];
    };
    let length = usize::from(length[0]) + 256 * usize::from(length[1]);
    let (image, rest) = rest.split_at(length.min(rest.len()));
    *input = rest;
    image
}

/// What has to be printed, and the scores in it with the number of frames; of an accepted voice model its numbers of
/// letters and links.
struct Report {
    text: String,
    scores: Vec<i64>,
    frames: i64,
    form: Option<(usize, usize)>,
}

fn report(mut input: &[u8]) -> Report {
    let voice = take_image(&mut input);
    let lexicon = take_image(&mut input);
    let n = input.first().copied().unwrap_or(0);
    let frames = input.get(1..).unwrap_or(&[]);
    let images = Images::of(voice, lexicon);
    let list = word_by_word::decode(&images, frames, n.into(), 64_000, 64);
    let frames = frames.len() as i64;
    match (images, list) {
        (Ok(images), Ok(list)) => Report {
            text: lines(voice, &images, &list, frames),
            scores: list.hits.iter().map(|hit| hit.score).collect(),
            frames,
            form: Some((images.letter_count(), images.stored_links)),
        },
        (_, list) => Report {
            text: format!("refused {}\n", list.err().unwrap_or(0)),
            scores: vec![],
            frames,
            form: None,
        },
    }
}

fn lines(voice: &[u8], images: &Images, list: &List, frames: i64) -> String {
    let words = images.words.len();
    // the length of W - 1 in binary
    let bits = match words {
        1 => 0,
        _ => format!("{:b}", words - 1).len(),
    };
    let mut lines = format!("hits {} words {words} bits {bits}\n", list.hits.len());
    for hit in &list.hits {
        let letters = images.words[hit.code as usize].iter();
        // after L each letter has its print byte and its number of states
        let print_byte = |letter: &u8| char::from(voice[1 + 2 * usize::from(*letter)]);
        let word: String = letters.map(print_byte).collect();
        let mean = nearest_mean(hit.score, frames);
        lines += &format!("{} {} {mean} {word}\n", hit.code, hit.score);
    }
    lines
}

/// The whole number below score over frames or the one above: the nearer, and of two as near the even one.
fn nearest_mean(score: i64, frames: i64) -> i64 {
    let below = score.div_euclid(frames);
    let distance = |mean: &i64| ((score - frames * mean).abs(), mean % 2 != 0);
    let nearest = [below, below + 1].into_iter().min_by_key(distance);
    nearest.unwrap_or(below)
}

const WAYS: [&str; 4] = [
    "above zero, down",
    "above zero, up",
    "below zero, down",
    "below zero, up",
];

/// Which way the mean goes where score over frames lies exactly between two whole numbers.
fn way_of_half(score: i64, frames: i64) -> Option<&'static str> {
    let half = 2 * score % frames == 0 && score % frames != 0;
    let up = nearest_mean(score, frames) * frames > score;
    half.then_some(WAYS[2 * usize::from(score < 0) + usize::from(up)])
}

impl Program {
    /// One run, held to the report.
    fn run(&mut self, input: &[u8]) {
        let expected = report(input);
        for score in &expected.scores {
            if let Some(way) = way_of_half(*score, expected.frames) {
                *self.halves.entry(way).or_default() += 1;
            }
        }
        if let Some(form) = expected.form {
            self.forms.add(form);
        }
        self.run_for(&expected.text, input);
    }

    fn run_for(&mut self, expected: &str, input: &[u8]) {
        self.runs += 1;
        let first = expected.split(" words").next().unwrap_or_default();
        *self.seen.entry(first.trim_end().to_string()).or_default() += 1;
        self.hold(expected, input, &[input]);
    }

    /// The input given in pieces, with a pause between them.
    fn run_in_pieces(&mut self, pieces: &[&[u8]]) {
        let input = pieces.concat();
        self.runs += 1;
        self.hold(&report(&input).text, &input, pieces);
    }

    fn hold(&mut self, expected: &str, input: &[u8], pieces: &[&[u8]]) {
        match self.printed(pieces) {
            Ok((printed, true)) if printed == expected.as_bytes() => {}
            Ok((printed, success)) => {
                let printed = String::from_utf8_lossy(&printed).into_owned();
                self.difference(input, expected, &format!("{printed:?}, status 0 {success}"));
            }
            Err(error) => self.difference(input, expected, &error.to_string()),
        }
    }

    /// What the program prints, and whether its status is 0.
    fn printed(&self, pieces: &[&[u8]]) -> std::io::Result<(Vec<u8>, bool)> {
        let mut child = Command::new(&self.path)
            .stdin(Stdio::piped())
            .stdout(Stdio::piped())
            .spawn()?;
        if let Some(mut stdin) = child.stdin.take() {
            for (k, piece) in pieces.iter().enumerate() {
                if k > 0 {
                    std::thread::sleep(PAUSE);
                }
                // a program that has seen enough need not read to the end
                stdin.write_all(piece).ok();
            }
        }
        let output = child.wait_with_output()?;
        Ok((output.stdout, output.status.success()))
    }

    fn difference(&mut self, input: &[u8], expected: &str, found: &str) {
        self.differences += 1;
        if self.differences <= SHOWN_DIFFERENCES {
            println!("difference: expected {expected:?}, found {found}");
            println!(
                "  input of {} bytes: {:?}",
                input.len(),
                &input[..input.len().min(200)]
            );
        }
    }

    /// The document's example and the other rows of the small lexicon, as they are printed.
    fn examples(&mut self) {
        let voice = small_voice().bytes();
        let lexicon = small_lexicon();
        let mut turned = lexicon.clone();
        turned.successors[0] = vec![2, 1];
        let (lexicon, turned) = (lexicon.bytes(), turned.bytes());
        let three = "hits 3 words 5 bits 3\n0 -2 -1 an\n1 -12 -6 at\n3 -12 -6 in\n";
        let five = "hits 5 words 5 bits 3\n0 -2 -1 an\n1 -12 -6 at\n3 -12 -6 in\n2 -21 -10 i\n4 -22 -11 it\n";
        let other = "hits 3 words 5 bits 3\n3 -2 -1 an\n1 -12 -6 in\n4 -12 -6 at\n";
        for (lexicon, n, frames, printed) in [
            (&lexicon, 3, &[0, 2][..], three),
            (&lexicon, 8, &[0, 2], five),
            (&turned, 3, &[0, 2], other),
            (&lexicon, 8, &[1], "hits 1 words 5 bits 3\n2 0 0 i\n"),
            (
                &lexicon,
                1,
                &[0, 0, 2],
                "hits 1 words 5 bits 3\n0 -3 -1 an\n",
            ),
            (
                &lexicon,
                1,
                &[1; 1_000],
                "hits 1 words 5 bits 3\n2 -999 -1 i\n",
            ),
            (&lexicon, 1, &[1; 1_001], "refused 11\n"),
            (&lexicon, 3, &[0, 4], "refused 11\n"),
            (&lexicon, 0, &[0, 2], "refused 12\n"),
            (&lexicon, 9, &[0, 2], "refused 12\n"),
            (&lexicon, 255, &[0, 2], "refused 12\n"),
        ] {
            let input = input(&voice, lexicon, n, frames);
            self.run_for(printed, &input);
            self.run(&input);
        }
    }

    /// A link for each of a, i, n and t, and what is printed of P for frames 0 2.
    fn links_printed(&mut self) {
        let lexicon = small_lexicon().bytes();
        let mut voice = small_voice();
        for (links, hits, lines) in [
            (
                [-2, -2, 900, -900],
                5,
                "0 -2 -1 an\n1 -12 -6 at\n3 -12 -6 in\n2 -21 -10 i\n4 -22 -11 it\n",
            ),
            (
                [-5, -1, 7, 9],
                5,
                "0 -5 -2 an\n3 -11 -6 in\n1 -15 -8 at\n2 -21 -10 i\n4 -21 -10 it\n",
            ),
            (
                [-30, 0, 0, 0],
                5,
                "3 -10 -5 in\n4 -20 -10 it\n2 -21 -10 i\n0 -30 -15 an\n1 -40 -20 at\n",
            ),
            (
                [-2, -32_768, -2, -2],
                3,
                "0 -2 -1 an\n1 -12 -6 at\n2 -21 -10 i\n",
            ),
        ] {
            voice.links = links.to_vec();
            let input = input(&voice.bytes(), &lexicon, 8, &[0, 2]);
            self.run_for(&format!("hits {hits} words 5 bits 3\n{lines}"), &input);
            self.run(&input);
        }
        // counts that are neither 1 nor 4, with as many scores
        for count in [0, 2, 3, 5, 6, 255] {
            voice.links.resize(count, -2);
            let input = input(&voice.bytes(), &lexicon, 8, &[0, 2]);
            self.run_for("refused 3\n", &input);
        }
    }

    /// The highest and the lowest score, no hits, one word, 32 letters.
    fn numbers_printed(&mut self) {
        let mut voice = small_voice();
        let small = small_lexicon().bytes();
        for (score, line) in [
            (32_767, "0 65501233 65501 an"),
            (-32_767, "0 -65501233 -65501 an"),
        ] {
            scores::set_all(&mut voice, score, score);
            let input = input(&voice.bytes(), &small, 1, &[3; 1_000]);
            self.run_for(&format!("hits 1 words 5 bits 3\n{line}\n"), &input);
        }
        let voice = small_voice().bytes();
        let one = Lexicon {
            letters: vec![0],
            successors: vec![vec![1], vec![2]],
        };
        let printed = "hits 1 words 1 bits 0\n0 0 0 a\n";
        self.run_for(printed, &input(&voice, &one.bytes(), 8, &[0]));
        let mut long = Sketch::new();
        long.chain(ROOT, &[3; 32], SINK);
        let long = long.lexicon(&mut self.random).bytes();
        let word = "t".repeat(32);
        let printed = format!("hits 1 words 1 bits 0\n0 -62 -2 {word}\n");
        self.run_for(&printed, &input(&voice, &long, 1, &[3; 32]));
        let printed = "hits 0 words 1 bits 0\n";
        self.run_for(printed, &input(&voice, &long, 8, &[3; 31]));
    }

    /// Means of a word of one state: at exact halves and beside them, over 1 frame and over 3.
    fn means_printed(&mut self) {
        let mut voice = draw::voice_of(&mut self.random, &[1], 1);
        voice.letters[0].print_byte = b'a';
        let lexicon = Lexicon {
            letters: vec![0],
            successors: vec![vec![1], vec![2]],
        };
        for (frames, emission, stay, line) in [
            (2, 0, -5, "-5 -2"),
            (2, 0, -7, "-7 -4"),
            (2, 0, 5, "5 2"),
            (2, 0, -1, "-1 0"),
            (2, 0, 1, "1 0"),
            (2, 0, -3, "-3 -2"),
            (2, 0, 3, "3 2"),
            (2, 0, 7, "7 4"),
            (2, 0, -8, "-8 -4"),
            (1, 32_767, 0, "32767 32767"),
            (1, -32_767, 0, "-32767 -32767"),
            (1, -1, 0, "-1 -1"),
            (3, 0, 1, "2 1"),
            (3, 0, 2, "4 1"),
            (3, 0, -1, "-2 -1"),
            (3, 0, -2, "-4 -1"),
            (4, 0, 1, "3 1"),
            (4, 0, -1, "-3 -1"),
            (4, 0, 2, "6 2"),
            (4, 0, -2, "-6 -2"),
            (4, 0, 6, "18 4"),
            (4, 0, -6, "-18 -4"),
            (1_000, 0, 500, "499500 500"),
            (1_000, 0, -500, "-499500 -500"),
            (1_000, 0, 1_500, "1498500 1498"),
            (1_000, 0, -1_500, "-1498500 -1498"),
            (1_000, 0, 501, "500499 500"),
            (1_000, 0, -499, "-498501 -499"),
            // in floats of 32 bits an exact half
            (1_000, 32_766, 32_499, "65232501 65233"),
            (1_000, -32_766, -32_499, "-65232501 -65233"),
        ] {
            scores::set_all(&mut voice, stay, emission);
            let input = input(&voice.bytes(), &lexicon.bytes(), 1, &vec![0; frames]);
            self.run_for(&format!("hits 1 words 1 bits 0\n0 {line} a\n"), &input);
            self.run(&input);
        }
    }

    /// What is read at once ends anywhere.
    fn in_pieces(&mut self) {
        let (voice, lexicon) = (small_voice().bytes(), small_lexicon().bytes());
        let whole = input(&voice, &lexicon, 3, &[0, 2]);
        for length in 1..whole.len() {
            let (first, rest) = whole.split_at(length);
            self.run_in_pieces(&[first, rest]);
        }
        let pieces: Vec<&[u8]> = whole.chunks(1).collect();
        self.run_in_pieces(&pieces);
        let mut frames = vec![0; 1_000];
        frames[999] = 2;
        for last in [&[][..], &[2]] {
            let whole = [&input(&voice, &lexicon, 8, &frames), last].concat();
            let pieces: Vec<&[u8]> = whole.chunks(97).collect();
            self.run_in_pieces(&pieces);
        }
    }

    /// Cut at every length: a length of which a byte is missing leaves an empty image, a missing n is 0 and no frames.
    fn every_length(&mut self) {
        let (mut voice, lexicon) = (small_voice(), small_lexicon().bytes());
        voice.links = vec![-2, -3, -4, -5];
        let whole = input(&voice.bytes(), &lexicon, 3, &[0, 2]);
        for length in 0..=whole.len() {
            self.run(&whole[..length]);
        }
        let voice = small_voice().bytes();
        let whole = input(&voice, &lexicon, 3, &[0, 2]);
        for length in 0..=whole.len() {
            self.run(&whole[..length]);
        }
        let before_n = whole.len() - 3;
        let before_lexicon = 2 + voice.len();
        for (length, printed) in [
            (0, "refused 2\n"),
            (1, "refused 2\n"),
            (2, "refused 2\n"),
            (before_lexicon - 1, "refused 2\n"),
            (before_lexicon, "refused 4\n"),
            (before_lexicon + 1, "refused 4\n"),
            (before_n - 1, "refused 4\n"),
            (before_n, "refused 11\n"),
            (before_n + 1, "refused 11\n"),
        ] {
            self.run_for(printed, &whole[..length]);
        }
        // half a length, which as a voice model of one byte would be 3
        for byte in [0, 1, 65, 200, 255] {
            self.run_for("refused 2\n", &[byte]);
        }
    }

    /// Up to far more frames than can be taken, some of them out of range only there.
    fn numbers_of_frames(&mut self) {
        let (voice, lexicon) = (small_voice().bytes(), small_lexicon().bytes());
        let lengths = [998, 999, 1_000, 1_001, 1_002, 2_000, 65_535, 65_536, 65_537];
        for length in lengths
            .into_iter()
            .chain([66_036, 131_072, 200_000, 1_000_000])
        {
            let mut frames = self.random.bytes(length);
            frames.iter_mut().for_each(|frame| *frame %= 4);
            self.run(&input(&voice, &lexicon, 8, &frames));
            self.run(&input(&voice, &lexicon, 0, &frames));
            frames[length - 1] = 255;
            self.run(&input(&voice, &lexicon, 8, &frames));
        }
    }

    /// Lengths that are not the images': what follows is cut elsewhere. The longest leave all to the first image.
    fn lengths_given(&mut self) {
        let (voice, lexicon) = (small_voice().bytes(), small_lexicon().bytes());
        let whole = input(&voice, &lexicon, 3, &[0, 2]);
        for at in [0, 2 + voice.len()] {
            let right = u16::from_le_bytes([whole[at], whole[at + 1]]);
            for length in [0, 1, right - 1, right + 1, right + 5, 256, 32_768, 65_535] {
                let mut input = whole.clone();
                input[at..at + 2].copy_from_slice(&length.to_le_bytes());
                self.run(&input);
                // with as many bytes as that, and more
                input.resize(input.len() + 70_000, 0);
                self.run(&input);
            }
        }
        self.run(&[0; 131_075]);
        self.run(&[255; 140_000]);
    }

    /// About and beyond the longest input of which every byte may count.
    fn long_inputs(&mut self) {
        let (voice, lexicon) = (small_voice().bytes(), small_lexicon().bytes());
        let longer = |image: &[u8]| {
            let mut image = image.to_vec();
            image.resize(65_535, 0);
            image
        };
        for length in [131_074, 131_075, 131_076, LONGEST - 1, LONGEST, LONGEST + 1] {
            for more in [0, 1, 70_000, 1_000_000] {
                for (voice, lexicon) in [
                    (&voice, &lexicon),
                    (&voice, &longer(&lexicon)),
                    (&longer(&voice), &lexicon),
                    (&longer(&voice), &longer(&lexicon)),
                ] {
                    let mut input = input(voice, lexicon, 3, &[]);
                    input.resize(length + more, 1);
                    self.run(&input);
                }
            }
        }
    }

    /// Each of the conditions 2 to 10 alone, and any set of them, with and without 11 and 12.
    fn refusals(&mut self, runs: usize) {
        for k in 0..runs {
            let random = &mut self.random;
            let several = match k {
                0..36 => 1 << (k % 9),
                _ => random.below(1 << 9) & random.below(1 << 9),
            };
            let (voice, lexicon) = faults::faulty_images(random, several);
            let n = *random.pick(&[0, 1, 3, 8, 8, 9, 255]);
            let symbol = *random.pick(&[0, 0, 0, 64]);
            let length = random.between(1, 12);
            self.run(&input(&voice, &lexicon, n, &vec![symbol; length]));
        }
    }

    fn any_images(&mut self, runs: usize) {
        for k in 0..runs {
            let random = &mut self.random;
            let letters = random.between(1, 6);
            let sketch = match k % 4 {
                0 => draw::tangle(random, letters),
                _ => draw::few_words(random, letters),
            };
            let mut voice = draw::voice(random, letters, 4);
            scores::draw(random, &mut voice);
            let lexicon = sketch.lexicon(random);
            let length = random.between(1, 30);
            let mut frames = random.bytes(length);
            frames.iter_mut().for_each(|frame| *frame %= voice.symbols);
            let n = random.between(1, 8) as u8;
            let (mut voice_bytes, mut lexicon_bytes) = (voice.bytes(), lexicon.bytes());
            if k % 5 == 0 {
                lexicon_bytes = damage::damaged(random, &lexicon.fields());
            }
            if k % 7 == 0 {
                voice_bytes = damage::damaged_voice(random, &voice);
            }
            self.run(&input(&voice_bytes, &lexicon_bytes, n, &frames));
        }
    }

    /// Small scores over an even number of frames, so that many a mean is an exact half.
    fn even_numbers_of_frames(&mut self, runs: usize) {
        for _ in 0..runs {
            let random = &mut self.random;
            let letters = random.between(1, 4);
            let sketch = draw::few_words(random, letters);
            let mut voice = draw::voice_of(random, &vec![1; letters], 4);
            let mut score = || random.below(19) as i16 - 9;
            voice.moves.fill_with(|| [score(), 0]);
            voice.links.fill_with(&mut score);
            voice.emissions.fill_with(score);
            let lexicon = sketch.lexicon(random);
            let length = 2 * random.between(1, 4);
            let mut frames = random.bytes(length);
            frames.iter_mut().for_each(|frame| *frame %= voice.symbols);
            self.run(&input(&voice.bytes(), &lexicon.bytes(), 8, &frames));
        }
    }

    /// Many words, and an accepted input that is nearly as long as can be.
    fn large(&mut self) {
        let sketch = draw::so_many_words(&[32; 4], 0);
        let mut voice = draw::voice_of(&mut self.random, &[1; 32], 2);
        scores::set_all(&mut voice, -1, -1);
        for emission in &mut voice.emissions {
            *emission = -(self.random.below(3_000) as i16);
        }
        let lexicon = sketch.lexicon(&mut self.random).bytes();
        self.run(&input(&voice.bytes(), &lexicon, 8, &[0, 1, 1, 0, 1]));
        let sketch = draw::so_many_words(&[16; 4], 3);
        let mut voice = draw::voice_of(&mut self.random, &[1; 64], 64);
        scores::set_all(&mut voice, -32_767, -32_767);
        let lexicon = sketch.lexicon(&mut self.random).bytes();
        self.run(&input(&voice.bytes(), &lexicon, 8, &[63; 60]));
        let mut voice = draw::voice_of(&mut self.random, &[4; 64], 64);
        voice.links.resize(64, -7);
        let voice = voice.bytes();
        let lexicon = draw::dense(&mut self.random, 250, 3_900);
        let lexicon = lexicon.lexicon(&mut self.random).bytes();
        self.run(&input(&voice, &lexicon, 8, &[63; 1_000]));
        self.run(&input(&voice, &lexicon, 8, &[63; 1_001]));
    }

    /// Prints each kind of report that was never due, and each way of a half that hardly was; says how many there are.
    fn missing(&self) -> usize {
        let refusals =
            [2, 3, 4, 5, 6, 7, 8, 9, 10, 11, 12].map(|number| format!("refused {number}"));
        let lists = [0, 1, 2, 3, 8].map(|hits| format!("hits {hits}"));
        let never = |due: &&String| !self.seen.contains_key(*due);
        let never: Vec<&String> = refusals.iter().chain(&lists).filter(never).collect();
        for due in &never {
            println!("never seen: {due}");
        }
        let few = |way: &&&str| self.halves.get(**way).is_none_or(|times| *times < HALVES);
        let few: Vec<&&str> = WAYS.iter().filter(few).collect();
        for way in &few {
            println!("fewer than {HALVES} halves {way}");
        }
        never.len() + few.len() + self.forms.missing()
    }
}

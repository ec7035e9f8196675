//! What bench/decode decodes: lexicons from the paper's small one to 400 nodes with 4,000 arcs, and series in which one
//! size grows alone. Each has a voice model with one link, and the same with a link a letter.

use crate::draw;
use crate::image::{small_lexicon, small_voice, Lexicon, Voice};
use crate::random::Random;
use crate::sketch::Sketch;

/// The two forms of a voice model's links.
#[derive(Clone, Copy)]
pub enum Links {
    One,
    ByLetter,
}

impl Links {
    pub fn name(self) -> &'static str {
        match self {
            Links::One => "one link",
            Links::ByLetter => "a link a letter",
        }
    }
}

pub struct Input {
    pub name: String,
    pub places: usize,
    pub arcs: usize,
    pub words: u64,
    /// The states of all words together, by which the time of decoding word by word can be foreseen.
    pub states_of_words: u64,
    /// With one link, and with a link a letter.
    pub voices: [Vec<u8>; 2],
    pub lexicon: Vec<u8>,
    pub symbols: usize,
}

impl Input {
    pub fn voice(&self, links: Links) -> &[u8] {
        &self.voices[links as usize]
    }
}

/// Scores as a trained model has them: none is impossible, loops are likely. No token is ever dropped, which is the
/// most work.
fn ordinary(random: &mut Random, voice: &mut Voice) {
    let mut at = 0;
    for letter in &voice.letters {
        for state in 1..=letter.states {
            let step = if state < letter.states {
                -1 - random.below(200) as i16
            } else {
                0
            };
            voice.moves[at] = [-1 - random.below(100) as i16, step];
            at += 1;
        }
    }
    voice.links = vec![-100];
    for emission in &mut voice.emissions {
        *emission = -(random.below(2_000) as i16);
    }
}

/// The same model with a link a letter, from -1 to twice its one link. They have a seed of their own, so that whatever
/// else is drawn is the same with both forms.
fn by_letter(voice: &Voice) -> Voice {
    let random = &mut Random::from_seed(2);
    let twice = 2 * usize::from(voice.links[0].unsigned_abs());
    let link = |_| -1 - random.below(twice) as i16;
    Voice {
        links: (0..voice.letters.len()).map(link).collect(),
        ..voice.clone()
    }
}

/// The words, and the states of all words together.
fn words_and_states(voice: &Voice, lexicon: &Lexicon) -> (u64, u64) {
    let sink = lexicon.successors.len();
    let mut paths = vec![1; sink + 1];
    let mut states = vec![0; sink + 1];
    for vertex in (0..sink).rev() {
        let list = || lexicon.successors[vertex].iter().copied().map(usize::from);
        paths[vertex] = list().map(|successor| paths[successor]).sum();
        states[vertex] = list().map(|successor| states[successor]).sum();
        if vertex > 0 {
            let letter = usize::from(lexicon.letters[vertex - 1]);
            states[vertex] += paths[vertex] * u64::from(voice.letters[letter].states);
        }
    }
    (paths[0], states[0])
}

fn of_images(name: &str, voice: &Voice, lexicon: &Lexicon) -> Input {
    let states = |letter: &u8| usize::from(voice.letters[usize::from(*letter)].states);
    let (words, states_of_words) = words_and_states(voice, lexicon);
    Input {
        name: name.to_string(),
        places: lexicon.letters.iter().map(states).sum(),
        arcs: lexicon.successors.iter().map(Vec::len).sum(),
        words,
        states_of_words,
        voices: [voice.bytes(), by_letter(voice).bytes()],
        lexicon: lexicon.bytes(),
        symbols: voice.symbols.into(),
    }
}

/// Letters with these numbers of states in turn.
fn of_sketch(name: &str, sketch: &Sketch, states: &[u8], random: &mut Random) -> Input {
    let of_letters: Vec<u8> = states.iter().copied().cycle().take(64).collect();
    let mut voice = draw::voice_of(random, &of_letters, 32);
    ordinary(random, &mut voice);
    of_images(name, &voice, &sketch.lexicon(random))
}

/// The graph of as many random words as so many nodes hold.
fn word_list(random: &mut Random, nodes: usize) -> Sketch {
    let mut words = Vec::new();
    for _ in 0..10 * nodes {
        let length = random.between(2, 6);
        words.push(draw::word(random, 8, length));
    }
    loop {
        let sketch = Sketch::of_words(&words);
        if sketch.nodes() <= nodes {
            return sketch;
        }
        words.truncate(words.len() - words.len() / 50 - 1);
    }
}

pub fn inputs(random: &mut Random) -> Vec<Input> {
    let twenty = word_list(random, 20);
    let hundred = word_list(random, 100);
    let few_arcs = word_list(random, 400);
    let dense = draw::dense(random, 400, 4_000);
    let layers = draw::so_many_words(&[36, 36, 36], 0);
    let small = (small_voice(), small_lexicon());
    vec![
        of_images("the small lexicon", &small.0, &small.1),
        of_sketch("20 nodes", &twenty, &[1], random),
        of_sketch("20 nodes", &twenty, &[4], random),
        of_sketch("100 nodes", &hundred, &[1], random),
        of_sketch("100 nodes", &hundred, &[1, 2, 3, 4], random),
        of_sketch("100 nodes", &hundred, &[4], random),
        of_sketch("400 nodes, few arcs", &few_arcs, &[1], random),
        of_sketch("400 nodes, few arcs", &few_arcs, &[2, 3], random),
        of_sketch("108 nodes, full layers", &layers, &[1, 2, 3, 4], random),
        of_sketch("400 nodes, 4,000 arcs", &dense, &[1], random),
        of_sketch("400 nodes, 4,000 arcs", &dense, &[2], random),
    ]
}

/// 400 nodes, and more and more arcs.
pub fn over_arcs(random: &mut Random) -> Vec<Input> {
    let of_arcs = |arcs: usize| {
        let sketch = draw::dense(random, 400, arcs);
        of_sketch(&format!("{arcs} arcs"), &sketch, &[2], random)
    };
    [1_000, 1_500, 2_000, 2_500, 3_000, 3_500, 4_000]
        .into_iter()
        .map(of_arcs)
        .collect()
}

/// 80 nodes and 160 arcs each time: 40 layers of two nodes, in blocks beside each other. A block of k layers has 2^k
/// words, so how the layers are shared out decides how many words there are.
pub fn over_words(random: &mut Random) -> Vec<Input> {
    let shares: [&[usize]; 9] = [
        &[2; 20],
        &[4; 10],
        &[5; 8],
        &[8; 5],
        &[10; 4],
        &[14, 13, 13],
        &[16, 15, 9],
        &[18, 17, 5],
        &[19, 18, 3],
    ];
    let of_blocks = |blocks: &&[usize]| {
        let mut sketch = Sketch::new();
        for (k, layers) in blocks.iter().enumerate() {
            sketch.layers(&vec![2; *layers], 2 * k as u8);
        }
        of_sketch("blocks", &sketch, &[1], random)
    };
    shares.iter().map(of_blocks).collect()
}

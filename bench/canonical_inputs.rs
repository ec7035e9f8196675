//! What bench/canonical writes canonical images of: ordinary lists of bin names, the largest lists that are accepted,
//! as many letters in longer words, and lists that make lookups of nodes hard; each list stored in several orders.

use crate::draw;
use crate::image::{Lexicon, Voice};
use crate::random::Random;
use crate::sketch::{Sketch, ROOT, SINK};

const MOST_WORDS: usize = 2_000;
const MOST_LETTERS: usize = 16_000;
const MOST_NODES: usize = 400;
const MOST_ARCS: usize = 4_000;
const ALPHABET: usize = 64;

pub type Word = Vec<u8>;

pub struct Input {
    pub name: String,
    /// How the arcs of each vertex are stored.
    pub order: &'static str,
    pub words: Vec<Word>,
    pub voice: Vec<u8>,
    pub lexicon: Vec<u8>,
}

impl Input {
    /// Of all words together.
    pub fn letters(&self) -> usize {
        self.words.iter().map(Vec::len).sum()
    }
}

/// Inputs of one kind, of which the worst ratio is said.
pub struct Family {
    pub name: &'static str,
    pub inputs: Vec<Input>,
}

impl Family {
    /// Adds a word list, by its smallest graph, in each order.
    fn list(&mut self, name: &str, words: &[Word], voice: &Voice, random: &mut Random) {
        self.graph(name, &Sketch::of_words(words), voice, random);
    }

    /// Adds a graph in each order.
    fn graph(&mut self, name: &str, sketch: &Sketch, voice: &Voice, random: &mut Random) {
        let words = words_of(sketch);
        for order in Order::ALL {
            let mut lexicon = sketch.lexicon(random);
            order.put(&mut lexicon);
            self.inputs.push(Input {
                name: name.to_string(),
                order: order.name(),
                words: words.clone(),
                voice: voice.bytes(),
                lexicon: lexicon.bytes(),
            });
        }
    }
}

#[derive(Clone, Copy)]
enum Order {
    Rising,
    Falling,
    Shuffled,
}

impl Order {
    const ALL: [Order; 3] = [Order::Rising, Order::Falling, Order::Shuffled];

    fn name(self) -> &'static str {
        match self {
            Order::Rising => "rising",
            Order::Falling => "falling",
            Order::Shuffled => "shuffled",
        }
    }

    /// Puts the lists of a lexicon in order by letter, the sink below all letters. They come shuffled.
    fn put(self, lexicon: &mut Lexicon) {
        let letters = &lexicon.letters;
        let letter = |to: &u16| {
            letters
                .get(usize::from(*to) - 1)
                .map_or(-1, |l| (*l).into())
        };
        for list in &mut lexicon.successors {
            match self {
                Order::Rising => list.sort_by_key(letter),
                Order::Falling => list.sort_by_key(|to| -letter(to) as i32),
                Order::Shuffled => {}
            }
        }
    }
}

/// So many letters of two states: 400 nodes have 800 places.
fn voice(random: &mut Random, letters: usize) -> Voice {
    let mut voice = draw::voice_of(random, &vec![2; letters], 4);
    voice.links = vec![-1];
    voice
}

pub fn families(random: &mut Random) -> Vec<Family> {
    let voice = voice(random, ALPHABET);
    vec![
        bins(random),
        largest(&voice, random),
        longer(&voice, random),
        hard(&voice, random),
    ]
}

fn bins(random: &mut Random) -> Family {
    let mut family = Family {
        name: "bin names",
        inputs: Vec::new(),
    };
    let mut voice = voice(random, 36);
    let print_bytes = (b'0'..=b'9').chain(b'A'..=b'Z');
    for (letter, print_byte) in voice.letters.iter_mut().zip(print_bytes) {
        letter.print_byte = print_byte;
    }
    let names = bin_names(random);
    for count in [100, 500, MOST_WORDS] {
        let name = format!("{count} bin names");
        family.list(&name, &names[..count], &voice, random);
    }
    family
}

/// Hall, aisle, level and place, such as K07C12 or KN21E104: five to eight letters. There are eight kinds of racks, and
/// each aisle has one of them.
fn bin_names(random: &mut Random) -> Vec<Word> {
    let racks: Vec<Vec<String>> = (0..8).map(|_| rack(random)).collect();
    let letter = |print_byte: u8| match print_byte {
        b'0'..=b'9' => print_byte - b'0',
        _ => print_byte - b'A' + 10,
    };
    let mut names: Vec<Word> = Vec::new();
    let mut aisle = 0;
    while names.len() < MOST_WORDS {
        let hall = ["K", "KN", "M"][aisle / 10 % 3];
        aisle += 1;
        for place in random.pick(&racks) {
            let name = format!("{hall}{aisle:02}{place}");
            names.push(name.bytes().map(letter).collect());
        }
    }
    names
}

/// The levels of a rack and the places in each, of which some are closed.
fn rack(random: &mut Random) -> Vec<String> {
    let (levels, places) = (random.between(3, 5), random.between(12, 24));
    let mut names = Vec::new();
    for level in ["A", "B", "C", "D", "E"].iter().take(levels) {
        // a fifth level has pallets, numbered from 101
        let first = if *level == "E" { 101 } else { 1 };
        let open = (first..first + places).filter(|_| !random.once_in(12));
        names.extend(open.map(|place| format!("{level}{place}")));
    }
    names
}

/// 2,000 words with 16,000 letters in all.
fn largest(voice: &Voice, random: &mut Random) -> Family {
    let mut family = Family {
        name: "2,000 words, 16,000 letters",
        inputs: Vec::new(),
    };
    let early = full(&[5, 4, 5, 4, 5, 1, 1, 1]);
    family.list("full layers", &early, voice, random);
    let late = full(&[1, 1, 1, 1, 1, 10, 10, 20]);
    family.list("full layers, late", &late, voice, random);
    for letters in [64, 8, 3] {
        let words = layered(random, 8, 48, letters, MOST_WORDS);
        let name = format!("8 layers, {letters} letters");
        family.list(&name, &words, voice, random);
        let split = split_up(random, &words);
        family.graph(&format!("{name}, split"), &split, voice, random);
    }
    let words = of_all_lengths(random);
    family.list("2 to 32 letters", &words, voice, random);
    let words = short_and_long();
    family.list("2 or 32 letters", &words, voice, random);
    let apart = last_letter_first(16, &[5, 5, 5, 1, 1, 1, 1]);
    family.graph("last letter first", &apart, voice, random);
    family.graph("250 arcs of a vertex", &wide_vertex(), voice, random);
    for (first, second) in [(63, 1), (63, 2), (45, 3)] {
        let words = completed(alike(first, second));
        let name = format!("{} nodes alike", first * second);
        family.list(&name, &words, voice, random);
    }
    family
}

/// 16,000 letters, or nearly, in fewer words.
fn longer(voice: &Voice, random: &mut Random) -> Family {
    let mut family = Family {
        name: "longer words",
        inputs: Vec::new(),
    };
    for (depth, letters) in [(12, 64), (12, 2), (20, 8), (20, 2), (32, 64), (32, 2)] {
        let words = layered(random, depth, 396 / depth, letters, MOST_LETTERS / depth);
        let name = format!("{depth} layers, {letters} letters");
        family.list(&name, &words, voice, random);
    }
    let mut widths = [1; 30];
    (widths[27], widths[28], widths[29]) = (2, 5, 5);
    let late = full(&[&widths[..], &[10]].concat());
    family.list("full layers, late", &late, voice, random);
    let apart = last_letter_first(10, &widths);
    family.graph("last letter first", &apart, voice, random);
    family
}

/// Many nodes of one letter, with as many words behind each, as long. Some that are as large as can be stand among the
/// largest lists.
fn hard(voice: &Voice, random: &mut Random) -> Family {
    let mut family = Family {
        name: "hard for lookups",
        inputs: Vec::new(),
    };
    for (first, second) in [(64, 1), (64, 2), (50, 3), (40, 4)] {
        let name = format!("{} nodes alike", first * second);
        family.list(&name, &alike(first, second), voice, random);
    }
    for (count, each, endings) in [(64, 31, 60), (120, 16, 24), (150, 13, 16)] {
        let name = format!("{count} sets of {each} endings");
        let words = sets(random, count, each, endings);
        family.list(&name, &words, voice, random);
    }
    family
}

/// All words that have one of the first so many letters at each place.
fn full(widths: &[usize]) -> Vec<Word> {
    let mut sketch = Sketch::new();
    sketch.layers(widths, 0);
    words_of(&sketch)
}

/// The words of a graph in layers of so many nodes, with arcs at random: as many words as wanted, all of one length.
fn layered(
    random: &mut Random,
    depth: usize,
    width: usize,
    letters: usize,
    wanted: usize,
) -> Vec<Word> {
    loop {
        let mut sketch = Sketch::new();
        let mut layers = vec![vec![ROOT]];
        for _ in 0..depth {
            let layer = (0..width).map(|_| sketch.node(random.below(letters) as u8));
            layers.push(layer.collect());
        }
        for pair in layers.windows(2) {
            for from in &pair[0] {
                sketch.arc(*from, *random.pick(&pair[1]));
            }
        }
        for from in &layers[depth] {
            sketch.arc(*from, SINK);
        }
        // as many tries as reach the wanted number nearly always
        for _ in 0..20_000 {
            let k = random.below(depth);
            let (from, to) = (*random.pick(&layers[k]), *random.pick(&layers[k + 1]));
            let is_same = |successor: &usize| sketch.letters[*successor] == sketch.letters[to];
            if sketch.successors[from].iter().any(is_same) {
                continue;
            }
            sketch.arc(from, to);
            let count = count_words(&sketch, &layers);
            if count > wanted {
                sketch.successors[from].pop();
            } else if count == wanted {
                return words_of(&sketch);
            }
        }
    }
}

fn count_words(sketch: &Sketch, layers: &[Vec<usize>]) -> usize {
    let mut paths = vec![0; sketch.letters.len()];
    for vertex in layers.iter().rev().flatten() {
        let of = |successor: &usize| paths.get(*successor).copied().unwrap_or(1);
        paths[*vertex] = sketch.successors[*vertex].iter().map(of).sum();
    }
    paths[ROOT]
}

fn words_of(sketch: &Sketch) -> Vec<Word> {
    fn spell(sketch: &Sketch, vertex: usize, word: &mut Word, words: &mut Vec<Word>) {
        for successor in &sketch.successors[vertex] {
            if *successor == SINK {
                words.push(word.clone());
            } else {
                word.push(sketch.letters[*successor]);
                spell(sketch, *successor, word, words);
                word.pop();
            }
        }
    }
    let mut words = Vec::new();
    spell(sketch, ROOT, &mut Vec::new(), &mut words);
    words
}

/// Nodes split as long as the limits permit: a list has one letter several times, and neighbours in the dictionary lie
/// apart.
fn split_up(random: &mut Random, words: &[Word]) -> Sketch {
    let mut sketch = Sketch::of_words(words);
    for _ in 0..2_000 {
        let mut more = sketch.clone();
        more.split(random);
        if more.nodes() <= MOST_NODES && more.arcs() <= MOST_ARCS {
            sketch = more;
        }
    }
    sketch
}

/// Two times 50 beginnings of two letters, each with 20 endings of up to 30 letters, six on average.
fn of_all_lengths(random: &mut Random) -> Vec<Word> {
    let lengths = [0, 1, 1, 1, 2, 2, 2, 3, 3, 3, 4, 4, 5, 5, 6, 7, 8, 9, 24, 30];
    let mut words = Vec::new();
    for half in 0..2 {
        let mut endings: Vec<Word> = Vec::new();
        while endings.len() < lengths.len() {
            let ending = draw::word(random, 12, lengths[endings.len()]);
            if !endings.contains(&ending) {
                endings.push(ending);
            }
        }
        for k in 0..50 {
            let beginning = [5 * half + k / 10, k % 10];
            let joined = |ending: &Word| [&beginning[..], ending].concat();
            words.extend(endings.iter().map(joined));
        }
    }
    words
}

/// 1,600 words of two letters and 400 of 32, which differ in the last two.
fn short_and_long() -> Vec<Word> {
    let mut words = full(&[40, 40]);
    for word in full(&[20, 20]) {
        words.push([&[40; 30][..], &word].concat());
    }
    words
}

/// One graph of layers for each of so many last letters, side by side: in the order of the codes, words that differ in
/// the last letter alone lie far apart.
fn last_letter_first(last_letters: u8, widths: &[usize]) -> Sketch {
    let mut sketch = Sketch::new();
    for letter in 0..last_letters {
        let mut tails = vec![ROOT];
        for width in widths.iter().chain([&1]) {
            let next: Vec<usize> = (0..*width).map(|k| sketch.node(k as u8)).collect();
            for tail in tails {
                sketch.successors[tail].extend(&next);
            }
            tails = next;
        }
        sketch.letters[tails[0]] = letter;
        sketch.arc(tails[0], SINK);
    }
    sketch
}

/// Behind five letters that all words have, a vertex with 250 successors, four of each letter, which differ in their
/// own successor; then one of eight letters. To find the word of a code there are many path counts to subtract.
fn wide_vertex() -> Sketch {
    let mut sketch = Sketch::new();
    sketch.chain(ROOT, &[0; 5], SINK);
    let hub = sketch.nodes();
    sketch.successors[hub].clear();
    let seconds: Vec<usize> = (0..4).map(|letter| sketch.node(letter)).collect();
    for k in 0..250 {
        let first = sketch.node((k / 4) as u8);
        sketch.arc(hub, first);
        sketch.arc(first, seconds[k % 4]);
    }
    for letter in 0..8 {
        let last = sketch.node(letter);
        for second in &seconds {
            sketch.arc(*second, last);
        }
        sketch.arc(last, SINK);
    }
    sketch
}

/// So many first letters, each before so many second letters, each of these before letter 0. Behind it stand the same
/// long words everywhere, and then three words of one letter, which are others everywhere: nodes of one letter that
/// have as many continuations, as long, and differ in the last ones alone. The long words differ in their last letter,
/// so that a builder that goes through a trie has little to do.
fn alike(first: usize, second: usize) -> Vec<Word> {
    let beginnings = first * second;
    let long = MOST_WORDS / beginnings - 3;
    let length = (MOST_LETTERS / beginnings - 3 * 4) / long;
    let mut words = Vec::new();
    for (k, triple) in triples().into_iter().take(beginnings).enumerate() {
        let beginning = [(k / second) as u8, (k % second) as u8, 0];
        for last in 0..long {
            let mut word = beginning.to_vec();
            word.resize(length - 1, 0);
            word.push(last as u8);
            words.push(word);
        }
        words.extend(triple.map(|letter| [&beginning[..], &[letter]].concat()));
    }
    words
}

/// Any three of the last 12 letters.
fn triples() -> Vec<[u8; 3]> {
    let letters = ALPHABET as u8 - 12..ALPHABET as u8;
    let mut triples = Vec::new();
    for c in letters.clone() {
        for b in letters.start..c {
            triples.extend((letters.start..b).map(|a| [a, b, c]));
        }
    }
    triples
}

/// Makes 2,000 words with 16,000 letters of a list that has nearly as many; none of its words begins with the last
/// letter.
fn completed(mut words: Vec<Word>) -> Vec<Word> {
    let more = MOST_WORDS - words.len();
    let letters = MOST_LETTERS - words.iter().map(Vec::len).sum::<usize>();
    for k in 0..more {
        let length = letters / more + usize::from(k < letters % more);
        let mut word = vec![ALPHABET as u8 - 1, (k / 8) as u8, (k % 8) as u8];
        assert!(length >= word.len());
        word.resize(length, 0);
        words.push(word);
    }
    words
}

/// So many beginnings, each with a set of endings of its own, drawn from a few.
fn sets(random: &mut Random, count: usize, each: usize, endings: usize) -> Vec<Word> {
    let mut all: Vec<Word> = (0..endings as u8).map(|letter| vec![letter, 5]).collect();
    let mut words = Vec::new();
    for k in 0..count {
        random.shuffle(&mut all);
        let beginning = [(k % ALPHABET) as u8, (k / ALPHABET) as u8, 0];
        words.extend(
            all[..each]
                .iter()
                .map(|ending| [&beginning[..], ending].concat()),
        );
    }
    words
}

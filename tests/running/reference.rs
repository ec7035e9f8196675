//! What checking has to answer, by the words of the scope paper and in the simplest way. It reads images by itself and
//! shares no code with the product.
//!
//! Readings (docs/DECISIONS.md): within one image the first faulty field decides; a missing field comes before its
//! range, and extra bytes come last. The lexicon is judged with the L of an accepted voice model.

use std::collections::{HashMap, HashSet};

pub const WORK_SPACE: usize = 64_000;
pub const FURTHER_SPACE: usize = 262_144;
const MOST_ARCS: usize = 4_000;
const MOST_PLACES: usize = 1_000;
const MOST_LETTERS: usize = 32;
const MOST_WORDS: u128 = 1_048_576;

/// Up to so many full paths are written out one by one.
const FEW_PATHS: u128 = 3_000;

/// A refusal's number.
pub type Number = i32;

/// An accepted voice model, as far as the calls without frames need it: for each letter its print byte and its number of
/// states.
pub struct Voice {
    pub print_bytes: Vec<u8>,
    pub states: Vec<usize>,
}

/// A lexicon whose fields are in order. Both lists have an entry for each vertex from 0 to N; the root's letter is not
/// used.
pub struct Lexicon {
    pub letters: Vec<usize>,
    pub successors: Vec<Vec<usize>>,
}

/// W, or the lowest refusal made negative.
pub fn check(voice: &[u8], lexicon: &[u8], work_length: usize) -> i32 {
    if work_length < WORK_SPACE {
        return -1;
    }
    match accepted(voice, lexicon) {
        Ok((_, _, words)) => words,
        Err(number) => -number,
    }
}

/// Both images and W, if none of 2 to 10 applies.
pub fn accepted(voice: &[u8], lexicon: &[u8]) -> Result<(Voice, Lexicon, i32), Number> {
    let voice = read_voice(voice)?;
    let lexicon = read_lexicon(lexicon, voice.states.len())?;
    if lexicon.has_node_without_predecessor() {
        return Err(6);
    }
    if lexicon.places(&voice) > MOST_PLACES {
        return Err(7);
    }
    if lexicon.longest_word() > MOST_LETTERS {
        return Err(8);
    }
    let words = lexicon.full_path_count();
    if words > MOST_WORDS {
        return Err(9);
    }
    if lexicon.spells_a_word_twice(words) {
        return Err(10);
    }
    Ok((voice, lexicon, words as i32))
}

/// Reads the fields of an image in order.
struct Fields<'a> {
    rest: &'a [u8],
    /// Refusal for bytes that are missing or too many.
    wrong_length: Number,
    /// Refusal for a field out of its range.
    out_of_range: Number,
}

impl Fields<'_> {
    /// A field of one byte. It is judged only if it is there.
    fn byte(&mut self, in_range: impl Fn(usize) -> bool) -> Result<usize, Number> {
        self.field(1, in_range)
    }

    /// A field of two bytes, the lower one first.
    fn number(&mut self, in_range: impl Fn(usize) -> bool) -> Result<usize, Number> {
        self.field(2, in_range)
    }

    fn field(&mut self, size: usize, in_range: impl Fn(usize) -> bool) -> Result<usize, Number> {
        if self.rest.len() < size {
            return Err(self.wrong_length);
        }
        let value = match size {
            1 => usize::from(self.rest[0]),
            _ => usize::from(self.rest[0]) + 256 * usize::from(self.rest[1]),
        };
        self.rest = &self.rest[size..];
        if in_range(value) {
            Ok(value)
        } else {
            Err(self.out_of_range)
        }
    }

    fn end(&self) -> Result<(), Number> {
        if self.rest.is_empty() {
            Ok(())
        } else {
            Err(self.wrong_length)
        }
    }
}

fn any(_: usize) -> bool {
    true
}

pub fn read_voice(bytes: &[u8]) -> Result<Voice, Number> {
    let mut fields = Fields {
        rest: bytes,
        wrong_length: 2,
        out_of_range: 3,
    };
    let letters = fields.byte(|l| (1..=64).contains(&l))?;
    let (mut print_bytes, mut states) = (Vec::new(), Vec::new());
    let mut last_print_byte = 0;
    for _ in 0..letters {
        last_print_byte = fields.byte(|b| (33..=126).contains(&b) && b > last_print_byte)?;
        print_bytes.push(last_print_byte as u8);
        states.push(fields.byte(|s| (1..=4).contains(&s))?);
    }
    let sum: usize = states.iter().sum();
    fields.number(|s| s == sum)?;
    for of_letter in &states {
        for state in 1..=*of_letter {
            fields.number(any)?;
            let is_last = state == *of_letter;
            fields.number(|step| !is_last || step == 0)?;
        }
    }
    let links = fields.byte(|links| links == 1 || links == letters)?;
    for _ in 0..links {
        fields.number(any)?;
    }
    let symbols = fields.byte(|k| (1..=64).contains(&k))?;
    for _ in 0..sum * symbols {
        fields.number(any)?;
    }
    fields.end()?;
    Ok(Voice {
        print_bytes,
        states,
    })
}

/// L and the number of links of an accepted voice model.
pub fn letters_and_links(voice: &[u8]) -> (usize, usize) {
    let letters = usize::from(voice[0]);
    let states: usize = (1..=letters).map(|k| usize::from(voice[2 * k])).sum();
    (letters, voice[3 + 2 * letters + 4 * states].into())
}

pub fn read_lexicon(bytes: &[u8], letters: usize) -> Result<Lexicon, Number> {
    let mut fields = Fields {
        rest: bytes,
        wrong_length: 4,
        out_of_range: 5,
    };
    let nodes = fields.number(|n| (1..=400).contains(&n))?;
    let sink = nodes + 1;
    let mut lexicon = Lexicon {
        letters: vec![0],
        successors: Vec::new(),
    };
    for _ in 0..nodes {
        lexicon
            .letters
            .push(fields.byte(|letter| letter < letters)?);
    }
    let mut arcs = 0;
    for vertex in 0..=nodes {
        let count = fields.number(|c| (1..=sink).contains(&c) && arcs + c <= MOST_ARCS)?;
        arcs += count;
        let mut list = Vec::new();
        for _ in 0..count {
            let in_range = |s: usize| {
                vertex < s && s <= sink && !list.contains(&s) && !(vertex == 0 && s == sink)
            };
            let successor = fields.number(in_range)?;
            list.push(successor);
        }
        lexicon.successors.push(list);
    }
    fields.number(|reserve| reserve == 0)?;
    fields.end()?;
    Ok(lexicon)
}

impl Lexicon {
    pub fn sink(&self) -> usize {
        self.letters.len()
    }

    /// Number 6: a node that is nobody's successor.
    fn has_node_without_predecessor(&self) -> bool {
        let named: HashSet<usize> = self.successors.iter().flatten().copied().collect();
        (1..self.sink()).any(|node| !named.contains(&node))
    }

    /// For number 7: a place is one state of one node.
    fn places(&self, voice: &Voice) -> usize {
        (1..self.sink())
            .map(|node| voice.states[self.letters[node]])
            .sum()
    }

    /// For number 8: the letters of the longest full path. Successors are greater, so theirs are known first.
    fn longest_word(&self) -> usize {
        let mut longest = vec![0; self.sink() + 1];
        for vertex in (0..self.sink()).rev() {
            let after = self.successors[vertex].iter().map(|s| longest[*s]).max();
            longest[vertex] = after.unwrap_or(0) + usize::from(vertex > 0);
        }
        longest[0]
    }

    /// For number 9: the paths from root to sink. 400 vertices can have more than 2^128 of them; then it is 2^128 - 1.
    fn full_path_count(&self) -> u128 {
        let mut paths = vec![0u128; self.sink() + 1];
        paths[self.sink()] = 1;
        for vertex in (0..self.sink()).rev() {
            let of_successors = self.successors[vertex].iter().map(|s| paths[*s]);
            paths[vertex] = of_successors.fold(0, u128::saturating_add);
        }
        paths[0]
    }

    /// Number 10: fewer spellings than full paths. Few paths are written out; for many, spellings are counted by the
    /// sets of vertices that can be reached by the same letters. Where both can be had, they have to agree.
    fn spells_a_word_twice(&self, words: u128) -> bool {
        if words > FEW_PATHS {
            return self.count_spellings() < words;
        }
        let paths = self.full_paths();
        assert_eq!(paths.len() as u128, words);
        let spellings: HashSet<Vec<u8>> = paths.iter().map(|path| self.spelling(path)).collect();
        assert_eq!(spellings.len() as u128, self.count_spellings());
        spellings.len() < paths.len()
    }

    /// Every full path as its nodes, depth first and in stored order: this is the order of the codes.
    pub fn full_paths(&self) -> Vec<Vec<usize>> {
        let mut paths = Vec::new();
        self.walk(0, &mut Vec::new(), &mut paths);
        paths
    }

    fn walk(&self, vertex: usize, path: &mut Vec<usize>, paths: &mut Vec<Vec<usize>>) {
        for successor in &self.successors[vertex] {
            if *successor == self.sink() {
                paths.push(path.clone());
            } else {
                path.push(*successor);
                self.walk(*successor, path, paths);
                path.pop();
            }
        }
    }

    /// The letter indexes on a path.
    pub fn spelling(&self, path: &[usize]) -> Vec<u8> {
        path.iter().map(|node| self.letters[*node] as u8).collect()
    }

    fn count_spellings(&self) -> u128 {
        self.spellings_from(vec![0], &mut HashMap::new())
    }

    /// The different spellings of all paths from any of these vertices to the sink, their own letters left out.
    fn spellings_from(&self, from: Vec<usize>, known: &mut HashMap<Vec<usize>, u128>) -> u128 {
        if let Some(count) = known.get(&from) {
            return *count;
        }
        let mut count = 0;
        let mut by_letter: HashMap<usize, Vec<usize>> = HashMap::new();
        for successor in from.iter().flat_map(|vertex| &self.successors[*vertex]) {
            if *successor == self.sink() {
                count = 1; // the empty rest, however many arcs lead to the sink
            } else {
                let same = by_letter.entry(self.letters[*successor]).or_default();
                same.push(*successor);
            }
        }
        for (_, mut same) in by_letter {
            same.sort_unstable();
            same.dedup();
            count += self.spellings_from(same, known);
        }
        known.insert(from, count);
        count
    }
}

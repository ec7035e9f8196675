//! Word graphs under construction: nodes in any order, numbered only when the graph is done. A lexicon is drawn from a
//! sketch with a random numbering along the arcs and a random order in each list.

use crate::image::Lexicon;
use crate::random::Random;
use std::collections::HashMap;

pub const ROOT: usize = 0;
pub const SINK: usize = usize::MAX;

/// Node with a letter and its successors, by which equal nodes are found.
type Known = HashMap<(u8, Vec<usize>), usize>;

#[derive(Clone)]
pub struct Sketch {
    /// The root's entry is not used.
    pub letters: Vec<u8>,
    pub successors: Vec<Vec<usize>>,
}

impl Sketch {
    pub fn new() -> Sketch {
        Sketch {
            letters: vec![0],
            successors: vec![Vec::new()],
        }
    }

    pub fn nodes(&self) -> usize {
        self.letters.len() - 1
    }

    pub fn arcs(&self) -> usize {
        self.successors.iter().map(Vec::len).sum()
    }

    pub fn node(&mut self, letter: u8) -> usize {
        self.letters.push(letter);
        self.successors.push(Vec::new());
        self.letters.len() - 1
    }

    pub fn arc(&mut self, from: usize, to: usize) {
        self.successors[from].push(to);
    }

    /// A path of new nodes with these letters.
    pub fn chain(&mut self, from: usize, letters: &[u8], to: usize) {
        let mut last = from;
        for letter in letters {
            let node = self.node(*letter);
            self.arc(last, node);
            last = node;
        }
        self.arc(last, to);
    }

    /// From root to sink in layers, each vertex to all of the next layer; the letters of a layer are `first`,
    /// `first + 1`, .. and so on. The words are as many as the widths' product.
    pub fn layers(&mut self, widths: &[usize], first: u8) {
        let mut last = vec![ROOT];
        for width in widths {
            let next: Vec<usize> = (0..*width).map(|k| self.node(first + k as u8)).collect();
            for from in last {
                self.successors[from].extend(&next);
            }
            last = next;
        }
        for from in last {
            self.arc(from, SINK);
        }
    }

    /// The smallest graph of these words in which no two successors of a vertex have the same letter.
    pub fn of_words(words: &[Vec<u8>]) -> Sketch {
        let mut sketch = Sketch::new();
        let mut sorted: Vec<&[u8]> = words.iter().map(Vec::as_slice).collect();
        sorted.sort_unstable();
        sorted.dedup();
        sketch.successors[ROOT] = sketch.of_rests(&sorted, &mut Known::new());
        sketch
    }

    /// The vertices that spell these rests of words, sorted. The empty rest is the sink.
    fn of_rests(&mut self, rests: &[&[u8]], known: &mut Known) -> Vec<usize> {
        let mut vertices = Vec::new();
        for same in rests.chunk_by(|a, b| a.first() == b.first()) {
            let Some(letter) = same[0].first() else {
                vertices.push(SINK);
                continue;
            };
            let shorter: Vec<&[u8]> = same.iter().map(|rest| &rest[1..]).collect();
            let list = self.of_rests(&shorter, known);
            let node = *known.entry((*letter, list)).or_insert_with_key(|key| {
                self.letters.push(key.0);
                self.successors.push(key.1.clone());
                self.letters.len() - 1
            });
            vertices.push(node);
        }
        vertices.sort_unstable();
        vertices
    }

    /// A path of its own for each of these words.
    pub fn chains<'a>(words: impl IntoIterator<Item = &'a Vec<u8>>) -> Sketch {
        let mut sketch = Sketch::new();
        for word in words {
            sketch.chain(ROOT, word, SINK);
        }
        sketch
    }

    /// The smallest graph of these words in which no two predecessors of a vertex have the same letter: that of the
    /// words read backwards, with every arc turned round. By letters from the root it may be in many nodes at once.
    pub fn from_the_end<'a>(words: impl IntoIterator<Item = &'a Vec<u8>>) -> Sketch {
        let backwards = words.into_iter().map(|word| word.iter().rev().copied());
        let backwards: Vec<Vec<u8>> = backwards.map(Iterator::collect).collect();
        let forwards = Sketch::of_words(&backwards);
        let mut turned = Sketch::new();
        for letter in &forwards.letters[1..] {
            turned.node(*letter);
        }
        for (vertex, list) in forwards.successors.iter().enumerate() {
            for successor in list {
                let from = if *successor == SINK { ROOT } else { *successor };
                turned.arc(from, if vertex == ROOT { SINK } else { vertex });
            }
        }
        turned
    }

    /// Makes two nodes of one, each with a part of its successors, both behind the same predecessors: the words stay,
    /// each spelled once, but a vertex now has two successors of one letter ('a to n and another a to t').
    pub fn split(&mut self, random: &mut Random) {
        let node = random.between(1, self.nodes());
        let count = self.successors[node].len();
        if count < 2 {
            return;
        }
        random.shuffle(&mut self.successors[node]);
        let moved = self.successors[node].split_off(random.between(1, count - 1));
        let twin = self.node(self.letters[node]);
        self.successors[twin] = moved;
        for list in &mut self.successors[..twin] {
            if list.contains(&node) {
                list.push(twin);
            }
        }
    }

    /// Any full path, as its nodes.
    pub fn path(&self, random: &mut Random) -> Vec<usize> {
        let mut path = Vec::new();
        let mut vertex = *random.pick(&self.successors[ROOT]);
        while vertex != SINK {
            path.push(vertex);
            vertex = *random.pick(&self.successors[vertex]);
        }
        path
    }

    /// A second path beside a stretch of one that is there, over new nodes with the same letters. With `change`, one of
    /// the new letters is another: a near miss.
    pub fn second_path(&mut self, random: &mut Random, change: Option<u8>) {
        let path = self.path(random);
        let first = random.below(path.len());
        let end = random.between(first + 1, path.len());
        let mut letters: Vec<u8> = path[first..end].iter().map(|v| self.letters[*v]).collect();
        if let Some(letter) = change {
            let place = random.below(letters.len());
            letters[place] = letter;
        }
        let from = if first == 0 { ROOT } else { path[first - 1] };
        let to = path.get(end).copied().unwrap_or(SINK);
        self.chain(from, &letters, to);
    }

    /// Takes a node out of every list that has another entry. It may then be nobody's successor.
    pub fn orphan(&mut self, random: &mut Random) {
        let node = random.between(1, self.nodes());
        for list in &mut self.successors {
            if list.len() > 1 {
                list.retain(|successor| *successor != node);
            }
        }
    }

    /// Takes out arcs here and there; each vertex keeps a successor, and each node a predecessor.
    pub fn thin(&mut self, random: &mut Random, once_in: usize) {
        let mut predecessors: HashMap<usize, usize> = HashMap::new();
        for successor in self.successors.iter().flatten() {
            *predecessors.entry(*successor).or_default() += 1;
        }
        for list in &mut self.successors {
            let mut left = list.len();
            list.retain(|successor| {
                let others = predecessors.get_mut(successor);
                match others {
                    Some(count) if *count > 1 && left > 1 && random.once_in(once_in) => {
                        *count -= 1;
                        left -= 1;
                        false
                    }
                    _ => true,
                }
            });
        }
    }

    /// The lexicon of this graph: numbers that rise along the arcs, chosen at random in one of three ways (any, deep
    /// first, wide first), and lists in random order.
    pub fn lexicon(&self, random: &mut Random) -> Lexicon {
        let order = self.order(random);
        let sink = order.len() + 1;
        let mut number = vec![0; self.letters.len()];
        for (k, node) in order.iter().enumerate() {
            number[*node] = k + 1;
        }
        let list_of = |vertex: usize| -> Vec<u16> {
            let numbers = self.successors[vertex].iter();
            let numbers = numbers.map(|s| if *s == SINK { sink } else { number[*s] } as u16);
            numbers.collect()
        };
        let mut lexicon = Lexicon {
            letters: order.iter().map(|node| self.letters[*node]).collect(),
            successors: vec![list_of(ROOT)],
        };
        lexicon.successors.extend(order.iter().map(|v| list_of(*v)));
        for list in &mut lexicon.successors {
            random.shuffle(list);
        }
        lexicon
    }

    fn order(&self, random: &mut Random) -> Vec<usize> {
        let mut waiting = vec![0; self.letters.len()];
        for successor in self.successors.iter().flatten().filter(|s| **s != SINK) {
            waiting[*successor] += 1;
        }
        let mut ready: Vec<usize> = (1..=self.nodes()).filter(|v| waiting[*v] == 0).collect();
        let way = random.below(3);
        let mut order = Vec::new();
        let mut vertex = ROOT;
        loop {
            for successor in self.successors[vertex].iter().filter(|s| **s != SINK) {
                waiting[*successor] -= 1;
                if waiting[*successor] == 0 {
                    ready.push(*successor);
                }
            }
            let next = match (ready.len(), way) {
                (0, _) => return order,
                (count, 0) => random.below(count),
                (count, 1) => count - 1,
                _ => 0,
            };
            vertex = ready.remove(next);
            order.push(vertex);
        }
    }
}

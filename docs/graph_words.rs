//! The word graph of two images: paths to the sink, increments, and words with their codes (docs/FORMAT.md).

/// More words than this are not written out.
const WORDS: usize = 60;

/// Vertex 0 is the root, the last one the sink, which has no successors.
pub struct Graph {
    /// The print byte of each node; the root's and the sink's are not used.
    pub letters: Vec<char>,
    pub successors: Vec<Vec<usize>>,
}

/// Reads the fields of an image in order.
struct Reader<'a> {
    rest: &'a [u8],
}

impl Reader<'_> {
    fn byte(&mut self) -> usize {
        let first = self.rest[0];
        self.rest = &self.rest[1..];
        usize::from(first)
    }

    fn number(&mut self) -> usize {
        self.byte() + 256 * self.byte()
    }
}

fn print_bytes(voice: &[u8]) -> Vec<char> {
    let mut reader = Reader { rest: voice };
    let letters = (0..reader.byte()).map(|_| {
        let print_byte = reader.byte() as u8;
        let _states = reader.byte();
        char::from(print_byte)
    });
    letters.collect()
}

impl Graph {
    /// The graph of two images that are accepted: each field is there and in its range.
    pub fn of_accepted(voice: &[u8], lexicon: &[u8]) -> Graph {
        let print_bytes = print_bytes(voice);
        let mut reader = Reader { rest: lexicon };
        let nodes = reader.number();
        let mut letters = vec![' '; nodes + 2];
        for letter in &mut letters[1..=nodes] {
            *letter = print_bytes[reader.byte()];
        }
        let mut successors = vec![Vec::new(); nodes + 2];
        for list in &mut successors[..=nodes] {
            *list = (0..reader.number()).map(|_| reader.number()).collect();
        }
        Graph {
            letters,
            successors,
        }
    }

    pub fn sink(&self) -> usize {
        self.letters.len() - 1
    }

    /// The number of paths from each vertex to the sink.
    pub fn path_counts(&self) -> Vec<u64> {
        let mut counts = vec![1; self.letters.len()];
        for vertex in (0..self.sink()).rev() {
            let through = self.successors[vertex].iter().map(|s| counts[*s]);
            counts[vertex] = through.sum();
        }
        counts
    }

    /// Of each arc, in stored order: the sum over the successors stored before it.
    pub fn increments(&self, counts: &[u64]) -> Vec<Vec<u64>> {
        let of_list = |list: &Vec<usize>| {
            let sums = list.iter().scan(0u64, |sum, successor| {
                let before = *sum;
                *sum += counts[*successor];
                Some(before)
            });
            sums.collect()
        };
        self.successors.iter().map(of_list).collect()
    }

    /// The longest distance of each vertex from the root.
    pub fn depths(&self) -> Vec<usize> {
        let mut depths = vec![0; self.letters.len()];
        for vertex in 0..self.sink() {
            for successor in &self.successors[vertex] {
                depths[*successor] = depths[*successor].max(depths[vertex] + 1);
            }
        }
        depths
    }
}

/// A word and the increments on its path.
pub struct Word {
    pub letters: String,
    increments: Vec<u64>,
}

impl Word {
    pub fn code(&self) -> u64 {
        self.increments.iter().sum()
    }

    pub fn sum(&self) -> String {
        let parts: Vec<String> = self.increments.iter().map(u64::to_string).collect();
        format!("{} = ", parts.join(" + "))
    }
}

/// The words from the lowest code on, at most as many as are written out.
pub fn words_of(graph: &Graph, increments: &[Vec<u64>]) -> Vec<Word> {
    let mut words = Vec::new();
    let mut waiting = vec![(0, String::new(), Vec::new())];
    while let (Some((vertex, letters, path)), true) = (waiting.pop(), words.len() < WORDS) {
        if vertex == graph.sink() {
            words.push(Word {
                letters,
                increments: path,
            });
            continue;
        }
        let arcs = graph.successors[vertex].iter().zip(&increments[vertex]);
        for (successor, increment) in arcs.rev() {
            let mut letters = letters.clone();
            if *successor != graph.sink() {
                letters.push(graph.letters[*successor]);
            }
            let mut path = path.clone();
            path.push(*increment);
            waiting.push((*successor, letters, path));
        }
    }
    words
}

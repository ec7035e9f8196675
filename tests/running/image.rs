//! Models of the two images, and how they are written: as a row of fields, so that a test can break one field and
//! leave the others. A model may hold values that are out of range; nothing here judges.

#[derive(Clone)]
pub struct Letter {
    pub print_byte: u8,
    pub states: u8,
}

/// A loop score and a step score.
pub type Moves = [i16; 2];

#[derive(Clone)]
pub struct Voice {
    pub letters: Vec<Letter>,
    /// One for each state, letter by letter.
    pub moves: Vec<Moves>,
    /// One for all letters, or one for each.
    pub links: Vec<i16>,
    pub symbols: u8,
    /// State by state, one for each symbol.
    pub emissions: Vec<i16>,
}

#[derive(Clone)]
pub struct Lexicon {
    /// The letter of node v stands at v - 1.
    pub letters: Vec<u8>,
    /// For each vertex from the root to the last node.
    pub successors: Vec<Vec<u16>>,
}

/// A stored number of one or two bytes.
#[derive(Clone, Copy, PartialEq)]
pub struct Field {
    pub value: u16,
    pub size: usize,
}

pub fn byte(value: usize) -> Field {
    Field {
        value: value as u16,
        size: 1,
    }
}

pub fn number(value: usize) -> Field {
    Field {
        value: value as u16,
        size: 2,
    }
}

fn score(value: i16) -> Field {
    Field {
        value: value as u16,
        size: 2,
    }
}

pub fn bytes_of(fields: &[Field]) -> Vec<u8> {
    let mut bytes = Vec::new();
    for field in fields {
        bytes.extend_from_slice(&field.value.to_le_bytes()[..field.size]);
    }
    bytes
}

impl Voice {
    pub fn fields(&self) -> Vec<Field> {
        self.fields_with_links(self.links.len(), &self.links)
    }

    /// The fields with other links. Their count is stored as it is given, whatever the number of scores.
    pub fn fields_with_links(&self, count: usize, links: &[i16]) -> Vec<Field> {
        let mut fields = self.fields_before_links();
        fields.push(byte(count));
        fields.extend(links.iter().copied().map(score));
        fields.push(byte(self.symbols.into()));
        fields.extend(self.emissions.iter().copied().map(score));
        fields
    }

    pub fn fields_before_links(&self) -> Vec<Field> {
        let mut fields = vec![byte(self.letters.len())];
        for letter in &self.letters {
            fields.push(byte(letter.print_byte.into()));
            fields.push(byte(letter.states.into()));
        }
        fields.push(number(self.moves.len()));
        for moves in &self.moves {
            fields.extend(moves.map(score));
        }
        fields
    }

    pub fn bytes(&self) -> Vec<u8> {
        bytes_of(&self.fields())
    }
}

impl Lexicon {
    pub fn fields(&self) -> Vec<Field> {
        let mut fields = vec![number(self.letters.len())];
        fields.extend(self.letters.iter().map(|letter| byte((*letter).into())));
        for list in &self.successors {
            fields.push(number(list.len()));
            fields.extend(list.iter().map(|successor| number((*successor).into())));
        }
        fields.push(number(0));
        fields
    }

    pub fn bytes(&self) -> Vec<u8> {
        bytes_of(&self.fields())
    }
}

/// The voice model of the paper's small lexicon: letters a, i, n, t.
pub fn small_voice() -> Voice {
    let symbols = 4;
    let emission = |k: usize| if k / symbols == k % symbols { 0 } else { -10 };
    Voice {
        letters: [b'a', b'i', b'n', b't']
            .map(|print_byte| Letter {
                print_byte,
                states: 1,
            })
            .to_vec(),
        moves: vec![[-1, 0]; 4],
        links: vec![-2],
        symbols: symbols as u8,
        emissions: (0..4 * symbols).map(emission).collect(),
    }
}

/// Lexicon P of the paper: an, at, i, in, it.
pub fn small_lexicon() -> Lexicon {
    Lexicon {
        letters: vec![0, 1, 2, 3],
        successors: vec![vec![1, 2], vec![3, 4], vec![5, 3, 4], vec![5], vec![5]],
    }
}

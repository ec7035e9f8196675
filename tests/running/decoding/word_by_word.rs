//! What decoding has to answer, by the words of the scope paper: every word of the lexicon by itself. The best state path
//! of a word is found over (position of the letter, state of the letter) in 64 bits; where a word has few rows of states,
//! all of them are also written out, and both have to agree. No graph, no tokens, and nothing is cut before the end.
//! Passing to the next letter takes the link of the letter left, or the only one if one is stored for all.

use crate::reference::{self, Number, WORK_SPACE};
use std::cmp::Reverse;

const MOST_FRAMES: usize = 1_000;
const MOST_HITS: u32 = 8;
const IMPOSSIBLE: i16 = -32_768;

/// Up to so many rows of states are all written out.
const FEW_ROWS: usize = 300;

/// A score, or none where something is impossible. None is less than any.
type Score = Option<i64>;

struct State {
    stay: Score,
    step: Score,
    /// One for each symbol.
    emissions: Vec<Score>,
}

#[derive(Clone, Copy, PartialEq, Debug)]
pub struct Hit {
    pub score: i64,
    pub code: u32,
}

/// What decoding needs of two images to which none of 2 to 10 applies.
pub struct Images {
    pub symbols: usize,
    /// The letters of every word, in the order of the codes.
    pub words: Vec<Vec<u8>>,
    /// How many links are stored: one for all letters, or one for each.
    pub stored_links: usize,
    letters: Vec<Vec<State>>,
    /// For each letter the score of leaving it.
    links: Vec<Score>,
}

/// What is listed if links are taken in one way or another.
pub struct Readings {
    /// The link of the letter that is left: the list.
    pub left: Vec<Hit>,
    /// The link of the letter that is entered.
    pub entered: Vec<Hit>,
    /// The first letter's link, whatever is left.
    pub first: Vec<Hit>,
}

/// What decoding lists.
pub struct List {
    pub hits: Vec<Hit>,
    /// The first hit of the row that is not listed.
    pub next: Option<Hit>,
    /// For so many words all rows of states were written out.
    pub written_out: u64,
}

/// A state of a letter of a word.
struct Spot<'a> {
    position: usize,
    letter: usize,
    state: usize,
    is_last: bool,
    of: &'a State,
    /// The score of the move from the spot before.
    enter: Score,
}

/// The list, or the lowest refusal.
pub fn decode(
    images: &Result<Images, Number>,
    frames: &[u8],
    n: u32,
    work_length: usize,
    out_length: usize,
) -> Result<List, Number> {
    if work_length < WORK_SPACE {
        return Err(1);
    }
    let images = images.as_ref().map_err(|number| *number)?;
    let is_none = |symbol: &u8| usize::from(*symbol) >= images.symbols;
    if frames.is_empty() || frames.len() > MOST_FRAMES || frames.iter().any(is_none) {
        return Err(11);
    }
    if n < 1 || n > MOST_HITS {
        return Err(12);
    }
    let n = n as usize;
    if out_length < 8 * n {
        return Err(16);
    }
    let (mut row, written_out) = images.row(frames);
    let next = row.get(n).copied();
    row.truncate(n);
    Ok(List {
        hits: row,
        next,
        written_out,
    })
}

fn score_at(image: &[u8], at: usize) -> Score {
    let value = i16::from_le_bytes([image[at], image[at + 1]]);
    (value != IMPOSSIBLE).then_some(i64::from(value))
}

impl Images {
    pub fn of(voice: &[u8], lexicon: &[u8]) -> Result<Images, Number> {
        let (model, graph, _) = reference::accepted(voice, lexicon)?;
        let states: usize = model.states.iter().sum();
        let moves_at = 1 + 2 * model.states.len() + 2;
        let links_at = moves_at + 4 * states + 1;
        let stored_links = usize::from(voice[links_at - 1]);
        let symbols_at = links_at + 2 * stored_links;
        let symbols = usize::from(voice[symbols_at]);
        let state = |k: usize| State {
            stay: score_at(voice, moves_at + 4 * k),
            step: score_at(voice, moves_at + 4 * k + 2),
            emissions: (k * symbols..(k + 1) * symbols)
                .map(|emission| score_at(voice, symbols_at + 1 + 2 * emission))
                .collect(),
        };
        let link = |letter: usize| {
            let index = if stored_links == 1 { 0 } else { letter };
            score_at(voice, links_at + 2 * index)
        };
        let mut known = 0;
        let mut letters = Vec::new();
        for of_letter in &model.states {
            letters.push((known..known + of_letter).map(state).collect());
            known += of_letter;
        }
        let paths = graph.full_paths();
        Ok(Images {
            symbols,
            words: paths.iter().map(|path| graph.spelling(path)).collect(),
            stored_links,
            links: (0..letters.len()).map(link).collect(),
            letters,
        })
    }

    pub fn letter_count(&self) -> usize {
        self.letters.len()
    }

    /// Each letter has a link of its own, and that of some letter, but not of all, is impossible.
    pub fn has_some_impossible_link(&self) -> bool {
        self.links.iter().any(Option::is_none) && self.links.iter().any(Option::is_some)
    }

    /// A word that ends in a letter that no other letter can follow.
    pub fn ends_at_impossible_link(&self, word: &[u8]) -> bool {
        self.links[usize::from(word[word.len() - 1])].is_none()
    }

    /// How many states a word has: the fewest frames for which it has a state path.
    pub fn states_of(&self, word: &[u8]) -> usize {
        let states = |letter: &u8| self.letters[usize::from(*letter)].len();
        word.iter().map(states).sum()
    }

    /// The hits of all words that have a true score, in one row; and how many words were written out.
    fn row(&self, frames: &[u8]) -> (Vec<Hit>, u64) {
        let mut row = Vec::new();
        let mut written_out = 0;
        for (code, word) in self.words.iter().enumerate() {
            let spots = self.spots(word, &self.links);
            let score = true_score(&spots, frames);
            let rows = spots.len().checked_pow(frames.len() as u32);
            if rows.is_some_and(|rows| rows <= FEW_ROWS) {
                assert_eq!(score, self.by_all_rows(&spots, frames), "{word:?}");
                written_out += 1;
            }
            row.extend(hit(score, code));
        }
        sort(&mut row);
        (row, written_out)
    }

    fn spots(&self, word: &[u8], links: &[Score]) -> Vec<Spot<'_>> {
        let mut spots: Vec<Spot> = Vec::new();
        for (position, letter) in word.iter().enumerate() {
            let letter = usize::from(*letter);
            let states = &self.letters[letter];
            for (state, of) in states.iter().enumerate() {
                let leave = |spot: &Spot| {
                    if state > 0 {
                        spot.of.step
                    } else {
                        links[spot.letter]
                    }
                };
                spots.push(Spot {
                    position,
                    letter,
                    state,
                    is_last: state + 1 == states.len(),
                    of,
                    enter: spots.last().and_then(leave),
                });
            }
        }
        spots
    }

    /// Every state path of a word leaves each of its letters but the last once. So the links can be added up apart from
    /// the rest of the score, in any way.
    pub fn readings(&self, frames: &[u8], n: u32) -> Readings {
        let no_links = vec![Some(0); self.links.len()];
        let [mut left, mut entered, mut first] = [(); 3].map(|()| Vec::new());
        for (code, word) in self.words.iter().enumerate() {
            let without = true_score(&self.spots(word, &no_links), frames);
            let link = |letter: &u8| self.links[usize::from(*letter)];
            let plus = |links: &[Score]| links.iter().copied().fold(without, sum);
            let links: Vec<Score> = word.iter().map(link).collect();
            let left_letters = links.len() - 1;
            left.extend(hit(plus(&links[..left_letters]), code));
            entered.extend(hit(plus(&links[1..]), code));
            first.extend(hit(plus(&vec![self.links[0]; left_letters]), code));
        }
        for row in [&mut left, &mut entered, &mut first] {
            sort(row);
            row.truncate(n as usize);
        }
        Readings {
            left,
            entered,
            first,
        }
    }

    /// The same score as `true_score`, by looking at every row of T states.
    fn by_all_rows(&self, spots: &[Spot], frames: &[u8]) -> Score {
        let rows = spots.len().pow(frames.len() as u32);
        let mut highest = None;
        let mut path = Vec::new();
        for row in 0..rows {
            let mut rest = row;
            path.clear();
            for _ in frames {
                path.push(&spots[rest % spots.len()]);
                rest /= spots.len();
            }
            highest = highest.max(self.score_of(&path, spots, frames));
        }
        highest
    }

    /// The score of a row of states, if it is a permitted state path of the word.
    fn score_of(&self, path: &[&Spot], spots: &[Spot], frames: &[u8]) -> Score {
        let (first, last) = (path[0], path[path.len() - 1]);
        let begins = first.position == 0 && first.state == 0;
        let ends = last.position == spots[spots.len() - 1].position && last.is_last;
        if !begins || !ends {
            return None;
        }
        let mut score = 0;
        for (spot, symbol) in path.iter().zip(frames) {
            score += spot.of.emissions[usize::from(*symbol)]?;
        }
        for two in path.windows(2) {
            score += self.move_score(two[0], two[1])?;
        }
        Some(score)
    }

    fn move_score(&self, from: &Spot, to: &Spot) -> Score {
        let (position, state) = (from.position, from.state);
        if (to.position, to.state) == (position, state) {
            from.of.stay
        } else if (to.position, to.state) == (position, state + 1) {
            from.of.step
        } else if (to.position, to.state) == (position + 1, 0) && from.is_last {
            self.links[from.letter]
        } else {
            None
        }
    }
}

fn hit(score: Score, code: usize) -> Option<Hit> {
    let code = code as u32;
    score.map(|score| Hit { score, code })
}

fn sort(row: &mut [Hit]) {
    row.sort_unstable_by_key(|hit| (Reverse(hit.score), hit.code));
}

fn sum(first: Score, second: Score) -> Score {
    Some(first? + second?)
}

/// The highest score over the permitted state paths of the word with these spots: for each frame the best score of a
/// path up to each spot.
fn true_score(spots: &[Spot], frames: &[u8]) -> Score {
    let mut before: Vec<Score> = vec![None; spots.len()];
    let mut best = before.clone();
    for (t, symbol) in frames.iter().enumerate() {
        std::mem::swap(&mut before, &mut best);
        for (k, spot) in spots.iter().enumerate() {
            let arrived = match (t, k) {
                (0, 0) => Some(0),
                (0, _) => None,
                (_, 0) => sum(before[0], spot.of.stay),
                _ => sum(before[k], spot.of.stay).max(sum(before[k - 1], spot.enter)),
            };
            best[k] = sum(arrived, spot.of.emissions[usize::from(*symbol)]);
        }
    }
    best[spots.len() - 1]
}

//! The examples of docs/FORMAT.md: every byte, offset and answer that they show, held to the images of these tests, to
//! the example of the program hits and to the library.

use crate::buffers::{whole, Buffer, Numbers};
use crate::image::{small_lexicon, small_voice, Lexicon};
use crate::library;
use crate::random::Random;
use crate::reference::{FURTHER_SPACE, WORK_SPACE};

const PAGE: &str = include_str!("../../docs/FORMAT.md");
/// The file of the page's last example.
const FILE: &[u8] = include_bytes!("../../crates/hits/stdin");
/// What the page decodes and packs.
const FRAMES: [u8; 2] = [0, 2];
const HITS: u32 = 3;
const WORDS: u32 = 5;
const CODES: [u32; 3] = [0, 1, 3];
/// What the page looks up.
const ITEMS: [&str; 4] = ["it", "na", "", "i"];
/// The links of the page's model in the other form, where they stand, how far they move what follows, and the scores
/// that the page's words then have.
const LINKS: [i16; 4] = [-2, -3, -4, -5];
const LINKS_AT: usize = 27;
const MOVED_BY: usize = 6;
const LINKED_SCORES: [i32; 3] = [-2, -12, -13];

struct Page {
    random: Random,
    voice: Vec<u8>,
    lexicon: Vec<u8>,
    compared: usize,
    differences: usize,
}

/// Compares the page's examples; says how many faults there are.
pub fn run(seed: u64) -> usize {
    let mut page = Page {
        random: Random::from_seed(seed),
        voice: small_voice().bytes(),
        lexicon: small_lexicon().bytes(),
        compared: 0,
        differences: 0,
    };
    page.images();
    page.changes();
    page.codes();
    page.items();
    page.canonical();
    page.hits();
    page.packed();
    println!(
        "docs/FORMAT.md: {} comparisons, {} differences",
        page.compared, page.differences
    );
    page.differences
}

/// The cells of the table in the page's example of this name, row by row, without its head.
fn rows(example: &str) -> Vec<Vec<&'static str>> {
    let heading = format!("### Example: {example}");
    let after = PAGE.lines().skip_while(|line| *line != heading).skip(1);
    let table = after
        .take_while(|line| !line.starts_with('#'))
        .filter(|line| line.starts_with('|'));
    let cells = |row: &'static str| row.trim_matches('|').split('|').map(str::trim).collect();
    table.skip(2).map(cells).collect()
}

impl Page {
    fn compare(&mut self, what: &str, is_same: bool) {
        self.compared += 1;
        if !is_same {
            self.differences += 1;
            println!("DIFFERENCE in docs/FORMAT.md: {what}");
        }
    }

    /// The bytes of an example's table, from the first on.
    fn bytes(&mut self, example: &str) -> Vec<u8> {
        self.bytes_from(0, example)
    }

    /// The bytes of an example's table, whose cells are offset, decimal, hex and meaning, and whose first row stands at
    /// this offset. Instead of bytes a row may have the name of an image, for all its bytes.
    fn bytes_from(&mut self, start: usize, example: &str) -> Vec<u8> {
        let mut bytes = Vec::new();
        for row in rows(example) {
            let what = format!("{example}, the row of offset {}", row[0]);
            let is_here = row[0].parse() == Ok(start + bytes.len());
            self.compare(&what, is_here);
            match row[1] {
                "voice model" => bytes.extend_from_slice(&self.voice),
                "lexicon" => bytes.extend_from_slice(&self.lexicon),
                decimal => {
                    let words = || {
                        decimal
                            .split(' ')
                            .filter_map(|word| word.parse::<u8>().ok())
                    };
                    let hex: Vec<String> = words().map(|byte| format!("{byte:02x}")).collect();
                    let is_same =
                        hex.len() == decimal.split(' ').count() && hex.join(" ") == row[2];
                    self.compare(&what, is_same);
                    bytes.extend(words());
                }
            }
        }
        bytes
    }

    fn images(&mut self) {
        let voice = self.bytes("voice model");
        self.compare("the voice model", voice == self.voice);
        let mut linked = small_voice();
        linked.links = LINKS.to_vec();
        let linked = linked.bytes();
        let section = self.bytes_from(LINKS_AT, "links by letter");
        let end = LINKS_AT + section.len();
        self.compare("links by letter", !section.is_empty() && linked[LINKS_AT..end] == section);
        self.compare("links by letter, behind them", linked[end..] == self.voice[end - MOVED_BY..]);
        self.linked_hits(&linked);
        let lexicon = self.bytes("lexicon");
        self.compare("the lexicon", lexicon == self.lexicon);
        let file = self.bytes("file");
        self.compare("the file", file == FILE);
    }

    fn lent(&mut self, bytes: &[u8]) -> Buffer {
        let mut buffer = Buffer::new();
        buffer.hold(whole(bytes), &mut self.random);
        buffer
    }

    /// Both images and a work space.
    fn lent_images(&mut self) -> [Buffer; 3] {
        let (voice, lexicon) = (self.voice.clone(), self.lexicon.clone());
        [voice, lexicon, vec![0; WORK_SPACE]].map(|bytes| self.lent(&bytes))
    }

    fn changes(&mut self) {
        let changes = rows("one byte changed");
        self.compare("one byte changed: no rows", !changes.is_empty());
        for row in changes {
            let what = format!("{} {} {}", row[0], row[1], row[2]);
            let at: usize = row[1].parse().unwrap_or(0);
            let (voice, lexicon) = (self.voice.clone(), self.lexicon.clone());
            let image = match row[0] {
                "lexicon" => &mut self.lexicon,
                _ => &mut self.voice,
            };
            match row[2].parse() {
                Ok(byte) if at < image.len() => image[at] = byte,
                Ok(byte) => image.push(byte),
                Err(_) => image.truncate(at),
            }
            let [mut v, mut l, mut work] = self.lent_images();
            let answer = library::check(&mut v, &mut l, &mut work);
            self.compare(&what, row[3].parse() == Ok(answer));
            (self.voice, self.lexicon) = (voice, lexicon);
        }
    }

    fn codes(&mut self) {
        let words = rows("codes");
        self.compare("codes: not all words", words.len() == WORDS as usize);
        for row in words {
            let [mut v, mut l, mut work] = self.lent_images();
            let mut word = self.lent(row[0].as_bytes());
            let code = library::word_to_code(&mut v, &mut l, &mut word, &mut work);
            let sum = row[2]
                .split(" + ")
                .filter_map(|part| part.parse::<i32>().ok())
                .sum();
            self.compare(row[0], code == sum && row[3].parse() == Ok(code));
        }
    }

    /// What the library answers to a list, and the output of so many bytes that it leaves.
    fn look_up(&mut self, list: &[u8], out_length: usize) -> (i32, Vec<u8>) {
        let [mut v, mut l, mut work] = self.lent_images();
        let (mut items, mut out) = (self.lent(list), self.lent(&vec![255; out_length]));
        let answer = library::words_to_codes(&mut v, &mut l, &mut items, &mut work, &mut out);
        (answer, out.contents().to_vec())
    }

    fn items(&mut self) {
        let (list, answers) = (self.bytes("items"), self.bytes("answers"));
        let due: Vec<u8> = ITEMS
            .iter()
            .flat_map(|item| [&[item.len() as u8], item.as_bytes()].concat())
            .collect();
        self.compare("the items", list == due);
        let (answer, out) = self.look_up(&list, 8 * ITEMS.len());
        self.compare("the answers", answer == 4 && answers == out);
        let changes = rows("items changed");
        self.compare("items changed: no rows", !changes.is_empty());
        for row in changes {
            let what = format!("items changed, the row of {} {} {}", row[0], row[1], row[2]);
            let at: usize = row[0].parse().unwrap_or(0);
            let mut changed = list.clone();
            match row[1].parse() {
                Ok(byte) if at < list.len() => changed[at] = byte,
                Ok(byte) => changed.push(byte),
                Err(_) => changed.truncate(at),
            }
            let (answer, _) = self.look_up(&changed, row[2].parse().unwrap_or(0));
            self.compare(&what, row[3].parse() == Ok(answer));
        }
    }

    /// What the library writes for a lexicon.
    fn canonical_image(&mut self, lexicon: &[u8]) -> Vec<u8> {
        let [mut v, _, mut work] = self.lent_images();
        let (mut l, mut further) = (self.lent(lexicon), self.lent(&vec![0; FURTHER_SPACE]));
        let mut out = self.lent(&[0; 100]);
        let answer = library::canonical(&mut v, &mut l, &mut work, &mut further, &mut out);
        out.contents()[..answer.max(0) as usize].to_vec()
    }

    /// The small lexicon is canonical and is written for its other order too; the page's table is the graph that is
    /// written for an, at, in and it with a node for each letter of each.
    fn canonical(&mut self) {
        let mut reordered = small_lexicon();
        reordered.successors[0].reverse();
        for lexicon in [small_lexicon(), reordered] {
            let image = self.canonical_image(&lexicon.bytes());
            self.compare("canonical image, of the small lexicon", image == self.lexicon);
        }
        let spread = Lexicon {
            letters: vec![0, 0, 1, 1, 2, 3, 2, 3],
            successors: [&[1, 2, 3, 4][..], &[5], &[6], &[7], &[8], &[9], &[9], &[9], &[9]]
                .map(<[u16]>::to_vec)
                .to_vec(),
        };
        let table = rows("canonical image");
        let numbers = |cell: &str| cell.split(' ').filter_map(|word| word.parse().ok()).collect();
        let print = small_voice().letters;
        let index = |cell: &str| {
            let letters = print.iter().map(|letter| letter.print_byte);
            letters.take_while(|byte| cell.as_bytes() != [*byte]).count() as u8
        };
        let shown = Lexicon {
            letters: table.iter().skip(1).map(|row| index(row[1])).collect(),
            successors: table.iter().map(|row| numbers(row[3])).collect(),
        };
        let image = self.canonical_image(&spread.bytes());
        self.compare("canonical image, the table", shown.bytes() == image);
        let numbered = |(k, row): (usize, &Vec<&str>)| row[0].starts_with(&k.to_string());
        let in_order = table.iter().enumerate().all(numbered);
        self.compare("canonical image, the vertices", in_order && table.len() == 5);
    }

    fn hits(&mut self) {
        let hits = self.bytes("hits");
        let [mut v, mut l, mut work] = self.lent_images();
        let (mut frames, mut out) = (self.lent(&FRAMES), self.lent(&[0; 8 * HITS as usize]));
        library::decode(&mut v, &mut l, &mut frames, HITS, &mut work, &mut out);
        self.compare("the hits", hits == out.contents());
    }

    fn linked_hits(&mut self, voice: &[u8]) {
        let [_, mut l, mut work] = self.lent_images();
        let (mut v, mut frames) = (self.lent(voice), self.lent(&FRAMES));
        let mut out = self.lent(&[0; 8 * HITS as usize]);
        library::decode(&mut v, &mut l, &mut frames, HITS, &mut work, &mut out);
        let numbers: Vec<i32> = out
            .contents()
            .chunks(4)
            .map(|four| i32::from_le_bytes(four.try_into().unwrap()))
            .collect();
        let hits = LINKED_SCORES.into_iter().zip(CODES);
        let due: Vec<i32> = hits.flat_map(|(score, code)| [score, code as i32]).collect();
        self.compare("links by letter, the hits", numbers == due);
        let said = "an -2, at -12, in -13";
        self.compare("links by letter, the hits as said", PAGE.contains(said));
    }

    fn packed(&mut self) {
        let (packed, unpacked) = (self.bytes("packed codes"), self.bytes("unpacked codes"));
        let mut codes = Numbers::new();
        codes.hold(&CODES, &mut self.random);
        let mut out = self.lent(&[255; 2]);
        library::pack(WORDS, &mut codes, &mut out);
        self.compare("the packed codes", packed == out.contents());
        let (mut given, mut out) = (self.lent(&packed), self.lent(&[255; 12]));
        library::unpack(WORDS, CODES.len() as u32, &mut given, &mut out);
        self.compare("the unpacked codes", unpacked == out.contents());
    }
}

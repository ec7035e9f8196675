//! Canonical images given back to the library: each is its own canonical image, holds the words it was written from,
//! and has their ranks for codes.

use super::reference::Words;
use super::{Canonical, Images};
use crate::buffers::whole;
use crate::image::Voice;
use crate::library;
use crate::reference::WORK_SPACE;

/// Up to so many words of an image are looked up, any of them.
const LOOKUPS: usize = 40;

#[derive(Default)]
pub struct ReadBack {
    images: u64,
    words: u64,
    lookups: u64,
}

impl ReadBack {
    pub fn print(&self) {
        println!(
            "read back: {} images of {} words in all, {} words looked up",
            self.images, self.words, self.lookups
        );
    }

    pub fn missing(&self) -> usize {
        let missing = usize::from(self.images < 1_000) + usize::from(self.lookups < 10_000);
        if missing > 0 {
            println!("too few images read back");
        }
        missing
    }
}

impl Canonical {
    /// The image is what the library wrote for a lexicon of these words, which is one that it has to write.
    pub(super) fn read_back(&mut self, voice: &Voice, image: &[u8], words: &Words) {
        if image.is_empty() {
            self.difference("no image to read back");
            return;
        }
        let images = Images::new(voice.bytes(), image.to_vec());
        if self.written(&images) != image {
            self.difference("a canonical image is not its own");
        }
        let print_byte = |letter: &u8| voice.letters[*letter as usize].print_byte;
        let spelled = |word: &Vec<u8>| word.iter().map(print_byte).collect();
        let row: Vec<Vec<u8>> = words.iter().map(spelled).collect();
        self.check_and_list(&images, &row);
        for k in 0..row.len().min(LOOKUPS) {
            let rank = match row.len() {
                0..=LOOKUPS => k,
                count => self.random.below(count),
            };
            self.look_up(&images, &row[rank], rank);
        }
        self.read_back.images += 1;
        self.read_back.words += row.len() as u64;
    }

    /// W is the number of words, and the listing has them in this order.
    fn check_and_list(&mut self, images: &Images, row: &[Vec<u8>]) {
        let mut listing = row.join(&10);
        listing.push(10);
        let mut room = images.room();
        room.out = listing.len();
        self.hold(images, room);
        let (voice, lexicon) = (&mut self.voice, &mut self.lexicon);
        let count = library::check(voice, lexicon, &mut self.work.buffer);
        if count != row.len() as i32 {
            self.difference(&format!("checking says {count} to {} words", row.len()));
        }
        self.hold(images, room);
        let (voice, lexicon) = (&mut self.voice, &mut self.lexicon);
        library::list(voice, lexicon, &mut self.work.buffer, &mut self.out);
        if !self.out.begins_with(&listing) {
            self.difference("the listing is not the list in dictionary order");
        }
    }

    fn look_up(&mut self, images: &Images, word: &[u8], rank: usize) {
        self.work.hold(WORK_SPACE, &mut self.random);
        self.voice.hold(whole(&images.voice), &mut self.random);
        self.lexicon.hold(whole(&images.lexicon), &mut self.random);
        self.word.hold(whole(word), &mut self.random);
        let code = library::word_to_code(
            &mut self.voice,
            &mut self.lexicon,
            &mut self.word,
            &mut self.work.buffer,
        );
        if code != rank as i32 {
            self.difference(&format!("the code of {word:?} is {code}, its rank {rank}"));
        }
        self.read_back.lookups += 1;
    }
}

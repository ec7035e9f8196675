//! Images that are broken on purpose: by bits, by bytes, and by fields; voice models also in their links.

use crate::image::{bytes_of, Field, Voice};
use crate::random::Random;
use std::cmp::Ordering;

/// Values at and beyond the ends of the fields' ranges, and where one or two bytes end.
pub const EDGES: [u16; 34] = [
    0, 1, 2, 3, 4, 5, 6, 7, 31, 32, 33, 34, 63, 64, 65, 66, 125, 126, 127, 128, 254, 255, 256, 257,
    399, 400, 401, 402, 3_999, 4_000, 4_001, 32_767, 32_768, 65_535,
];

/// The image with one field set to another value.
pub fn with_field(fields: &[Field], index: usize, value: u16) -> Vec<u8> {
    let mut changed = fields.to_vec();
    changed[index].value = value;
    bytes_of(&changed)
}

/// How many links there may be said to be: 1 and L, which are right, and what is next to them or far from them.
pub fn link_counts(letters: usize) -> Vec<usize> {
    let mut counts = vec![0, 1, 2, letters - 1, letters, letters + 1, 255];
    counts.sort_unstable();
    counts.dedup();
    counts
}

pub fn is_link_count(count: usize, letters: usize) -> bool {
    count == 1 || count == letters
}

/// The voice model with this count of links and so many scores, which may be others than it says.
fn with_links(voice: &Voice, count: usize, scores: usize) -> Vec<Field> {
    let links: Vec<i16> = voice.links.iter().copied().cycle().take(scores).collect();
    voice.fields_with_links(count, &links)
}

/// The voice model with each count of links, each with as many scores as it says, with more and with fewer, and with
/// and without K and the emissions after them. With each comes the refusal that has to be answered, 0 for none; or
/// nothing where other bytes are taken for K.
pub fn with_every_links(voice: &Voice) -> Vec<(Vec<u8>, Option<i32>)> {
    let letters = voice.letters.len();
    let before = voice.fields_before_links().len();
    let mut images = Vec::new();
    for count in link_counts(letters) {
        let mut numbers = [0, 1, count.saturating_sub(1), count, count + 1, letters].to_vec();
        numbers.sort_unstable();
        numbers.dedup();
        for scores in numbers {
            let fields = with_links(voice, count, scores);
            let (whole, cut) = match scores.cmp(&count) {
                _ if !is_link_count(count, letters) => (Some(3), Some(3)),
                Ordering::Less => (None, Some(2)),
                Ordering::Equal => (Some(0), Some(2)),
                Ordering::Greater => (None, None),
            };
            images.push((bytes_of(&fields), whole));
            images.push((bytes_of(&fields[..before + 1 + scores]), cut));
        }
    }
    images
}

/// The voice model with one damage of any kind, now and then to its links.
pub fn damaged_voice(random: &mut Random, voice: &Voice) -> Vec<u8> {
    if !random.once_in(6) {
        return damaged(random, &voice.fields());
    }
    let count = *random.pick(&link_counts(voice.letters.len()));
    let scores = match random.below(4) {
        0 => count.saturating_sub(1),
        1 => count + 1,
        2 => voice.links.len(),
        _ => count,
    };
    bytes_of(&with_links(voice, count, scores))
}

/// The image with one damage of any kind.
pub fn damaged(random: &mut Random, fields: &[Field]) -> Vec<u8> {
    if random.once_in(2) {
        damaged_fields(random, fields)
    } else {
        damaged_bytes(random, bytes_of(fields))
    }
}

fn damaged_fields(random: &mut Random, fields: &[Field]) -> Vec<u8> {
    let mut fields = fields.to_vec();
    let index = random.below(fields.len());
    match random.below(6) {
        0 => fields[index].value = *random.pick(&EDGES),
        1 => fields[index].value = fields[index].value.wrapping_add(1),
        2 => fields[index].value = fields[index].value.wrapping_sub(1),
        3 => fields.swap(index, random.below(index + 1)),
        4 => {
            fields.remove(index);
        }
        _ => fields.insert(index, fields[index]),
    }
    bytes_of(&fields)
}

fn damaged_bytes(random: &mut Random, mut bytes: Vec<u8>) -> Vec<u8> {
    let index = random.below(bytes.len());
    match random.below(7) {
        0 | 1 => bytes[index] ^= 1 << random.below(8),
        2 => bytes[index] = random.next() as u8,
        3 => bytes.truncate(index),
        4 => {
            let extra = random.between(1, 4);
            bytes.extend(if random.once_in(2) {
                vec![0; extra]
            } else {
                random.bytes(extra)
            });
        }
        5 => {
            bytes.remove(index);
        }
        _ => bytes.insert(index, random.next() as u8),
    }
    bytes
}

//! The scores of a voice model, drawn anew: few values, so that ties are frequent; extreme ones; impossible ones anywhere.
//! How many links it has stays.

use crate::image::Voice;
use crate::random::Random;

const IMPOSSIBLE: i16 = -32_768;

/// Scores are drawn from one of these rows; from the empty one any score.
const VALUES: [&[i16]; 16] = [
    &[],
    &[0],
    &[-1, 0],
    &[-1, 0],
    &[-1, 0, 1],
    &[-3, -2, -1, 0],
    &[-10, 0],
    &[1, 2],
    &[-32_767],
    &[32_767],
    &[-32_767, 32_767],
    &[-32_767, 0, 32_767],
    &[-16_384],
    &[-16_384, 0],
    &[-32_767, -1, 0],
    &[255, 256, -256, -255],
];

/// Links that differ much from letter to letter.
const FAR_APART: [i16; 8] = [-32_767, -3_000, -100, -7, 0, 40, 500, 32_767];

/// How often a score is impossible, in a hundred.
const IMPOSSIBLES: [usize; 12] = [0, 0, 0, 0, 0, 2, 5, 10, 20, 30, 50, 90];

/// One row of values and one share of impossible scores for the whole model, or for some of its sections alone.
pub fn draw(random: &mut Random, voice: &mut Voice) {
    let values = *random.pick(&VALUES);
    let share = *random.pick(&IMPOSSIBLES);
    let everywhere = random.once_in(2);
    let mut shares = [0; 4];
    for of_section in &mut shares {
        if everywhere || random.once_in(2) {
            *of_section = share;
        }
    }
    let mut at = 0;
    for letter in &voice.letters {
        let last = at + usize::from(letter.states) - 1;
        for moves in &mut voice.moves[at..last] {
            moves[1] = score(random, values, shares[1]);
        }
        at = last + 1;
    }
    for moves in &mut voice.moves {
        moves[0] = score(random, values, shares[0]);
    }
    draw_links(random, &mut voice.links, values, shares[2]);
    for emission in &mut voice.emissions {
        *emission = score(random, values, shares[3]);
    }
}

/// Links of the same row, or far apart. Now and then that of one letter is impossible and the others are not.
fn draw_links(random: &mut Random, links: &mut [i16], values: &[i16], share: usize) {
    let far_apart = links.len() > 1 && random.once_in(4);
    let values = if far_apart { &FAR_APART } else { values };
    let one_impossible = links.len() > 1 && random.once_in(6);
    let share = if one_impossible { 0 } else { share };
    links.fill_with(|| score(random, values, share));
    if one_impossible {
        *random.pick_mut(links) = IMPOSSIBLE;
    }
}

fn score(random: &mut Random, values: &[i16], share: usize) -> i16 {
    if random.below(100) < share {
        IMPOSSIBLE
    } else if values.is_empty() {
        random.next() as i16
    } else {
        *random.pick(values)
    }
}

/// Every score has this value, but for the last steps.
pub fn set_all(voice: &mut Voice, moves: i16, emissions: i16) {
    let mut at = 0;
    for letter in &voice.letters {
        let next = at + usize::from(letter.states);
        voice.moves[at..next].fill([moves, moves]);
        voice.moves[next - 1][1] = 0;
        at = next;
    }
    voice.links.fill(moves);
    voice.emissions.fill(emissions);
}

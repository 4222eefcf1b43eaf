//! Random recipes: well-formed ones, and ones broken in many ways.

use super::pages::random_range;
use super::{random_component, Rng};
use crate::numbers::VALUES;
use crate::recipe::MOST_WORDS;

/// The greatest count of values, and the place after the last.
const MOST: i32 = VALUES as i32;

/// A well-formed recipe of random steps that no page need have: limits of any value, palettes and tints
/// in any order, any number where the paper sets no bound.
pub fn random_recipe(rng: &mut Rng) -> Vec<i32> {
    let mut words = vec![rng.between(1, MOST)];
    // The longest step made here has 811 words and the longest closing one 13, so the most words are not passed.
    while words.len() < 500 && !rng.once_in(4) {
        match rng.below(3) {
            0 => {
                let [lo, hi] = random_range(rng);
                words.extend([1, rng.between(0, MOST - 1), lo, hi]);
            }
            1 => {
                let m = rng.between(1, MOST);
                let h = rng.pick(&[0, 1, 2, 3, 9, 100], 0);
                words.extend([2, m, h]);
                words.extend((0..m * (h + 1)).map(|_| random_component(rng)));
            }
            _ => {
                let m = rng.between(1, 4);
                words.extend([3, rng.between(1, 4), m]);
                words.extend((0..2 * m).map(|_| random_component(rng)));
            }
        }
    }
    words.extend(random_closing(rng));
    words
}

/// The words of a random closing step.
pub(super) fn random_closing(rng: &mut Rng) -> Vec<i32> {
    match rng.below(8) {
        0 => vec![4],
        1 => vec![5],
        2 => vec![6],
        3 => vec![10],
        4 => vec![11],
        5 => vec![7, rng.number(), rng.number(), rng.gamma()],
        6 => {
            let mut words = vec![8, rng.gamma(), rng.gamma(), rng.gamma()];
            words.extend((0..9).map(|_| rng.number()));
            words
        }
        _ => vec![9, rng.number(), rng.number()],
    }
}

/// Random steps and a closing one of exactly this many words in all, 30 or more, with the input count before them.
/// It is a recipe where that is no more than the most words that a recipe has.
pub fn long_recipe(rng: &mut Rng, length: usize) -> Vec<i32> {
    let closing = random_closing(rng);
    let steps = length.saturating_sub(closing.len());
    let mut words = vec![rng.between(1, MOST)];
    // A palette that leaves room for the steps below, as large as may be or smaller.
    let m = rng.between(1, MOST);
    let most = (steps as i32 - 20) / m - 1;
    if most >= 0 && !rng.once_in(4) {
        let h = rng.pick(&[255, 255, 251, 3], 255).min(most);
        words.extend([2, m, h]);
        words.extend((0..m * (h + 1)).map(|_| random_component(rng)));
    }
    // Tint steps of five words until the rest is limits of four.
    while steps.saturating_sub(words.len()) % 4 != 0 {
        words.extend([3, rng.between(1, 4), 1, rng.number(), rng.number()]);
    }
    while words.len() < steps {
        let [lo, hi] = random_range(rng);
        words.extend([1, rng.between(0, MOST - 1), lo, hi]);
    }
    words.extend(closing);
    words
}

/// Breaks a recipe in one of many ways: a word changed, taken out, put in, or words cut off or put after.
/// A changed word may leave a recipe that is still well-formed.
pub fn damage_recipe(rng: &mut Rng, words: &mut Vec<i32>) {
    let at = rng.below(words.len());
    let word = match rng.below(4) {
        0 => rng.number(),
        1 => rng.between(-1, 14),
        2 => rng.near_gamma(),
        _ => rng.gamma() + rng.between(-1, 1),
    };
    match rng.below(5) {
        0 => {
            if let Some(place) = words.get_mut(at) {
                *place = word;
            }
        }
        1 if !words.is_empty() => {
            words.remove(at);
        }
        2 => words.insert(at, word),
        3 => words.truncate(at),
        _ => {
            let more = rng.pick(&[1, 2, MOST_WORDS, 5000], 1);
            words.extend((0..more).map(|_| word));
        }
    }
}

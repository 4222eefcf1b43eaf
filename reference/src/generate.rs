//! Random input for the tests and the comparison: pages, records, colours and recipes, accepted ones and ones broken in
//! one of many ways. What has document 02's programs in it is in [`programs`], what has its DeviceN in [`device_n`].

mod damage;
pub mod device_n;
mod pages;
pub mod programs;
mod recipes;
mod rng;

pub use damage::{damage, damage_by, repair, WAYS};
pub use pages::{random_lone_record, random_page, random_page_of};
pub use recipes::{damage_recipe, long_recipe, random_recipe};
pub use rng::Rng;

use crate::numbers::ONE;

/// A colour component that looks for edges: ends of ranges, halves between indices, and any number at all.
pub fn random_component(rng: &mut Rng) -> i32 {
    match rng.below(7) {
        0 => rng.number(),
        1 => rng.between(-ONE / 2, ONE + ONE / 2),
        2 => rng.between(0, ONE),
        // Halves between indices, and one millionth to either side.
        3 => rng.between(-2, 257) * ONE + ONE / 2 + rng.between(-1, 1),
        // Lab's seam, where a* and b* are about 0.
        4 => 8 * ONE + rng.between(-2, 2),
        // Where a component in ten-thousandths turns.
        5 => rng.between(-1, 10_000) * 100 + 50 + rng.between(-1, 1),
        _ => rng.between(-130 * ONE, 130 * ONE),
    }
}

/// A colour of this many components.
pub fn random_components(rng: &mut Rng, count: usize) -> Vec<i32> {
    (0..count).map(|_| random_component(rng)).collect()
}

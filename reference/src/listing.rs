//! The listing of a page's spaces.

use crate::page::{spaces, validate};
use crate::recipe::recipe_of;

/// "The listing program ... prints the block count, then number, family, components and recipe words of each space."
/// "A refused page prints one line, as `refused 2 block 0`." Every line ends in a newline.
pub fn list(page: &[u8]) -> String {
    let blocks = match validate(page) {
        Ok(blocks) => blocks,
        Err((number, block)) => return format!("refused {number} block {block}\n"),
    };
    let mut text = format!("blocks {blocks}\n");
    for (number, family) in spaces(page) {
        let (name, components) = (family.name(), family.components());
        let words = recipe_of(page, number).map_or(0, |words| words.len());
        text += &format!("{number} {name} {components} {words}\n");
    }
    text
}

//! Random programs: accepted ones, whose kinds are kept while they are made, and the texts that they are spelled as.

mod damage;
mod flat;
mod pages;
mod spelling;

pub use damage::{damage_program_text, damaged_program, damaged_program_by, PROGRAM_WAYS};
pub use flat::{
    damage_flat, damage_program_recipe, long_program_recipe, random_flat, random_program_recipe,
};
pub use pages::{
    damage_program_page, damage_program_page_by, random_lone_program_record, random_program_page,
    random_program_page_of, PROGRAM_PAGE_WAYS,
};
pub(in crate::generate) use pages::{lay_text, run_length};

use super::Rng;
use crate::block::BODY;
use crate::numbers::ONE;
use crate::page::MOST_PROGRAM_BLOCKS;
use crate::program::kinds::{after, Kind, Kinds};
use crate::program::{Item, Op, Program, MOST_HEIGHT, MOST_NESTING, MOST_TOKENS};
use spelling::{spelled, words_of_tree, Words};

/// The most bytes that a program's text has.
pub const MOST_TEXT: usize = MOST_PROGRAM_BLOCKS * BODY;

/// The tokens of the outer pair.
const OUTER: usize = 2;

/// What a program is made to look for.
#[derive(Clone, Copy, Debug, PartialEq, Eq)]
pub enum Shape {
    /// About so many tokens.
    About(usize),
    /// Just so many tokens, 40 or more, the outer pair among them.
    Tokens(usize),
    /// Branches nested as far as they may be.
    Nested,
    /// A stack as high as it may be.
    High,
}

/// A text that takes so many tints and is accepted over an alternate of so many components, at most four blocks long.
pub fn random_program(rng: &mut Rng, taken: usize, left: usize) -> Vec<u8> {
    let shape = match rng.below(12) {
        0..=3 => Shape::About(rng.below(12)),
        4..=7 => Shape::About(rng.below(60)),
        8 => Shape::About(rng.below(300)),
        9 => Shape::Tokens(MOST_TOKENS - rng.below(3)),
        10 => Shape::Nested,
        _ => Shape::High,
    };
    random_program_of(rng, taken, left, shape)
}

/// A text of this shape that takes so many tints and is accepted over an alternate of so many components.
pub fn random_program_of(rng: &mut Rng, taken: usize, left: usize, shape: Shape) -> Vec<u8> {
    loop {
        let words = words_of_tree(&random_tree(rng, taken, left, shape));
        let text = spelled(rng, &words);
        if text.len() <= MOST_TEXT {
            return text;
        }
    }
}

/// The tokens of an accepted program that has at most so many, 100 or more.
fn random_words(rng: &mut Rng, taken: usize, left: usize, most: usize) -> Words {
    let shape = Shape::About(rng.below(50));
    words_of_tree(&random_tree_within(rng, taken, left, shape, most))
}

/// A program of this shape that takes so many tints and is accepted over an alternate of so many components.
pub fn random_tree(rng: &mut Rng, taken: usize, left: usize, shape: Shape) -> Program {
    random_tree_within(rng, taken, left, shape, MOST_TOKENS)
}

/// The same with another bound on the tokens, the outer pair among them.
fn random_tree_within(
    rng: &mut Rng,
    taken: usize,
    left: usize,
    shape: Shape,
    most: usize,
) -> Program {
    let mut wish = match shape {
        Shape::About(wish) => wish,
        Shape::Tokens(count) => count / 2,
        Shape::Nested | Shape::High => 20,
    };
    loop {
        let mut maker = Maker {
            kinds: vec![Kind::Number; taken],
            items: Vec::new(),
            tokens: 0,
            depth: 1,
            chain: shape == Shape::Nested,
        };
        if shape == Shape::High {
            maker.climb(rng);
        }
        if maker.chain || rng.once_in(2) {
            maker.branch(rng, wish / 2);
        }
        maker.fill(rng, wish);
        maker.mend(rng, &vec![Kind::Number; left]);
        let mut made = maker.items;
        if let Shape::Tokens(count) = shape {
            pad(rng, &mut made, count.saturating_sub(OUTER));
        }
        if tokens_of(&made) + OUTER <= most {
            return made;
        }
        wish /= 2;
    }
}

/// Adds items that leave one number on top where one was, up to just so many tokens.
fn pad(rng: &mut Rng, program: &mut Program, count: usize) {
    let mut room = count.saturating_sub(tokens_of(program));
    while room > 0 {
        let before = program.len();
        match (room, rng.below(3)) {
            (1, _) | (_, 0) => program.push(Item::Op(rng.pick(&[Op::Neg, Op::Abs], Op::Neg))),
            (_, 1) => program.push(Item::Copy(Some(0))),
            _ => program.extend([Item::Op(Op::Dup), Item::Op(Op::Pop)]),
        }
        room -= program[before..].iter().map(tokens_in).sum::<usize>();
    }
}

/// How many tokens the items of a program are written with.
pub fn tokens_of(program: &[Item]) -> usize {
    program.iter().map(tokens_in).sum()
}

/// How many tokens one item is written with.
fn tokens_in(item: &Item) -> usize {
    match item {
        Item::Number(_) | Item::Op(_) => 1,
        Item::Copy(_) | Item::Index(_) => 2,
        Item::Roll(..) => 3,
        Item::If(branch) => 3 + tokens_of(branch),
        Item::IfElse(first, second) => 5 + tokens_of(first) + tokens_of(second),
    }
}

/// A program or a branch in the making, and the kinds that it leaves so far.
struct Maker {
    kinds: Kinds,
    items: Program,
    /// How many tokens the items are written with.
    tokens: usize,
    depth: usize,
    /// Whether each branch begins with another.
    chain: bool,
}

impl Maker {
    /// Adds an item, where the stack permits it.
    fn add(&mut self, item: Item) {
        if let Some(kinds) = after(std::slice::from_ref(&item), self.kinds.clone()) {
            self.kinds = kinds;
            self.tokens += tokens_in(&item);
            self.items.push(item);
        }
    }

    /// Adds items of about so many tokens.
    fn fill(&mut self, rng: &mut Rng, wish: usize) {
        let mut tries = 0;
        while self.tokens < wish && tries < 4 * wish {
            tries += 1;
            if rng.once_in(12) {
                self.branch(rng, wish / 3);
            } else {
                let item = random_item(rng, &self.kinds);
                self.add(item);
            }
        }
    }

    /// Adds an `if` or an `ifelse`, the branches of about so many tokens, with what it tests before it.
    fn branch(&mut self, rng: &mut Rng, wish: usize) {
        if self.depth == MOST_NESTING || self.kinds.len() + 2 > MOST_HEIGHT {
            return;
        }
        self.test(rng);
        let mut inside = self.kinds.clone();
        inside.pop();
        let mut first = self.inner(inside.clone());
        first.start(rng, wish);
        let item = if rng.once_in(2) {
            first.mend(rng, &inside);
            Item::If(first.items)
        } else {
            let mut second = self.inner(inside);
            second.chain = false;
            second.start(rng, wish);
            if rng.once_in(2) {
                second.mend(rng, &first.kinds);
            } else {
                first.mend(rng, &second.kinds);
            }
            Item::IfElse(first.items, second.items)
        };
        self.add(item);
    }

    /// A branch of this one, to be filled.
    fn inner(&self, kinds: Kinds) -> Maker {
        Maker {
            kinds,
            items: Vec::new(),
            tokens: 0,
            depth: self.depth + 1,
            chain: self.chain,
        }
    }

    /// Fills a branch, which may stay empty.
    fn start(&mut self, rng: &mut Rng, wish: usize) {
        if self.chain {
            self.branch(rng, wish / 2);
        }
        let wish = rng.below(wish + 1);
        self.fill(rng, wish);
    }

    /// Sees to a truth value on top.
    fn test(&mut self, rng: &mut Rng) {
        if self.kinds.last() == Some(&Kind::Truth) && !rng.once_in(4) {
            return;
        }
        let number = self.kinds.last() == Some(&Kind::Number);
        if number && self.kinds.len() + 2 <= MOST_HEIGHT && !rng.once_in(4) {
            self.add(Item::Op(Op::Dup));
            self.add(Item::Number(random_literal(rng)));
            self.add(Item::Op(rng.pick(&COMPARISONS, Op::Lt)));
        } else {
            self.add(Item::Op(rng.pick(&[Op::True, Op::False], Op::True)));
        }
    }

    /// Brings the stack to these kinds: takes off what is too much or of another kind, and puts on what is missing.
    fn mend(&mut self, rng: &mut Rng, wanted: &[Kind]) {
        while !wanted.starts_with(&self.kinds) {
            self.add(Item::Op(Op::Pop));
        }
        for kind in &wanted[self.kinds.len()..] {
            let again = self.kinds.last() == Some(kind) && rng.once_in(2);
            self.add(match kind {
                _ if again => Item::Op(Op::Dup),
                Kind::Number => Item::Number(random_literal(rng)),
                Kind::Truth => Item::Op(rng.pick(&[Op::True, Op::False], Op::True)),
            });
        }
    }

    /// Brings the stack to its greatest height by copies.
    fn climb(&mut self, rng: &mut Rng) {
        while self.kinds.len() < MOST_HEIGHT {
            let height = self.kinds.len();
            let most = height.min(MOST_HEIGHT - height);
            let count = rng.pick(&[most, most, most, most.div_ceil(2)], most);
            self.add(Item::Copy(Some(count as i32 * ONE)));
        }
        let turns = random_turns(rng);
        self.add(Item::Roll(Some(MOST_HEIGHT as i32 * ONE), Some(turns)));
        // Some of the height goes at once, so that there is room for the rest.
        for _ in 0..rng.below(60) {
            self.add(Item::Op(Op::Pop));
        }
    }
}

/// The six comparisons.
const COMPARISONS: [Op; 6] = [Op::Eq, Op::Ne, Op::Gt, Op::Ge, Op::Lt, Op::Le];

/// A number of a program: of 0..1 above all, small ones, and the ends.
pub fn random_literal(rng: &mut Rng) -> i32 {
    match rng.below(6) {
        0 => rng.pick(&[0, ONE, ONE / 2, -ONE, 1, -1], 0),
        1 => rng.between(-10, 10) * ONE,
        2 => rng.number(),
        _ => rng.between(0, ONE),
    }
}

/// How far a roll turns, in millionths of whole ones.
fn random_turns(rng: &mut Rng) -> i32 {
    rng.pick(&[0, 1, -1, 2, -2, 3, 7, -100, 2147, -2147], 1) * ONE
}

/// An item that the stack most often permits.
fn random_item(rng: &mut Rng, kinds: &Kinds) -> Item {
    let height = kinds.len() as i32;
    let top: Vec<Kind> = kinds.iter().rev().take(2).copied().collect();
    match rng.below(9) {
        0 | 1 => Item::Number(random_literal(rng)),
        2 => {
            let few = rng.between(0, height.min(4));
            let any = rng.between(0, height);
            Item::Copy(Some(rng.pick(&[few, few, few, any], few) * ONE))
        }
        3 => Item::Index(Some(rng.between(0, height - 1) * ONE)),
        4 => {
            let few = rng.between(0, height.min(4));
            let any = rng.between(0, height);
            let count = rng.pick(&[few, few, any], few);
            Item::Roll(Some(count * ONE), Some(random_turns(rng)))
        }
        5 => Item::Op(rng.pick(
            &[Op::True, Op::False, Op::Pop, Op::Pop, Op::Exch, Op::Dup],
            Op::Dup,
        )),
        _ => {
            let fits: &[Op] = match top[..] {
                [Kind::Truth, Kind::Truth] => &[Op::And, Op::Or, Op::Not],
                [Kind::Truth, ..] => &[Op::Not, Op::Exch, Op::Pop],
                [Kind::Number, Kind::Number] if rng.once_in(3) => &COMPARISONS,
                [Kind::Number, Kind::Number] => &[Op::Add, Op::Sub, Op::Mul, Op::Mul],
                [Kind::Number, ..] => &[Op::Neg, Op::Abs, Op::Dup],
                _ => return Item::Number(random_literal(rng)),
            };
            Item::Op(rng.pick(fits, Op::Dup))
        }
    }
}

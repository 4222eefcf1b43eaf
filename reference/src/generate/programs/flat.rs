//! Random flat forms, the words of steps 12 and 13: right ones, some with jumps that no tree has, damaged ones, and recipes with
//! them.

use super::{random_item, random_literal, random_tree, Maker, Shape, COMPARISONS};
use crate::generate::recipes::random_closing;
use crate::generate::{damage_recipe, random_recipe, Rng};
use crate::numbers::VALUES;
use crate::program::kinds::{after, Kind, Kinds};
use crate::program::{words_of, Item, Op, MOST_HEIGHT};
use crate::recipe::MOST_WORDS;

/// A well-formed flat form that takes so many values and leaves so many numbers: a program's, or one whose jumps cross.
pub fn random_flat(rng: &mut Rng, taken: usize, left: usize) -> Vec<i32> {
    if rng.once_in(2) {
        let about = rng.below(40);
        let shape = rng.pick(
            &[Shape::About(about), Shape::About(about), Shape::Nested],
            Shape::Nested,
        );
        words_of(&random_tree(rng, taken, left, shape))
    } else {
        crossed(rng, taken, left)
    }
}

/// Changes a flat form in one place: a word changed, taken out, put in or doubled, or the end cut off. It may still be
/// well-formed.
pub fn damage_flat(rng: &mut Rng, words: &mut Vec<i32>) {
    let at = rng.below(words.len());
    let word = match rng.below(6) {
        0 => rng.number(),
        1 => rng.between(-3, 110),
        2 => words
            .get(at)
            .map_or(0, |word| word.wrapping_add(rng.between(-2, 2))),
        _ => rng.between(0, 26),
    };
    match rng.below(6) {
        0 | 1 => {
            if let Some(place) = words.get_mut(at) {
                *place = word;
            }
        }
        2 if !words.is_empty() => {
            words.remove(at);
        }
        3 => words.insert(at, word),
        4 => {
            let end = (at + 1 + rng.below(4)).min(words.len());
            let part = words[at.min(end)..end].to_vec();
            words.splice(at..at, part);
        }
        _ => words.truncate(at),
    }
}

/// A step 12, or a step 13 of so many values, with a random flat form; what it takes may be more than the input count.
fn random_program_step(rng: &mut Rng) -> Vec<i32> {
    let left = 1 + rng.below(4);
    let taken = if rng.once_in(2) {
        1 + rng.below(VALUES)
    } else {
        1
    };
    let flat = random_flat(rng, taken, left);
    let mut step = vec![13, taken as i32, left as i32, flat.len() as i32];
    if taken == 1 && !rng.once_in(4) {
        step = vec![12, left as i32, flat.len() as i32];
    }
    step.extend(flat);
    step
}

/// A well-formed recipe with one step 12 or 13 or more among its others.
pub fn random_program_recipe(rng: &mut Rng) -> Vec<i32> {
    let mut words = random_recipe(rng);
    // Behind the input count, so that the steps after it read its results.
    for _ in 0..1 + rng.below(2) {
        let step = random_program_step(rng);
        if words.len() + step.len() <= MOST_WORDS {
            words.splice(1..1, step);
        }
    }
    words
}

/// A step 12 or 13 and a closing step of exactly this many words in all, 30 or more, with the input count before them. It is a
/// recipe where that is no more than the most words that a recipe has.
pub fn long_program_recipe(rng: &mut Rng, length: usize) -> Vec<i32> {
    let closing = random_closing(rng);
    let taken = 1 + rng.below(VALUES);
    let head = match rng.once_in(2) {
        true => vec![12],
        false => vec![13, taken as i32],
    };
    let taken = if head == [12] { 1 } else { taken };
    let count = length.saturating_sub(3 + head.len() + closing.len());
    let mut flat = random_flat(rng, taken, 1);
    if flat.len() > count {
        flat = vec![23; taken - 1];
    }
    while flat.len() < count {
        match count - flat.len() {
            1 => flat.push(18),
            _ => flat.extend(rng.pick(&[[18, 19], [25, 23], [2, 0], [6, 0]], [18, 18])),
        }
    }
    let input = rng.between(1, VALUES as i32);
    [vec![input], head, vec![1, count as i32], flat, closing].concat()
}

/// Breaks a recipe with steps 12 or 13 in one of many ways: as any recipe, or a word of its first such step.
pub fn damage_program_recipe(rng: &mut Rng, words: &mut Vec<i32>) {
    // Where the flat form begins, behind the word that has its count.
    let begin = match words.get(1) {
        Some(12) => 4,
        Some(13) => 5,
        _ => return damage_recipe(rng, words),
    };
    let Some(&n) = words.get(begin - 1) else {
        return damage_recipe(rng, words);
    };
    let end = (begin + n.max(0) as usize).min(words.len());
    match rng.below(5) {
        0 => damage_recipe(rng, words),
        1 => {
            let place = 2 + rng.below(begin - 2);
            words[place] = words[place].wrapping_add(rng.between(-1, 1));
        }
        // Another count taken, which the flat form most often does not fit.
        2 if begin == 5 => words[2] = rng.between(-1, VALUES as i32 + 1),
        _ => {
            let mut flat = words[begin.min(end)..end].to_vec();
            damage_flat(rng, &mut flat);
            // The count of words follows, so that the fault is the flat form's own.
            words[begin - 1] = flat.len() as i32;
            words.splice(begin.min(end)..end, flat);
        }
    }
}

/// A part of a flat form whose jumps are not yet counted.
#[derive(Clone, Debug)]
enum Piece {
    /// Words as they stand.
    Words(Vec<i32>),
    /// Where jumps to this label lead.
    Mark(usize),
    /// Words that leave a truth value, and a jump that tests it.
    Test(Vec<i32>, usize),
    /// A jump to the first label, and the second label behind it.
    Pass(usize, usize),
}

impl Piece {
    /// How many words the piece has.
    fn length(&self) -> usize {
        match self {
            Piece::Words(words) => words.len(),
            Piece::Mark(_) => 0,
            Piece::Test(words, _) => words.len() + 2,
            Piece::Pass(..) => 2,
        }
    }
}

/// A flat form in the making: items in a row, and between them gaps where jumps begin and end.
struct Row {
    items: Vec<Piece>,
    /// The kinds at each gap.
    kinds: Vec<Kinds>,
    gaps: Vec<Vec<Piece>>,
    labels: usize,
}

/// A flat form with jumps from any place to any later one that has the same kinds.
fn crossed(rng: &mut Rng, taken: usize, left: usize) -> Vec<i32> {
    let mut maker = Maker {
        kinds: vec![Kind::Number; taken],
        items: Vec::new(),
        tokens: 0,
        depth: 1,
        chain: false,
    };
    for _ in 0..rng.below(40) {
        let item = random_item(rng, &maker.kinds);
        maker.add(item);
    }
    maker.mend(rng, &vec![Kind::Number; left]);
    let mut row = Row::of(&maker.items, taken);
    for place in 0..row.items.len() {
        row.test_for_pop(rng, place);
    }
    for _ in 0..rng.below(8) {
        if rng.once_in(3) {
            row.add_pass(rng);
        } else {
            row.add_test(rng);
        }
    }
    row.words()
}

impl Row {
    /// The row of these items, none of them a branch, over so many values.
    fn of(items: &[Item], taken: usize) -> Row {
        let mut kinds = vec![vec![Kind::Number; taken]];
        for item in items {
            let last = kinds.last().cloned().unwrap_or_default();
            kinds.push(after(std::slice::from_ref(item), last).unwrap_or_default());
        }
        Row {
            items: items
                .iter()
                .map(|item| Piece::Words(words_of(std::slice::from_ref(item))))
                .collect(),
            gaps: vec![Vec::new(); kinds.len()],
            kinds,
            labels: 0,
        }
    }

    /// A label that is not yet used.
    fn label(&mut self) -> usize {
        self.labels += 1;
        self.labels - 1
    }

    /// A gap of this range that has the same kinds as another.
    fn alike(&self, rng: &mut Rng, gap: usize, among: std::ops::Range<usize>) -> usize {
        let same: Vec<usize> = among
            .filter(|other| self.kinds[*other] == self.kinds[gap])
            .collect();
        rng.pick(&same, gap)
    }

    /// Puts a piece into a gap, not before this place of it, and says where it stands.
    fn put(&mut self, rng: &mut Rng, gap: usize, from: usize, piece: Piece) -> usize {
        let room = self.gaps[gap].len() + 1 - from;
        let at = from + rng.below(room);
        self.gaps[gap].insert(at, piece);
        at
    }

    /// Makes a `pop` of a truth value a jump that tests it, to a later gap with the kinds that it leaves.
    fn test_for_pop(&mut self, rng: &mut Rng, place: usize) {
        let is_pop = matches!(&self.items[place], Piece::Words(words) if *words == [23]);
        if is_pop && self.kinds[place].last() == Some(&Kind::Truth) && rng.once_in(2) {
            let label = self.label();
            let to = self.alike(rng, place + 1, place + 1..self.kinds.len());
            self.put(rng, to, 0, Piece::Mark(label));
            self.items[place] = Piece::Test(Vec::new(), label);
        }
    }

    /// Words that leave a truth value more on a stack of these kinds.
    fn truth(&self, rng: &mut Rng, gap: usize) -> Vec<i32> {
        let kinds = &self.kinds[gap];
        if kinds.last() == Some(&Kind::Number) && kinds.len() + 2 <= MOST_HEIGHT {
            let compare = Item::Op(rng.pick(&COMPARISONS, Op::Lt));
            let number = Item::Number(random_literal(rng));
            words_of(&[Item::Op(Op::Dup), number, compare])
        } else {
            vec![rng.pick(&[21, 22], 21)]
        }
    }

    /// Adds a test and a jump to any gap from there on that has the same kinds.
    fn add_test(&mut self, rng: &mut Rng) {
        let from = rng.below(self.kinds.len());
        if self.kinds[from].len() == MOST_HEIGHT {
            return;
        }
        let (label, truth) = (self.label(), self.truth(rng, from));
        let at = self.put(rng, from, 0, Piece::Test(truth, label));
        let to = self.alike(rng, from, from..self.kinds.len());
        let behind = if to == from { at + 1 } else { 0 };
        self.put(rng, to, behind, Piece::Mark(label));
    }

    /// Adds a jump that does not test, and before it a test that leads behind it.
    fn add_pass(&mut self, rng: &mut Rng) {
        let gap = rng.below(self.kinds.len());
        if self.kinds[gap].len() == MOST_HEIGHT {
            return;
        }
        let (away, behind) = (self.label(), self.label());
        let mut at = self.put(rng, gap, 0, Piece::Pass(away, behind));
        let to = self.alike(rng, gap, gap..self.kinds.len());
        let least = if to == gap { at + 1 } else { 0 };
        self.put(rng, to, least, Piece::Mark(away));
        let from = self.alike(rng, gap, 0..gap + 1);
        let test = Piece::Test(self.truth(rng, from), behind);
        if from == gap {
            at = rng.below(at + 1);
            self.gaps[from].insert(at, test);
        } else {
            self.put(rng, from, 0, test);
        }
    }

    /// The words, every jump counted "past the jump's own two words".
    fn words(&self) -> Vec<i32> {
        let mut pieces: Vec<&Piece> = Vec::new();
        for (place, gap) in self.gaps.iter().enumerate() {
            pieces.extend(gap);
            pieces.extend(self.items.get(place));
        }
        let mut places = vec![0; self.labels];
        let mut at = 0;
        for piece in &pieces {
            at += piece.length();
            if let Piece::Mark(label) | Piece::Pass(_, label) = piece {
                places[*label] = at;
            }
        }
        let mut words: Vec<i32> = Vec::new();
        for piece in pieces {
            let (code, label) = match piece {
                Piece::Words(more) => {
                    words.extend(more);
                    continue;
                }
                Piece::Mark(_) => continue,
                Piece::Test(truth, label) => {
                    words.extend(truth);
                    (5, *label)
                }
                Piece::Pass(label, _) => (6, *label),
            };
            let past = words.len() + 2;
            words.extend([code, places[label] as i32 - past as i32]);
        }
        words
    }
}

//! Gathering cases: one call for each operation on blocks, pages, texts, colours and recipes.

use super::format::{bytes_of, numbers_of, Case};
use crate::block::{lay, Record};
use crate::recipe::recipe_of;

/// Gathers cases.
#[derive(Default)]
pub(super) struct Maker {
    pub(super) cases: Vec<Case>,
}

impl Maker {
    /// Adds a case.
    pub(super) fn add(
        &mut self,
        op: u32,
        label: impl Into<String>,
        args: &[i32],
        bytes: Option<&[u8]>,
    ) {
        self.cases.push(Case {
            label: label.into(),
            op,
            args: args.to_vec(),
            bytes: bytes.map(<[u8]>::to_vec),
        });
    }

    /// Reads a block.
    pub(super) fn read(&mut self, label: &str, block: &[u8]) {
        self.add(20, label, &[], Some(block));
    }

    /// Writes a record.
    pub(super) fn write(&mut self, label: &str, record: &Record) {
        let mut args = vec![i32::from(record.number), i32::from(record.body.kind())];
        args.extend(numbers_of(&record.body));
        let used = record.bytes.iter().rposition(|byte| *byte != 0);
        let bytes = used.map(|last| &record.bytes[..=last]);
        self.add(21, label, &args, bytes);
    }

    /// Writes a record, and reads the block that it would be.
    pub(super) fn both(&mut self, label: &str, record: &Record) {
        self.write(&format!("{label}, written"), record);
        self.read(&format!("{label}, read"), &lay(record));
    }

    /// Validates a page.
    pub(super) fn validate(&mut self, label: &str, page: &[u8]) {
        self.add(30, label, &[], Some(page));
    }

    /// Lists a page.
    pub(super) fn list(&mut self, label: &str, page: &[u8]) {
        self.add(34, label, &[], Some(page));
    }

    /// Validates a page and lists it.
    pub(super) fn validate_and_list(&mut self, label: &str, page: &[u8]) {
        self.validate(label, page);
        self.list(&format!("{label}, listed"), page);
    }

    /// Asks for an ink by its name.
    pub(super) fn ink(&mut self, label: &str, job: &[u8], house: &[u8], name: &[u8]) {
        let lengths = [job.len() as i32, house.len() as i32];
        self.add(35, label, &lengths, Some(&[job, house, name].concat()));
    }

    /// Reads a text with so many bytes of room, in parts of so many bytes.
    pub(super) fn text(&mut self, label: &str, room: usize, part: usize, text: &[u8]) {
        self.add(36, label, &[room as i32, part as i32], Some(text));
    }

    /// Evaluates a colour.
    pub(super) fn evaluate(&mut self, label: &str, page: &[u8], number: u32, colour: &[i32]) {
        let args = [&[number as i32, colour.len() as i32][..], colour].concat();
        self.add(31, label, &args, Some(page));
    }

    /// Writes a recipe into room for this many words.
    pub(super) fn write_recipe(&mut self, label: &str, page: &[u8], number: u32, length: usize) {
        self.add(32, label, &[number as i32, length as i32], Some(page));
    }

    /// Runs a recipe.
    pub(super) fn run(&mut self, label: &str, words: &[i32], colour: &[i32]) {
        let args = [&[colour.len() as i32][..], colour].concat();
        self.add(33, label, &args, Some(&bytes_of(words)));
    }

    /// Evaluates a colour, and runs it through the space's recipe.
    pub(super) fn colour(&mut self, label: &str, page: &[u8], number: u32, colour: &[i32]) {
        self.evaluate(label, page, number, colour);
        if let Ok(words) = recipe_of(page, number) {
            self.run(&format!("{label}, by its recipe"), &words, colour);
        }
    }
}

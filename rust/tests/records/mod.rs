//! Records for the tests: the files of the slot cases, and others written section by section.

// Each test program uses its own part of this.
#![allow(dead_code)]

use std::path::Path;

pub const LOAD: u8 = 0;
pub const STORE: u8 = 1;
pub const READ: u8 = 2;
pub const WRITE: u8 = 3;

/// A slot case by the name of its file.
pub fn slot_case(name: &str) -> Vec<u8> {
    let folder = Path::new(env!("CARGO_MANIFEST_DIR")).join("../records");
    std::fs::read(folder.join(name).with_extension("bin")).expect(name)
}

/// A record by its entries, each as its bytes.
#[derive(Clone, Copy, Default)]
pub struct Record<'a> {
    pub processors: u8,
    pub events: &'a [[u8; 12]],
    pub causality: &'a [[u8; 2]],
    pub locked: &'a [[u8; 4]],
    pub initial: &'a [[u8; 12]],
    pub store_order: &'a [[u8; 1]],
    pub locked_order: &'a [[u8; 1]],
    pub reads_from: &'a [[u8; 2]],
    pub views: &'a [&'a [u8]],
}

impl Record<'_> {
    /// The record in form 1.
    pub fn bytes(&self) -> Vec<u8> {
        let mut bytes = vec![1, self.processors];
        put(&mut bytes, self.events);
        put(&mut bytes, self.causality);
        put(&mut bytes, self.locked);
        put(&mut bytes, self.initial);
        put(&mut bytes, self.store_order);
        put(&mut bytes, self.locked_order);
        put(&mut bytes, self.reads_from);
        bytes.extend((self.views.len() as u16).to_le_bytes());
        for view in self.views {
            bytes.extend((view.len() as u16).to_le_bytes());
            bytes.extend(*view);
        }
        bytes
    }
}

/// A count, then its entries.
fn put<const SIZE: usize>(bytes: &mut Vec<u8>, entries: &[[u8; SIZE]]) {
    bytes.extend((entries.len() as u16).to_le_bytes());
    bytes.extend(entries.as_flattened());
}

/// An event, its fields in layout order.
pub fn event(processor: u8, kind: u8, index: u16, place: u32, value: u32) -> [u8; 12] {
    let [i, j] = index.to_le_bytes();
    twelve([processor, kind, i, j], place, value)
}

/// An initial value of a memory place.
pub fn memory(place: u32, value: u32) -> [u8; 12] {
    twelve([0; 4], place, value)
}

/// An entry of section 2 or 5: four bytes, a place, a value.
fn twelve(head: [u8; 4], place: u32, value: u32) -> [u8; 12] {
    let mut entry = [0; 12];
    entry[..4].copy_from_slice(&head);
    entry[4..8].copy_from_slice(&place.to_le_bytes());
    entry[8..].copy_from_slice(&value.to_le_bytes());
    entry
}

//! From a 16-bit word to its meaning, by the patterns of the code table.
//! Document 01: the decoder refuses nothing; "undefined" is one of its meanings, here `None`.

use crate::codes::{rows, Row};
use crate::operation::{Fields, Operation};

#[derive(Clone, Copy)]
pub struct Meaning {
    pub operation: Operation,
    pub fields: Fields,
    pub rewrites_pc: bool,
}

pub struct Decoder {
    meanings: Vec<Option<Meaning>>,
}

impl Decoder {
    pub fn new() -> Decoder {
        let mut meanings = vec![None; 0x1_0000];
        for row in rows() {
            for word in words_of(row) {
                meanings[word as usize] = Some(meaning_of(row, word));
            }
        }
        Decoder { meanings }
    }

    pub fn meaning(&self, word: u16) -> Option<Meaning> {
        self.meanings[word as usize]
    }
}

/// The words that a row has: its letters take both values, its digits stand. H'0109 is not NOP.
pub fn words_of(row: &Row) -> Vec<u16> {
    let mut words = vec![0];
    for letter in row.pattern.chars() {
        words = match letter {
            '0' => words.iter().map(|word| word << 1).collect(),
            '1' => words.iter().map(|word| word << 1 | 1).collect(),
            _ => words.iter().flat_map(|word| [word << 1, word << 1 | 1]).collect(),
        };
    }
    words
}

fn meaning_of(row: &Row, word: u16) -> Meaning {
    let fields = Fields {
        n: field(row, word, 'n') as usize,
        m: field(row, word, 'm') as usize,
        d: field(row, word, 'd'),
        i: field(row, word, 'i'),
    };
    Meaning { operation: row.operation, fields, rewrites_pc: row.rewrites_pc() }
}

/// The bits of a word in the places of a letter, highest first.
fn field(row: &Row, word: u16, name: char) -> u32 {
    let places = (0..16).rev().zip(row.pattern.chars()).filter(|(_, letter)| *letter == name);
    places.fold(0, |value, (place, _)| value << 1 | (word >> place & 1) as u32)
}

//! Random numbers, and random values and words drawn so that programs get somewhere.

use crate::codes::{rows, Row};

pub const SLEEP: u16 = 0x001B;

/// Values at which carries, signs and saturation turn.
const BOUNDARIES: [u32; 12] = [
    0, 1, 2, 0x7F, 0x80, 0x7FFF, 0x8000, 0xFFFF_8000, 0x7FFF_FFFF, 0x8000_0000, 0xFFFF_FFFE, 0xFFFF_FFFF,
];

/// The generator splitmix64.
pub struct Random {
    state: u64,
}

impl Random {
    pub fn new(seed: u64, index: u64) -> Random {
        let mut seeded = Random { state: seed };
        Random { state: seeded.next() ^ index.wrapping_mul(0xD134_2543_DE82_EF95) }
    }

    fn next(&mut self) -> u64 {
        self.state = self.state.wrapping_add(0x9E37_79B9_7F4A_7C15);
        let a = (self.state ^ self.state >> 30).wrapping_mul(0xBF58_476D_1CE4_E5B9);
        let b = (a ^ a >> 27).wrapping_mul(0x94D0_49BB_1331_11EB);
        b ^ b >> 31
    }

    pub fn below(&mut self, limit: u32) -> u32 {
        (self.next() % limit as u64) as u32
    }

    pub fn chance(&mut self, percent: u32) -> bool {
        self.below(100) < percent
    }

    pub fn pick<T: Copy>(&mut self, choices: &[T]) -> T {
        choices[self.below(choices.len() as u32) as usize]
    }

    pub fn near_ends(&mut self, length: u32) -> u32 {
        let end = self.pick(&[0, length]);
        end.wrapping_add(self.below(33)).wrapping_sub(16)
    }

    pub fn value(&mut self, length: u32) -> u32 {
        match self.below(100) {
            0..=44 => 4 * self.below(length / 4),
            45..=54 => self.below(length),
            55..=59 => self.near_ends(length),
            60..=79 => self.next() as u32,
            80..=89 => self.below(256).wrapping_sub(128),
            _ => self.pick(&BOUNDARIES),
        }
    }

    /// Words that end most programs early, SLEEP and those with 15 for n, are mostly drawn again.
    pub fn program_word(&mut self) -> u16 {
        let word = if self.chance(15) { self.next() as u16 } else { self.coded() };
        let early_end = word == SLEEP || word >> 8 & 0xF == 15;
        if early_end && self.chance(70) { self.program_word() } else { word }
    }

    /// A word of an instruction drawn from the code table.
    pub fn coded(&mut self) -> u16 {
        let all: Vec<&Row> = rows().collect();
        let row = self.pick(&all);
        let word = self.filled(row.pattern);
        if row.pattern.ends_with("dddddddddddd") { word & 0xF000 | self.near_displacement() } else { word }
    }

    /// BRA and BSR stay within the program mostly.
    fn near_displacement(&mut self) -> u16 {
        (self.below(60) as u16).wrapping_sub(10) & 0xFFF
    }

    fn filled(&mut self, pattern: &str) -> u16 {
        let bits = self.next() as u16;
        pattern.chars().enumerate().fold(0, |word, (place, letter)| {
            let free = bits >> (15 - place) & 1;
            word << 1 | match letter { '0' => 0, '1' => 1, _ => free }
        })
    }
}

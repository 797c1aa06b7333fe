//! Random images for the differential test: a seed and a number determine each image.
//! Most programs set their registers so that many accesses succeed, run a mix of random words
//! and words drawn from the code table, and end in SLEEP; exceptions lead to short handlers.

use crate::draw::{Random, SLEEP};

const VECTORS_END: u32 = 0x100;
const HANDLERS: [u32; 4] = [0x100, 0x120, 0x140, 0x160];
const START: u32 = 0x180;
const PROGRAM_END: u32 = 0x300;
const POOL: u32 = 0x300;
const DATA: u32 = 0x354;

const NOP: u16 = 0x0009;
const RTE: u16 = 0x002B;

pub fn images(seed: u64, count: u64) -> Vec<Vec<u8>> {
    (0..count).map(|index| image(Random::new(seed, index))).collect()
}

fn image(mut random: Random) -> Vec<u8> {
    let length = if random.chance(15) { 2_048 } else { 1_024 };
    let mut sketch = Sketch { bytes: vec![0; length], random };
    if sketch.random.chance(4) {
        sketch.fill_random(0);
        sketch.reset_vector();
    } else {
        sketch.fill();
        sketch.reset_vector();
        sketch.vectors();
        sketch.handlers();
        sketch.set_up_and_program();
    }
    sketch.bytes
}

struct Sketch {
    bytes: Vec<u8>,
    random: Random,
}

impl Sketch {
    fn length(&self) -> u32 {
        self.bytes.len() as u32
    }

    fn word(&mut self, at: u32, value: u16) {
        self.bytes[at as usize..at as usize + 2].copy_from_slice(&value.to_be_bytes());
    }

    fn long(&mut self, at: u32, value: u32) {
        self.bytes[at as usize..at as usize + 4].copy_from_slice(&value.to_be_bytes());
    }

    fn fill_random(&mut self, from: u32) {
        for at in (from..self.length()).step_by(4) {
            let value = self.random.value(self.bytes.len() as u32);
            self.long(at, value);
        }
    }

    /// SLEEP everywhere, so that a stray branch mostly ends the run; random data above the program.
    fn fill(&mut self) {
        for at in (0..self.length()).step_by(2) {
            self.word(at, SLEEP);
        }
        self.fill_random(DATA);
    }

    fn reset_vector(&mut self) {
        let stray = self.random.chance(3);
        let pc = if stray { self.random.value(self.bytes.len() as u32) } else { START };
        let r15 = self.stack();
        self.long(0, pc);
        self.long(4, r15);
    }

    fn stack(&mut self) -> u32 {
        match self.random.below(100) {
            0..=84 => self.length() - 4 * self.random.below(16),
            85..=92 => self.random.near_ends(self.bytes.len() as u32),
            _ => self.random.value(self.bytes.len() as u32),
        }
    }

    fn vectors(&mut self) {
        for at in (8..VECTORS_END).step_by(4) {
            let handler = self.random.pick(&HANDLERS);
            let stray = self.random.chance(2);
            let value = if stray { self.random.value(self.bytes.len() as u32) } else { handler };
            self.long(at, value);
        }
    }

    fn handlers(&mut self) {
        for at in HANDLERS {
            let words = match self.random.below(10) {
                0..=1 => self.sleeping_handler(),
                2..=8 => self.skipping_handler(),
                _ => self.any_words(12),
            };
            self.words(at, &words);
        }
    }

    fn sleeping_handler(&mut self) -> Vec<u16> {
        let count = self.random.below(4);
        let mut words = self.any_words(count);
        words.push(SLEEP);
        words
    }

    /// Returns two bytes behind the saved PC, as long as the word at H'7A (the low half of vector
    /// 30, some hundreds) counts down; without it a bad PC would be met until the budget ends.
    fn skipping_handler(&mut self) -> Vec<u16> {
        let slot = self.random.coded();
        vec![
            0x6EF2, // MOV.L @R15,R14
            0x7E02, // ADD #2,R14
            0x2FE2, // MOV.L R14,@R15
            0xED7A, // MOV #H'7A,R13
            0x6ED5, // MOV.W @R13+,R14
            0x4E10, // DT R14
            0x8903, // BT to the SLEEP
            0x2DE5, // MOV.W R14,@-R13
            RTE, slot, NOP, SLEEP,
        ]
    }

    fn words(&mut self, at: u32, words: &[u16]) {
        for (index, word) in words.iter().enumerate() {
            self.word(at + 2 * index as u32, *word);
        }
    }

    fn any_words(&mut self, count: u32) -> Vec<u16> {
        (0..count).map(|_| self.random.program_word()).collect()
    }

    fn set_up_and_program(&mut self) {
        let set_up = self.set_up();
        let room = (PROGRAM_END - START) / 2 - set_up.len() as u32 - 1;
        let count = 4 + self.random.below(room - 4);
        let program = self.any_words(count);
        self.words(START, &set_up);
        self.words(START + 2 * set_up.len() as u32, &program);
    }

    /// Loads SR, GBR, VBR, MACH, MACL and PR through R1, then R0 to R14, from the pool.
    fn set_up(&mut self) -> Vec<u16> {
        const LOADS: [u16; 6] = [0x410E, 0x411E, 0x412E, 0x410A, 0x411A, 0x412A];
        let mut words = Vec::new();
        let mut pool = POOL;
        for load in LOADS {
            let value = self.control_value(load);
            words.push(self.pooled(words.len(), &mut pool, 1, value));
            words.push(load);
        }
        for register in 0..15 {
            let value = self.register_value(register);
            words.push(self.pooled(words.len(), &mut pool, register, value));
        }
        words
    }

    /// MOV.L @(disp,PC),Rn for the word at `index`, its value put into the pool.
    fn pooled(&mut self, index: usize, pool: &mut u32, register: u16, value: u32) -> u16 {
        let base = (START + 2 * index as u32 + 4) & !3;
        let displacement = (*pool - base) / 4;
        self.long(*pool, value);
        *pool += 4;
        0xD000 | register << 8 | displacement as u16
    }

    fn control_value(&mut self, load: u16) -> u32 {
        let length = self.length();
        match load {
            0x412E if self.random.chance(85) => 0,
            0x412A => START + 2 * self.random.below(0xC0),
            0x411E if self.random.chance(80) => 4 * self.random.below(length / 4),
            _ => self.random.value(length),
        }
    }

    fn register_value(&mut self, register: u16) -> u32 {
        let length = self.length();
        if register == 0 && self.random.chance(50) {
            4 * self.random.below(16)
        } else {
            self.random.value(length)
        }
    }
}

//! The report of one image.
//! Document 01, "The runner" and "Refusals of a call".

use crate::decode::Decoder;
use crate::machine::{Machine, Mode};
use crate::memory::Memory;
use crate::step::run;

const LONGEST_IMAGE: usize = 65_536;
const SHORTEST_MEMORY: usize = 1_024;
const BUDGET: u32 = 1_000_000;

pub fn report(decoder: &Decoder, image: &[u8]) -> String {
    match refusal(image.len()) {
        Some(number) => format!("refused {number}\n"),
        None => ran(decoder, image),
    }
}

/// A longer image is refusal 2 "also where its length is no multiple of 4"; below that, refusal 1
/// comes before refusal 2. Refusal 3 cannot be, as the state comes from a reset.
fn refusal(length: usize) -> Option<u32> {
    if length > LONGEST_IMAGE {
        Some(2)
    } else if length % 4 != 0 {
        Some(1)
    } else if length < SHORTEST_MEMORY {
        Some(2)
    } else {
        None
    }
}

fn ran(decoder: &Decoder, image: &[u8]) -> String {
    let mut memory = Memory::new(image.to_vec());
    let pc = memory.read_long(0).expect("the length was not refused");
    let r15 = memory.read_long(4).expect("the length was not refused");
    let mut c = Machine::at_reset(pc, r15);
    let steps = run(decoder, &mut c, &mut memory, BUDGET);
    text(&c, steps)
}

fn text(c: &Machine, steps: u32) -> String {
    let (mode, target) = match c.mode {
        Mode::Running => ("running".to_string(), None),
        Mode::Slot(target) => ("slot".to_string(), Some(target)),
        Mode::Asleep => ("asleep".to_string(), None),
        Mode::Stopped(reason) => (format!("stopped {reason}"), None),
    };
    let mut out = format!("state {mode} steps {steps}\npc {:08x} sr {:08x}\n", c.pc, c.sr);
    if let Some(target) = target {
        out += &format!("target {target:08x}\n");
    }
    for (name, value) in named_registers(c) {
        if value != 0 {
            out += &format!("{name} {value:08x}\n");
        }
    }
    out
}

fn named_registers(c: &Machine) -> Vec<(String, u32)> {
    let general = (0..16).map(|number| (format!("r{number}"), c.r[number]));
    let others = [("gbr", c.gbr), ("vbr", c.vbr), ("pr", c.pr), ("mach", c.mach), ("macl", c.macl)];
    general.chain(others.map(|(name, value)| (name.to_string(), value))).collect()
}

//! One step, and a run of steps.
//! Document 01, "One step" and "Run".

use crate::decode::{Decoder, Meaning};
use crate::exceptions::{enter, ADDRESS_ERROR, GENERAL_ILLEGAL, ILLEGAL_SLOT};
use crate::machine::{Machine, Mode};
use crate::memory::{AddressError, Memory};
use crate::operation::Flow;

/// The steps taken: `budget`, fewer only when the machine sleeps or stops.
pub fn run(decoder: &Decoder, c: &mut Machine, memory: &mut Memory, budget: u32) -> u32 {
    let mut taken = 0;
    while taken < budget && step(decoder, c, memory) {
        taken += 1;
    }
    taken
}

/// Whether a step was counted: only an asleep or stopped machine takes none.
pub fn step(decoder: &Decoder, c: &mut Machine, memory: &mut Memory) -> bool {
    match c.mode {
        Mode::Running => fetch(decoder, c, memory, None),
        Mode::Slot(target) => fetch(decoder, c, memory, Some(target)),
        Mode::Asleep | Mode::Stopped(_) => return false,
    }
    true
}

/// Points 2 and 3. `slot` is the waiting target; it is what an exception in a slot always saves.
fn fetch(decoder: &Decoder, c: &mut Machine, memory: &mut Memory, slot: Option<u32>) {
    let at_word = slot.unwrap_or(c.pc);
    let Ok(word) = memory.read_word(c.pc) else {
        return enter(c, memory, ADDRESS_ERROR, at_word);
    };
    match (decoder.meaning(word), slot) {
        (None, None) => enter(c, memory, GENERAL_ILLEGAL, at_word),
        (None, Some(target)) => enter(c, memory, ILLEGAL_SLOT, target),
        (Some(meaning), Some(target)) if meaning.rewrites_pc => enter(c, memory, ILLEGAL_SLOT, target),
        (Some(meaning), _) => execute(c, memory, meaning, slot),
    }
}

/// Points 4 and 5. `after` is the target in a slot, else the next word.
fn execute(c: &mut Machine, memory: &mut Memory, meaning: Meaning, slot: Option<u32>) {
    let next_word = c.pc.wrapping_add(2);
    let after = slot.unwrap_or(next_word);
    let (pc, mode) = match (meaning.operation)(c, memory, meaning.fields) {
        Err(AddressError) => return enter(c, memory, ADDRESS_ERROR, after),
        Ok(Flow::Trap(number)) => return enter(c, memory, number, after),
        Ok(Flow::Next) => (after, Mode::Running),
        Ok(Flow::Branch(target)) => (target, Mode::Running),
        Ok(Flow::Delayed(target)) => (next_word, Mode::Slot(target)),
        Ok(Flow::Sleep) => (after, Mode::Asleep),
    };
    c.pc = pc;
    c.mode = mode;
}

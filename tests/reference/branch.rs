//! Branch instructions: document 000, Table 5.7 and sections 6.6 to 6.13, 6.25, 6.26, 6.51.
//! The addresses are document 01's, "Branch addresses"; the "+4" printed in JMP, JSR and RTS is not theirs.

use crate::machine::Machine;
use crate::memory::Memory;
use crate::operation::{Answer, Fields, Flow, NEXT};

fn after_slot(c: &Machine) -> u32 {
    c.pc.wrapping_add(4)
}

/// A + 4 + 2 x the signed displacement of `bits` bits.
fn displaced(c: &Machine, d: u32, bits: u32) -> u32 {
    let unused = 32 - bits;
    let displacement = (d << unused) as i32 >> unused;
    after_slot(c).wrapping_add_signed(2 * displacement)
}

// BF label
pub fn bf(c: &mut Machine, _: &mut Memory, f: Fields) -> Answer {
    if c.t() { NEXT } else { Ok(Flow::Branch(displaced(c, f.d, 8))) }
}

// BF/S label
pub fn bfs(c: &mut Machine, _: &mut Memory, f: Fields) -> Answer {
    if c.t() { NEXT } else { Ok(Flow::Delayed(displaced(c, f.d, 8))) }
}

// BT label
pub fn bt(c: &mut Machine, _: &mut Memory, f: Fields) -> Answer {
    if c.t() { Ok(Flow::Branch(displaced(c, f.d, 8))) } else { NEXT }
}

// BT/S label
pub fn bts(c: &mut Machine, _: &mut Memory, f: Fields) -> Answer {
    if c.t() { Ok(Flow::Delayed(displaced(c, f.d, 8))) } else { NEXT }
}

// BRA label
pub fn bra(c: &mut Machine, _: &mut Memory, f: Fields) -> Answer {
    Ok(Flow::Delayed(displaced(c, f.d, 12)))
}

// BRAF Rm
pub fn braf(c: &mut Machine, _: &mut Memory, f: Fields) -> Answer {
    Ok(Flow::Delayed(after_slot(c).wrapping_add(c.r[f.m])))
}

// BSR label
pub fn bsr(c: &mut Machine, _: &mut Memory, f: Fields) -> Answer {
    c.pr = after_slot(c);
    Ok(Flow::Delayed(displaced(c, f.d, 12)))
}

// BSRF Rm
pub fn bsrf(c: &mut Machine, _: &mut Memory, f: Fields) -> Answer {
    c.pr = after_slot(c);
    Ok(Flow::Delayed(after_slot(c).wrapping_add(c.r[f.m])))
}

// JMP @Rm
pub fn jmp(c: &mut Machine, _: &mut Memory, f: Fields) -> Answer {
    Ok(Flow::Delayed(c.r[f.m]))
}

// JSR @Rm
pub fn jsr(c: &mut Machine, _: &mut Memory, f: Fields) -> Answer {
    c.pr = after_slot(c);
    Ok(Flow::Delayed(c.r[f.m]))
}

// RTS
pub fn rts(c: &mut Machine, _: &mut Memory, _: Fields) -> Answer {
    Ok(Flow::Delayed(c.pr))
}

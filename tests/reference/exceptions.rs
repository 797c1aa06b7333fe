//! Exception entry and the stops.
//! Document 01, "Exceptions".

use crate::machine::{Machine, Mode};
use crate::memory::Memory;

pub const GENERAL_ILLEGAL: u32 = 4;
pub const ILLEGAL_SLOT: u32 = 6;
pub const ADDRESS_ERROR: u32 = 9;

const STACK_UNUSABLE: u32 = 1;
const VECTOR_UNUSABLE: u32 = 2;

/// Both reasons are tried before the first store, as a stop leaves memory and registers alone.
pub fn enter(c: &mut Machine, memory: &mut Memory, number: u32, saved_pc: u32) {
    let status_at = c.r[15].wrapping_sub(4);
    let pc_at = c.r[15].wrapping_sub(8);
    let vector_at = c.vbr.wrapping_add(4 * number);
    let stack_usable = memory.test_long(status_at).is_ok() && memory.test_long(pc_at).is_ok();
    let vector_usable = memory.test_long(vector_at).is_ok();
    if !stack_usable {
        c.mode = Mode::Stopped(STACK_UNUSABLE);
    } else if !vector_usable {
        c.mode = Mode::Stopped(VECTOR_UNUSABLE);
    } else {
        push_and_lead(c, memory, [status_at, pc_at, vector_at], saved_pc);
    }
}

/// The vector is read after the two stores, which may have hit it.
fn push_and_lead(c: &mut Machine, memory: &mut Memory, tested: [u32; 3], saved_pc: u32) {
    let [status_at, pc_at, vector_at] = tested;
    memory.write_long(status_at, c.sr).expect("tested");
    memory.write_long(pc_at, saved_pc).expect("tested");
    c.r[15] = pc_at;
    c.pc = memory.read_long(vector_at).expect("tested");
    c.mode = Mode::Running;
}

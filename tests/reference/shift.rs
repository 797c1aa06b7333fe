//! Shift instructions: document 000, Table 5.6 and sections 6.46 to 6.49, 6.53 to 6.58.
//! "The bit that is shifted out of the operand is transferred to the T bit."

use crate::machine::Machine;
use crate::memory::Memory;
use crate::operation::{Answer, Fields, NEXT};

fn left(c: &mut Machine, n: usize, enters: bool) -> Answer {
    let leaves = c.r[n] >> 31 == 1;
    c.r[n] = c.r[n] << 1 | enters as u32;
    c.set_t(leaves);
    NEXT
}

fn right(c: &mut Machine, n: usize, enters: bool) -> Answer {
    let leaves = c.r[n] & 1 == 1;
    c.r[n] = c.r[n] >> 1 | (enters as u32) << 31;
    c.set_t(leaves);
    NEXT
}

// ROTL Rn
pub fn rotl(c: &mut Machine, _: &mut Memory, f: Fields) -> Answer {
    left(c, f.n, c.r[f.n] >> 31 == 1)
}

// ROTR Rn
pub fn rotr(c: &mut Machine, _: &mut Memory, f: Fields) -> Answer {
    right(c, f.n, c.r[f.n] & 1 == 1)
}

// ROTCL Rn
pub fn rotcl(c: &mut Machine, _: &mut Memory, f: Fields) -> Answer {
    left(c, f.n, c.t())
}

// ROTCR Rn
pub fn rotcr(c: &mut Machine, _: &mut Memory, f: Fields) -> Answer {
    right(c, f.n, c.t())
}

// SHAL Rn
pub fn shal(c: &mut Machine, _: &mut Memory, f: Fields) -> Answer {
    left(c, f.n, false)
}

// SHAR Rn
pub fn shar(c: &mut Machine, _: &mut Memory, f: Fields) -> Answer {
    right(c, f.n, c.r[f.n] >> 31 == 1)
}

// SHLL Rn
pub fn shll(c: &mut Machine, _: &mut Memory, f: Fields) -> Answer {
    left(c, f.n, false)
}

// SHLR Rn
pub fn shlr(c: &mut Machine, _: &mut Memory, f: Fields) -> Answer {
    right(c, f.n, false)
}

// SHLL2 Rn
pub fn shll2(c: &mut Machine, _: &mut Memory, f: Fields) -> Answer {
    c.r[f.n] <<= 2;
    NEXT
}

// SHLR2 Rn
pub fn shlr2(c: &mut Machine, _: &mut Memory, f: Fields) -> Answer {
    c.r[f.n] >>= 2;
    NEXT
}

// SHLL8 Rn
pub fn shll8(c: &mut Machine, _: &mut Memory, f: Fields) -> Answer {
    c.r[f.n] <<= 8;
    NEXT
}

// SHLR8 Rn
pub fn shlr8(c: &mut Machine, _: &mut Memory, f: Fields) -> Answer {
    c.r[f.n] >>= 8;
    NEXT
}

// SHLL16 Rn
pub fn shll16(c: &mut Machine, _: &mut Memory, f: Fields) -> Answer {
    c.r[f.n] <<= 16;
    NEXT
}

// SHLR16 Rn
pub fn shlr16(c: &mut Machine, _: &mut Memory, f: Fields) -> Answer {
    c.r[f.n] >>= 16;
    NEXT
}

//! Logic operation instructions: document 000, Table 5.5 and sections 6.5, 6.44, 6.45, 6.66, 6.68, 6.69.
//! Immediates are zero-extended. The forms on memory are one byte access at GBR + R0.

use crate::machine::Machine;
use crate::memory::Memory;
use crate::operation::{Answer, Fields, NEXT};

fn gbr_indexed(c: &Machine) -> u32 {
    c.gbr.wrapping_add(c.r[0])
}

// AND Rm,Rn
pub fn and(c: &mut Machine, _: &mut Memory, f: Fields) -> Answer {
    c.r[f.n] &= c.r[f.m];
    NEXT
}

// AND #imm,R0
pub fn andi(c: &mut Machine, _: &mut Memory, f: Fields) -> Answer {
    c.r[0] &= f.i;
    NEXT
}

// AND.B #imm,@(R0,GBR)
pub fn andm(c: &mut Machine, memory: &mut Memory, f: Fields) -> Answer {
    let old = memory.read_byte(gbr_indexed(c))? as u32;
    memory.write_byte(gbr_indexed(c), old & f.i)?;
    NEXT
}

// NOT Rm,Rn
pub fn not(c: &mut Machine, _: &mut Memory, f: Fields) -> Answer {
    c.r[f.n] = !c.r[f.m];
    NEXT
}

// OR Rm,Rn
pub fn or(c: &mut Machine, _: &mut Memory, f: Fields) -> Answer {
    c.r[f.n] |= c.r[f.m];
    NEXT
}

// OR #imm,R0
pub fn ori(c: &mut Machine, _: &mut Memory, f: Fields) -> Answer {
    c.r[0] |= f.i;
    NEXT
}

// OR.B #imm,@(R0,GBR)
pub fn orm(c: &mut Machine, memory: &mut Memory, f: Fields) -> Answer {
    let old = memory.read_byte(gbr_indexed(c))? as u32;
    memory.write_byte(gbr_indexed(c), old | f.i)?;
    NEXT
}

// TAS.B @Rn
pub fn tas(c: &mut Machine, memory: &mut Memory, f: Fields) -> Answer {
    let old = memory.read_byte(c.r[f.n])? as u32;
    memory.write_byte(c.r[f.n], old | 0x80)?;
    c.set_t(old == 0);
    NEXT
}

// TST Rm,Rn
pub fn tst(c: &mut Machine, _: &mut Memory, f: Fields) -> Answer {
    c.set_t(c.r[f.n] & c.r[f.m] == 0);
    NEXT
}

// TST #imm,R0
pub fn tsti(c: &mut Machine, _: &mut Memory, f: Fields) -> Answer {
    c.set_t(c.r[0] & f.i == 0);
    NEXT
}

// TST.B #imm,@(R0,GBR)
pub fn tstm(c: &mut Machine, memory: &mut Memory, f: Fields) -> Answer {
    let byte = memory.read_byte(gbr_indexed(c))? as u32;
    c.set_t(byte & f.i == 0);
    NEXT
}

// XOR Rm,Rn
pub fn xor(c: &mut Machine, _: &mut Memory, f: Fields) -> Answer {
    c.r[f.n] ^= c.r[f.m];
    NEXT
}

// XOR #imm,R0
pub fn xori(c: &mut Machine, _: &mut Memory, f: Fields) -> Answer {
    c.r[0] ^= f.i;
    NEXT
}

// XOR.B #imm,@(R0,GBR)
pub fn xorm(c: &mut Machine, memory: &mut Memory, f: Fields) -> Answer {
    let old = memory.read_byte(gbr_indexed(c))? as u32;
    memory.write_byte(gbr_indexed(c), old ^ f.i)?;
    NEXT
}

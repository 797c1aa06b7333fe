//! System control instructions: document 000, Table 5.8 and sections 6.14, 6.15, 6.27, 6.28, 6.43,
//! 6.50, 6.52, 6.59 to 6.61, 6.67. The lines on ten bits of MACH are the SH-1's and left out.

use crate::machine::Machine;
use crate::memory::Memory;
use crate::operation::{Answer, Fields, Flow, NEXT};

// CLRT
pub fn clrt(c: &mut Machine, _: &mut Memory, _: Fields) -> Answer {
    c.set_t(false);
    NEXT
}

// CLRMAC
pub fn clrmac(c: &mut Machine, _: &mut Memory, _: Fields) -> Answer {
    c.set_mac(0);
    NEXT
}

// LDC Rm,SR
pub fn ldcsr(c: &mut Machine, _: &mut Memory, f: Fields) -> Answer {
    c.load_sr(c.r[f.m]);
    NEXT
}

// LDC Rm,GBR
pub fn ldcgbr(c: &mut Machine, _: &mut Memory, f: Fields) -> Answer {
    c.gbr = c.r[f.m];
    NEXT
}

// LDC Rm,VBR
pub fn ldcvbr(c: &mut Machine, _: &mut Memory, f: Fields) -> Answer {
    c.vbr = c.r[f.m];
    NEXT
}

/// The long at @Rm+. The register rises after the access was found good.
fn pop(c: &mut Machine, memory: &Memory, m: usize) -> Result<u32, crate::memory::AddressError> {
    let value = memory.read_long(c.r[m])?;
    c.r[m] = c.r[m].wrapping_add(4);
    Ok(value)
}

/// A long to @-Rn. The register falls after the access was found good.
fn push(c: &mut Machine, memory: &mut Memory, n: usize, value: u32) -> Answer {
    let address = c.r[n].wrapping_sub(4);
    memory.write_long(address, value)?;
    c.r[n] = address;
    NEXT
}

// LDC.L @Rm+,SR
pub fn ldcmsr(c: &mut Machine, memory: &mut Memory, f: Fields) -> Answer {
    let value = pop(c, memory, f.m)?;
    c.load_sr(value);
    NEXT
}

// LDC.L @Rm+,GBR
pub fn ldcmgbr(c: &mut Machine, memory: &mut Memory, f: Fields) -> Answer {
    c.gbr = pop(c, memory, f.m)?;
    NEXT
}

// LDC.L @Rm+,VBR
pub fn ldcmvbr(c: &mut Machine, memory: &mut Memory, f: Fields) -> Answer {
    c.vbr = pop(c, memory, f.m)?;
    NEXT
}

// LDS Rm,MACH
pub fn ldsmach(c: &mut Machine, _: &mut Memory, f: Fields) -> Answer {
    c.mach = c.r[f.m];
    NEXT
}

// LDS Rm,MACL
pub fn ldsmacl(c: &mut Machine, _: &mut Memory, f: Fields) -> Answer {
    c.macl = c.r[f.m];
    NEXT
}

// LDS Rm,PR
pub fn ldspr(c: &mut Machine, _: &mut Memory, f: Fields) -> Answer {
    c.pr = c.r[f.m];
    NEXT
}

// LDS.L @Rm+,MACH
pub fn ldsmmach(c: &mut Machine, memory: &mut Memory, f: Fields) -> Answer {
    c.mach = pop(c, memory, f.m)?;
    NEXT
}

// LDS.L @Rm+,MACL
pub fn ldsmmacl(c: &mut Machine, memory: &mut Memory, f: Fields) -> Answer {
    c.macl = pop(c, memory, f.m)?;
    NEXT
}

// LDS.L @Rm+,PR
pub fn ldsmpr(c: &mut Machine, memory: &mut Memory, f: Fields) -> Answer {
    c.pr = pop(c, memory, f.m)?;
    NEXT
}

// NOP
pub fn nop(_: &mut Machine, _: &mut Memory, _: Fields) -> Answer {
    NEXT
}

// RTE: PC below SR on the stack, as the entry pushed them; both longs are read before R15 moves.
pub fn rte(c: &mut Machine, memory: &mut Memory, _: Fields) -> Answer {
    let target = memory.read_long(c.r[15])?;
    let status = memory.read_long(c.r[15].wrapping_add(4))?;
    c.r[15] = c.r[15].wrapping_add(8);
    c.load_sr(status);
    Ok(Flow::Delayed(target))
}

// SETT
pub fn sett(c: &mut Machine, _: &mut Memory, _: Fields) -> Answer {
    c.set_t(true);
    NEXT
}

// SLEEP: document 01 leaves PC at the next instruction, against the printed PC-=2.
pub fn sleep(_: &mut Machine, _: &mut Memory, _: Fields) -> Answer {
    Ok(Flow::Sleep)
}

// STC SR,Rn
pub fn stcsr(c: &mut Machine, _: &mut Memory, f: Fields) -> Answer {
    c.r[f.n] = c.sr;
    NEXT
}

// STC GBR,Rn
pub fn stcgbr(c: &mut Machine, _: &mut Memory, f: Fields) -> Answer {
    c.r[f.n] = c.gbr;
    NEXT
}

// STC VBR,Rn
pub fn stcvbr(c: &mut Machine, _: &mut Memory, f: Fields) -> Answer {
    c.r[f.n] = c.vbr;
    NEXT
}

// STC.L SR,@-Rn
pub fn stcmsr(c: &mut Machine, memory: &mut Memory, f: Fields) -> Answer {
    push(c, memory, f.n, c.sr)
}

// STC.L GBR,@-Rn
pub fn stcmgbr(c: &mut Machine, memory: &mut Memory, f: Fields) -> Answer {
    push(c, memory, f.n, c.gbr)
}

// STC.L VBR,@-Rn
pub fn stcmvbr(c: &mut Machine, memory: &mut Memory, f: Fields) -> Answer {
    push(c, memory, f.n, c.vbr)
}

// STS MACH,Rn
pub fn stsmach(c: &mut Machine, _: &mut Memory, f: Fields) -> Answer {
    c.r[f.n] = c.mach;
    NEXT
}

// STS MACL,Rn
pub fn stsmacl(c: &mut Machine, _: &mut Memory, f: Fields) -> Answer {
    c.r[f.n] = c.macl;
    NEXT
}

// STS PR,Rn
pub fn stspr(c: &mut Machine, _: &mut Memory, f: Fields) -> Answer {
    c.r[f.n] = c.pr;
    NEXT
}

// STS.L MACH,@-Rn
pub fn stsmmach(c: &mut Machine, memory: &mut Memory, f: Fields) -> Answer {
    push(c, memory, f.n, c.mach)
}

// STS.L MACL,@-Rn
pub fn stsmmacl(c: &mut Machine, memory: &mut Memory, f: Fields) -> Answer {
    push(c, memory, f.n, c.macl)
}

// STS.L PR,@-Rn
pub fn stsmpr(c: &mut Machine, memory: &mut Memory, f: Fields) -> Answer {
    push(c, memory, f.n, c.pr)
}

// TRAPA #imm: the pushes are the entry's.
pub fn trapa(_: &mut Machine, _: &mut Memory, f: Fields) -> Answer {
    Ok(Flow::Trap(f.i))
}

//! Data transfer instructions: document 000, Table 5.3 and sections 6.32 to 6.37, 6.65, 6.70.
//! The masks of the printed operations that lost or gained a digit are read by their text:
//! loaded bytes and words are sign-extended (6.32), PC's lowest two bits cleared (6.33, 6.36).

use crate::machine::Machine;
use crate::memory::Memory;
use crate::operation::{sign_extend_byte, sign_extend_word, Answer, Fields, NEXT};

fn load_byte(memory: &Memory, address: u32) -> Result<u32, crate::memory::AddressError> {
    Ok(sign_extend_byte(memory.read_byte(address)? as u32))
}

fn load_word(memory: &Memory, address: u32) -> Result<u32, crate::memory::AddressError> {
    Ok(sign_extend_word(memory.read_word(address)? as u32))
}

/// Document 01, "PC-relative data": A + 4, in a slot too, where A is the instruction's own address.
fn pc_relative(c: &Machine) -> u32 {
    c.pc.wrapping_add(4)
}

// MOV Rm,Rn
pub fn mov(c: &mut Machine, _: &mut Memory, f: Fields) -> Answer {
    c.r[f.n] = c.r[f.m];
    NEXT
}

// MOV.B Rm,@Rn
pub fn movbs(c: &mut Machine, memory: &mut Memory, f: Fields) -> Answer {
    memory.write_byte(c.r[f.n], c.r[f.m])?;
    NEXT
}

// MOV.W Rm,@Rn
pub fn movws(c: &mut Machine, memory: &mut Memory, f: Fields) -> Answer {
    memory.write_word(c.r[f.n], c.r[f.m])?;
    NEXT
}

// MOV.L Rm,@Rn
pub fn movls(c: &mut Machine, memory: &mut Memory, f: Fields) -> Answer {
    memory.write_long(c.r[f.n], c.r[f.m])?;
    NEXT
}

// MOV.B @Rm,Rn
pub fn movbl(c: &mut Machine, memory: &mut Memory, f: Fields) -> Answer {
    c.r[f.n] = load_byte(memory, c.r[f.m])?;
    NEXT
}

// MOV.W @Rm,Rn
pub fn movwl(c: &mut Machine, memory: &mut Memory, f: Fields) -> Answer {
    c.r[f.n] = load_word(memory, c.r[f.m])?;
    NEXT
}

// MOV.L @Rm,Rn
pub fn movll(c: &mut Machine, memory: &mut Memory, f: Fields) -> Answer {
    c.r[f.n] = memory.read_long(c.r[f.m])?;
    NEXT
}

// MOV.B Rm,@-Rn: the store reads Rm before Rn falls, so that m = n stores the old value.
pub fn movbm(c: &mut Machine, memory: &mut Memory, f: Fields) -> Answer {
    let address = c.r[f.n].wrapping_sub(1);
    memory.write_byte(address, c.r[f.m])?;
    c.r[f.n] = address;
    NEXT
}

// MOV.W Rm,@-Rn
pub fn movwm(c: &mut Machine, memory: &mut Memory, f: Fields) -> Answer {
    let address = c.r[f.n].wrapping_sub(2);
    memory.write_word(address, c.r[f.m])?;
    c.r[f.n] = address;
    NEXT
}

// MOV.L Rm,@-Rn
pub fn movlm(c: &mut Machine, memory: &mut Memory, f: Fields) -> Answer {
    let address = c.r[f.n].wrapping_sub(4);
    memory.write_long(address, c.r[f.m])?;
    c.r[f.n] = address;
    NEXT
}

/// Rm rises before Rn is set, so that with m = n "the loaded value stays".
fn post_increment(c: &mut Machine, f: Fields, size: u32, loaded: u32) -> Answer {
    c.r[f.m] = c.r[f.m].wrapping_add(size);
    c.r[f.n] = loaded;
    NEXT
}

// MOV.B @Rm+,Rn
pub fn movbp(c: &mut Machine, memory: &mut Memory, f: Fields) -> Answer {
    let loaded = load_byte(memory, c.r[f.m])?;
    post_increment(c, f, 1, loaded)
}

// MOV.W @Rm+,Rn
pub fn movwp(c: &mut Machine, memory: &mut Memory, f: Fields) -> Answer {
    let loaded = load_word(memory, c.r[f.m])?;
    post_increment(c, f, 2, loaded)
}

// MOV.L @Rm+,Rn
pub fn movlp(c: &mut Machine, memory: &mut Memory, f: Fields) -> Answer {
    let loaded = memory.read_long(c.r[f.m])?;
    post_increment(c, f, 4, loaded)
}

// MOV.B Rm,@(R0,Rn)
pub fn movbs0(c: &mut Machine, memory: &mut Memory, f: Fields) -> Answer {
    memory.write_byte(c.r[f.n].wrapping_add(c.r[0]), c.r[f.m])?;
    NEXT
}

// MOV.W Rm,@(R0,Rn)
pub fn movws0(c: &mut Machine, memory: &mut Memory, f: Fields) -> Answer {
    memory.write_word(c.r[f.n].wrapping_add(c.r[0]), c.r[f.m])?;
    NEXT
}

// MOV.L Rm,@(R0,Rn)
pub fn movls0(c: &mut Machine, memory: &mut Memory, f: Fields) -> Answer {
    memory.write_long(c.r[f.n].wrapping_add(c.r[0]), c.r[f.m])?;
    NEXT
}

// MOV.B @(R0,Rm),Rn
pub fn movbl0(c: &mut Machine, memory: &mut Memory, f: Fields) -> Answer {
    c.r[f.n] = load_byte(memory, c.r[f.m].wrapping_add(c.r[0]))?;
    NEXT
}

// MOV.W @(R0,Rm),Rn
pub fn movwl0(c: &mut Machine, memory: &mut Memory, f: Fields) -> Answer {
    c.r[f.n] = load_word(memory, c.r[f.m].wrapping_add(c.r[0]))?;
    NEXT
}

// MOV.L @(R0,Rm),Rn
pub fn movll0(c: &mut Machine, memory: &mut Memory, f: Fields) -> Answer {
    c.r[f.n] = memory.read_long(c.r[f.m].wrapping_add(c.r[0]))?;
    NEXT
}

// MOV #imm,Rn
pub fn movi(c: &mut Machine, _: &mut Memory, f: Fields) -> Answer {
    c.r[f.n] = sign_extend_byte(f.i);
    NEXT
}

// MOV.W @(disp,PC),Rn
pub fn movwi(c: &mut Machine, memory: &mut Memory, f: Fields) -> Answer {
    c.r[f.n] = load_word(memory, pc_relative(c).wrapping_add(2 * f.d))?;
    NEXT
}

// MOV.L @(disp,PC),Rn
pub fn movli(c: &mut Machine, memory: &mut Memory, f: Fields) -> Answer {
    c.r[f.n] = memory.read_long((pc_relative(c) & !3).wrapping_add(4 * f.d))?;
    NEXT
}

// MOV.B @(disp,GBR),R0
pub fn movblg(c: &mut Machine, memory: &mut Memory, f: Fields) -> Answer {
    c.r[0] = load_byte(memory, c.gbr.wrapping_add(f.d))?;
    NEXT
}

// MOV.W @(disp,GBR),R0
pub fn movwlg(c: &mut Machine, memory: &mut Memory, f: Fields) -> Answer {
    c.r[0] = load_word(memory, c.gbr.wrapping_add(2 * f.d))?;
    NEXT
}

// MOV.L @(disp,GBR),R0
pub fn movllg(c: &mut Machine, memory: &mut Memory, f: Fields) -> Answer {
    c.r[0] = memory.read_long(c.gbr.wrapping_add(4 * f.d))?;
    NEXT
}

// MOV.B R0,@(disp,GBR)
pub fn movbsg(c: &mut Machine, memory: &mut Memory, f: Fields) -> Answer {
    memory.write_byte(c.gbr.wrapping_add(f.d), c.r[0])?;
    NEXT
}

// MOV.W R0,@(disp,GBR)
pub fn movwsg(c: &mut Machine, memory: &mut Memory, f: Fields) -> Answer {
    memory.write_word(c.gbr.wrapping_add(2 * f.d), c.r[0])?;
    NEXT
}

// MOV.L R0,@(disp,GBR)
pub fn movlsg(c: &mut Machine, memory: &mut Memory, f: Fields) -> Answer {
    memory.write_long(c.gbr.wrapping_add(4 * f.d), c.r[0])?;
    NEXT
}

// MOV.B R0,@(disp,Rn)
pub fn movbs4(c: &mut Machine, memory: &mut Memory, f: Fields) -> Answer {
    memory.write_byte(c.r[f.n].wrapping_add(f.d), c.r[0])?;
    NEXT
}

// MOV.W R0,@(disp,Rn)
pub fn movws4(c: &mut Machine, memory: &mut Memory, f: Fields) -> Answer {
    memory.write_word(c.r[f.n].wrapping_add(2 * f.d), c.r[0])?;
    NEXT
}

// MOV.L Rm,@(disp,Rn)
pub fn movls4(c: &mut Machine, memory: &mut Memory, f: Fields) -> Answer {
    memory.write_long(c.r[f.n].wrapping_add(4 * f.d), c.r[f.m])?;
    NEXT
}

// MOV.B @(disp,Rm),R0
pub fn movbl4(c: &mut Machine, memory: &mut Memory, f: Fields) -> Answer {
    c.r[0] = load_byte(memory, c.r[f.m].wrapping_add(f.d))?;
    NEXT
}

// MOV.W @(disp,Rm),R0
pub fn movwl4(c: &mut Machine, memory: &mut Memory, f: Fields) -> Answer {
    c.r[0] = load_word(memory, c.r[f.m].wrapping_add(2 * f.d))?;
    NEXT
}

// MOV.L @(disp,Rm),Rn
pub fn movll4(c: &mut Machine, memory: &mut Memory, f: Fields) -> Answer {
    c.r[f.n] = memory.read_long(c.r[f.m].wrapping_add(4 * f.d))?;
    NEXT
}

// MOVA @(disp,PC),R0: an address only; no access, so it never fails.
pub fn mova(c: &mut Machine, _: &mut Memory, f: Fields) -> Answer {
    c.r[0] = (pc_relative(c) & !3).wrapping_add(4 * f.d);
    NEXT
}

// MOVT Rn
pub fn movt(c: &mut Machine, _: &mut Memory, f: Fields) -> Answer {
    c.r[f.n] = c.t() as u32;
    NEXT
}

// SWAP.B Rm,Rn
pub fn swapb(c: &mut Machine, _: &mut Memory, f: Fields) -> Answer {
    let [a, b, y, z] = c.r[f.m].to_be_bytes();
    c.r[f.n] = u32::from_be_bytes([a, b, z, y]);
    NEXT
}

// SWAP.W Rm,Rn
pub fn swapw(c: &mut Machine, _: &mut Memory, f: Fields) -> Answer {
    c.r[f.n] = c.r[f.m].rotate_left(16);
    NEXT
}

// XTRCT Rm,Rn: Rm stands above Rn (figure 6.13 by the printed example).
pub fn xtrct(c: &mut Machine, _: &mut Memory, f: Fields) -> Answer {
    let both = (c.r[f.m] as u64) << 32 | c.r[f.n] as u64;
    c.r[f.n] = (both >> 16) as u32;
    NEXT
}

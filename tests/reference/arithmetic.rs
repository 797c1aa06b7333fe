//! Arithmetic instructions: document 000, Table 5.4 and sections 6.2 to 6.4, 6.16 to 6.24,
//! 6.29, 6.31, 6.38 to 6.42, 6.62 to 6.64. Carries and overflows are read off exact 64-bit
//! results instead of the printed comparisons of wrapped ones.

use crate::machine::Machine;
use crate::memory::Memory;
use crate::operation::{sign_extend_byte, sign_extend_word, Answer, Fields, NEXT};

fn signed(value: u32) -> i64 {
    value as i32 as i64
}

fn fits_signed_long(value: i64) -> bool {
    i32::MIN as i64 <= value && value <= i32::MAX as i64
}

fn compare(c: &mut Machine, result: bool) -> Answer {
    c.set_t(result);
    NEXT
}

// ADD Rm,Rn
pub fn add(c: &mut Machine, _: &mut Memory, f: Fields) -> Answer {
    c.r[f.n] = c.r[f.n].wrapping_add(c.r[f.m]);
    NEXT
}

// ADD #imm,Rn
pub fn addi(c: &mut Machine, _: &mut Memory, f: Fields) -> Answer {
    c.r[f.n] = c.r[f.n].wrapping_add(sign_extend_byte(f.i));
    NEXT
}

// ADDC Rm,Rn
pub fn addc(c: &mut Machine, _: &mut Memory, f: Fields) -> Answer {
    let sum = c.r[f.n] as u64 + c.r[f.m] as u64 + c.t() as u64;
    c.r[f.n] = sum as u32;
    c.set_t(sum >> 32 == 1);
    NEXT
}

// ADDV Rm,Rn
pub fn addv(c: &mut Machine, _: &mut Memory, f: Fields) -> Answer {
    let sum = signed(c.r[f.n]) + signed(c.r[f.m]);
    c.r[f.n] = sum as u32;
    c.set_t(!fits_signed_long(sum));
    NEXT
}

// CMP/EQ #imm,R0
pub fn cmpim(c: &mut Machine, _: &mut Memory, f: Fields) -> Answer {
    compare(c, c.r[0] == sign_extend_byte(f.i))
}

// CMP/EQ Rm,Rn
pub fn cmpeq(c: &mut Machine, _: &mut Memory, f: Fields) -> Answer {
    compare(c, c.r[f.n] == c.r[f.m])
}

// CMP/HS Rm,Rn
pub fn cmphs(c: &mut Machine, _: &mut Memory, f: Fields) -> Answer {
    compare(c, c.r[f.n] >= c.r[f.m])
}

// CMP/GE Rm,Rn
pub fn cmpge(c: &mut Machine, _: &mut Memory, f: Fields) -> Answer {
    compare(c, signed(c.r[f.n]) >= signed(c.r[f.m]))
}

// CMP/HI Rm,Rn
pub fn cmphi(c: &mut Machine, _: &mut Memory, f: Fields) -> Answer {
    compare(c, c.r[f.n] > c.r[f.m])
}

// CMP/GT Rm,Rn
pub fn cmpgt(c: &mut Machine, _: &mut Memory, f: Fields) -> Answer {
    compare(c, signed(c.r[f.n]) > signed(c.r[f.m]))
}

// CMP/PL Rn
pub fn cmppl(c: &mut Machine, _: &mut Memory, f: Fields) -> Answer {
    compare(c, signed(c.r[f.n]) > 0)
}

// CMP/PZ Rn
pub fn cmppz(c: &mut Machine, _: &mut Memory, f: Fields) -> Answer {
    compare(c, signed(c.r[f.n]) >= 0)
}

// CMP/STR Rm,Rn: bytes in the same place; the printed shifts are garbled (document 004 has them).
pub fn cmpstr(c: &mut Machine, _: &mut Memory, f: Fields) -> Answer {
    let (a, b) = (c.r[f.n].to_be_bytes(), c.r[f.m].to_be_bytes());
    compare(c, (0..4).any(|place| a[place] == b[place]))
}

// DIV0S Rm,Rn
pub fn div0s(c: &mut Machine, _: &mut Memory, f: Fields) -> Answer {
    c.set_q(signed(c.r[f.n]) < 0);
    c.set_m(signed(c.r[f.m]) < 0);
    c.set_t(c.m() != c.q());
    NEXT
}

// DIV0U
pub fn div0u(c: &mut Machine, _: &mut Memory, _: Fields) -> Answer {
    c.set_m(false);
    c.set_q(false);
    c.set_t(false);
    NEXT
}

// DIV1 Rm,Rn: document 01's wording, sentence by sentence; Rm is taken before Rn is doubled,
// which the printed operation would not do for m = n.
pub fn div1(c: &mut Machine, _: &mut Memory, f: Fields) -> Answer {
    let divisor = c.r[f.m];
    let old_q = c.q();
    let top = c.r[f.n] >> 31 == 1;
    let doubled = c.r[f.n] << 1 | c.t() as u32;
    let (partial, past) = if old_q == c.m() {
        doubled.overflowing_sub(divisor)
    } else {
        doubled.overflowing_add(divisor)
    };
    c.r[f.n] = partial;
    c.set_q(top ^ c.m() ^ past);
    c.set_t(c.q() == c.m());
    NEXT
}

// DMULS.L Rm,Rn
pub fn dmuls(c: &mut Machine, _: &mut Memory, f: Fields) -> Answer {
    c.set_mac((signed(c.r[f.n]) * signed(c.r[f.m])) as u64);
    NEXT
}

// DMULU.L Rm,Rn
pub fn dmulu(c: &mut Machine, _: &mut Memory, f: Fields) -> Answer {
    c.set_mac(c.r[f.n] as u64 * c.r[f.m] as u64);
    NEXT
}

// DT Rn
pub fn dt(c: &mut Machine, _: &mut Memory, f: Fields) -> Answer {
    c.r[f.n] = c.r[f.n].wrapping_sub(1);
    compare(c, c.r[f.n] == 0)
}

// EXTS.B Rm,Rn
pub fn extsb(c: &mut Machine, _: &mut Memory, f: Fields) -> Answer {
    c.r[f.n] = sign_extend_byte(c.r[f.m]);
    NEXT
}

// EXTS.W Rm,Rn
pub fn extsw(c: &mut Machine, _: &mut Memory, f: Fields) -> Answer {
    c.r[f.n] = sign_extend_word(c.r[f.m]);
    NEXT
}

// EXTU.B Rm,Rn
pub fn extub(c: &mut Machine, _: &mut Memory, f: Fields) -> Answer {
    c.r[f.n] = c.r[f.m] & 0xFF;
    NEXT
}

// EXTU.W Rm,Rn
pub fn extuw(c: &mut Machine, _: &mut Memory, f: Fields) -> Answer {
    c.r[f.n] = c.r[f.m] & 0xFFFF;
    NEXT
}

/// The addresses of the operands of MAC.L and MAC.W: @Rn is read first and steps its register,
/// so that with m = n the second operand is the neighbour (document 01, "Instructions with corners").
fn operand_addresses(c: &Machine, f: Fields, size: u32) -> (u32, u32) {
    let second = if f.m == f.n { c.r[f.m].wrapping_add(size) } else { c.r[f.m] };
    (c.r[f.n], second)
}

fn step_operands(c: &mut Machine, f: Fields, size: u32) {
    c.r[f.n] = c.r[f.n].wrapping_add(size);
    c.r[f.m] = c.r[f.m].wrapping_add(size);
}

// MAC.L @Rm+,@Rn+
pub fn macl(c: &mut Machine, memory: &mut Memory, f: Fields) -> Answer {
    let (first, second) = operand_addresses(c, f, 4);
    let a = memory.read_long(first)?;
    let b = memory.read_long(second)?;
    step_operands(c, f, 4);
    let product = signed(a) * signed(b);
    if c.s() {
        c.set_mac(saturated_48(c.mac(), product));
    } else {
        c.set_mac(c.mac().wrapping_add(product as u64));
    }
    NEXT
}

/// Document 01: "bits 47 to 0 are read as signed, the sum is held within -2^47 to 2^47 - 1,
/// and bits 63 to 48 take its sign." The sum of 48 bits and a 63-bit product is exact in i64.
fn saturated_48(mac: u64, product: i64) -> u64 {
    let held = (mac << 16) as i64 >> 16;
    let limit = 1i64 << 47;
    (held + product).clamp(-limit, limit - 1) as u64
}

// MAC.W @Rm+,@Rn+
pub fn macw(c: &mut Machine, memory: &mut Memory, f: Fields) -> Answer {
    let (first, second) = operand_addresses(c, f, 2);
    let a = memory.read_word(first)? as i16 as i64;
    let b = memory.read_word(second)? as i16 as i64;
    step_operands(c, f, 2);
    if c.s() {
        // MACH stays (document 01); setting its lowest bit on overflow is the SH-1's.
        let sum = signed(c.macl) + a * b;
        c.macl = sum.clamp(i32::MIN as i64, i32::MAX as i64) as u32;
    } else {
        c.set_mac(c.mac().wrapping_add((a * b) as u64));
    }
    NEXT
}

// MUL.L Rm,Rn
pub fn mull(c: &mut Machine, _: &mut Memory, f: Fields) -> Answer {
    c.macl = c.r[f.n].wrapping_mul(c.r[f.m]);
    NEXT
}

// MULS.W Rm,Rn
pub fn muls(c: &mut Machine, _: &mut Memory, f: Fields) -> Answer {
    c.macl = (c.r[f.n] as i16 as i32 * c.r[f.m] as i16 as i32) as u32;
    NEXT
}

// MULU.W Rm,Rn
pub fn mulu(c: &mut Machine, _: &mut Memory, f: Fields) -> Answer {
    c.macl = c.r[f.n] as u16 as u32 * c.r[f.m] as u16 as u32;
    NEXT
}

// NEG Rm,Rn
pub fn neg(c: &mut Machine, _: &mut Memory, f: Fields) -> Answer {
    c.r[f.n] = 0u32.wrapping_sub(c.r[f.m]);
    NEXT
}

// NEGC Rm,Rn
pub fn negc(c: &mut Machine, _: &mut Memory, f: Fields) -> Answer {
    let difference = 0 - c.r[f.m] as i64 - c.t() as i64;
    c.r[f.n] = difference as u32;
    c.set_t(difference < 0);
    NEXT
}

// SUB Rm,Rn
pub fn sub(c: &mut Machine, _: &mut Memory, f: Fields) -> Answer {
    c.r[f.n] = c.r[f.n].wrapping_sub(c.r[f.m]);
    NEXT
}

// SUBC Rm,Rn
pub fn subc(c: &mut Machine, _: &mut Memory, f: Fields) -> Answer {
    let difference = c.r[f.n] as i64 - c.r[f.m] as i64 - c.t() as i64;
    c.r[f.n] = difference as u32;
    c.set_t(difference < 0);
    NEXT
}

// SUBV Rm,Rn
pub fn subv(c: &mut Machine, _: &mut Memory, f: Fields) -> Answer {
    let difference = signed(c.r[f.n]) - signed(c.r[f.m]);
    c.r[f.n] = difference as u32;
    c.set_t(!fits_signed_long(difference));
    NEXT
}

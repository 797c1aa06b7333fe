//! The SH-2 code table: pattern, text and operation of the 142 instructions.
//! In the order of document 000's Tables 5.3 to 5.8. A pattern that its scan spoilt is
//! taken from its Table A.50 and from document 004's list.

use crate::operation::Operation;
use crate::{arithmetic as a, branch as b, data_transfer as d, logic as l, shift as h, system as s};

pub struct Row {
    pub pattern: &'static str,
    pub text: &'static str,
    pub operation: Operation,
}

const fn row(pattern: &'static str, text: &'static str, operation: Operation) -> Row {
    Row { pattern, text, operation }
}

/// Document 01, "One step", point 3: illegal in a slot, whether or not they would branch.
pub const REWRITES_PC: [&str; 13] = [
    "BF", "BT", "BF/S", "BT/S", "BRA", "BRAF", "BSR", "BSRF", "JMP", "JSR", "RTS", "RTE", "TRAPA",
];

impl Row {
    pub fn rewrites_pc(&self) -> bool {
        let name = self.text.split(' ').next();
        REWRITES_PC.iter().any(|other| name == Some(*other))
    }
}

pub fn rows() -> impl Iterator<Item = &'static Row> {
    let tables = [DATA_TRANSFER, ARITHMETIC, LOGIC, SHIFT, BRANCH, SYSTEM];
    tables.into_iter().flatten()
}

const DATA_TRANSFER: &[Row] = &[
    row("1110nnnniiiiiiii", "MOV #imm,Rn", d::movi),
    row("1001nnnndddddddd", "MOV.W @(disp,PC),Rn", d::movwi),
    row("1101nnnndddddddd", "MOV.L @(disp,PC),Rn", d::movli),
    row("0110nnnnmmmm0011", "MOV Rm,Rn", d::mov),
    row("0010nnnnmmmm0000", "MOV.B Rm,@Rn", d::movbs),
    row("0010nnnnmmmm0001", "MOV.W Rm,@Rn", d::movws),
    row("0010nnnnmmmm0010", "MOV.L Rm,@Rn", d::movls),
    row("0110nnnnmmmm0000", "MOV.B @Rm,Rn", d::movbl),
    row("0110nnnnmmmm0001", "MOV.W @Rm,Rn", d::movwl),
    row("0110nnnnmmmm0010", "MOV.L @Rm,Rn", d::movll),
    row("0010nnnnmmmm0100", "MOV.B Rm,@-Rn", d::movbm),
    row("0010nnnnmmmm0101", "MOV.W Rm,@-Rn", d::movwm),
    row("0010nnnnmmmm0110", "MOV.L Rm,@-Rn", d::movlm),
    row("0110nnnnmmmm0100", "MOV.B @Rm+,Rn", d::movbp),
    row("0110nnnnmmmm0101", "MOV.W @Rm+,Rn", d::movwp),
    row("0110nnnnmmmm0110", "MOV.L @Rm+,Rn", d::movlp),
    row("10000000nnnndddd", "MOV.B R0,@(disp,Rn)", d::movbs4),
    row("10000001nnnndddd", "MOV.W R0,@(disp,Rn)", d::movws4),
    row("0001nnnnmmmmdddd", "MOV.L Rm,@(disp,Rn)", d::movls4),
    row("10000100mmmmdddd", "MOV.B @(disp,Rm),R0", d::movbl4),
    row("10000101mmmmdddd", "MOV.W @(disp,Rm),R0", d::movwl4),
    row("0101nnnnmmmmdddd", "MOV.L @(disp,Rm),Rn", d::movll4),
    row("0000nnnnmmmm0100", "MOV.B Rm,@(R0,Rn)", d::movbs0),
    row("0000nnnnmmmm0101", "MOV.W Rm,@(R0,Rn)", d::movws0),
    row("0000nnnnmmmm0110", "MOV.L Rm,@(R0,Rn)", d::movls0),
    row("0000nnnnmmmm1100", "MOV.B @(R0,Rm),Rn", d::movbl0),
    row("0000nnnnmmmm1101", "MOV.W @(R0,Rm),Rn", d::movwl0),
    row("0000nnnnmmmm1110", "MOV.L @(R0,Rm),Rn", d::movll0),
    row("11000000dddddddd", "MOV.B R0,@(disp,GBR)", d::movbsg),
    row("11000001dddddddd", "MOV.W R0,@(disp,GBR)", d::movwsg),
    row("11000010dddddddd", "MOV.L R0,@(disp,GBR)", d::movlsg),
    row("11000100dddddddd", "MOV.B @(disp,GBR),R0", d::movblg),
    row("11000101dddddddd", "MOV.W @(disp,GBR),R0", d::movwlg),
    row("11000110dddddddd", "MOV.L @(disp,GBR),R0", d::movllg),
    row("11000111dddddddd", "MOVA @(disp,PC),R0", d::mova),
    row("0000nnnn00101001", "MOVT Rn", d::movt),
    row("0110nnnnmmmm1000", "SWAP.B Rm,Rn", d::swapb),
    row("0110nnnnmmmm1001", "SWAP.W Rm,Rn", d::swapw),
    row("0010nnnnmmmm1101", "XTRCT Rm,Rn", d::xtrct),
];

const ARITHMETIC: &[Row] = &[
    row("0011nnnnmmmm1100", "ADD Rm,Rn", a::add),
    row("0111nnnniiiiiiii", "ADD #imm,Rn", a::addi),
    row("0011nnnnmmmm1110", "ADDC Rm,Rn", a::addc),
    row("0011nnnnmmmm1111", "ADDV Rm,Rn", a::addv),
    row("10001000iiiiiiii", "CMP/EQ #imm,R0", a::cmpim),
    row("0011nnnnmmmm0000", "CMP/EQ Rm,Rn", a::cmpeq),
    row("0011nnnnmmmm0010", "CMP/HS Rm,Rn", a::cmphs),
    row("0011nnnnmmmm0011", "CMP/GE Rm,Rn", a::cmpge),
    row("0011nnnnmmmm0110", "CMP/HI Rm,Rn", a::cmphi),
    row("0011nnnnmmmm0111", "CMP/GT Rm,Rn", a::cmpgt),
    row("0100nnnn00010101", "CMP/PL Rn", a::cmppl),
    row("0100nnnn00010001", "CMP/PZ Rn", a::cmppz),
    row("0010nnnnmmmm1100", "CMP/STR Rm,Rn", a::cmpstr),
    row("0011nnnnmmmm0100", "DIV1 Rm,Rn", a::div1),
    row("0010nnnnmmmm0111", "DIV0S Rm,Rn", a::div0s),
    row("0000000000011001", "DIV0U", a::div0u),
    row("0011nnnnmmmm1101", "DMULS.L Rm,Rn", a::dmuls),
    row("0011nnnnmmmm0101", "DMULU.L Rm,Rn", a::dmulu),
    row("0100nnnn00010000", "DT Rn", a::dt),
    row("0110nnnnmmmm1110", "EXTS.B Rm,Rn", a::extsb),
    row("0110nnnnmmmm1111", "EXTS.W Rm,Rn", a::extsw),
    row("0110nnnnmmmm1100", "EXTU.B Rm,Rn", a::extub),
    row("0110nnnnmmmm1101", "EXTU.W Rm,Rn", a::extuw),
    row("0000nnnnmmmm1111", "MAC.L @Rm+,@Rn+", a::macl),
    row("0100nnnnmmmm1111", "MAC.W @Rm+,@Rn+", a::macw),
    row("0000nnnnmmmm0111", "MUL.L Rm,Rn", a::mull),
    row("0010nnnnmmmm1111", "MULS.W Rm,Rn", a::muls),
    row("0010nnnnmmmm1110", "MULU.W Rm,Rn", a::mulu),
    row("0110nnnnmmmm1011", "NEG Rm,Rn", a::neg),
    row("0110nnnnmmmm1010", "NEGC Rm,Rn", a::negc),
    row("0011nnnnmmmm1000", "SUB Rm,Rn", a::sub),
    row("0011nnnnmmmm1010", "SUBC Rm,Rn", a::subc),
    row("0011nnnnmmmm1011", "SUBV Rm,Rn", a::subv),
];

const LOGIC: &[Row] = &[
    row("0010nnnnmmmm1001", "AND Rm,Rn", l::and),
    row("11001001iiiiiiii", "AND #imm,R0", l::andi),
    row("11001101iiiiiiii", "AND.B #imm,@(R0,GBR)", l::andm),
    row("0110nnnnmmmm0111", "NOT Rm,Rn", l::not),
    row("0010nnnnmmmm1011", "OR Rm,Rn", l::or),
    row("11001011iiiiiiii", "OR #imm,R0", l::ori),
    row("11001111iiiiiiii", "OR.B #imm,@(R0,GBR)", l::orm),
    row("0100nnnn00011011", "TAS.B @Rn", l::tas),
    row("0010nnnnmmmm1000", "TST Rm,Rn", l::tst),
    row("11001000iiiiiiii", "TST #imm,R0", l::tsti),
    row("11001100iiiiiiii", "TST.B #imm,@(R0,GBR)", l::tstm),
    row("0010nnnnmmmm1010", "XOR Rm,Rn", l::xor),
    row("11001010iiiiiiii", "XOR #imm,R0", l::xori),
    row("11001110iiiiiiii", "XOR.B #imm,@(R0,GBR)", l::xorm),
];

const SHIFT: &[Row] = &[
    row("0100nnnn00000100", "ROTL Rn", h::rotl),
    row("0100nnnn00000101", "ROTR Rn", h::rotr),
    row("0100nnnn00100100", "ROTCL Rn", h::rotcl),
    row("0100nnnn00100101", "ROTCR Rn", h::rotcr),
    row("0100nnnn00100000", "SHAL Rn", h::shal),
    row("0100nnnn00100001", "SHAR Rn", h::shar),
    row("0100nnnn00000000", "SHLL Rn", h::shll),
    row("0100nnnn00000001", "SHLR Rn", h::shlr),
    row("0100nnnn00001000", "SHLL2 Rn", h::shll2),
    row("0100nnnn00001001", "SHLR2 Rn", h::shlr2),
    row("0100nnnn00011000", "SHLL8 Rn", h::shll8),
    row("0100nnnn00011001", "SHLR8 Rn", h::shlr8),
    row("0100nnnn00101000", "SHLL16 Rn", h::shll16),
    row("0100nnnn00101001", "SHLR16 Rn", h::shlr16),
];

const BRANCH: &[Row] = &[
    row("10001011dddddddd", "BF label", b::bf),
    row("10001111dddddddd", "BF/S label", b::bfs),
    row("10001001dddddddd", "BT label", b::bt),
    row("10001101dddddddd", "BT/S label", b::bts),
    row("1010dddddddddddd", "BRA label", b::bra),
    row("0000mmmm00100011", "BRAF Rm", b::braf),
    row("1011dddddddddddd", "BSR label", b::bsr),
    row("0000mmmm00000011", "BSRF Rm", b::bsrf),
    row("0100mmmm00101011", "JMP @Rm", b::jmp),
    row("0100mmmm00001011", "JSR @Rm", b::jsr),
    row("0000000000001011", "RTS", b::rts),
];

const SYSTEM: &[Row] = &[
    row("0000000000001000", "CLRT", s::clrt),
    row("0000000000101000", "CLRMAC", s::clrmac),
    row("0100mmmm00001110", "LDC Rm,SR", s::ldcsr),
    row("0100mmmm00011110", "LDC Rm,GBR", s::ldcgbr),
    row("0100mmmm00101110", "LDC Rm,VBR", s::ldcvbr),
    row("0100mmmm00000111", "LDC.L @Rm+,SR", s::ldcmsr),
    row("0100mmmm00010111", "LDC.L @Rm+,GBR", s::ldcmgbr),
    row("0100mmmm00100111", "LDC.L @Rm+,VBR", s::ldcmvbr),
    row("0100mmmm00001010", "LDS Rm,MACH", s::ldsmach),
    row("0100mmmm00011010", "LDS Rm,MACL", s::ldsmacl),
    row("0100mmmm00101010", "LDS Rm,PR", s::ldspr),
    row("0100mmmm00000110", "LDS.L @Rm+,MACH", s::ldsmmach),
    row("0100mmmm00010110", "LDS.L @Rm+,MACL", s::ldsmmacl),
    row("0100mmmm00100110", "LDS.L @Rm+,PR", s::ldsmpr),
    row("0000000000001001", "NOP", s::nop),
    row("0000000000101011", "RTE", s::rte),
    row("0000000000011000", "SETT", s::sett),
    row("0000000000011011", "SLEEP", s::sleep),
    row("0000nnnn00000010", "STC SR,Rn", s::stcsr),
    row("0000nnnn00010010", "STC GBR,Rn", s::stcgbr),
    row("0000nnnn00100010", "STC VBR,Rn", s::stcvbr),
    row("0100nnnn00000011", "STC.L SR,@-Rn", s::stcmsr),
    row("0100nnnn00010011", "STC.L GBR,@-Rn", s::stcmgbr),
    row("0100nnnn00100011", "STC.L VBR,@-Rn", s::stcmvbr),
    row("0000nnnn00001010", "STS MACH,Rn", s::stsmach),
    row("0000nnnn00011010", "STS MACL,Rn", s::stsmacl),
    row("0000nnnn00101010", "STS PR,Rn", s::stspr),
    row("0100nnnn00000010", "STS.L MACH,@-Rn", s::stsmmach),
    row("0100nnnn00010010", "STS.L MACL,@-Rn", s::stsmmacl),
    row("0100nnnn00100010", "STS.L PR,@-Rn", s::stsmpr),
    row("11000011iiiiiiii", "TRAPA #imm", s::trapa),
];

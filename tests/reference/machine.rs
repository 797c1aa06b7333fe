//! The state of the machine and the bits of SR.
//! Document 01, "State", "Reset" and "Refusals of a call"; document 000, section 2.

/// Document 01: "SR holds M (bit 9), Q (8), I (7 to 4), S (1) and T (0); its mask is H'3F3."
pub const SR_MASK: u32 = 0x3F3;
const SR_AT_RESET: u32 = 0xF0;

const T_BIT: u32 = 0;
const S_BIT: u32 = 1;
const Q_BIT: u32 = 8;
const M_BIT: u32 = 9;

/// A stop carries its reason's number in document 01.
#[derive(Clone, Copy, Debug, PartialEq)]
pub enum Mode {
    Running,
    Slot(u32),
    Asleep,
    Stopped(u32),
}

#[derive(Clone, Debug, PartialEq)]
pub struct Machine {
    pub r: [u32; 16],
    pub pc: u32,
    pub sr: u32,
    pub gbr: u32,
    pub vbr: u32,
    pub pr: u32,
    pub mach: u32,
    pub macl: u32,
    pub mode: Mode,
}

impl Machine {
    /// Document 01, "Reset": every register but PC, R15 and SR is zero.
    pub fn at_reset(pc: u32, r15: u32) -> Machine {
        let mut r = [0; 16];
        r[15] = r15;
        Machine { r, pc, sr: SR_AT_RESET, gbr: 0, vbr: 0, pr: 0, mach: 0, macl: 0, mode: Mode::Running }
    }

    fn bit(&self, place: u32) -> bool {
        self.sr >> place & 1 == 1
    }

    fn set_bit(&mut self, place: u32, value: bool) {
        self.sr = self.sr & !(1 << place) | (value as u32) << place;
    }

    pub fn t(&self) -> bool {
        self.bit(T_BIT)
    }

    pub fn s(&self) -> bool {
        self.bit(S_BIT)
    }

    pub fn q(&self) -> bool {
        self.bit(Q_BIT)
    }

    pub fn m(&self) -> bool {
        self.bit(M_BIT)
    }

    pub fn set_t(&mut self, value: bool) {
        self.set_bit(T_BIT, value)
    }

    pub fn set_q(&mut self, value: bool) {
        self.set_bit(Q_BIT, value)
    }

    pub fn set_m(&mut self, value: bool) {
        self.set_bit(M_BIT, value)
    }

    /// Document 01: "LDC to SR and RTE mask with H'3F3."
    pub fn load_sr(&mut self, value: u32) {
        self.sr = value & SR_MASK
    }

    /// MACH and MACL coupled, MACH above (document 000, section 2.3).
    pub fn mac(&self) -> u64 {
        (self.mach as u64) << 32 | self.macl as u64
    }

    pub fn set_mac(&mut self, value: u64) {
        self.mach = (value >> 32) as u32;
        self.macl = value as u32;
    }
}

//! What every instruction's operation is given, and what it answers.
//! Document 01, "One step", points 4 and 5.

use crate::machine::Machine;
use crate::memory::{AddressError, Memory};

/// The fields of a code, named by the letters of document 000's patterns.
#[derive(Clone, Copy, Default)]
pub struct Fields {
    pub n: usize,
    pub m: usize,
    pub d: u32,
    pub i: u32,
}

/// Where an instruction that was done leads.
#[derive(Debug, PartialEq)]
pub enum Flow {
    Next,
    Branch(u32),
    Delayed(u32),
    Sleep,
    Trap(u32),
}

/// An operation sees its own address in PC; the step moves PC afterwards. One that answers
/// `AddressError` must not have changed anything: every access comes before the first change,
/// as "the instruction has no effect at all, no increment or decrement either".
pub type Operation = fn(&mut Machine, &mut Memory, Fields) -> Result<Flow, AddressError>;

pub type Answer = Result<Flow, AddressError>;

pub const NEXT: Answer = Ok(Flow::Next);

pub fn sign_extend_byte(value: u32) -> u32 {
    value as u8 as i8 as i32 as u32
}

pub fn sign_extend_word(value: u32) -> u32 {
    value as u16 as i16 as i32 as u32
}

//! The lent memory: big-endian bytes, words and longs at tested addresses.
//! Document 01, "Memory"; document 000, section 3.2 and the accesses of section 6.1.

/// An access that is misaligned or has a byte outside.
#[derive(Debug, PartialEq)]
pub struct AddressError;

pub struct Memory {
    bytes: Vec<u8>,
}

impl Memory {
    pub fn new(bytes: Vec<u8>) -> Memory {
        Memory { bytes }
    }

    /// Where an access of `size` bytes lies. The sum is taken in 64 bits, so that an access at
    /// the top of the 32-bit addresses does not come round to 0.
    fn place(&self, address: u32, size: usize) -> Result<usize, AddressError> {
        let first = address as u64;
        let aligned = first % size as u64 == 0;
        let inside = first + size as u64 <= self.bytes.len() as u64;
        if aligned && inside {
            Ok(first as usize)
        } else {
            Err(AddressError)
        }
    }

    pub fn test_long(&self, address: u32) -> Result<(), AddressError> {
        self.place(address, 4).map(|_| ())
    }

    pub fn read_byte(&self, address: u32) -> Result<u8, AddressError> {
        let at = self.place(address, 1)?;
        Ok(self.bytes[at])
    }

    pub fn read_word(&self, address: u32) -> Result<u16, AddressError> {
        let at = self.place(address, 2)?;
        Ok(u16::from_be_bytes([self.bytes[at], self.bytes[at + 1]]))
    }

    pub fn read_long(&self, address: u32) -> Result<u32, AddressError> {
        let at = self.place(address, 4)?;
        let b = &self.bytes[at..at + 4];
        Ok(u32::from_be_bytes([b[0], b[1], b[2], b[3]]))
    }

    pub fn write_byte(&mut self, address: u32, value: u32) -> Result<(), AddressError> {
        let at = self.place(address, 1)?;
        self.bytes[at] = value as u8;
        Ok(())
    }

    pub fn write_word(&mut self, address: u32, value: u32) -> Result<(), AddressError> {
        let at = self.place(address, 2)?;
        self.bytes[at..at + 2].copy_from_slice(&(value as u16).to_be_bytes());
        Ok(())
    }

    pub fn write_long(&mut self, address: u32, value: u32) -> Result<(), AddressError> {
        let at = self.place(address, 4)?;
        self.bytes[at..at + 4].copy_from_slice(&value.to_be_bytes());
        Ok(())
    }
}

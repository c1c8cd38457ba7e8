//! Packed fields, most significant bit first.

/// Reads the fields of one record, of at most 8 bytes, from the left.
pub struct Fields {
    value: u64,
    left: u32,
}

impl Fields {
    pub fn new(record: &[u8]) -> Fields {
        assert!(record.len() <= 8);
        let value = record.iter().fold(0, |sum, &b| sum << 8 | u64::from(b));
        Fields {
            value,
            left: 8 * record.len() as u32,
        }
    }

    pub fn take(&mut self, width: u32) -> u32 {
        self.left -= width;
        let mask = (1u64 << width) - 1;
        (self.value >> self.left & mask) as u32
    }

    pub fn flag(&mut self) -> bool {
        self.take(1) == 1
    }
}

/// The 16-bit number at a place in a header.
pub fn number16(bytes: &[u8], index: usize) -> usize {
    usize::from(bytes[2 * index]) << 8 | usize::from(bytes[2 * index + 1])
}

//! The one form of a recorded answer: what is given, what must be returned, and what must be
//! written.

/// The replaying program has room for this many bytes given, and lends as many for the answer.
pub const ROOM: usize = 16_384;

/// A case by its kind, with the answer that it must get.
pub struct Record {
    pub kind: u32,
    pub given: Vec<u8>,
    pub returned: usize,
    pub written: Vec<u8>,
}

impl Record {
    /// A record of which as much is returned as is written.
    pub fn new(kind: u32, given: Vec<u8>, written: Vec<u8>) -> Self {
        let returned = written.len();
        Record::returning(kind, given, returned, written)
    }

    pub fn returning(kind: u32, given: Vec<u8>, returned: usize, written: Vec<u8>) -> Self {
        assert!(given.len() <= ROOM && written.len() <= ROOM);
        Record {
            kind,
            given,
            returned,
            written,
        }
    }

    /// Four numbers, little-endian, then the bytes.
    pub fn bytes(&self) -> Vec<u8> {
        let lengths = [self.given.len(), self.returned, self.written.len()];
        let mut bytes = self.kind.to_le_bytes().to_vec();
        for number in lengths {
            let number = u32::try_from(number).expect("below 2^32");
            bytes.extend_from_slice(&number.to_le_bytes());
        }
        bytes.extend_from_slice(&self.given);
        bytes.extend_from_slice(&self.written);
        bytes
    }
}

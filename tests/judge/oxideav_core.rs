//! Stand-in for the two types that the files of the Rust take from elsewhere, written from docs/FORMAT.md, Bits:
//! read_u32(n) takes the next n bits as an unsigned number, first bit heaviest, or fails if fewer remain;
//! write_u32(v, n) puts the low n bits of v likewise. Both work on whole bytes.

/// The input ran out.
#[derive(Clone, Copy, Debug, PartialEq, Eq)]
pub struct Error;

pub type Result<T> = core::result::Result<T, Error>;

pub mod bits {
    use super::{Error, Result};

    pub struct BitReader<'a> {
        data: &'a [u8],
        at: usize,
        kept: u64,
        have: u32,
    }

    impl<'a> BitReader<'a> {
        pub fn new(data: &'a [u8]) -> Self {
            BitReader { data, at: 0, kept: 0, have: 0 }
        }

        /// A reader that has taken `bit` bits already.
        pub fn at(data: &'a [u8], bit: usize) -> Result<Self> {
            if bit > 8 * data.len() {
                return Err(Error);
            }
            let mut r = BitReader { data, at: bit / 8, kept: 0, have: 0 };
            r.read_u32((bit % 8) as u32)?;
            Ok(r)
        }

        /// How many bits were taken.
        pub fn taken(&self) -> usize {
            8 * self.at - self.have as usize
        }

        #[inline]
        pub fn read_u32(&mut self, n: u32) -> Result<u32> {
            while self.have < n {
                let Some(&byte) = self.data.get(self.at) else {
                    return Err(Error);
                };
                self.kept = (self.kept << 8) | u64::from(byte);
                self.have += 8;
                self.at += 1;
            }
            self.have -= n;
            let value = self.kept >> self.have;
            self.kept &= (1u64 << self.have) - 1;
            Ok(value as u32)
        }
    }

    #[derive(Default)]
    pub struct BitWriter {
        data: Vec<u8>,
        kept: u64,
        have: u32,
    }

    impl BitWriter {
        pub fn new() -> Self {
            Self::default()
        }

        #[inline]
        pub fn write_u32(&mut self, v: u32, n: u32) {
            let low = u64::from(v) & ((1u64 << n) - 1);
            self.kept = (self.kept << n) | low;
            self.have += n;
            while self.have >= 8 {
                self.have -= 8;
                self.data.push((self.kept >> self.have) as u8);
                self.kept &= (1u64 << self.have) - 1;
            }
        }

        pub fn bits(&self) -> usize {
            8 * self.data.len() + self.have as usize
        }

        /// The bytes, the last one filled with zeros.
        pub fn finish(mut self) -> Vec<u8> {
            if self.have > 0 {
                self.data.push((self.kept << (8 - self.have)) as u8);
            }
            self.data
        }
    }
}

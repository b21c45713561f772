//! A capture's file, a block at a time.
use std::io::{ErrorKind, Read, Result};

const HEADER_BYTES: usize = 8;
const BLOCK_BYTES: usize = 16384;

/// What is told of a file after each block of it.
#[derive(Clone, Copy, Debug, PartialEq, Eq, Hash)]
pub struct Told {
    /// The records done.
    pub records: usize,
    /// The bytes read.
    pub bytes: u64,
    /// Of how many, where that is known.
    pub of: Option<u64>,
}

/// A file that is being read, with the bytes that were read last.
pub struct Blocks<R> {
    file: R,
    of: Option<u64>,
    read: u64,
    used: usize,
    block: [u8; BLOCK_BYTES],
}

impl<R: Read> Blocks<R> {
    pub fn new(file: R, of: Option<u64>) -> Blocks<R> {
        Blocks {
            file,
            of,
            read: 0,
            used: 0,
            block: [0; BLOCK_BYTES],
        }
    }

    /// Reads so many bytes, or those up to the end of the file.
    fn fill(&mut self, count: usize) -> Result<()> {
        self.used = 0;
        while self.used < count {
            match self.file.read(&mut self.block[self.used..count]) {
                Ok(0) => break,
                Ok(n) => self.used += n,
                Err(error) if error.kind() == ErrorKind::Interrupted => {}
                Err(error) => return Err(error),
            }
        }
        self.read += self.used as u64;
        Ok(())
    }

    /// The bytes of the header, or all of a file that is shorter.
    pub fn header(&mut self) -> Result<&[u8]> {
        self.fill(HEADER_BYTES)?;
        Ok(self.bytes())
    }

    /// Reads the next block: whether it is full. The file ends with one that is not.
    pub fn full(&mut self) -> Result<bool> {
        self.fill(BLOCK_BYTES)?;
        Ok(self.used == BLOCK_BYTES)
    }

    /// The bytes that were read last.
    pub fn bytes(&mut self) -> &mut [u8] {
        &mut self.block[..self.used]
    }

    /// What is told of the file as it stands.
    pub fn told(&self, records: usize) -> Told {
        Told {
            records,
            bytes: self.read,
            of: self.of,
        }
    }
}

//! The capture that is expected of an undisturbed chip.
use crate::raw;
use crate::{done, Refusal, Uart};

/// The bytes of a record in a file.
const RECORD_BYTES: usize = 4;

/// What was written of the capture that is expected.
#[must_use = "a refusal is told here alone"]
#[derive(Clone, Copy, Debug, PartialEq, Eq, Hash)]
pub struct Expected {
    /// The records written.
    pub count: usize,
    /// Why the record behind them was not: it is bad, or no word is left for it, and the state is that
    /// before it. Or another refusal: nothing is written, and the state is as it was, which of a file is
    /// the fresh one.
    pub refusal: Option<Refusal>,
}

impl Expected {
    fn of(number: u8, part: u8, count: usize) -> Expected {
        let refusal = done(number, part, ()).err();
        Expected { count, refusal }
    }
}

impl Uart {
    /// Writes the capture that is expected of an undisturbed chip: each record as it stands, but a read
    /// with the model's byte, into the first of the words. Those beyond the count stay as they were.
    ///
    /// Unless it is refused with number 1 or [`Refusal::UNKNOWN_VERSION`], a replay of the words written,
    /// from the same state and with the same version, agrees and ends in the same state.
    ///
    /// ```
    /// use tl16c750::{Expected, Outcome, Refusal, Uart};
    /// let records = [0x2000075A, 0x10000700]; // SCR: 5A written; 00 seen where it is read
    /// let mut words = [0; 2];
    /// let mut uart = Uart::fresh();
    /// let expected = uart.expect(1, &records, &mut words);
    /// assert_eq!(expected, Expected { count: 2, refusal: None });
    /// assert_eq!(words, [0x2000075A, 0x1000075A]);
    /// assert_eq!(Uart::fresh().replay(1, &words), Outcome::Agreed);
    ///
    /// let expected = uart.expect(1, &records, &mut words[..1]);
    /// assert_eq!(expected, Expected { count: 1, refusal: Some(Refusal::NO_ROOM) });
    /// ```
    pub fn expect(&mut self, version: u32, records: &[u32], words: &mut [u32]) -> Expected {
        // SAFETY: the addresses and the lengths are those of slices, and a slice that is borrowed for
        // writing overlaps no other.
        let raw::Expected {
            number,
            part,
            count,
            state,
        } = unsafe {
            raw::uart_expect(
                self.state,
                version,
                records.as_ptr(),
                records.len(),
                words.as_mut_ptr(),
                words.len(),
            )
        };
        self.state = state;
        Expected::of(number, part, count)
    }
}

/// A capture's file that is being written anew from the fresh state, as it is expected. Each call hands
/// back the bytes to write.
///
/// What is written in all is the same whatever the parts are.
///
/// ```
/// use tl16c750::{Expected, ExpectedFile};
/// let (mut file, header) = ExpectedFile::begin(b"UTR\0\x01\0\0\0");
/// assert_eq!(header, b"UTR\0\x01\0\0\0");
/// let mut part = [0xFF, 5, 0, 0x10, 0xFF]; // LSR: FF seen where it is read; the next record begins
/// let (written, left) = file.more(&mut part);
/// assert_eq!((written, left), (&[0x60, 5, 0, 0x10][..], &[0xFF][..]));
/// let mut last = [0xFF, 7, 0, 0x10];
/// let (written, expected, _) = file.end(&mut last);
/// assert_eq!(written, [0, 7, 0, 0x10]);
/// assert_eq!(expected, Expected { count: 2, refusal: None });
/// ```
#[derive(Clone, Copy, Debug, PartialEq, Eq, Hash)]
pub struct ExpectedFile {
    progress: raw::ExpectProgress,
    records: usize,
}

impl ExpectedFile {
    /// The file that begins with these bytes: their first 8 are its header, which is to be written as it
    /// is, and what follows comes again with the next part. Where the header is refused, also since
    /// they are fewer, nothing is to be written.
    pub fn begin(first: &[u8]) -> (ExpectedFile, &[u8]) {
        // SAFETY: the address and the length are those of a slice.
        let progress = unsafe { raw::uart_expect_begin(first.as_ptr(), first.len()) };
        let header = if progress.number == 0 { 8 } else { 0 };
        let records = 0;
        (ExpectedFile { progress, records }, &first[..header])
    }

    /// Takes what a call made of these bytes: those to write.
    fn written<'a>(&mut self, progress: raw::ExpectProgress, bytes: &'a [u8]) -> &'a [u8] {
        self.progress = progress;
        self.records += progress.count;
        &bytes[..RECORD_BYTES * progress.count]
    }

    /// Writes the whole records of the bytes that come next anew, in place: the bytes to write, and the
    /// one to three bytes left, which come again at the start of the next part.
    pub fn more<'a>(&mut self, bytes: &'a mut [u8]) -> (&'a [u8], &'a [u8]) {
        // SAFETY: the address and the length are those of a slice that is borrowed for writing.
        let progress =
            unsafe { raw::uart_expect_more(self.progress, bytes.as_mut_ptr(), bytes.len()) };
        let left = &bytes[bytes.len() / RECORD_BYTES * RECORD_BYTES..];
        (self.written(progress, bytes), left)
    }

    /// The same for the bytes with which the file ends: those to write, how many records were written in
    /// all, and the UART then.
    pub fn end(mut self, bytes: &mut [u8]) -> (&[u8], Expected, Uart) {
        // SAFETY: the address and the length are those of a slice that is borrowed for writing.
        let progress =
            unsafe { raw::uart_expect_end(self.progress, bytes.as_mut_ptr(), bytes.len()) };
        let written = self.written(progress, bytes);
        let expected = Expected::of(progress.number, progress.part, self.records);
        let state = progress.state;
        (written, expected, Uart { state })
    }

    /// The records written so far.
    pub fn records(&self) -> usize {
        self.records
    }

    /// Whether nothing more is to be written, whatever comes next.
    pub fn stopped(&self) -> bool {
        self.progress.number != 0
    }
}

#[cfg(feature = "std")]
mod write {
    use super::{Expected, ExpectedFile};
    use crate::blocks::{Blocks, Told};
    use crate::Uart;
    use std::io::{Read, Result, Write};

    impl Uart {
        /// Writes the file that is expected of a capture's file, from the fresh state, whatever this one
        /// is: the header as it is read, and the records; nothing where the header is refused. The
        /// state is then the one in which it ended, the fresh one where the header is refused; where
        /// reading or writing fails, it is as it was.
        ///
        /// The file is read a block of 16 KiB at a time.
        pub fn expect_file(&mut self, file: impl Read, to: impl Write) -> Result<Expected> {
            self.expect_file_telling(file, to, None, |_| {})
        }

        /// The same, and `progress` is told after each block, and at the end, where the records done
        /// are those written; `of` is how many bytes the file has, where the caller knows it.
        pub fn expect_file_telling(
            &mut self,
            file: impl Read,
            mut to: impl Write,
            of: Option<u64>,
            mut progress: impl FnMut(Told),
        ) -> Result<Expected> {
            let mut blocks = Blocks::new(file, of);
            let (mut file, header) = ExpectedFile::begin(blocks.header()?);
            to.write_all(header)?;
            while !file.stopped() && blocks.full()? {
                to.write_all(file.more(blocks.bytes()).0)?;
                if !file.stopped() {
                    progress(blocks.told(file.records()));
                }
            }
            let (written, expected, uart) = file.end(blocks.bytes());
            to.write_all(written)?;
            to.flush()?;
            progress(blocks.told(expected.count));
            *self = uart;
            Ok(expected)
        }
    }
}

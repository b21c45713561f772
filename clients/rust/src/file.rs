//! Replay of a capture's file, whose bytes come in parts.
use crate::raw;
use crate::{Outcome, Uart};

/// A capture's file that is being replayed from the fresh state.
///
/// The answer is that of the whole file, whatever its parts are.
///
/// ```
/// use tl16c750::{File, Outcome};
/// let mut file = File::begin(b"UTR\0\x01\0\0\0");
/// let left = file.more(&[0x60, 5, 0, 0x10, 0x60]);
/// assert_eq!(left, [0x60]);
/// let (outcome, _) = file.end(&[0x60, 5, 0, 0x10]);
/// assert_eq!(outcome, Outcome::Agreed);
/// ```
#[derive(Clone, Copy, Debug, PartialEq, Eq, Hash)]
pub struct File {
    progress: raw::Progress,
}

impl File {
    /// The file that begins with these bytes: their first 8 are its header, and what follows comes
    /// again with the next part. Where they are fewer they are all of the file.
    pub fn begin(first: &[u8]) -> File {
        // SAFETY: the address and the length are those of a slice.
        let progress = unsafe { raw::uart_replay_begin(first.as_ptr(), first.len()) };
        File { progress }
    }

    /// Replays the whole records of the bytes that come next. The one to three bytes left come again
    /// at the start of the next part.
    pub fn more<'a>(&mut self, bytes: &'a [u8]) -> &'a [u8] {
        // SAFETY: the address and the length are those of a slice.
        self.progress =
            unsafe { raw::uart_replay_more(self.progress, bytes.as_ptr(), bytes.len()) };
        &bytes[bytes.len() / 4 * 4..]
    }

    /// How the file that ends with these bytes ended, and the UART then.
    pub fn end(self, bytes: &[u8]) -> (Outcome, Uart) {
        // SAFETY: the address and the length are those of a slice.
        let replayed = unsafe { raw::uart_replay_end(self.progress, bytes.as_ptr(), bytes.len()) };
        let uart = Uart {
            state: replayed.state,
        };
        (Outcome::of(replayed.values), uart)
    }

    /// The records given so far, also those behind the place where it stopped.
    pub fn records(&self) -> usize {
        self.progress.done
    }

    /// Whether nothing that comes next changes the answer.
    pub fn stopped(&self) -> bool {
        self.progress.stopped != 0
    }
}

#[cfg(feature = "std")]
mod read {
    use super::File;
    use crate::blocks::{Blocks, Told};
    use crate::{Outcome, Uart};
    use std::io::{Read, Result};

    impl Uart {
        /// A replay of a capture's file from the fresh state, whatever this one is. The state is then
        /// the one in which it ended, the fresh one where the header is refused; where reading fails,
        /// it is as it was.
        ///
        /// The file is read a block of 16 KiB at a time.
        pub fn replay_file(&mut self, file: impl Read) -> Result<Outcome> {
            self.replay_file_telling(file, None, |_| {})
        }

        /// The same, and `progress` is told after each block, and at the end, where the records done
        /// are those before the place at which it stopped; `of` is how many bytes the file has, where
        /// the caller knows it.
        pub fn replay_file_telling(
            &mut self,
            file: impl Read,
            of: Option<u64>,
            mut progress: impl FnMut(Told),
        ) -> Result<Outcome> {
            let mut blocks = Blocks::new(file, of);
            let mut replay = File::begin(blocks.header()?);
            while !replay.stopped() && blocks.full()? {
                replay.more(blocks.bytes());
                if !replay.stopped() {
                    progress(blocks.told(replay.records()));
                }
            }
            let (outcome, uart) = replay.end(blocks.bytes());
            let all = replay.records() + blocks.bytes().len() / 4;
            progress(blocks.told(outcome.place().unwrap_or(all)));
            *self = uart;
            Ok(outcome)
        }
    }
}

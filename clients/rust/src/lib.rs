//! One TL16C750 UART with its bus, serial line, modem pins and clock, over the proved library.
//!
//! ```
//! use tl16c750::{Uart, LCR, LSR};
//! let mut uart = Uart::fresh();
//! uart.write(LCR, 0x03)?;
//! assert_eq!(uart.read(LSR)?, 0x60);
//! # Ok::<(), tl16c750::Refusal>(())
//! ```
//!
//! The crate is `no_std`; its feature `std`, on unless it is turned off, adds `Uart::replay_file` and
//! `Uart::expect_file` over `std::io`. Without it a file is replayed by [`File`], and written anew by
//! [`ExpectedFile`].

#![no_std]
#![deny(missing_docs)]

#[cfg(feature = "std")]
extern crate std;

use core::fmt;

#[cfg(feature = "std")]
mod blocks;
mod expected;
mod file;
pub mod raw;

#[cfg(feature = "std")]
pub use blocks::Told;
pub use expected::{Expected, ExpectedFile};
pub use file::File;

pub use raw::{
    Baud, ByteQueue, Entry, EntryQueue, Errors, FifoControl, Frame, Inputs, Latches, Outputs,
    Receiver, Registers, State,
};

/// Receive buffer, on reads.
pub const RBR: u8 = 0;
/// Transmit holding, on writes.
pub const THR: u8 = 0;
/// The divisor's low byte, with LCR bit 7 set.
pub const DLL: u8 = 0;
/// The divisor's high byte, with LCR bit 7 set.
pub const DLM: u8 = 1;
/// Interrupt enable.
pub const IER: u8 = 1;
/// Interrupt identification, on reads.
pub const IIR: u8 = 2;
/// FIFO control, on writes.
pub const FCR: u8 = 2;
/// Line control.
pub const LCR: u8 = 3;
/// Modem control.
pub const MCR: u8 = 4;
/// Line status.
pub const LSR: u8 = 5;
/// Modem status.
pub const MSR: u8 = 6;
/// Scratch.
pub const SCR: u8 = 7;

/// The part of a malformed [`State`] that is bad, here with its fields: the lowest one that breaks a
/// range. A range that joins two parts counts for the later one.
#[repr(u8)]
#[derive(Clone, Copy, Debug, PartialEq, Eq, PartialOrd, Ord, Hash)]
pub enum StatePart {
    /// `registers` and `baud`.
    Registers = 1,
    /// `fifo` and `inputs`.
    Settings = 2,
    /// `tx` and `frame`.
    Transmitter = 3,
    /// `rx`, `receiver` and `kept`.
    Receiver = 4,
    /// `latches`.
    Latches = 5,
}

impl StatePart {
    fn of(part: u8) -> Option<StatePart> {
        Some(match part {
            1 => StatePart::Registers,
            2 => StatePart::Settings,
            3 => StatePart::Transmitter,
            4 => StatePart::Receiver,
            5 => StatePart::Latches,
            _ => return None,
        })
    }
}

impl fmt::Display for StatePart {
    fn fmt(&self, f: &mut fmt::Formatter<'_>) -> fmt::Result {
        f.write_str(match self {
            StatePart::Registers => "registers, divisor or k",
            StatePart::Settings => "FIFO settings and pins",
            StatePart::Transmitter => "transmit queue and frame",
            StatePart::Receiver => "receive queue, receiver and kept errors",
            StatePart::Latches => "latches, OE, idle count, change bits and hold",
        })
    }
}

/// A refusal. The state is as it was; of a replay see [`Outcome`], of an expected capture [`Expected`].
#[derive(Clone, Copy, Debug, PartialEq, Eq, Hash)]
pub struct Refusal {
    /// Its number.
    pub number: u8,
    /// With number 1 the part of the state that is bad; none for a file of more than 2^62 records.
    pub part: Option<StatePart>,
}

impl Refusal {
    /// A register address above 7.
    pub const BAD_ADDRESS: Refusal = Refusal::numbered(2);
    /// SIN above 1, or modem pins above 15.
    pub const BAD_LEVEL: Refusal = Refusal::numbered(3);
    /// Work left and the divisor is 0.
    pub const NO_CLOCK: Refusal = Refusal::numbered(4);
    /// Bytes queued and held by flow control.
    pub const HELD_BACK: Refusal = Refusal::numbered(5);
    /// Of a file alone: a bad mark or a nonzero pad.
    pub const BAD_HEADER: Refusal = Refusal::numbered(6);
    /// A capture of an unknown version.
    pub const UNKNOWN_VERSION: Refusal = Refusal::numbered(7);
    /// A record of bad kind, with stray bits, or cut off.
    pub const BAD_RECORD: Refusal = Refusal::numbered(8);
    /// A clock or rate outside its range.
    pub const BAD_RATE: Refusal = Refusal::numbered(9);
    /// Of an expected capture: no word left for a record.
    pub const NO_ROOM: Refusal = Refusal::numbered(16);

    /// Number 1: the state is not well formed, and this part of it is bad.
    pub const fn malformed(part: StatePart) -> Refusal {
        let part = Some(part);
        Refusal { number: 1, part }
    }

    const fn numbered(number: u8) -> Refusal {
        Refusal { number, part: None }
    }
}

impl fmt::Display for Refusal {
    fn fmt(&self, f: &mut fmt::Formatter<'_>) -> fmt::Result {
        let why = match *self {
            Refusal { number: 1, .. } => "the state is not well formed",
            Refusal::BAD_ADDRESS => "register address above 7",
            Refusal::BAD_LEVEL => "impossible pin level",
            Refusal::NO_CLOCK => "work left and the divisor is 0",
            Refusal::HELD_BACK => "bytes queued and held by flow control",
            Refusal::BAD_HEADER => "bad mark or nonzero pad of a capture",
            Refusal::UNKNOWN_VERSION => "unknown version of a capture",
            Refusal::BAD_RECORD => "record of bad kind, with stray bits, or cut off",
            Refusal::BAD_RATE => "clock not from 1 to 16000000, or rate not from 1 to 1000000",
            Refusal::NO_ROOM => "no word left for a record of the expected capture",
            _ => "refused",
        };
        let number = self.number;
        match self.part {
            Some(part) => write!(f, "{why}: {part} (number {number}, part {})", part as u8),
            None => write!(f, "{why} (number {number})"),
        }
    }
}

impl core::error::Error for Refusal {}

fn done<T>(number: u8, part: u8, value: T) -> Result<T, Refusal> {
    if number == 0 {
        return Ok(value);
    }
    let part = StatePart::of(part);
    Err(Refusal { number, part })
}

/// The divisor for a rate, and its error.
#[derive(Clone, Copy, Debug, PartialEq, Eq, Hash)]
pub struct Picked {
    /// The divisor, 1..65535: DLL takes its low byte, DLM its high byte.
    pub divisor: u32,
    /// Its error in parts per million: above 0 the line is faster than the rate, below 0 slower.
    pub error: i32,
}

/// The divisor for a rate: of those from 1 to 65535 the one with the smallest distance between clock and
/// 16 × divisor × rate, the smaller one on a tie. The clock is in Hz, 1 to 16,000,000; the rate is in
/// baud, 1 to 1,000,000; others are refused with [`Refusal::BAD_RATE`]. It needs no state.
///
/// The error is (clock − 16 × divisor × rate) × 1,000,000 over 16 × divisor × rate, cut toward zero, from
/// −999999 to 14259021. A divisor is answered however far off it is: whether the error is small enough
/// is for the caller to say.
///
/// ```
/// use tl16c750::{divisor_for, Refusal};
/// let picked = divisor_for(3_072_000, 7200)?;
/// assert_eq!((picked.divisor, picked.error), (27, -12345));
/// assert_eq!(divisor_for(3_072_000, 0), Err(Refusal::BAD_RATE));
/// # Ok::<(), Refusal>(())
/// ```
pub fn divisor_for(clock: u32, rate: u32) -> Result<Picked, Refusal> {
    let raw::Picked {
        number,
        divisor,
        error,
    } = raw::uart_divisor_for(clock, rate);
    done(number, 0, Picked { divisor, error })
}

/// What a run by jumps used.
#[derive(Clone, Copy, Debug, PartialEq, Eq, Hash)]
pub struct JumpRan {
    /// The ticks, as [`Uart::run`] has them.
    pub used: u32,
    /// The jumps, counted as [`Uart::jump`] counts them.
    pub jumps: u32,
}

/// How a replay ended. Places count from 0 at the first record.
#[derive(Clone, Copy, Debug, PartialEq, Eq, Hash)]
pub enum Outcome {
    /// Every read saw the model's byte; the state is the end state.
    Agreed,
    /// The read at the place saw another byte than the model's; the state is that before it.
    Differs {
        /// The place of the read.
        place: usize,
        /// The byte that it saw.
        seen: u8,
        /// The model's byte.
        model: u8,
    },
    /// The record at the place is bad, and the state is that before it; or another refusal, with
    /// place 0 and the state as it was, which of a file is the fresh one.
    Refused {
        /// Why.
        refusal: Refusal,
        /// The place of the record.
        place: usize,
    },
}

impl Outcome {
    fn of(values: raw::Values) -> Outcome {
        let raw::Values {
            number,
            part,
            seen,
            model,
            place,
        } = values;
        match done(number, part, ()) {
            Err(refusal) => Outcome::Refused { refusal, place },
            Ok(()) if seen != model => Outcome::Differs { place, seen, model },
            Ok(()) => Outcome::Agreed,
        }
    }

    /// The place at which it stopped; none where it agreed.
    pub fn place(&self) -> Option<usize> {
        match *self {
            Outcome::Agreed => None,
            Outcome::Differs { place, .. } | Outcome::Refused { place, .. } => Some(place),
        }
    }
}

/// As the program `replay` tells it.
impl fmt::Display for Outcome {
    fn fmt(&self, f: &mut fmt::Formatter<'_>) -> fmt::Result {
        match self {
            Outcome::Agreed => write!(f, "agreed"),
            Outcome::Differs { place, seen, model } => write!(f, "differs {place} {seen} {model}"),
            Outcome::Refused { refusal, place } => write!(f, "refused {} {place}", refusal.number),
        }
    }
}

/// The UART, holding its state.
#[derive(Clone, Copy, Debug, PartialEq, Eq, Hash)]
pub struct Uart {
    /// Any state may be put here; one that is not well formed is refused by every call.
    pub state: State,
}

impl Default for Uart {
    fn default() -> Uart {
        Uart::fresh()
    }
}

impl Uart {
    /// In the fresh state.
    pub fn fresh() -> Uart {
        Uart {
            state: raw::uart_fresh(),
        }
    }

    fn step(&mut self, answer: raw::Answer) -> Result<raw::Answer, Refusal> {
        done(answer.number, answer.part, answer)?;
        self.state = answer.state;
        Ok(answer)
    }

    /// Reset. The pins after it, as for each step below.
    pub fn reset(&mut self) -> Result<Outputs, Refusal> {
        let answer = raw::uart_reset(self.state);
        Ok(self.step(answer)?.outputs)
    }

    /// The byte that a register read gives.
    pub fn read(&mut self, address: u8) -> Result<u8, Refusal> {
        let answer = raw::uart_read(self.state, address);
        Ok(self.step(answer)?.byte)
    }

    /// A register write.
    pub fn write(&mut self, address: u8, byte: u8) -> Result<Outputs, Refusal> {
        let answer = raw::uart_write(self.state, address, byte);
        Ok(self.step(answer)?.outputs)
    }

    /// The pin SIN at a level, 0 or 1.
    pub fn set_sin(&mut self, level: u8) -> Result<Outputs, Refusal> {
        let answer = raw::uart_set_sin(self.state, level);
        Ok(self.step(answer)?.outputs)
    }

    /// The modem pins CTS, DSR, RI, DCD asserted as bits 0..3 say.
    pub fn set_modem(&mut self, levels: u8) -> Result<Outputs, Refusal> {
        let answer = raw::uart_set_modem(self.state, levels);
        Ok(self.step(answer)?.outputs)
    }

    /// One tick of the clock.
    pub fn tick(&mut self) -> Result<Outputs, Refusal> {
        let answer = raw::uart_tick(self.state);
        Ok(self.step(answer)?.outputs)
    }

    /// n ticks of the clock.
    pub fn ticks(&mut self, n: u32) -> Result<Outputs, Refusal> {
        let answer = raw::uart_ticks(self.state, n);
        Ok(self.step(answer)?.outputs)
    }

    /// The output pins as they are.
    pub fn pins(&self) -> Result<Outputs, Refusal> {
        let looked = raw::uart_pins(self.state);
        done(looked.number, looked.part, looked.outputs)
    }

    /// The ticks until queue and shift register are both empty.
    pub fn forecast(&self) -> Result<u32, Refusal> {
        let forecasted = raw::uart_forecast(self.state);
        done(forecasted.number, forecasted.part, forecasted.ticks)
    }

    /// The level of the transmitter's line after t ticks.
    pub fn level(&self, t: u32) -> Result<u8, Refusal> {
        let leveled = raw::uart_level(self.state, t);
        done(leveled.number, leveled.part, leveled.level)
    }

    /// At most n ticks, until queue and shift register are both empty: the ticks used.
    pub fn run(&mut self, n: u32) -> Result<u32, Refusal> {
        let ran = raw::uart_run(self.state, n);
        let used = done(ran.number, ran.part, ran.used)?;
        self.state = ran.state;
        Ok(used)
    }

    /// n ticks by jumps from pulse to pulse: the jumps made. The state is that of n single ticks.
    ///
    /// A jump ends at a pulse, or at n when the rest falls short of one. For n 0 there is none; with
    /// divisor 0, where no pulse comes, one of all n ticks; with a divisor D above 0 at most 2 + n / D.
    ///
    /// ```
    /// use tl16c750::{Baud, Uart};
    /// let mut uart = Uart::fresh();
    /// uart.state.baud = Baud { divisor: 5, k: 3 };
    /// assert_eq!(uart.jump(9)?, 3); // of 3, 5 and 1 ticks
    /// assert_eq!(uart.state.baud.k, 4);
    /// # Ok::<(), tl16c750::Refusal>(())
    /// ```
    pub fn jump(&mut self, n: u32) -> Result<u32, Refusal> {
        let jumped = raw::uart_jump(self.state, n);
        let jumps = done(jumped.number, jumped.part, jumped.jumps)?;
        self.state = jumped.state;
        Ok(jumps)
    }

    /// At most n ticks by jumps, until queue and shift register are both empty: the ticks used and the
    /// jumps made. Ticks and state are those of [`run`](Uart::run).
    ///
    /// Before each jump it is looked whether queue and shift register are empty (LSR bit 6), so that
    /// there is none where they already are. With work left and divisor 0 there is one of all n ticks.
    ///
    /// ```
    /// use tl16c750::{JumpRan, Uart, DLM, LCR, THR};
    /// let mut uart = Uart::fresh();
    /// for (address, byte) in [(LCR, 0x83), (DLM, 0xFF), (LCR, 0x03), (THR, b'A')] {
    ///     uart.write(address, byte)?;
    /// }
    /// let JumpRan { used, jumps } = uart.jump_run(u32::MAX)?;
    /// assert_eq!((used, jumps), (161 * 0xFF00, 161));
    /// # Ok::<(), tl16c750::Refusal>(())
    /// ```
    pub fn jump_run(&mut self, n: u32) -> Result<JumpRan, Refusal> {
        let raw::JumpRan {
            number,
            part,
            used,
            jumps,
            state,
        } = raw::uart_jump_run(self.state, n);
        let ran = done(number, part, JumpRan { used, jumps })?;
        self.state = state;
        Ok(ran)
    }

    /// A replay of records of a capture, up to the first read whose byte differs from the model's.
    pub fn replay(&mut self, version: u32, records: &[u32]) -> Outcome {
        // SAFETY: the address and the length are those of a slice.
        let replayed =
            unsafe { raw::uart_replay(self.state, version, records.as_ptr(), records.len()) };
        self.state = replayed.state;
        Outcome::of(replayed.values)
    }
}

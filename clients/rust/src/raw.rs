//! The structs and calls of the static library, as `tl16c750.h` has them.
//!
//! Every field is a number, so every bit pattern is a value.

/// The places of each queue.
pub const PLACES: usize = 64;

/// The registers that keep what is written to them.
#[repr(C)]
#[derive(Clone, Copy, Debug, PartialEq, Eq, Hash)]
pub struct Registers {
    /// Interrupt enable, 0..63.
    pub ier: u8,
    /// Modem control, 0..63.
    pub mcr: u8,
    /// Line control.
    pub lcr: u8,
    /// Scratch.
    pub scr: u8,
}

/// The divisor, and the ticks to the next pulse.
#[repr(C)]
#[derive(Clone, Copy, Debug, PartialEq, Eq, Hash)]
pub struct Baud {
    /// The divisor, 0..65535.
    pub divisor: u32,
    /// The ticks to the next pulse.
    pub k: u32,
}

/// FIFO on, size bit (1 is 64), DMA bit, trigger code.
#[repr(C)]
#[derive(Clone, Copy, Debug, PartialEq, Eq, Hash)]
pub struct FifoControl {
    /// FIFO on.
    pub enabled: u8,
    /// Size bit: 1 is 64 bytes, 0 is 16.
    pub size: u8,
    /// DMA bit.
    pub dma: u8,
    /// Trigger code, 0..3.
    pub trigger: u8,
}

/// CTS, DSR, RI, DCD asserted in bits 0..3; the level of SIN.
#[repr(C)]
#[derive(Clone, Copy, Debug, PartialEq, Eq, Hash)]
pub struct Inputs {
    /// CTS, DSR, RI, DCD asserted in bits 0..3.
    pub modem: u8,
    /// The level of SIN.
    pub sin: u8,
}

/// The transmit queue: oldest first, places beyond the count zero.
#[repr(C)]
#[derive(Clone, Copy, Debug, PartialEq, Eq, Hash)]
pub struct ByteQueue {
    /// Oldest first, zero beyond the count.
    pub bytes: [u8; PLACES],
    /// How many are queued.
    pub count: u32,
}

/// Pulses left of the frame now sent, its byte and format.
#[repr(C)]
#[derive(Clone, Copy, Debug, PartialEq, Eq, Hash)]
pub struct Frame {
    /// Pulses left of the frame, 0..192.
    pub left: u32,
    /// The byte that it carries.
    pub byte: u8,
    /// Its format: bits 0..5 of LCR at the load.
    pub format: u8,
}

/// A received character with its error flags, each 0 or 1; with FIFO off they are 0.
#[repr(C)]
#[derive(Clone, Copy, Debug, PartialEq, Eq, Hash)]
pub struct Entry {
    /// The character.
    pub byte: u8,
    /// Parity error.
    pub pe: u8,
    /// Framing error.
    pub fe: u8,
    /// Break.
    pub bi: u8,
}

/// The receive queue: oldest first, places beyond the count zero.
#[repr(C)]
#[derive(Clone, Copy, Debug, PartialEq, Eq, Hash)]
pub struct EntryQueue {
    /// Oldest first, zero beyond the count.
    pub entries: [Entry; PLACES],
    /// How many are queued.
    pub count: u32,
}

/// The receiver: 0 idle, 1 waiting for mark, 2 in a character, with what of it is sampled.
#[repr(C)]
#[derive(Clone, Copy, Debug, PartialEq, Eq, Hash)]
pub struct Receiver {
    /// 0 idle, 1 waiting for mark, 2 in a character.
    pub phase: u8,
    /// The format of the character.
    pub format: u8,
    /// The data bits sampled so far.
    pub samples: u8,
    /// The parity bit sampled.
    pub parity: u8,
    /// Pulses since the start of the character.
    pub position: u32,
}

/// The latches, the change bits of MSR, RTS hold, the idle count.
#[repr(C)]
#[derive(Clone, Copy, Debug, PartialEq, Eq, Hash)]
pub struct Latches {
    /// The transmit-empty latch.
    pub empty: u8,
    /// OE.
    pub overrun: u8,
    /// The time-out latch.
    pub timeout: u8,
    /// The change bits of MSR: CTS, DSR, RI, DCD in bits 0..3.
    pub changes: u8,
    /// RTS hold.
    pub hold: u8,
    /// The idle count, 0..769.
    pub idle: u32,
}

/// The errors of character mode, each 0 or 1: a character that arrives adds its own, a read of RBR
/// leaves them, a read of LSR clears them. With FIFO on they are 0, and the errors are the entries' own.
#[repr(C)]
#[derive(Clone, Copy, Debug, PartialEq, Eq, Hash)]
pub struct Errors {
    /// Parity error.
    pub pe: u8,
    /// Framing error.
    pub fe: u8,
    /// Break.
    pub bi: u8,
}

/// A state. Any numbers may stand in it; one that is not well formed is refused.
#[repr(C)]
#[derive(Clone, Copy, Debug, PartialEq, Eq, Hash)]
pub struct State {
    /// The registers that keep what is written to them.
    pub registers: Registers,
    /// The baud generator.
    pub baud: Baud,
    /// What FCR sets.
    pub fifo: FifoControl,
    /// The input pins.
    pub inputs: Inputs,
    /// The transmit queue.
    pub tx: ByteQueue,
    /// The transmitter shift register.
    pub frame: Frame,
    /// The receive queue.
    pub rx: EntryQueue,
    /// The receiver.
    pub receiver: Receiver,
    /// Latches, change bits, RTS hold, idle count.
    pub latches: Latches,
    /// The errors of character mode, kept until LSR is read.
    pub kept: Errors,
}

/// The output pins: SOUT and INTRPT 1 is high; the others 1 is asserted.
#[repr(C)]
#[derive(Clone, Copy, Debug, PartialEq, Eq, Hash)]
pub struct Outputs {
    /// The level of SOUT.
    pub sout: u8,
    /// RTS asserted.
    pub rts: u8,
    /// DTR asserted.
    pub dtr: u8,
    /// OUT1 asserted.
    pub out1: u8,
    /// OUT2 asserted.
    pub out2: u8,
    /// The level of INTRPT.
    pub intrpt: u8,
}

/// What a step answers.
#[repr(C)]
#[derive(Clone, Copy, Debug, PartialEq, Eq, Hash)]
pub struct Answer {
    /// 0, or the number of a refusal.
    pub number: u8,
    /// The byte read; 0 where nothing is read.
    pub byte: u8,
    /// The pins after the step.
    pub outputs: Outputs,
    /// The next state.
    pub state: State,
    /// The part of the state that is bad; 0 with another number than 1.
    pub part: u8,
}

/// What the look at the pins answers.
#[repr(C)]
#[derive(Clone, Copy, Debug, PartialEq, Eq, Hash)]
pub struct Looked {
    /// 0, or the number of a refusal.
    pub number: u8,
    /// The part of the state that is bad; 0 with another number than 1.
    pub part: u8,
    /// The pins.
    pub outputs: Outputs,
}

/// What the forecast answers.
#[repr(C)]
#[derive(Clone, Copy, Debug, PartialEq, Eq, Hash)]
pub struct Forecasted {
    /// 0, or the number of a refusal.
    pub number: u8,
    /// The part of the state that is bad; 0 with another number than 1.
    pub part: u8,
    /// The ticks until queue and shift register are both empty.
    pub ticks: u32,
}

/// What the call for the line's level answers.
#[repr(C)]
#[derive(Clone, Copy, Debug, PartialEq, Eq, Hash)]
pub struct Leveled {
    /// 0, or the number of a refusal.
    pub number: u8,
    /// The part of the state that is bad; 0 with another number than 1.
    pub part: u8,
    /// The level of the line.
    pub level: u8,
}

/// What run answers.
#[repr(C)]
#[derive(Clone, Copy, Debug, PartialEq, Eq, Hash)]
pub struct Ran {
    /// 0, or the number of a refusal.
    pub number: u8,
    /// The part of the state that is bad; 0 with another number than 1.
    pub part: u8,
    /// The ticks used.
    pub used: u32,
    /// The state after them.
    pub state: State,
}

/// What ticks by jumps answer.
#[repr(C)]
#[derive(Clone, Copy, Debug, PartialEq, Eq, Hash)]
pub struct Jumped {
    /// 0, or the number of a refusal.
    pub number: u8,
    /// The part of the state that is bad; 0 with another number than 1.
    pub part: u8,
    /// The jumps made.
    pub jumps: u32,
    /// The state after them.
    pub state: State,
}

/// What run by jumps answers.
#[repr(C)]
#[derive(Clone, Copy, Debug, PartialEq, Eq, Hash)]
pub struct JumpRan {
    /// 0, or the number of a refusal.
    pub number: u8,
    /// The part of the state that is bad; 0 with another number than 1.
    pub part: u8,
    /// The ticks used.
    pub used: u32,
    /// The jumps made.
    pub jumps: u32,
    /// The state after them.
    pub state: State,
}

/// How a replay ended: number and part, the byte seen, the model's byte, the record's place.
#[repr(C)]
#[derive(Clone, Copy, Debug, PartialEq, Eq, Hash)]
pub struct Values {
    /// 0, or the number of a refusal.
    pub number: u8,
    /// The part of the state that is bad; 0 with another number than 1.
    pub part: u8,
    /// The byte seen.
    pub seen: u8,
    /// The model's byte.
    pub model: u8,
    /// The place of the record, from 0.
    pub place: usize,
}

/// What a replay answers.
#[repr(C)]
#[derive(Clone, Copy, Debug, PartialEq, Eq, Hash)]
pub struct Replayed {
    /// How it ended.
    pub values: Values,
    /// The state in which it did.
    pub state: State,
}

/// Where a file stands.
#[repr(C)]
#[derive(Clone, Copy, Debug, PartialEq, Eq, Hash)]
pub struct Progress {
    /// The version in its header.
    pub version: u32,
    /// What stopped it: 0 nothing so far, 1 a read that differs, 2 a refusal.
    pub stopped: u8,
    /// The records given so far.
    pub done: usize,
    /// How it stopped.
    pub values: Values,
    /// The state.
    pub state: State,
}

/// What the writer of a capture answers.
#[repr(C)]
#[derive(Clone, Copy, Debug, PartialEq, Eq, Hash)]
pub struct Expected {
    /// 0, or the number of a refusal.
    pub number: u8,
    /// The part of the state that is bad; 0 with another number than 1.
    pub part: u8,
    /// The words written.
    pub count: usize,
    /// The state after these records.
    pub state: State,
}

/// Where a file that is written anew stands.
#[repr(C)]
#[derive(Clone, Copy, Debug, PartialEq, Eq, Hash)]
pub struct ExpectProgress {
    /// 0 nothing so far, or the number of a refusal.
    pub number: u8,
    /// The part of the state that is bad; 0 with another number than 1.
    pub part: u8,
    /// The version in its header.
    pub version: u32,
    /// The records that the last call wrote.
    pub count: usize,
    /// The state.
    pub state: State,
}

/// What the call for a divisor answers.
#[repr(C)]
#[derive(Clone, Copy, Debug, PartialEq, Eq, Hash)]
pub struct Picked {
    /// 0, or the number of a refusal.
    pub number: u8,
    /// The divisor, 1..65535; 0 where it is refused.
    pub divisor: u32,
    /// Its error in parts per million.
    pub error: i32,
}

/// The library's version, and that of the layout of its structs.
#[repr(C)]
#[derive(Clone, Copy, Debug, PartialEq, Eq, Hash)]
pub struct Versions {
    /// Major version.
    pub major: u32,
    /// Minor version.
    pub minor: u32,
    /// Patch.
    pub patch: u32,
    /// Changes where a struct does.
    pub layout: u32,
}

/// The layout of the structs that this crate is written for.
pub const LAYOUT: u32 = 6;

/// The library's own size of each struct, in bytes.
#[repr(C)]
#[derive(Clone, Copy, Debug, PartialEq, Eq, Hash)]
pub struct Sizes {
    /// Of [`State`].
    pub state: u32,
    /// Of [`Answer`].
    pub answer: u32,
    /// Of [`Looked`].
    pub looked: u32,
    /// Of [`Forecasted`].
    pub forecasted: u32,
    /// Of [`Leveled`].
    pub leveled: u32,
    /// Of [`Ran`].
    pub ran: u32,
    /// Of [`Replayed`].
    pub replayed: u32,
    /// Of [`Progress`].
    pub progress: u32,
    /// Of [`Picked`].
    pub picked: u32,
    /// Of [`Expected`].
    pub expected: u32,
    /// Of [`ExpectProgress`].
    pub expect_progress: u32,
    /// Of [`Jumped`].
    pub jumped: u32,
    /// Of [`JumpRan`].
    pub jump_ran: u32,
}

// SAFETY: the signatures are those of crates/export, and no safe call has a condition on what it is
// given; tests/layout.rs holds the structs against the library's own.
unsafe extern "C" {
    /// Which library is linked.
    pub safe fn uart_version() -> Versions;
    /// The fresh state.
    pub safe fn uart_fresh() -> State;
    /// Reset.
    pub safe fn uart_reset(s: State) -> Answer;
    /// A register read.
    pub safe fn uart_read(s: State, address: u8) -> Answer;
    /// A register write.
    pub safe fn uart_write(s: State, address: u8, byte: u8) -> Answer;
    /// The pin SIN at a level.
    pub safe fn uart_set_sin(s: State, level: u8) -> Answer;
    /// The modem pins.
    pub safe fn uart_set_modem(s: State, levels: u8) -> Answer;
    /// One tick of the clock.
    pub safe fn uart_tick(s: State) -> Answer;
    /// n ticks of the clock.
    pub safe fn uart_ticks(s: State, n: u32) -> Answer;
    /// The output pins as they are.
    pub safe fn uart_pins(s: State) -> Looked;
    /// The ticks until queue and shift register are both empty.
    pub safe fn uart_forecast(s: State) -> Forecasted;
    /// The level of the transmitter's line after t ticks.
    pub safe fn uart_level(s: State, t: u32) -> Leveled;
    /// At most n ticks, until queue and shift register are both empty.
    pub safe fn uart_run(s: State, n: u32) -> Ran;
    /// n ticks by jumps from pulse to pulse.
    pub safe fn uart_jump(s: State, n: u32) -> Jumped;
    /// At most n ticks by jumps, until queue and shift register are both empty.
    pub safe fn uart_jump_run(s: State, n: u32) -> JumpRan;
    /// The divisor for a rate.
    pub safe fn uart_divisor_for(clock: u32, rate: u32) -> Picked;
    /// A replay of records.
    ///
    /// # Safety
    /// `count` words can be read at `records`.
    pub unsafe fn uart_replay(
        s: State,
        version: u32,
        records: *const u32,
        count: usize,
    ) -> Replayed;
    /// A file that begins with these bytes, whose header is the first 8, or that is shorter.
    ///
    /// # Safety
    /// `count` bytes can be read at `first`.
    pub unsafe fn uart_replay_begin(first: *const u8, count: usize) -> Progress;
    /// The bytes that come next.
    ///
    /// # Safety
    /// `count` bytes can be read at `bytes`.
    pub unsafe fn uart_replay_more(p: Progress, bytes: *const u8, count: usize) -> Progress;
    /// The last bytes.
    ///
    /// # Safety
    /// `count` bytes can be read at `bytes`.
    pub unsafe fn uart_replay_end(p: Progress, bytes: *const u8, count: usize) -> Replayed;
    /// The records that are expected, written into a second run of words.
    ///
    /// # Safety
    /// `count` words can be read at `records`, `room` words can be read and written at `words`, and the
    /// two runs do not overlap.
    pub unsafe fn uart_expect(
        s: State,
        version: u32,
        records: *const u32,
        count: usize,
        words: *mut u32,
        room: usize,
    ) -> Expected;
    /// A file to be written anew that begins with these bytes, whose header is the first 8.
    ///
    /// # Safety
    /// `count` bytes can be read at `first`.
    pub unsafe fn uart_expect_begin(first: *const u8, count: usize) -> ExpectProgress;
    /// The bytes that come next, written anew in place.
    ///
    /// # Safety
    /// `count` bytes can be read and written at `bytes`.
    pub unsafe fn uart_expect_more(
        p: ExpectProgress,
        bytes: *mut u8,
        count: usize,
    ) -> ExpectProgress;
    /// The last bytes, written anew in place.
    ///
    /// # Safety
    /// `count` bytes can be read and written at `bytes`.
    pub unsafe fn uart_expect_end(
        p: ExpectProgress,
        bytes: *mut u8,
        count: usize,
    ) -> ExpectProgress;

    /// The library's own sizes.
    pub safe fn uart_sizes_of_structs() -> Sizes;
    /// A specimen of [`State`]: every byte of a field is the field's number.
    pub safe fn uart_specimen_state() -> State;
    /// A specimen of [`Answer`]: every byte of a field is the field's number.
    pub safe fn uart_specimen_answer() -> Answer;
    /// A specimen of [`Looked`]: every byte of a field is the field's number.
    pub safe fn uart_specimen_looked() -> Looked;
    /// A specimen of [`Forecasted`]: every byte of a field is the field's number.
    pub safe fn uart_specimen_forecasted() -> Forecasted;
    /// A specimen of [`Leveled`]: every byte of a field is the field's number.
    pub safe fn uart_specimen_leveled() -> Leveled;
    /// A specimen of [`Ran`]: every byte of a field is the field's number.
    pub safe fn uart_specimen_ran() -> Ran;
    /// A specimen of [`Replayed`]: every byte of a field is the field's number.
    pub safe fn uart_specimen_replayed() -> Replayed;
    /// A specimen of [`Progress`]: every byte of a field is the field's number.
    pub safe fn uart_specimen_progress() -> Progress;
    /// A specimen of [`Picked`]: every byte of a field is the field's number.
    pub safe fn uart_specimen_picked() -> Picked;
    /// A specimen of [`Expected`]: every byte of a field is the field's number.
    pub safe fn uart_specimen_expected() -> Expected;
    /// A specimen of [`ExpectProgress`]: every byte of a field is the field's number.
    pub safe fn uart_specimen_expect_progress() -> ExpectProgress;
    /// A specimen of [`Jumped`]: every byte of a field is the field's number.
    pub safe fn uart_specimen_jumped() -> Jumped;
    /// A specimen of [`JumpRan`]: every byte of a field is the field's number.
    pub safe fn uart_specimen_jump_ran() -> JumpRan;
}

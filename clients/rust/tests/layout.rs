// The structs lie as the library's do: in its specimens every byte of a field is the field's
// number, and each size is the library's own.
use std::mem::size_of;
use tl16c750::raw::*;
use tl16c750::{Outcome, Refusal, StatePart, Uart, LSR, RBR};

fn four(n: u8) -> u32 {
    u32::from_ne_bytes([n; 4])
}

fn eight(n: u8) -> usize {
    usize::from_ne_bytes([n; 8])
}

fn state() -> State {
    State {
        registers: Registers {
            ier: 1,
            mcr: 2,
            lcr: 3,
            scr: 4,
        },
        baud: Baud {
            divisor: four(5),
            k: four(6),
        },
        fifo: FifoControl {
            enabled: 7,
            size: 8,
            dma: 9,
            trigger: 10,
        },
        inputs: Inputs { modem: 11, sin: 12 },
        tx: ByteQueue {
            bytes: [13; PLACES],
            count: four(14),
        },
        frame: Frame {
            left: four(15),
            byte: 16,
            format: 17,
        },
        rx: EntryQueue {
            entries: [Entry {
                byte: 18,
                pe: 19,
                fe: 20,
                bi: 21,
            }; PLACES],
            count: four(22),
        },
        receiver: Receiver {
            phase: 23,
            format: 24,
            samples: 25,
            parity: 26,
            position: four(27),
        },
        latches: Latches {
            empty: 28,
            overrun: 29,
            timeout: 30,
            changes: 31,
            hold: 32,
            idle: four(33),
        },
        kept: Errors {
            pe: 34,
            fe: 35,
            bi: 36,
        },
    }
}

fn values() -> Values {
    Values {
        number: 100,
        part: 113,
        seen: 101,
        model: 108,
        place: eight(109),
    }
}

fn outputs() -> Outputs {
    Outputs {
        sout: 102,
        rts: 103,
        dtr: 104,
        out1: 105,
        out2: 106,
        intrpt: 107,
    }
}

#[test]
fn fields_lie_as_in_the_specimens() {
    assert_eq!(uart_specimen_state(), state());
    assert_eq!(
        uart_specimen_answer(),
        Answer {
            number: 100,
            part: 113,
            byte: 101,
            outputs: outputs(),
            state: state()
        }
    );
    assert_eq!(
        uart_specimen_looked(),
        Looked {
            number: 100,
            part: 113,
            outputs: outputs()
        }
    );
    assert_eq!(
        uart_specimen_forecasted(),
        Forecasted {
            number: 100,
            part: 113,
            ticks: four(101)
        }
    );
    assert_eq!(
        uart_specimen_leveled(),
        Leveled {
            number: 100,
            part: 113,
            level: 101
        }
    );
    assert_eq!(
        uart_specimen_ran(),
        Ran {
            number: 100,
            part: 113,
            used: four(101),
            state: state()
        }
    );
    assert_eq!(
        uart_specimen_replayed(),
        Replayed {
            values: values(),
            state: state()
        }
    );
    assert_eq!(
        uart_specimen_progress(),
        Progress {
            version: four(110),
            stopped: 111,
            done: eight(112),
            values: values(),
            state: state()
        }
    );
    assert_eq!(
        uart_specimen_picked(),
        Picked {
            number: 100,
            divisor: four(114),
            error: four(115) as i32
        }
    );
    assert_eq!(
        uart_specimen_expected(),
        Expected {
            number: 100,
            part: 113,
            count: eight(116),
            state: state()
        }
    );
    assert_eq!(
        uart_specimen_expect_progress(),
        ExpectProgress {
            number: 100,
            part: 113,
            version: four(110),
            count: eight(116),
            state: state()
        }
    );
    assert_eq!(
        uart_specimen_jumped(),
        Jumped {
            number: 100,
            part: 113,
            jumps: four(117),
            state: state()
        }
    );
    assert_eq!(
        uart_specimen_jump_ran(),
        JumpRan {
            number: 100,
            part: 113,
            used: four(101),
            jumps: four(117),
            state: state()
        }
    );
}

#[test]
fn sizes_are_the_librarys() {
    let sizes = uart_sizes_of_structs();
    assert_eq!(sizes.state as usize, size_of::<State>());
    assert_eq!(sizes.answer as usize, size_of::<Answer>());
    assert_eq!(sizes.looked as usize, size_of::<Looked>());
    assert_eq!(sizes.forecasted as usize, size_of::<Forecasted>());
    assert_eq!(sizes.leveled as usize, size_of::<Leveled>());
    assert_eq!(sizes.ran as usize, size_of::<Ran>());
    assert_eq!(sizes.replayed as usize, size_of::<Replayed>());
    assert_eq!(sizes.progress as usize, size_of::<Progress>());
    assert_eq!(sizes.picked as usize, size_of::<Picked>());
    assert_eq!(sizes.expected as usize, size_of::<Expected>());
    assert_eq!(sizes.expect_progress as usize, size_of::<ExpectProgress>());
    assert_eq!(sizes.jumped as usize, size_of::<Jumped>());
    assert_eq!(sizes.jump_ran as usize, size_of::<JumpRan>());
}

#[test]
fn the_version_is_the_crates() {
    let v = uart_version();
    let version = format!("{}.{}.{}", v.major, v.minor, v.patch);
    assert_eq!(version, env!("CARGO_PKG_VERSION"));
    assert_eq!(v.layout, LAYOUT);
}

#[test]
fn a_state_handed_in_arrives() {
    let mut uart = Uart::fresh();
    uart.state.registers.lcr = 0x03;
    uart.state.baud = Baud { divisor: 12, k: 5 };
    uart.state.fifo.enabled = 1;
    uart.state.tx.bytes[..3].copy_from_slice(b"ABC");
    uart.state.tx.count = 3;
    assert_eq!(uart.forecast(), Ok(5765));
    uart.state.rx.entries[0] = Entry {
        byte: 0x5A,
        pe: 0,
        fe: 1,
        bi: 0,
    };
    uart.state.rx.count = 1;
    uart.state.latches.overrun = 1;
    uart.state.latches.idle = 7;
    assert_eq!(uart.read(LSR), Ok(0x8B));
    assert_eq!(uart.read(RBR), Ok(0x5A));
    let mut kept = Uart::fresh();
    kept.state.kept.fe = 1;
    assert_eq!(kept.read(LSR), Ok(0x68));
    uart.state.rx.entries[63].bi = 1;
    let before = uart;
    let refusal = Refusal::malformed(StatePart::Receiver);
    assert_eq!(uart.read(LSR), Err(refusal));
    assert_eq!(uart, before);
}

#[test]
fn records_handed_in_arrive() {
    let records = [0x2000075A, 0x1000075A, 0x10000700, 0xFFFFFFFF];
    let mut uart = Uart::fresh();
    assert_eq!(uart.replay(1, &[]), Outcome::Agreed);
    assert_eq!(uart, Uart::fresh());
    assert_eq!(uart.replay(1, &records[..2]), Outcome::Agreed);
    assert_eq!(uart.state.registers.scr, 0x5A);
    assert_eq!(
        uart.replay(1, &records),
        Outcome::Differs {
            place: 2,
            seen: 0,
            model: 0x5A
        }
    );
    assert_eq!(uart.state.registers.scr, 0x5A);
    let refused = |refusal| Outcome::Refused { refusal, place: 0 };
    assert_eq!(uart.replay(1, &records[3..]), refused(Refusal::BAD_RECORD));
    assert_eq!(
        uart.replay(0x10001, &records),
        refused(Refusal::UNKNOWN_VERSION)
    );
    assert_eq!(uart.state.registers.scr, 0x5A);
    uart.state = state();
    let malformed = Refusal::malformed(StatePart::Registers);
    assert_eq!(uart.replay(0, &records), refused(malformed));
    assert_eq!(uart.state, state());
}

// PE, FE and BI: in character mode kept until LSR is read, in the FIFO gone with their character.
use tl16c750::{Errors, Refusal, Uart, DLL, FCR, IER, IIR, LCR, LSR, RBR};

const TICKS_PER_BIT: u32 = 16; // the divisor is 1

// A with even parity on the line: start bit, data bits from bit 0 on, parity bit, stop bit.
const GOOD: &str = "0 10000010 0 1";
const BAD_PARITY: &str = "0 10000010 1 1";
const BREAK: &str = "0 00000000 0 0 1";

const NONE: Errors = Errors {
    pe: 0,
    fe: 0,
    bi: 0,
};

// Eight bits, even parity, the interrupt of errors enabled; FCR as said.
fn begin(fcr: u8) -> Result<Uart, Refusal> {
    let mut uart = Uart::fresh();
    for (address, byte) in [(LCR, 0x80), (DLL, 1), (LCR, 0x1B), (IER, 0x04), (FCR, fcr)] {
        uart.write(address, byte)?;
    }
    Ok(uart)
}

// The levels of SIN, a bit's time each.
fn hear(uart: &mut Uart, levels: &str) -> Result<(), Refusal> {
    for level in levels.chars().filter_map(|c| c.to_digit(2)) {
        uart.set_sin(level as u8)?;
        uart.ticks(TICKS_PER_BIT)?;
    }
    Ok(())
}

#[test]
fn character_mode_keeps_them() -> Result<(), Refusal> {
    let mut uart = begin(0x00)?;
    hear(&mut uart, BAD_PARITY)?;
    assert_eq!(uart.read(RBR)?, b'A');
    assert_eq!(uart.read(IIR)?, 0x06);
    assert_eq!(uart.read(LSR)?, 0x64);
    assert_eq!(uart.read(LSR)?, 0x60);
    assert_eq!(uart.read(IIR)?, 0x01);
    Ok(())
}

#[test]
fn characters_add_theirs() -> Result<(), Refusal> {
    let mut uart = begin(0x00)?;
    for levels in [BAD_PARITY, GOOD, BREAK] {
        hear(&mut uart, levels)?;
    }
    let all = Errors {
        pe: 1,
        fe: 1,
        bi: 1,
    };
    assert_eq!(uart.state.kept, all);
    assert_eq!(uart.state.rx.entries[0].fe, 0);
    assert_eq!(uart.read(LSR)?, 0x7F);
    assert_eq!(uart.state.kept, NONE);
    Ok(())
}

#[test]
fn reset_and_fifo_on_clear_them() -> Result<(), Refusal> {
    let mut uart = begin(0x00)?;
    hear(&mut uart, BAD_PARITY)?;
    uart.write(FCR, 0x00)?;
    assert_eq!(uart.state.kept.pe, 1);
    let mut other = uart;
    uart.reset()?;
    assert_eq!(uart.state.kept, NONE);
    other.write(FCR, 0x01)?;
    assert_eq!(other.state.kept, NONE);
    Ok(())
}

#[test]
fn the_fifo_has_them_in_its_entries() -> Result<(), Refusal> {
    let mut uart = begin(0x01)?;
    hear(&mut uart, BAD_PARITY)?;
    hear(&mut uart, GOOD)?;
    assert_eq!(uart.state.kept, NONE);
    assert_eq!(uart.read(IIR)?, 0xC6);
    assert_eq!(uart.read(RBR)?, b'A');
    assert_eq!(uart.read(LSR)?, 0x61);
    Ok(())
}

// Sends a message, clears the transmit FIFO in the middle of a character, and prints what left the
// line: the character that had begun is finished, as the part finishes it. Then sends a character by
// jumps, replays a capture of the same, from records and from a file, and writes the one that is
// expected where a read differs.
use std::error::Error;
use tl16c750::{
    divisor_for, Expected, JumpRan, Picked, Refusal, Told, Uart, DLL, DLM, FCR, LCR, LSR, THR,
};

const PULSES_PER_BIT: usize = 16; // and a tick is a pulse: the divisor is 1
const BITS_PER_FRAME: usize = 10; // start, eight data bits, stop

fn number<T>(answer: Result<T, Refusal>) -> u8 {
    answer.map_or_else(|refusal| refusal.number, |_| 0)
}

// The divisor's latches for a rate.
fn set_rate(uart: &mut Uart, clock: u32, rate: u32) -> Result<(), Refusal> {
    let Picked { divisor, error } = divisor_for(clock, rate)?;
    println!("divisor at {clock} Hz for {rate} baud: {divisor}, error {error} ppm");
    uart.write(LCR, 0x80)?;
    uart.write(DLL, divisor as u8)?;
    uart.write(DLM, (divisor >> 8) as u8)?;
    Ok(())
}

// The levels of SOUT, one for each tick.
fn tick(uart: &mut Uart, n: u32, sout: &mut Vec<u8>) -> Result<(), Refusal> {
    for _ in 0..n {
        sout.push(uart.tick()?.sout);
    }
    Ok(())
}

fn print_forecast(uart: &Uart) -> u32 {
    let forecast = uart.forecast();
    let ticks = forecast.unwrap_or(0);
    println!("forecast: number {}, {ticks} ticks", number(forecast));
    ticks
}

// The characters on the line, each from its start bit, read in the middle of a bit.
fn print_line(sout: &[u8]) {
    let mut text = String::new();
    let mut at = 0;
    while at + PULSES_PER_BIT * BITS_PER_FRAME <= sout.len() {
        if sout[at] != 0 {
            at += 1;
            continue;
        }
        let bits: Vec<u8> = (0..BITS_PER_FRAME)
            .map(|bit| sout[at + PULSES_PER_BIT * bit + PULSES_PER_BIT / 2])
            .collect();
        let data = &bits[1..9];
        let byte = data.iter().rev().fold(0u8, |byte, bit| byte << 1 | bit);
        let shown: String = data.iter().map(u8::to_string).collect();
        println!("line: {} {shown} {} is {}", bits[0], bits[9], byte as char);
        text.push(byte as char);
        at += PULSES_PER_BIT * BITS_PER_FRAME;
    }
    println!("left the line: {text}");
}

// Replays records of a capture from the fresh state, and prints the end as the program `replay` does.
fn print_replay(records: &[u32]) -> Uart {
    let mut uart = Uart::fresh();
    println!("replay: {}", uart.replay(1, records));
    uart
}

// The same as a file: the header (mark, version, pad), then each record, little-endian.
fn file_of(records: &[u32]) -> Vec<u8> {
    let mut file = b"UTR\0\x01\0\0\0".to_vec();
    for record in records {
        file.extend_from_slice(&record.to_le_bytes());
    }
    file
}

// Replays a file.
fn print_file(file: &[u8]) -> std::io::Result<()> {
    let length = file.len() as u64;
    let outcome = Uart::fresh().replay_file_telling(file, Some(length), |told| {
        let Told { records, bytes, .. } = told;
        println!("file: {records} records, {bytes} of {length} bytes");
    })?;
    println!("file: {outcome}");
    Ok(())
}

// Writes the capture that is expected for these records from the fresh state, and replays it.
fn print_expected(records: &[u32]) {
    let mut words = vec![0; records.len()];
    let Expected { count, refusal } = Uart::fresh().expect(1, records, &mut words);
    if let Some(Refusal { number, .. }) = refusal {
        println!("expected: refused {number}, {count} records written");
        return;
    }
    println!(
        "expected: {count} records, the last is {:08X}",
        words[count - 1]
    );
    print_replay(&words);
}

// The same from a file into another one.
fn print_expected_file(file: &[u8]) -> std::io::Result<()> {
    let mut expected = Vec::new();
    let Expected { count, refusal } = Uart::fresh().expect_file(file, &mut expected)?;
    let number = refusal.map_or(0, |refusal| refusal.number);
    println!("expected file: number {number}, {count} records");
    print_file(&expected)
}

// Sends a character at the largest divisor, where nearly all ticks only bring the next pulse nearer.
fn print_jumps() -> Result<(), Refusal> {
    let mut uart = Uart::fresh();
    for (address, byte) in [
        (LCR, 0x83),
        (DLL, 0xFF),
        (DLM, 0xFF),
        (LCR, 0x03),
        (THR, b'H'),
    ] {
        uart.write(address, byte)?;
    }
    let JumpRan { used, jumps } = uart.jump_run(u32::MAX)?;
    println!("by jumps: number 0, {used} ticks, {jumps} jumps");
    Ok(())
}

// A character is on the line when the transmit FIFO is cleared; LSR is read then.
fn replay_captures() -> std::io::Result<()> {
    let mut records = [
        0x20000383, // LCR 83: the divisor at 0 and 1
        0x20000001, // DLL 01
        0x20000303, // LCR 03
        0x20000201, // FCR 01: FIFO on
        0x20000048, // THR H
        0x00000028, // 40 ticks
        0x20000205, // FCR 05: transmit FIFO cleared
        0x10000520, // LSR: 20 seen
    ];
    print_replay(&records);
    print_file(&file_of(&records))?;
    records[7] = 0x10000560; // LSR: 60 seen
    print_forecast(&print_replay(&records));
    print_expected(&records);
    print_expected_file(&file_of(&records))?;
    records[5] = 0x60000000; // of no kind
    print_replay(&records);
    print_expected(&records);
    Ok(())
}

fn main() -> Result<(), Box<dyn Error>> {
    let message = "HELLO, BEAM";
    let mut sout = Vec::new();

    let mut uart = Uart::fresh();
    set_rate(&mut uart, 2_000_000, 128_000)?;
    uart.write(FCR, 0x21)?; // FIFO on, 64 bytes
    uart.write(LCR, 0x03)?; // eight bits, no parity, one stop bit

    for byte in message.bytes() {
        uart.write(THR, byte)?;
    }
    println!("queued: {message}");
    print_forecast(&uart);

    tick(&mut uart, 400, &mut sout)?;
    println!("after {} ticks the transmit FIFO is cleared", sout.len());
    uart.write(FCR, 0x05)?;
    println!("LSR: {:02X}", uart.read(LSR)?);
    let left = print_forecast(&uart);

    let before = uart;
    let from = sout.len();
    tick(&mut uart, left - 1, &mut sout)?;
    println!("LSR one tick before: {:02X}", uart.read(LSR)?);
    tick(&mut uart, 1, &mut sout)?;
    println!("LSR then: {:02X}", uart.read(LSR)?);
    tick(&mut uart, 200, &mut sout)?;
    let foretold = (1..)
        .zip(&sout[from..])
        .all(|(t, level)| before.level(t) == Ok(*level));
    println!(
        "levels as foretold: {}",
        if foretold { "yes" } else { "no" }
    );
    print_line(&sout);

    println!("read of register 8: number {}", number(uart.read(8)));
    println!("SIN at 2: number {}", number(uart.set_sin(2)));
    uart.state.tx.bytes = [0xFF; 64];
    if let Err(Refusal { number, part }) = uart.pins() {
        let part = part.map_or(0, |part| part as u8);
        println!("pins of a damaged state: number {number}, part {part}");
    }
    print_jumps()?;
    replay_captures()?;
    Ok(())
}

// A malformed state is refused by every call with the part of it that is bad; no other refusal has one.
// What refusals print.
use tl16c750::{
    Expected, ExpectedFile, File, Outcome, Refusal, StatePart, Uart, DLL, FCR, LCR, MCR, THR,
};

// With FIFO on, autoflow, a byte on the line and another held back.
fn busy() -> Uart {
    let mut uart = Uart::fresh();
    for (address, byte) in [(LCR, 0x83), (DLL, 1), (LCR, 0x03), (FCR, 0x01), (THR, b'A')] {
        uart.write(address, byte).unwrap();
    }
    uart.tick().unwrap();
    uart.write(MCR, 0x22).unwrap();
    uart.write(THR, b'B').unwrap();
    uart
}

fn damage(uart: &mut Uart, part: StatePart) {
    let state = &mut uart.state;
    match part {
        StatePart::Registers => state.baud.k = 2,
        StatePart::Settings => state.inputs.modem = 16,
        StatePart::Transmitter => state.tx.count = 17,
        StatePart::Receiver => state.rx.entries[0].pe = 1,
        StatePart::Latches => state.latches.empty = 1,
    }
}

const PARTS: [StatePart; 5] = [
    StatePart::Registers,
    StatePart::Settings,
    StatePart::Transmitter,
    StatePart::Receiver,
    StatePart::Latches,
];

#[test]
fn every_call_tells_the_part() {
    for part in PARTS {
        let mut uart = busy();
        damage(&mut uart, part);
        let before = uart;
        let refusal = Refusal::malformed(part);
        assert_eq!(uart.reset(), Err(refusal));
        assert_eq!(uart.read(8), Err(refusal));
        assert_eq!(uart.write(LCR, 3), Err(refusal));
        assert_eq!(uart.set_sin(2), Err(refusal));
        assert_eq!(uart.set_modem(0), Err(refusal));
        assert_eq!(uart.tick(), Err(refusal));
        assert_eq!(uart.ticks(1000), Err(refusal));
        assert_eq!(uart.pins(), Err(refusal));
        assert_eq!(uart.forecast(), Err(refusal));
        assert_eq!(uart.level(0), Err(refusal));
        assert_eq!(uart.run(1000), Err(refusal));
        assert_eq!(uart.jump(1000), Err(refusal));
        assert_eq!(uart.jump_run(1000), Err(refusal));
        let refused = Outcome::Refused { refusal, place: 0 };
        assert_eq!(uart.replay(1, &[1]), refused);
        let (count, refusal) = (0, Some(refusal));
        let refused = Expected { count, refusal };
        assert_eq!(uart.expect(0, &[u32::MAX], &mut []), refused);
        assert_eq!(uart, before);
    }
}

#[test]
fn the_lowest_part_stands() {
    let mut uart = busy();
    for part in PARTS.into_iter().rev() {
        damage(&mut uart, part);
        assert_eq!(uart.pins(), Err(Refusal::malformed(part)));
    }
}

#[test]
fn errors_stand_in_the_entries_or_beside_them() {
    let refusal = Err(Refusal::malformed(StatePart::Receiver));
    let mut fifo = busy();
    fifo.state.kept.pe = 1;
    assert_eq!(fifo.pins(), refusal);
    let mut character = Uart::fresh();
    character.state.kept.pe = 1;
    assert!(character.pins().is_ok());
    character.state.kept.pe = 2;
    assert_eq!(character.pins(), refusal);
    let mut flagged = Uart::fresh();
    flagged.state.rx.count = 1;
    assert!(flagged.pins().is_ok());
    flagged.state.rx.entries[0].pe = 1;
    assert_eq!(flagged.pins(), refusal);
}

#[test]
fn other_refusals_have_no_part() {
    let mut uart = busy();
    assert_eq!(uart.read(8), Err(Refusal::BAD_ADDRESS));
    assert_eq!(uart.set_modem(16), Err(Refusal::BAD_LEVEL));
    assert_eq!(uart.forecast(), Err(Refusal::HELD_BACK));
    uart.state.baud.divisor = 0;
    uart.state.baud.k = 0;
    assert_eq!(uart.level(0), Err(Refusal::NO_CLOCK));
    let refused = |refusal| Outcome::Refused { refusal, place: 0 };
    assert_eq!(uart.replay(2, &[]), refused(Refusal::UNKNOWN_VERSION));
    assert_eq!(uart.replay(1, &[1 << 31]), refused(Refusal::BAD_RECORD));
    let (outcome, _) = File::begin(b"UTX\0\x01\0\0\0").end(&[]);
    assert_eq!(outcome, refused(Refusal::BAD_HEADER));
    let refused = |refusal| Expected {
        count: 0,
        refusal: Some(refusal),
    };
    assert_eq!(
        uart.expect(2, &[], &mut []),
        refused(Refusal::UNKNOWN_VERSION)
    );
    assert_eq!(
        uart.expect(1, &[1 << 31], &mut []),
        refused(Refusal::BAD_RECORD)
    );
    assert_eq!(uart.expect(1, &[1], &mut []), refused(Refusal::NO_ROOM));
    let (_, expected, _) = ExpectedFile::begin(b"UTX\0\x01\0\0\0").0.end(&mut []);
    assert_eq!(expected, refused(Refusal::BAD_HEADER));
}

#[test]
fn refusals_print_words() {
    let words = "unknown version of a capture (number 7)";
    assert_eq!(Refusal::UNKNOWN_VERSION.to_string(), words);
    let words = "clock not from 1 to 16000000, or rate not from 1 to 1000000 (number 9)";
    assert_eq!(Refusal::BAD_RATE.to_string(), words);
    let words = "no word left for a record of the expected capture (number 16)";
    assert_eq!(Refusal::NO_ROOM.to_string(), words);
    let words = "the state is not well formed: transmit queue and frame (number 1, part 3)";
    let refusal = Refusal::malformed(StatePart::Transmitter);
    assert_eq!(refusal.to_string(), words);
    let (number, part) = (99, None);
    assert_eq!(Refusal { number, part }.to_string(), "refused (number 99)");
}

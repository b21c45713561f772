// The capture that is expected: known words, every room, each refusal with what was written before it, and
// the promise that a replay of what was written agrees and ends in the same state.
use tl16c750::{Expected, Outcome, Refusal, StatePart, Uart};

// Reads that saw another byte than the model's, among records of every kind; and what is expected.
const RECORDS: [u32; 14] = [
    0x20000383, 0x20000001, 0x20000303, 0x20000201, // divisor 1, eight bits, FIFO on
    0x20000048, 0x00000028, 0x20000205, // a byte on the line, the FIFO cleared
    0x100005FF, 0x30000000, 0x40000003, 0x100006AA, 0x50000000, 0x100007FF, 0x10000500,
];
const KNOWN: [u32; 14] = [
    0x20000383, 0x20000001, 0x20000303, 0x20000201, 0x20000048, 0x00000028, 0x20000205, 0x10000520,
    0x30000000, 0x40000003, 0x10000633, 0x50000000, 0x10000700, 0x10000560,
];

const UNWRITTEN: u32 = 0xAAAA_AAAA;

// What is answered with so much room, of which the known words must be written and no others.
fn ask(uart: &mut Uart, version: u32, records: &[u32], room: usize) -> Expected {
    let mut words = [UNWRITTEN; 20];
    let mut replayed = *uart;
    let expected = uart.expect(version, records, &mut words[..room]);
    let (written, beyond) = words.split_at(expected.count);
    assert_eq!(written, &KNOWN[..expected.count]);
    assert!(beyond.iter().all(|&word| word == UNWRITTEN));
    let undone = [Some(1), Some(7)].contains(&expected.refusal.map(|refusal| refusal.number));
    if undone {
        assert_eq!(expected.count, 0);
    } else {
        assert_eq!(replayed.replay(version, written), Outcome::Agreed);
    }
    assert_eq!(*uart, replayed);
    expected
}

fn refused(count: usize, refusal: Refusal) -> Expected {
    let refusal = Some(refusal);
    Expected { count, refusal }
}

#[test]
fn every_room() {
    for count in 0..=RECORDS.len() {
        for room in 0..=20 {
            let expected = ask(&mut Uart::fresh(), 1, &RECORDS[..count], room);
            if room < count {
                assert_eq!(expected, refused(room, Refusal::NO_ROOM));
            } else {
                let refusal = None;
                assert_eq!(expected, Expected { count, refusal });
            }
        }
    }
}

// 8 comes before 16.
#[test]
fn a_bad_record_in_each_place() {
    for bad in [
        0x60000000, 0xFFFFFFFF, 0x00010000, 0x10000800, 0x30000002, 0x40000010, 0x50000001,
    ] {
        for place in 0..RECORDS.len() {
            let mut records = RECORDS;
            records[place] = bad;
            for room in 0..=20 {
                let expected = ask(&mut Uart::fresh(), 1, &records, room);
                if room < place {
                    assert_eq!(expected, refused(room, Refusal::NO_ROOM));
                } else {
                    assert_eq!(expected, refused(place, Refusal::BAD_RECORD));
                }
            }
        }
    }
}

#[test]
fn nothing_is_done() {
    for version in [0, 2, 3, 0x10001, u32::MAX] {
        for records in [&RECORDS[..], &[]] {
            let expected = ask(&mut Uart::fresh(), version, records, 20);
            assert_eq!(expected, refused(0, Refusal::UNKNOWN_VERSION));
        }
    }
    let mut uart = Uart::fresh();
    uart.state.latches.hold = 2;
    uart.state.frame.format = 64;
    let malformed = refused(0, Refusal::malformed(StatePart::Transmitter));
    assert_eq!(ask(&mut uart, 1, &RECORDS, 20), malformed);
    assert_eq!(ask(&mut uart, 0, &[u32::MAX], 0), malformed);
}

// From a state that is not the fresh one, whatever bytes were seen.
#[test]
fn the_byte_seen_has_no_part_in_it() {
    let mut begun = Uart::fresh();
    assert_eq!(begun.replay(1, &[0x2000075A]), Outcome::Agreed);
    for seen in 0..256 {
        let mut word = [0];
        let mut uart = begun;
        let expected = uart.expect(1, &[0x10000700 | seen], &mut word);
        assert_eq!((expected.count, word), (1, [0x1000075A]));
        assert_eq!(uart, begun);
    }
}

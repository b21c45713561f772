// The stored captures, read in pieces of odd sizes, end as the second program says; what an outcome
// prints; states as keys.
#![cfg(feature = "std")]

mod common;

use common::{captures, stored, Broken, Pieces};
use std::collections::HashSet;
use std::fs;
use std::io::Result;
use tl16c750::{File, Outcome, Told, Uart, LCR};

#[test]
fn stored_captures_end_as_they_must() -> Result<()> {
    let stored = stored();
    let files = captures()?;
    let mut lines = String::new();
    for (number, path) in files.iter().enumerate() {
        let bytes = fs::read(path)?;
        let mut uart = Uart::fresh();
        let size = 1 + number % 7;
        let bytes = &bytes[..];
        let outcome = uart.replay_file(Pieces { bytes, size })?;
        lines += &format!("{outcome}\n");
        let (header, rest) = bytes.split_at(bytes.len().min(8));
        assert_eq!(File::begin(header).end(rest), (outcome, uart));
    }
    assert_eq!(lines, fs::read_to_string(stored.join("stdout"))?);
    Ok(())
}

#[test]
fn a_failed_read_leaves_the_state() {
    let mut uart = Uart::fresh();
    uart.write(LCR, 3).unwrap();
    let before = uart;
    assert!(uart.replay_file(Broken).is_err());
    assert_eq!(uart, before);
}

#[test]
fn progress_is_told_to_the_end() -> Result<()> {
    let mut bytes = b"UTR\0\x01\0\0\0".to_vec();
    bytes.resize(8 + 4 * 10_000, 0);
    let length = bytes.len() as u64;
    let mut told = Vec::new();
    let outcome =
        Uart::fresh().replay_file_telling(&bytes[..], Some(length), |now| told.push(now))?;
    assert_eq!(outcome, Outcome::Agreed);
    let last = Told {
        records: 10_000,
        bytes: length,
        of: Some(length),
    };
    assert_eq!(told.last(), Some(&last));
    assert_eq!(told.len(), 3);
    Ok(())
}

#[test]
fn progress_ends_at_the_place() -> Result<()> {
    for place in [0, 5, 4095, 4096, 9000] {
        for end in [0x1000_07FF_u32, 0xFFFF_FFFF] {
            let mut bytes = b"UTR\0\x01\0\0\0".to_vec();
            bytes.resize(8 + 4 * place, 0);
            bytes.extend(end.to_le_bytes());
            bytes.resize(bytes.len() + 4 * 1000, 0);
            let mut told = Vec::new();
            let outcome =
                Uart::fresh().replay_file_telling(&bytes[..], None, |now| told.push(now))?;
            assert_eq!(outcome.place(), Some(place));
            assert_eq!(told.last().map(|now| now.records), Some(place));
            assert!(told.windows(2).all(|two| two[0].records <= two[1].records));
        }
    }
    Ok(())
}

#[test]
fn equal_states_are_one_key() {
    let mut looped = Uart::fresh();
    looped.reset().unwrap();
    let mut states = HashSet::from([Uart::fresh(), looped]);
    assert_eq!(states.len(), 1);
    looped.write(LCR, 3).unwrap();
    states.insert(looped);
    assert_eq!(states.len(), 2);
}

// The files that are expected of the stored captures, read in pieces of odd sizes, are the second program's,
// and replay as agreed; what a refused header, a failure and the progress come to.
#![cfg(feature = "std")]

mod common;

use common::{captures, top, Broken, Pieces};
use std::io::{repeat, Read, Result, Write};
use std::process::{Command, Output};
use std::{fs, path::Path};
use tl16c750::{Expected, ExpectedFile, Outcome, Refusal, Uart, LCR};

const HEADER: &[u8; 8] = b"UTR\0\x01\0\0\0";

// What the second program writes, and the number on its standard error.
fn second(path: &Path) -> Result<(Vec<u8>, u8)> {
    let program = top().join("tests/second/expect");
    let Output { stdout, stderr, .. } = Command::new(program).arg(path).output()?;
    let number = String::from_utf8_lossy(&stderr).trim().parse().unwrap_or(0);
    Ok((stdout, number))
}

// What is written of a file whose bytes come `size` at a time.
fn by_parts(bytes: &[u8], size: usize) -> (Vec<u8>, Expected, Uart) {
    let (mut file, header) = ExpectedFile::begin(&bytes[..bytes.len().min(8)]);
    let mut written = header.to_vec();
    let mut rest = bytes[bytes.len().min(8)..].to_vec();
    let mut part = &mut rest[..];
    while part.len() >= size {
        written.extend(file.more(&mut part[..size]).0);
        part = &mut part[size / 4 * 4..];
    }
    let (last, expected, uart) = file.end(part);
    written.extend(last);
    (written, expected, uart)
}

#[test]
fn stored_captures_are_written_as_they_must() -> Result<()> {
    let files = captures()?;
    assert!(files.len() > 100);
    for (number, path) in files.iter().enumerate() {
        let bytes = &fs::read(path)?[..];
        let mut uart = Uart::fresh();
        uart.write(LCR, 3).unwrap();
        let mut written = Vec::new();
        let size = 1 + number % 7;
        let expected = uart.expect_file(Pieces { bytes, size }, &mut written)?;
        let refused = expected.refusal.map_or(0, |refusal| refusal.number);
        assert!((written.clone(), refused) == second(path)?, "{path:?}");
        for size in [5, 9, 4099] {
            assert!(by_parts(bytes, size) == (written.clone(), expected, uart));
        }
        let mut replayed = Uart::fresh();
        if written.is_empty() {
            assert!(expected.refusal.is_some() && expected.count == 0);
        } else {
            assert_eq!(written.len(), 8 + 4 * expected.count);
            assert_eq!(replayed.replay_file(&written[..])?, Outcome::Agreed);
        }
        assert_eq!(uart, replayed);
    }
    Ok(())
}

#[test]
fn a_refused_header_writes_nothing() -> Result<()> {
    for (bytes, refusal) in [
        (&b""[..], Refusal::BAD_RECORD),
        (&HEADER[..7], Refusal::BAD_RECORD),
        (b"UTX\0\x01\0\0\0\0\0\0\0", Refusal::BAD_HEADER),
        (b"UTR\0\x02\0\0\0\0\0\0\0", Refusal::UNKNOWN_VERSION),
    ] {
        let mut written = Vec::new();
        let mut uart = Uart::fresh();
        let (count, refusal) = (0, Some(refusal));
        let expected = uart.expect_file(bytes, &mut written)?;
        assert_eq!(expected, Expected { count, refusal });
        assert_eq!((written.len(), uart), (0, Uart::fresh()));
        assert!(ExpectedFile::begin(bytes).0.stopped());
    }
    Ok(())
}

// A file without an end is read no further.
#[test]
fn a_refusal_ends_it() -> Result<()> {
    for (file, refusal) in [
        (HEADER[..0].chain(repeat(0)), Refusal::BAD_HEADER),
        (HEADER.chain(repeat(0xFF)), Refusal::BAD_RECORD),
    ] {
        let expected = Uart::fresh().expect_file(file, Vec::new())?;
        let (count, refusal) = (0, Some(refusal));
        assert_eq!(expected, Expected { count, refusal });
    }
    Ok(())
}

#[test]
fn bytes_left_are_refused() -> Result<()> {
    for left in 1..4 {
        let mut bytes = [&HEADER[..], &[0xFF, 5, 0, 0x10]].concat();
        bytes.resize(12 + left, 0);
        let mut written = Vec::new();
        let expected = Uart::fresh().expect_file(&bytes[..], &mut written)?;
        let (count, refusal) = (1, Some(Refusal::BAD_RECORD));
        assert_eq!(expected, Expected { count, refusal });
        assert_eq!(written, [&HEADER[..], &[0x60, 5, 0, 0x10]].concat());
    }
    Ok(())
}

// A writer that fails where it is flushed.
struct Late;

impl Write for Late {
    fn write(&mut self, bytes: &[u8]) -> Result<usize> {
        Ok(bytes.len())
    }

    fn flush(&mut self) -> Result<()> {
        Broken.write(&[]).map(|_| ())
    }
}

#[test]
fn a_failure_leaves_the_state() {
    let mut uart = Uart::fresh();
    uart.write(LCR, 3).unwrap();
    let before = uart;
    assert!(uart.expect_file(Broken, Vec::new()).is_err());
    assert!(uart.expect_file(&HEADER[..], Broken).is_err());
    assert!(uart.expect_file(&HEADER[..], Late).is_err());
    assert_eq!(uart, before);
}

#[test]
fn progress_ends_at_the_place() -> Result<()> {
    for place in [0, 5, 4095, 4096, 9000] {
        let mut bytes = HEADER.to_vec();
        bytes.resize(8 + 4 * place, 0);
        bytes.extend([0xFF; 4]);
        bytes.resize(bytes.len() + 4 * 5000, 0);
        let length = Some(bytes.len() as u64);
        let mut told = Vec::new();
        let mut written = Vec::new();
        let expected =
            Uart::fresh()
                .expect_file_telling(&bytes[..], &mut written, length, |now| told.push(now))?;
        let (count, refusal) = (place, Some(Refusal::BAD_RECORD));
        assert_eq!(expected, Expected { count, refusal });
        assert_eq!(written, bytes[..8 + 4 * place]);
        assert!(told.iter().all(|now| now.of == length));
        let records: Vec<_> = told.iter().map(|now| now.records).collect();
        let blocks = (4096..=place).step_by(4096);
        assert_eq!(records, blocks.chain([place]).collect::<Vec<_>>());
    }
    Ok(())
}

// The stored captures, and files that give their bytes otherwise than a disk does.
use std::io::{Error, Read, Result, Write};
use std::path::{Path, PathBuf};
use std::{env, fs};

pub fn top() -> PathBuf {
    Path::new(env!("CARGO_MANIFEST_DIR")).join("../..")
}

pub fn stored() -> PathBuf {
    top().join("crates/replay_stored")
}

// The stored captures, in the order of their numbers.
pub fn captures() -> Result<Vec<PathBuf>> {
    let mut files: Vec<_> = fs::read_dir(stored().join("data"))?
        .map(|entry| entry.map(|e| e.path()))
        .collect::<Result<_>>()?;
    files.retain(|path| path.file_name().is_some_and(|name| name.len() == 3));
    files.sort();
    Ok(files)
}

// A file that gives a few bytes at a time.
pub struct Pieces<'a> {
    pub bytes: &'a [u8],
    pub size: usize,
}

impl Read for Pieces<'_> {
    fn read(&mut self, room: &mut [u8]) -> Result<usize> {
        let n = self.size.min(room.len()).min(self.bytes.len());
        let (piece, rest) = self.bytes.split_at(n);
        room[..n].copy_from_slice(piece);
        self.bytes = rest;
        Ok(n)
    }
}

// A file that fails.
pub struct Broken;

impl Read for Broken {
    fn read(&mut self, _: &mut [u8]) -> Result<usize> {
        Err(Error::other("broken"))
    }
}

impl Write for Broken {
    fn write(&mut self, _: &[u8]) -> Result<usize> {
        Err(Error::other("broken"))
    }

    fn flush(&mut self) -> Result<()> {
        Ok(())
    }
}

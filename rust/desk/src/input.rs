//! Files read whole, with a plain sentence where one cannot be.

use std::fs::File;
use std::io::{self, ErrorKind, Read};
use std::path::Path;

use mav::MAX_FLOW_LENGTH;

use crate::euro::grouped;
use crate::failure::{Failure, Outcome};
use crate::name::shown;

/// Why a file was not read.
pub enum Unread {
    /// It has more bytes than the longest flow, which the library would refuse by 1, and than any list that
    /// can be written. It is not read.
    TooLong(u64),
    Failed(io::Error),
}

impl Unread {
    /// The sentence for a clerk.
    pub fn failure(self, path: &Path) -> Failure {
        match self {
            Unread::TooLong(length) => Failure::refused(format!(
                "{} is not read: it has {} bytes, and the longest flow has {}.",
                shown(path),
                grouped(length),
                grouped(MAX_FLOW_LENGTH as u64),
            )),
            Unread::Failed(error) => Failure::of_file(path, "cannot be read", &error),
        }
    }
}

/// The bytes of a file.
pub fn read(path: &Path) -> Outcome<Vec<u8>> {
    let mut bytes = Vec::new();
    match read_into(path, &mut bytes) {
        Ok(()) => Ok(bytes),
        Err(unread) => Err(unread.failure(path)),
    }
}

/// Puts the bytes of a file in the place of what the buffer held. A pipe is read to its end too.
pub fn read_into(path: &Path, buffer: &mut Vec<u8>) -> Result<(), Unread> {
    let file = File::open(path).map_err(Unread::Failed)?;
    read_open(&file, buffer)
}

/// The same of an open file, from where it stands.
pub fn read_open(mut file: &File, buffer: &mut Vec<u8>) -> Result<(), Unread> {
    const CEILING: u64 = MAX_FLOW_LENGTH as u64;
    buffer.clear();
    let metadata = file.metadata().map_err(Unread::Failed)?;
    if metadata.is_dir() {
        return Err(Unread::Failed(ErrorKind::IsADirectory.into()));
    }
    if metadata.len() > CEILING {
        return Err(Unread::TooLong(metadata.len()));
    }
    if buffer.try_reserve_exact(metadata.len() as usize).is_err() {
        return Err(Unread::Failed(ErrorKind::OutOfMemory.into()));
    }
    let read = if metadata.is_file() {
        file.read_to_end(buffer)
    } else {
        file.take(CEILING + 1).read_to_end(buffer)
    };
    match read {
        Ok(length) if length as u64 > CEILING => Err(Unread::TooLong(length as u64)),
        Ok(_) => Ok(()),
        Err(error) => Err(Unread::Failed(error)),
    }
}

/// A copy of these bytes.
pub fn copy(bytes: &[u8]) -> Outcome<Vec<u8>> {
    let mut copy = with_room(bytes.len())?;
    copy.extend_from_slice(bytes);
    Ok(copy)
}

/// So many bytes to be written to.
pub fn zeros(length: usize) -> Outcome<Vec<u8>> {
    let mut zeros = with_room(length)?;
    zeros.resize(length, 0);
    Ok(zeros)
}

/// No bytes yet, and room for so many.
pub fn with_room(length: usize) -> Outcome<Vec<u8>> {
    let mut bytes = Vec::new();
    match bytes.try_reserve_exact(length) {
        Ok(()) => Ok(bytes),
        Err(_) => Err(Failure::trouble(
            "there is not enough memory; nothing was saved.",
        )),
    }
}

/// Whether a file has exactly these bytes. It is read in portions, so that a long one is not in memory
/// twice.
pub fn has_bytes(path: &Path, bytes: &[u8]) -> io::Result<bool> {
    const PORTION: usize = 1 << 20;
    let mut file = File::open(path)?;
    let mut portion = vec![0; PORTION.min(bytes.len() + 1)];
    let mut rest = bytes;
    loop {
        match file.read(&mut portion) {
            Ok(0) => return Ok(rest.is_empty()),
            Ok(length) => match rest.strip_prefix(&portion[..length]) {
                Some(behind) => rest = behind,
                None => return Ok(false),
            },
            Err(error) if error.kind() == ErrorKind::Interrupted => {}
            Err(error) => return Err(error),
        }
    }
}

//! The lock beside a file, which one process at a time can hold.
//!
//! The lock is the operating system's, on a small file that says who holds it. The system lets go of it when
//! its process ends, however it ends, so that a file left behind by a process that is gone blocks nobody: the
//! next one takes it over.
//!
//! A process holds the lock when it has locked the file that stands at the path. Only who has done so removes
//! that file, and a new one is made only where none stands; so what stands at the path does not change while
//! a `mavdesk` holds it, and there is never a second holder.

use std::fs::{self, File, OpenOptions, Permissions, TryLockError};
use std::io::{self, ErrorKind, Read, Write};
use std::os::unix::fs::{MetadataExt, PermissionsExt};
use std::path::{Path, PathBuf};
use std::thread;
use std::time::{Duration, SystemTime};

use crate::name::plain;

/// How often a lock that is held is tried again, and after what time: long enough for a process that is just
/// ending, and too short to be noticed. One who has not signed yet is waited for longer.
const ATTEMPTS: u32 = 20;
const UNSIGNED_ATTEMPTS: u32 = 200;
const PAUSE: Duration = Duration::from_millis(2);

/// A holder who has not signed yet.
const UNSIGNED: &str = "another process";
/// The longest name of a holder.
const LONGEST_NAME: usize = 60;
/// The length of a signature, with blanks at its end: each covers the whole of the one before.
const SIGNATURE: usize = 100;

/// A lock that this process holds, until it is dropped.
pub struct Lock {
    path: PathBuf,
    /// Open as long as the lock is held.
    file: File,
}

/// Why the lock could not be taken.
pub enum Refused {
    /// Somebody else holds it: who, and since when.
    Held(String),
    Failed(io::Error),
}

impl From<io::Error> for Refused {
    fn from(error: io::Error) -> Refused {
        Refused::Failed(error)
    }
}

impl Lock {
    /// Takes the lock at a path, or says who holds it.
    pub fn take(path: &Path) -> Result<Lock, Refused> {
        let mut told = UNSIGNED.to_owned();
        for attempt in 1..=UNSIGNED_ATTEMPTS {
            if let Some(mut file) = open(path)? {
                if holds(&file, path)? {
                    let path = path.to_owned();
                    let mut lock = Lock { path, file };
                    lock.sign()?;
                    return Ok(lock);
                }
                told = holder(&mut file)?;
                if attempt >= ATTEMPTS && !told.starts_with(UNSIGNED) {
                    break;
                }
            }
            thread::sleep(PAUSE);
        }
        Err(Refused::Held(told))
    }

    /// Writes into the lock file who holds it, in one write, so that nobody reads half a name. All who may
    /// write in the folder may take the file over; of one that was taken over this has been said.
    fn sign(&mut self) -> io::Result<()> {
        let _ = self.file.set_permissions(Permissions::from_mode(0o666));
        let mut names = ["LOGNAME", "USER"].iter().filter_map(std::env::var_os);
        let mut name = match names.find(|name| !name.is_empty()) {
            Some(name) => name.to_string_lossy().into_owned(),
            None => format!("user {}", self.file.metadata()?.uid()),
        };
        name.truncate(name.floor_char_boundary(LONGEST_NAME));
        let mut signature = format!("{name} (process {})", std::process::id()).into_bytes();
        signature.resize(SIGNATURE, b' ');
        self.file.write_all(&signature)
    }
}

impl Drop for Lock {
    fn drop(&mut self) {
        // What cannot be removed is left behind, and blocks nobody.
        if stands_at(&self.file, &self.path).unwrap_or(false) {
            let _ = fs::remove_file(&self.path);
        }
    }
}

/// Opens the lock file at a path, or makes one; nothing where it is gone again, or its maker has not yet let
/// others use it. It is opened for writing, which a disk of the network wants of a file that is locked.
fn open(path: &Path) -> io::Result<Option<File>> {
    let mut options = OpenOptions::new();
    options.read(true).write(true);
    match options.clone().create_new(true).open(path) {
        Ok(file) => return Ok(Some(file)),
        Err(error) if error.kind() == ErrorKind::AlreadyExists => {}
        Err(error) => return Err(error),
    }
    match fs::symlink_metadata(path) {
        Ok(found) if !found.is_file() => {
            return Err(io::Error::other(
                "something else stands in the place of its lock",
            ))
        }
        _ => {}
    }
    match options.open(path).map_err(|error| (error.kind(), error)) {
        Err((ErrorKind::NotFound | ErrorKind::PermissionDenied, _)) => Ok(None),
        opened => opened.map(Some).map_err(|(_, error)| error),
    }
}

/// Locks a file and says whether this process now holds the lock of the path: not where another has locked
/// it, and not where what stands at the path has become another file meanwhile.
fn holds(file: &File, path: &Path) -> io::Result<bool> {
    match file.try_lock() {
        Err(TryLockError::WouldBlock) => Ok(false),
        Err(TryLockError::Error(error)) => Err(error),
        Ok(()) => stands_at(file, path),
    }
}

/// Whether an open file is the one that stands at a path.
fn stands_at(file: &File, path: &Path) -> io::Result<bool> {
    let file = file.metadata()?;
    match fs::symlink_metadata(path) {
        Ok(there) => Ok((there.dev(), there.ino()) == (file.dev(), file.ino())),
        Err(error) if error.kind() == ErrorKind::NotFound => Ok(false),
        Err(error) => Err(error),
    }
}

/// Who holds a lock file, and since when.
fn holder(file: &mut File) -> io::Result<String> {
    let since = file.metadata()?.modified()?;
    let mut name = Vec::new();
    file.take(SIGNATURE as u64).read_to_end(&mut name)?;
    let name = match String::from_utf8_lossy(&name).trim() {
        "" => UNSIGNED.to_owned(),
        name => plain(name),
    };
    Ok(format!("{name} {}", told_since(since, SystemTime::now())))
}

/// A time of day and how long ago it was, as `since 05:42 UTC (3 minutes ago)`.
fn told_since(since: SystemTime, now: SystemTime) -> String {
    let of_day = since
        .duration_since(SystemTime::UNIX_EPOCH)
        .map_or(0, |time| time.as_secs() % 86_400);
    let ago = now.duration_since(since).map_or(0, |time| time.as_secs());
    let (number, unit) = match ago {
        0..60 => (ago, "second"),
        60..3_600 => (ago / 60, "minute"),
        3_600..86_400 => (ago / 3_600, "hour"),
        _ => (ago / 86_400, "day"),
    };
    let several = if number == 1 { "" } else { "s" };
    let (hour, minute) = (of_day / 3_600, of_day / 60 % 60);
    format!("since {hour:02}:{minute:02} UTC ({number} {unit}{several} ago)")
}

#[cfg(test)]
mod tests {
    use super::*;

    #[test]
    fn how_long_a_lock_is_held() {
        // 16 November 2026 is day 20,773 since 1970.
        let since = SystemTime::UNIX_EPOCH
            + Duration::from_secs(20_773 * 86_400 + 5 * 3_600 + 42 * 60 + 59);
        let told = |seconds| told_since(since, since + Duration::from_secs(seconds));
        assert_eq!(told(0), "since 05:42 UTC (0 seconds ago)");
        assert_eq!(told(1), "since 05:42 UTC (1 second ago)");
        assert_eq!(told(59), "since 05:42 UTC (59 seconds ago)");
        assert_eq!(told(60), "since 05:42 UTC (1 minute ago)");
        assert_eq!(told(3_599), "since 05:42 UTC (59 minutes ago)");
        assert_eq!(told(7_200), "since 05:42 UTC (2 hours ago)");
        assert_eq!(told(86_400 * 3), "since 05:42 UTC (3 days ago)");
        // A clock that was set back.
        assert_eq!(
            told_since(since, SystemTime::UNIX_EPOCH),
            "since 05:42 UTC (0 seconds ago)"
        );
    }
}

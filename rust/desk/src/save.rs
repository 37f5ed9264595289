//! Saving a file so that at every moment either its old version stands under its name or its new one, whole.
//!
//! The new version is written to a new file beside the old one, flushed to the disk, read back and compared.
//! The old version gets a second name, `NAME.before`. Then the new file is renamed over the old one, which
//! the system does in one step, and the folder is flushed. The file under its name is never written to.

use std::fs::{self, File, Metadata, OpenOptions};
use std::io::{self, ErrorKind, Write};
use std::os::unix::fs::{fchown, MetadataExt, OpenOptionsExt};
use std::path::{Path, PathBuf};

use crate::failure::{cause, Failure, Outcome};
use crate::input::{has_bytes, read_open};
use crate::lock::{Lock, Refused};
use crate::name::{self, shown};

/// Why a file was not saved.
enum Unsaved {
    /// It is no longer what was read, and no longer ours to replace.
    Changed,
    Failed(io::Error),
}

impl From<io::Error> for Unsaved {
    fn from(error: io::Error) -> Unsaved {
        Unsaved::Failed(error)
    }
}

/// A file that no other `mavdesk` can save, from the moment it is locked until this is dropped.
pub struct Target {
    /// As the clerk wrote it.
    named: PathBuf,
    /// The file itself, where the clerk's name is a link to it.
    path: PathBuf,
    /// The file as it was when it was locked; nothing where there was none.
    old: Option<File>,
    _lock: Lock,
}

impl Target {
    /// Takes the lock of a file, which there may not be yet. One that may not be written to is refused: that
    /// its folder lets a new file take its name is not enough.
    pub fn lock(named: &Path) -> Outcome<Target> {
        let unchanged = |error| Failure::of_file(named, "cannot be changed", &error);
        let path = real(named).map_err(unchanged)?;
        let lock = Lock::take(&name::lock(&path)).map_err(|refused| match refused {
            Refused::Failed(error) if error.kind() == ErrorKind::PermissionDenied => {
                let error = io::Error::other("there is no permission to write in its folder");
                Failure::of_file(named, "cannot be locked", &error)
            }
            Refused::Failed(error) => Failure::of_file(named, "cannot be locked", &error),
            Refused::Held(holder) => Failure::trouble(format!(
                "{} is locked by {holder}; nothing was changed, so try again when they are done.",
                shown(named)
            )),
        })?;
        Ok(Target {
            named: named.to_owned(),
            old: open_old(&path).map_err(unchanged)?,
            path,
            _lock: lock,
        })
    }

    /// The same of a file that is to be new: one that is there already is never replaced.
    pub fn lock_new(named: &Path) -> Outcome<Target> {
        let there = || {
            let named = shown(named);
            Failure::trouble(format!("{named} is there already; name a new file."))
        };
        // Said before the lock: who amends that file need not be waited for.
        if fs::metadata(named).is_ok_and(|found| !found.is_dir()) {
            return Err(there());
        }
        let target = Target::lock(named)?;
        // Another clerk may have made it until the lock was free.
        match target.old {
            Some(_) => Err(there()),
            None => Ok(target),
        }
    }

    /// The bytes of the file as it was locked, or nothing where there was none.
    pub fn read(&self) -> Outcome<Option<Vec<u8>>> {
        let Some(file) = &self.old else {
            return Ok(None);
        };
        let mut bytes = Vec::new();
        match read_open(file, &mut bytes) {
            Ok(()) => Ok(Some(bytes)),
            Err(unread) => Err(unread.failure(&self.named)),
        }
    }

    /// Puts the new version in the place of the old one, which must still be what was read.
    pub fn save(&self, old: Option<&[u8]>, new: &[u8]) -> Outcome {
        let folder = File::open(self.path.parent().unwrap_or(Path::new("/")))
            .map_err(|error| Failure::of_file(&self.named, "cannot be saved", &error))?;
        self.replace(old, new, &folder)
            .map_err(|unsaved| self.unsaved(unsaved, old.is_some()))?;
        flush(&folder).map_err(|error| {
            Failure::trouble(format!(
                "{} is saved, but its folder was not flushed to the disk: {}.",
                shown(&self.named),
                cause(&error)
            ))
        })
    }

    /// Clears away what was prepared, and says why the file is not saved.
    fn unsaved(&self, unsaved: Unsaved, had_old: bool) -> Failure {
        // What cannot be removed now is removed by the next save.
        let _ = fs::remove_file(name::new(&self.path));
        let _ = fs::remove_file(name::old(&self.path));
        match unsaved {
            Unsaved::Changed => Failure::trouble(format!(
                "{} is not saved: another program has changed it since it was read.",
                shown(&self.named)
            )),
            Unsaved::Failed(error) => {
                let as_it_was = if had_old { " and is as it was" } else { "" };
                let doing = format!("cannot be saved{as_it_was}");
                Failure::of_file(&self.named, &doing, &error)
            }
        }
    }

    /// The name under which the old version is kept, as the clerk can use it.
    pub fn kept_as(&self) -> PathBuf {
        if self.named.is_symlink() {
            name::before(&self.path)
        } else {
            name::before(&self.named)
        }
    }

    /// The new version on the disk, the old one under its second name, and then the renaming.
    fn replace(&self, old: Option<&[u8]>, new: &[u8], folder: &File) -> Result<(), Unsaved> {
        let new_path = name::new(&self.path);
        self.write_whole(&new_path, new)?;
        let Some(old) = old else {
            return self.name_first(&new_path);
        };
        if !self.path.try_exists()? || !has_bytes(&self.path, old)? {
            return Err(Unsaved::Changed);
        }
        self.keep(old, folder).map_err(|error| {
            let before = shown(&self.kept_as());
            io::Error::other(format!("{before} cannot be written: {}", cause(&error)))
        })?;
        fs::rename(new_path, &self.path)?;
        Ok(())
    }

    /// Gives a file its name where nothing has that name: by a hard link, which never replaces a file, or by
    /// a renaming on a disk without them.
    fn name_first(&self, new_path: &Path) -> Result<(), Unsaved> {
        let linked = fs::hard_link(new_path, &self.path);
        if linked.is_err() && self.path.try_exists()? {
            return Err(Unsaved::Changed);
        }
        match linked {
            // It has its name. That it has the other one too is mended by the next save at the latest.
            Ok(()) => drop(fs::remove_file(new_path)),
            Err(_) => fs::rename(new_path, &self.path)?,
        }
        Ok(())
    }

    /// Gives the old version the name `NAME.before` too. On a disk without hard links it is a copy.
    fn keep(&self, old: &[u8], folder: &File) -> io::Result<()> {
        let second = name::old(&self.path);
        remove_if_there(&second)?;
        if fs::hard_link(&self.path, &second).is_err() {
            self.write_whole(&second, old)?;
        }
        fs::rename(&second, name::before(&self.path))?;
        // A renaming onto another name of the same file leaves both.
        remove_if_there(&second)?;
        flush(folder)
    }

    /// Writes a new file, flushes it to the disk, reads it back and compares. It is as open to others as the
    /// old version, and not before it is so.
    fn write_whole(&self, path: &Path, bytes: &[u8]) -> io::Result<()> {
        remove_if_there(path)?;
        let mut options = OpenOptions::new();
        options.write(true).create_new(true);
        let mut file = match &self.old {
            Some(old) => alike(options.mode(0o600).open(path)?, &old.metadata()?)?,
            None => options.open(path)?,
        };
        file.write_all(bytes)?;
        file.sync_all()?;
        match has_bytes(path, bytes)? {
            true => Ok(()),
            false => Err(io::Error::other(
                "the disk gives back other bytes than were written",
            )),
        }
    }
}

/// Gives a file the owner, the group and the permissions of another. The owner is kept where the system allows
/// it; the group has to be, unless the group may do no more than everybody.
fn alike(file: File, old: &Metadata) -> io::Result<File> {
    if fchown(&file, Some(old.uid()), Some(old.gid())).is_err() {
        let _ = fchown(&file, None, Some(old.gid()));
    }
    let (of_group, of_others) = (old.mode() >> 3 & 0o7, old.mode() & 0o7);
    if of_group != of_others && file.metadata()?.gid() != old.gid() {
        return Err(io::Error::other("its group cannot be kept"));
    }
    file.set_permissions(old.permissions())?;
    Ok(file)
}

/// Flushes a folder's names to the disk, where the system has that.
fn flush(folder: &File) -> io::Result<()> {
    let has_none = [ErrorKind::InvalidInput, ErrorKind::Unsupported];
    match folder.sync_all() {
        Err(error) if has_none.contains(&error.kind()) => Ok(()),
        flushed => flushed,
    }
}

/// The file at a path, if there is one and it may be written to. Nothing is written to it.
fn open_old(path: &Path) -> io::Result<Option<File>> {
    match OpenOptions::new().read(true).write(true).open(path) {
        Ok(file) if file.metadata()?.is_file() => Ok(Some(file)),
        Ok(_) => Err(io::Error::other("it is not a plain file")),
        Err(error) if error.kind() == ErrorKind::NotFound => Ok(None),
        Err(error) => Err(error),
    }
}

fn remove_if_there(path: &Path) -> io::Result<()> {
    match fs::remove_file(path) {
        Err(error) if error.kind() == ErrorKind::NotFound => Ok(()),
        removed => removed,
    }
}

/// The file that a name stands for, through links; of a file that is not there yet, its place.
fn real(named: &Path) -> io::Result<PathBuf> {
    match fs::canonicalize(named) {
        Err(error) if error.kind() == ErrorKind::NotFound => {}
        Ok(path) if path.is_dir() => return Err(ErrorKind::IsADirectory.into()),
        found => return found,
    }
    if named.is_symlink() {
        return Err(io::Error::other("it is a link to a file that is not there"));
    }
    let no_folder = || io::Error::other("there is no such folder");
    // Such a name asks for a folder, though `file_name` gives the word before it.
    let bytes = named.as_os_str().as_encoded_bytes();
    if bytes.ends_with(b"/") || bytes.ends_with(b"/.") {
        return Err(no_folder());
    }
    let name = named.file_name().ok_or(ErrorKind::NotFound)?;
    let folder = match named.parent() {
        Some(folder) if !folder.as_os_str().is_empty() => folder,
        _ => Path::new("."),
    };
    match fs::canonicalize(folder) {
        Err(error) if error.kind() == ErrorKind::NotFound => Err(no_folder()),
        found => Ok(found?.join(name)),
    }
}

//! Why a command ends without having done what it was asked, as one plain sentence and an exit status.

use std::fmt::Display;
use std::io::{self, ErrorKind};
use std::path::Path;
use std::process::ExitCode;

use crate::name::shown;

/// What a command ends with.
pub type Outcome<T = ()> = Result<T, Failure>;

/// The end of a command that has not done what it was asked.
pub struct Failure {
    /// 1 where the rules or the clerk said no, 2 where the command could not be carried out. A comparison
    /// has its own: 1 where something differs, 2 where it could not be made.
    status: u8,
    /// The sentence, with what belongs under it; nothing where all has been said.
    text: Option<String>,
}

impl Failure {
    /// The rules refuse it, the clerk does not want it, or nothing was found.
    pub fn refused(text: impl Display) -> Failure {
        Failure::new(1, text)
    }

    /// A file, the lock, the disk or the command line is in the way.
    pub fn trouble(text: impl Display) -> Failure {
        Failure::new(2, text)
    }

    /// A file could not be read, locked, written: `doing` says which, with a verb.
    pub fn of_file(path: &Path, doing: &str, error: &io::Error) -> Failure {
        Failure::trouble(format!("{} {doing}: {}.", shown(path), cause(error)))
    }

    /// What has been printed already says it all; the exit status says it too.
    pub fn silent(status: u8) -> Failure {
        Failure { status, text: None }
    }

    /// The same of a command that was to save something, which must not end without a word.
    pub fn of_saving(self) -> Failure {
        let silent = "nothing was saved, since who was to read standard output has gone.";
        Failure {
            text: self.text.or(Some(silent.to_owned())),
            ..self
        }
    }

    /// The same of a comparison, in which 1 says that something differs, and nothing else.
    pub fn of_comparison(self) -> Failure {
        Failure { status: 2, ..self }
    }

    fn new(status: u8, text: impl Display) -> Failure {
        Failure {
            status,
            text: Some(text.to_string()),
        }
    }

    /// Writes the sentence to standard error and gives the exit status.
    pub fn tell(&self) -> ExitCode {
        if let Some(text) = &self.text {
            // Where standard error is closed, the status is all that is left to say it with.
            let _ = io::Write::write_all(
                &mut io::stderr(),
                format!("mavdesk: {}\n", text.trim_end()).as_bytes(),
            );
        }
        ExitCode::from(self.status)
    }
}

/// The errors of printing; those of files have a sentence of their own. Where the reader of standard output
/// has gone, as with `| head`, there is nobody to tell; the status still says that not all was written.
impl From<io::Error> for Failure {
    fn from(error: io::Error) -> Failure {
        match error.kind() {
            ErrorKind::BrokenPipe => Failure::silent(2),
            _ => Failure::trouble(format!(
                "standard output cannot be written: {}.",
                cause(&error)
            )),
        }
    }
}

/// The cause in plain words; where we have none, the system's own.
pub fn cause(error: &io::Error) -> String {
    let words = match error.kind() {
        ErrorKind::NotFound => "there is no such file",
        ErrorKind::PermissionDenied => "there is no permission",
        ErrorKind::StorageFull => "the disk is full",
        ErrorKind::QuotaExceeded => "the disk space allowed to this user is used up",
        ErrorKind::FileTooLarge => "the file would be larger than the system allows",
        ErrorKind::ReadOnlyFilesystem => "the disk can only be read",
        ErrorKind::IsADirectory => "it is a folder, and a file is due",
        ErrorKind::NotADirectory => "a part of its path is not a folder",
        ErrorKind::InvalidFilename => "the name is too long",
        ErrorKind::OutOfMemory => "there is not enough memory",
        _ => {
            let text = error.to_string();
            return match text.split_once(" (os error") {
                Some((system, _)) => system.to_lowercase(),
                None => text,
            };
        }
    };
    words.to_owned()
}

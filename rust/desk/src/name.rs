//! Names of files as they are shown, and of the files that stand beside a flow.

use std::ffi::{OsStr, OsString};
use std::path::{Path, PathBuf};

/// A file's name for a terminal.
pub fn shown(path: &Path) -> String {
    told(path.as_os_str())
}

/// A word of the command line for a terminal, in quotation marks where its ends could not be seen.
pub fn told(word: &OsStr) -> String {
    let word = plain(&word.to_string_lossy());
    match word.trim().len() == word.len() && !word.is_empty() {
        true => word,
        false => format!("\"{word}\""),
    }
}

/// A text in which all that moves the cursor, changes colours or turns the direction is spelled out.
pub fn plain(text: &str) -> String {
    let mut plain = String::with_capacity(text.len());
    for character in text.chars() {
        let turns = matches!(character, '\u{200e}'..='\u{200f}' | '\u{202a}'..='\u{202e}' | '\u{2066}'..='\u{2069}');
        if character.is_control() || turns {
            plain.extend(character.escape_default());
        } else {
            plain.push(character);
        }
    }
    plain
}

/// The version of a file before its last amendment: `NAME.before`.
pub fn before(path: &Path) -> PathBuf {
    beside(path, "", ".before")
}

/// The lock of a file, hidden from a plain listing of the folder.
pub fn lock(path: &Path) -> PathBuf {
    beside(path, ".", ".mavdesk-lock")
}

/// The new version of a file while it is written.
pub fn new(path: &Path) -> PathBuf {
    beside(path, ".", ".mavdesk-new")
}

/// The old version of a file until it has its name `NAME.before`.
pub fn old(path: &Path) -> PathBuf {
    beside(path, ".", ".mavdesk-old")
}

/// Whether a file of a folder is one that a clerk did not put there as a flow: hidden, an earlier version,
/// or a request list.
pub fn is_no_flow(name: &OsStr) -> bool {
    let name = name.as_encoded_bytes();
    name.starts_with(b".") || name.ends_with(b".before") || name.ends_with(b".list")
}

fn beside(path: &Path, prefix: &str, suffix: &str) -> PathBuf {
    let mut name = OsString::from(prefix);
    name.push(path.file_name().unwrap_or_default());
    name.push(suffix);
    path.with_file_name(name)
}

#[cfg(test)]
mod tests {
    use super::*;

    #[test]
    fn the_files_beside_a_flow() {
        let flow = Path::new("/night/house 7.flow");
        assert_eq!(before(flow), Path::new("/night/house 7.flow.before"));
        assert_eq!(lock(flow), Path::new("/night/.house 7.flow.mavdesk-lock"));
        assert_eq!(new(flow), Path::new("/night/.house 7.flow.mavdesk-new"));
        assert_eq!(old(flow), Path::new("/night/.house 7.flow.mavdesk-old"));
    }

    #[test]
    fn none_of_them_is_taken_for_a_flow() {
        let flow = Path::new("/night/house 7.flow");
        let beside = [before(flow), lock(flow), new(flow), old(flow)];
        assert!(beside
            .iter()
            .all(|path| is_no_flow(path.file_name().unwrap())));
        assert!(!is_no_flow(flow.file_name().unwrap()));
    }

    #[test]
    fn a_name_cannot_move_the_cursor() {
        assert_eq!(shown(Path::new("a\u{1b}[2Jb\nc")), "a\\u{1b}[2Jb\\nc");
        assert_eq!(shown(Path::new("a\u{202e}wolf.b")), "a\\u{202e}wolf.b");
        assert_eq!(shown(Path::new("casa è.flow")), "casa è.flow");
        assert_eq!(shown(Path::new("")), "\"\"");
        assert_eq!(shown(Path::new("a ")), "\"a \"");
    }
}

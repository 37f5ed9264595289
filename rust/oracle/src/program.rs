//! The small program (document 01, "The small program").

use std::io::{self, Read};

use crate::reader::read;

/// The most bytes the small program holds: 546 records.
pub const MAX_INPUT: usize = 65_520;

/// The line for one flow, without its line feed.
pub fn line(flow: &[u8]) -> String {
    if flow.len() > MAX_INPUT {
        return String::from("too long for this program");
    }
    read(flow).to_string()
}

/// The line for the flow that `input` holds.
pub fn judge(input: impl Read) -> io::Result<String> {
    let mut flow = Vec::new();
    input.take(MAX_INPUT as u64 + 1).read_to_end(&mut flow)?;
    Ok(line(&flow))
}

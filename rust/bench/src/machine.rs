//! The kind of machine, as far as the standard library tells it.

use std::env::consts::{ARCH, OS};
use std::fs;
use std::thread;

/// One line: the processor, its cores as far as they are ours, the target.
pub fn line() -> String {
    let info = fs::read_to_string("/proc/cpuinfo").unwrap_or_default();
    let processor = model(&info).unwrap_or("processor not known");
    let cores = thread::available_parallelism().map_or(0, usize::from);
    let build = if cfg!(debug_assertions) {
        "debug"
    } else {
        "release"
    };
    format!("Machine: {processor}, cores {cores}, {ARCH} {OS}, {build} build")
}

/// The model of the first processor in the text of `/proc/cpuinfo`.
fn model(info: &str) -> Option<&str> {
    let line = info.lines().find(|line| line.starts_with("model name"))?;
    Some(line.split_once(':')?.1.trim())
}

#[cfg(test)]
mod tests {
    use super::*;

    #[test]
    fn the_first_model_is_taken() {
        let info = "processor\t: 0\nmodel name\t: Some CPU @ 2.80GHz\n\nmodel name\t: Other\n";
        assert_eq!(model(info), Some("Some CPU @ 2.80GHz"));
        assert_eq!(model("processor\t: 0\n"), None);
    }
}

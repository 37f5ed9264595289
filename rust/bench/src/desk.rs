//! A morning's forty flows, as files: the command `mavdesk` beside the plain
//! reader on the same files, each as a process from its start to its end.

use std::fs::{self, File};
use std::io::{self, Read};
use std::path::{Path, PathBuf};
use std::process::{Command, Stdio};
use std::sync::atomic::{AtomicUsize, Ordering};
use std::{env, thread};

use oracle::{reader, Answer};

use crate::flows::usual;
use crate::table::{grouped, ratio, say, Table};
use crate::time::{side_by_side, Memory};

const FLOWS: usize = 40;
const DISPOSITIONS: u64 = 5_000;

/// The files, in a folder that is removed when this is dropped.
struct Folder(PathBuf);

impl Folder {
    fn new() -> io::Result<Folder> {
        let name = format!("mavdesk-bench-{}", std::process::id());
        let folder = Folder(env::temp_dir().join(name));
        fs::create_dir(&folder.0)?;
        let bytes = usual(DISPOSITIONS);
        for index in 1..=FLOWS {
            fs::write(folder.0.join(format!("house-{index:02}.flow")), &bytes)?;
        }
        Ok(folder)
    }
}

impl Drop for Folder {
    fn drop(&mut self) {
        let _ = fs::remove_dir_all(&self.0);
    }
}

/// Checking forty flows: the command, and the plain reader on one thread and
/// on as many as there are cores.
pub fn checking(rounds: usize) {
    let this = env::current_exe().expect("the system tells the path of this program");
    let mavdesk = this.with_file_name("mavdesk");
    if !mavdesk.is_file() {
        say("5. The command is not built: cargo build --release -p desk builds it.\n");
        return;
    }
    let folder = Folder::new().expect("the temporary folder holds forty flows");
    let cores = thread::available_parallelism().map_or(1, usize::from);
    let checked = |_: &mut [u8]| run(Command::new(&mavdesk).arg("check").arg(&folder.0));
    let plain = |threads: usize| {
        let (this, folder) = (&this, &folder.0);
        move |_: &mut [u8]| {
            let threads = threads.to_string();
            run(Command::new(this).arg("plain").arg(folder).arg(threads));
        }
    };
    let times = side_by_side(
        rounds,
        &mut Memory::none(),
        [&checked, &plain(1), &plain(cores)],
    );
    let mut table = Table::new(&["check", "best ms", "mavdesk/this", "median"]);
    let on_all = format!("plain Rust, {cores} threads");
    let names = ["mavdesk check", "plain Rust, 1 thread", &on_all];
    for (side, name) in names.iter().enumerate() {
        table.row([
            name.to_string(),
            format!("{:.1}", times.best(side) * 1e3),
            ratio(times.ratio(0, side)),
            ratio(times.median_ratio(0, side)),
        ]);
    }
    say(&format!(
        "5. Checking {FLOWS} files of {} dispositions each\n\n{table}",
        grouped(DISPOSITIONS)
    ));
}

/// Runs a command, which has to accept all flows.
fn run(command: &mut Command) {
    let status = command.stdout(Stdio::null()).status();
    let accepted = status.is_ok_and(|status| status.success());
    assert!(accepted, "{command:?} accepts the forty flows");
}

/// Reads and judges the files of a folder with the plain reader, on so many
/// threads, and prints the answers in order.
pub fn plain(folder: &Path, threads: usize) -> io::Result<()> {
    let entries = fs::read_dir(folder)?.map(|entry| entry.map(|entry| entry.path()));
    let mut flows = entries.collect::<io::Result<Vec<_>>>()?;
    flows.sort();
    let next = AtomicUsize::new(0);
    let judged = || {
        let mut bytes = Vec::new();
        let mut answers = Vec::new();
        while let Some(flow) = flows.get(next.fetch_add(1, Ordering::Relaxed)) {
            bytes.clear();
            File::open(flow)?.read_to_end(&mut bytes)?;
            answers.push((flow, reader::read(&bytes)));
        }
        io::Result::Ok(answers)
    };
    let mut answers = thread::scope(|scope| {
        let workers: Vec<_> = (0..threads).map(|_| scope.spawn(judged)).collect();
        let joined = workers.into_iter().map(|worker| worker.join());
        let each = joined.map(|answers| answers.expect("the plain reader does not panic"));
        each.collect::<io::Result<Vec<_>>>()
    })?
    .concat();
    answers.sort_by_key(|(flow, _)| *flow);
    for (flow, answer) in &answers {
        say(&format!("{}: {answer}", flow.display()));
    }
    let accepted = |(_, answer): &(_, Answer)| matches!(answer, Answer::Accepted { .. });
    match answers.iter().all(accepted) {
        true => Ok(()),
        false => Err(io::Error::other("a flow is refused")),
    }
}

//! Files of cases with the answers due, for comparing another program.
//!
//! Every file is text in lines, each ended by a line feed.
//!
//! The field rules (`oracle vectors fields IN OUT`): a line of IN is a case,
//! the line of OUT with the same number its answer; see [`FieldCase`]. One
//! line more ends OUT.
//!
//! The flow rules (`oracle vectors flow IN OUT`), which are the reader's cases
//! and then those of where a disposition is: OUT has as many lines as IN.
//!
//! | line of IN | the same line of OUT |
//! |---|---|
//! | `# six 59s`, the name of the case whose flow comes next | as it is |
//! | `=` and the bytes of one flow | the reader's answer |
//! | `?` and a number k of 64 bits, in decimal | where disposition k of the latest flow is |
//!
//! After the `=` each byte of the flow stands as it is, but every byte outside
//! 32 to 126 and the backslash as a backslash and two lower-case hex digits,
//! `\0a` and `\5c`. An empty flow is the line `=` alone. The reader's answer is
//! `accepted dispositions 2 cents 83050 records 16 kind requests`, of recalls
//! `.. kind recalls`, or `refused 9 record 10 position 4`; there is no limit of
//! 65,520 bytes.
//!
//! Where a disposition is:
//! `found first 2 records 7 cents 45000 part 840 " 140000001" " 700000001"` or
//! `refused 15 record 0 position 0 part 0`. After `part` stands the length of
//! its part of the flow, and of a found one in quotes the first 10 bytes of
//! the part and of its last record: type and number, which tell a part that
//! begins or ends at another record.
//!
//! Request lists (`oracle vectors list IN OUT`): OUT has as many lines as IN.
//!
//! | line of IN | the same line of OUT |
//! |---|---|
//! | `# two rents`, the name of the case whose bytes come next | as it is |
//! | `=` and the bytes of one list or flow, as above | `bytes` and how many they are |
//! | `>` and a room in decimal | the latest bytes as a list, written to an output of that room |
//! | `<` and a room in decimal | the latest bytes as a flow, read back to an output of that room |
//! | `><` | the list written, and the flow read back |
//! | `<>` | the flow read back, and its list written |
//!
//! Before a call with a room the output, and 64 bytes after it, hold the byte
//! 128 + i % 101 at index i from 0. Its line is
//! `accepted dispositions 2 cents 83050 records 16 kind requests length 1920 kept
//! 64 " IMAB123.."`: the answer; the length returned; how many bytes of the
//! output after that length, and of the 64, are all as before; and the bytes
//! written, in quotes and escaped as above. Where one has changed, `changed at
//! 1925` stands for `kept 64` and gives the first one's index. Of a refused call,
//! as
//! `refused 21 record 0 position 0 length 0 kept 1983`, all of the output
//! counts. More than 16,384 bytes written are given as `adler 1234567`, their
//! Adler-32 checksum, and the last 120 of them in quotes.
//!
//! A round trip has an output of 131,072 bytes each way, marked likewise. Its line is
//! `there 1236 back 1920 same`, the two lengths returned, or
//! `there 1236 back 1920 differs at 226`, with the first index at which the bytes
//! that came back are not those of the case; or the first refusal of the two,
//! `refused 9 record 10 position 4`.
//!
//! Amount changes and withdrawals (`oracle vectors amend IN OUT`): OUT has as
//! many lines as IN. The first flow's memory is as long as that flow, and each
//! call is lent the flow that the one before it left, at its length.
//!
//! | line of IN | the same line of OUT |
//! |---|---|
//! | `# two rents: 1 withdrawn`, the name of the case whose flow comes next | as it is |
//! | `=` and the bytes of one flow, as above | the flow told |
//! | `!2 40000` | the amount of disposition 2 changed to 40000, and the flow left told |
//! | `-1` | disposition 1 withdrawn, and the flow left told |
//! | `@16` | record 16 of the first flow's memory, in quotes and escaped as above |
//!
//! A flow is told as
//! `reads accepted dispositions 1 cents 38050 records 9 kind requests list 643
//! adler 1234567 flow 1080 adler 7654321 blank 840 kept 64`: the reader's answer;
//! the length and the Adler-32 checksum of its list, read back; its own length
//! and checksum; how many bytes of the first flow's memory lie after it, all
//! blank; and how many bytes after that memory are all as before, of 64 that hold
//! the byte 128 + i % 101 at index i of the memory from 0. Where one is not,
//! `not blank at 1081` or `changed at 1925` gives the first one's index. Of a
//! refused flow the list is `list 0 adler 1`.
//!
//! Before that stands the answer of the call, of a withdrawal with the length
//! returned: `accepted dispositions 2 cents 85000 records 16 kind requests reads
//! ..`, `accepted dispositions 1 cents 38050 records 9 kind requests length 1080
//! reads ..`, or `refused 15 record 0 position 0 length 1920 reads ..`, after which
//! the flow is told as it was before the call. Answers, lengths and lists are
//! those of the ledger, or of the reader where it refuses the flow; the flows are
//! those of the amendments.
//!
//! What differs between two evenings (`oracle vectors evenings IN OUT`): OUT has
//! as many lines as IN. A flow stays lent until another takes its place.
//!
//! | line of IN | the same line of OUT |
//! |---|---|
//! | `# ab and ba`, the name of the case that comes next | as it is |
//! | `(` and the bytes of the old flow, as above | `old 1920`, its length |
//! | `)` and the bytes of the new flow | `new 1080` |
//! | `~` | the old and the new flow exchanged: `old 1080 new 1920` |
//! | `=66049 2` | the account, with a working memory of 66049 numbers and room for 2 lines |
//! | `?66049 1` | line 1 of it, with a working memory of 66049 numbers |
//!
//! Before a call the account's room, and 64 bytes after it, hold the byte 128 +
//! i % 101 at index i from 0; the working memory, and 64 numbers after it, hold
//! the number 1 + i % 60013.
//!
//! The account's line is `accepted kept 1 dropped 1 added 0 length 2 kept 64 "DK"
//! zero 66049 as before 64`: how many requests are kept, dropped and added; the
//! length returned; how many bytes of the room after that length, and of the 64,
//! are all as before; the bytes written, in quotes; how many numbers of the
//! working memory, all zero; and how many after it are all as before. Of a
//! refused call, as `refused 27 record 0 position 0 length 0 kept 66 as before
//! 66113`, all of the room and all of the working memory count. Where something
//! is otherwise, `changed at 3` stands for `kept 64` or `as before 64`, and `not
//! zero at 3` for `zero 66049`, with the first index.
//!
//! A line asked is `line D record 2 part 120 " 140000001" at 120 of old zero 66049
//! as before 64`: its letter; the number of its record 14; the length of the part
//! of the flow that this is, and its first 10 bytes in quotes, as they stand; the
//! index of the part's first byte in its flow, and which flow that is, `old` or
//! `new`; and the working memory as above. A refused one is `refused 15 record 0
//! position 0 part 0 as before 66113`.
//!
//! Generated flows (`oracle vectors flows SEED COUNT DIR`): a file for each
//! flow, and `expected` with the small program's line for each.

use std::fmt::Write;
use std::path::Path;
use std::{fs, io};

use crate::amend::{change, withdraw};
use crate::answer::Answer;
use crate::evenings::{compare, line, Side};
use crate::find::find;
use crate::ledger::{Call, Ledger};
use crate::list::{write_flow, write_list};
use crate::list_cases::Asked;
use crate::reader::read;
use crate::record::RECORD_LEN;
use crate::{
    amend_cases, evenings_cases, fields, find_cases, generate, list_cases, program, reader_cases,
};

/// Writes the input and the output file of the field rules.
pub fn write_fields(input: &Path, output: &Path) -> io::Result<()> {
    write_both(field_files(), input, output)
}

/// Writes the input and the output file of the flow rules.
pub fn write_flow_rules(input: &Path, output: &Path) -> io::Result<()> {
    write_both(flow_files(), input, output)
}

/// Writes the input and the output file of request lists.
pub fn write_lists(input: &Path, output: &Path) -> io::Result<()> {
    write_both(list_files(), input, output)
}

/// Writes the input and the output file of amount changes and withdrawals.
pub fn write_amendments(input: &Path, output: &Path) -> io::Result<()> {
    write_both(amend_files(), input, output)
}

/// Writes the input and the output file of what differs between two evenings.
pub fn write_evenings(input: &Path, output: &Path) -> io::Result<()> {
    write_both(evenings_files(), input, output)
}

fn write_both(files: (String, String), input: &Path, output: &Path) -> io::Result<()> {
    fs::write(input, files.0)?;
    fs::write(output, files.1)
}

/// The input and the output file of the flow rules.
pub fn flow_files() -> (String, String) {
    let (reader, find) = (reader_files(), find_files());
    (reader.0 + &find.0, reader.1 + &find.1)
}

/// The reader's cases and their answers.
pub fn reader_files() -> (String, String) {
    let (mut input, mut output) = (String::new(), String::new());
    for reader_cases::Case { name, flow } in reader_cases::cases() {
        let _ = writeln!(input, "# {name}\n={}", escaped(&flow));
        let _ = writeln!(output, "# {name}\n{}", read(&flow));
    }
    (input, output)
}

/// The cases of where a disposition is and their answers.
pub fn find_files() -> (String, String) {
    let (mut input, mut output) = (String::new(), String::new());
    for find_cases::Case { name, flow, asked } in find_cases::cases() {
        let _ = writeln!(input, "# {name}\n={}", escaped(&flow));
        let _ = writeln!(output, "# {name}\n{}", read(&flow));
        for k in asked {
            let _ = writeln!(input, "?{k}");
            let _ = writeln!(output, "{}", find_line(&flow, k));
        }
    }
    (input, output)
}

/// The cases of request lists and their answers.
pub fn list_files() -> (String, String) {
    let (mut input, mut output) = (String::new(), String::new());
    for list_cases::Case { name, bytes, asked } in list_cases::cases() {
        let _ = writeln!(input, "# {name}\n={}", escaped(&bytes));
        let _ = writeln!(output, "# {name}\nbytes {}", bytes.len());
        for asked in asked {
            let (question, answer) = match asked {
                Asked::Write(room) => (format!(">{room}"), filled_line(write_flow, &bytes, room)),
                Asked::ReadBack(room) => {
                    (format!("<{room}"), filled_line(write_list, &bytes, room))
                }
                Asked::WriteAndBack => ("><".into(), trip_line(write_flow, write_list, &bytes)),
                Asked::BackAndWrite => ("<>".into(), trip_line(write_list, write_flow, &bytes)),
            };
            let _ = writeln!(input, "{question}");
            let _ = writeln!(output, "{answer}");
        }
    }
    (input, output)
}

/// The cases of amount changes and withdrawals and their answers.
pub fn amend_files() -> (String, String) {
    let (mut input, mut output) = (String::new(), String::new());
    for amend_cases::Case { name, flow, asked } in amend_cases::cases() {
        let mut held = Held::new(&flow);
        let _ = writeln!(input, "# {name}\n={}", escaped(&flow));
        let _ = writeln!(output, "# {name}\n{}", held.told());
        for asked in asked {
            let (question, answer) = match asked {
                amend_cases::Asked::Call(call) => (call_line(call), held.call(call)),
                amend_cases::Asked::Record(n) => (format!("@{n}"), held.record(n)),
            };
            let _ = writeln!(input, "{question}");
            let _ = writeln!(output, "{answer}");
        }
    }
    (input, output)
}

/// The cases of what differs between two evenings and their answers.
pub fn evenings_files() -> (String, String) {
    let (mut input, mut output) = (String::new(), String::new());
    let mut lent = Lent::default();
    for case in evenings_cases::cases() {
        let _ = writeln!(input, "# {}", case.name);
        let _ = writeln!(output, "# {}", case.name);
        let (old, new) = (&case.old, &case.new);
        let mut lines = lent.lend(old, new);
        lines.extend(case.asked.iter().map(|asked| match *asked {
            evenings_cases::Asked::Compare { work, room } => (
                format!("={work} {room}"),
                compared_line(old, new, work, room),
            ),
            evenings_cases::Asked::Line { work, n } => {
                (format!("?{work} {n}"), asked_line(old, new, work, n))
            }
        }));
        for (question, answer) in lines {
            let _ = writeln!(input, "{question}");
            let _ = writeln!(output, "{answer}");
        }
    }
    (input, output)
}

/// The two flows lent so far.
#[derive(Default)]
struct Lent {
    old: Option<Vec<u8>>,
    new: Option<Vec<u8>>,
}

impl Lent {
    /// The lines that lend these two. A flow that is lent already is not lent
    /// again; where it is on the other side, the two are exchanged.
    fn lend(&mut self, old: &[u8], new: &[u8]) -> Vec<(String, String)> {
        let is = |lent: &Option<Vec<u8>>, flow: &[u8]| lent.as_deref() == Some(flow);
        let stays = is(&self.old, old) || is(&self.new, new);
        let mut lines = Vec::new();
        if !stays && (is(&self.old, new) || is(&self.new, old)) {
            std::mem::swap(&mut self.old, &mut self.new);
            let len = |lent: &Option<Vec<u8>>| lent.as_ref().map_or(0, Vec::len);
            let answer = format!("old {} new {}", len(&self.old), len(&self.new));
            lines.push((String::from("~"), answer));
        }
        if !is(&self.old, old) {
            let answer = format!("old {}", old.len());
            lines.push((format!("({}", escaped(old)), answer));
            self.old = Some(old.to_vec());
        }
        if !is(&self.new, new) {
            let answer = format!("new {}", new.len());
            lines.push((format!("){}", escaped(new)), answer));
            self.new = Some(new.to_vec());
        }
        lines
    }
}

/// The number at an index of a working memory before a call.
fn work_marker(index: usize) -> u16 {
    1 + (index % 60_013) as u16
}

/// A working memory of so many numbers, and those after it.
fn marked_work(work: usize) -> Vec<u16> {
    (0..work + BEHIND).map(work_marker).collect()
}

/// The line of a comparison.
fn compared_line(old: &[u8], new: &[u8], work: usize, room: usize) -> String {
    let mut account: Vec<u8> = (0..room + BEHIND).map(marker).collect();
    let mut memory = marked_work(work);
    match compare(old, new, &mut memory[..work], &mut account[..room]) {
        Ok(done) => format!(
            "accepted kept {} dropped {} added {} length {} {} {} {}",
            done.kept,
            done.dropped,
            done.added,
            done.len,
            kept_from(&account, done.len),
            quoted(&account[..done.len]),
            zeroed(&memory, work),
        ),
        Err(refusal) => format!(
            "{} length 0 {} {}",
            Answer::from(refusal),
            kept_from(&account, 0),
            as_before(&memory, 0),
        ),
    }
}

/// The line of a line asked.
fn asked_line(old: &[u8], new: &[u8], work: usize, n: u64) -> String {
    let mut memory = marked_work(work);
    match line(old, new, &mut memory[..work], n) {
        Ok(found) => format!(
            "line {} record {} part {} {} at {} of {} {}",
            char::from(found.letter),
            found.record,
            found.part.len(),
            quoted(&found.part[..10]),
            found.offset,
            match found.side {
                Side::Old => "old",
                Side::New => "new",
            },
            zeroed(&memory, work),
        ),
        Err(refusal) => format!("{} part 0 {}", Answer::from(refusal), as_before(&memory, 0)),
    }
}

/// Whether the first so many numbers of a memory are zero and the others as
/// before.
fn zeroed(memory: &[u16], work: usize) -> String {
    let zero = match memory[..work].iter().position(|&number| number != 0) {
        Some(index) => format!("not zero at {index}"),
        None => format!("zero {work}"),
    };
    format!("{zero} {}", as_before(memory, work))
}

/// Whether the numbers from an index on are as before.
fn as_before(memory: &[u16], from: usize) -> String {
    match (from..memory.len()).find(|&index| memory[index] != work_marker(index)) {
        Some(index) => format!("changed at {index}"),
        None => format!("as before {}", memory.len() - from),
    }
}

/// Whether the bytes of an output from an index on are as before.
fn kept_from(out: &[u8], from: usize) -> String {
    match (from..out.len()).find(|&index| out[index] != marker(index)) {
        Some(index) => format!("changed at {index}"),
        None => format!("kept {}", out.len() - from),
    }
}

/// A call as the input file has it.
fn call_line(call: Call) -> String {
    match call {
        Call::Change { k, cents } => format!("!{k} {cents}"),
        Call::Withdraw { k } => format!("-{k}"),
    }
}

/// A flow in the first flow's memory, and its ledger; a flow that the reader
/// refuses has none.
struct Held {
    memory: Vec<u8>,
    len: usize,
    ledger: Option<Ledger>,
}

impl Held {
    fn new(flow: &[u8]) -> Held {
        let mut list = vec![0; flow.len()];
        let (answer, len) = write_list(flow, &mut list);
        let accepted = matches!(answer, Answer::Accepted { .. });
        Held {
            memory: flow.to_vec(),
            len: flow.len(),
            ledger: accepted.then(|| Ledger::new(&list[..len])).flatten(),
        }
    }

    /// Runs a call on the flow and feeds the ledger; the line of the call.
    fn call(&mut self, call: Call) -> String {
        let lent = &mut self.memory[..self.len];
        let (answer, len) = match &mut self.ledger {
            Some(ledger) => ledger.call(call),
            None => (read(lent), None),
        };
        let length = match call {
            Call::Change { k, cents } => {
                change(lent, k, cents);
                String::new()
            }
            Call::Withdraw { k } => {
                withdraw(lent, k);
                self.len = len.unwrap_or(self.len);
                format!(" length {}", self.len)
            }
        };
        format!("{answer}{length} {}", self.told())
    }

    /// The flow left as the lines tell it.
    fn told(&self) -> String {
        let (flow, behind) = self.memory.split_at(self.len);
        let list = self.ledger.as_ref().map(Ledger::list).unwrap_or_default();
        let blank = match behind.iter().position(|&byte| byte != b' ') {
            Some(index) => format!("not blank at {}", self.len + index),
            None => format!("blank {}", behind.len()),
        };
        format!(
            "reads {} list {} adler {} flow {} adler {} {blank} kept {BEHIND}",
            read(flow),
            list.len(),
            adler(&list),
            flow.len(),
            adler(flow),
        )
    }

    /// A record of the memory, counted from 1.
    fn record(&self, n: usize) -> String {
        let (records, _) = self.memory.as_chunks::<RECORD_LEN>();
        format!("\"{}\"", escaped(&records[n - 1]))
    }
}

/// A call that fills an output: writing a list or reading a flow back.
type Fill = fn(&[u8], &mut [u8]) -> (Answer, usize);

/// How many bytes after the room are looked at too.
const BEHIND: usize = 64;
/// Above this length the checksum and the last record stand for the bytes.
const SHOWN: usize = 16_384;
/// The room of each output of a round trip.
const TRIP_ROOM: usize = 131_072;

/// The byte at an index of an output before a call: none of a list or a flow.
fn marker(index: usize) -> u8 {
    128 + (index % 101) as u8
}

/// The line of a call with an output of this room.
fn filled_line(fill: Fill, bytes: &[u8], room: usize) -> String {
    let mut out: Vec<u8> = (0..room + BEHIND).map(marker).collect();
    let (answer, len) = fill(bytes, &mut out[..room]);
    let mut line = format!("{answer} length {len} {}", kept_from(&out, len));
    let written = &out[..len];
    if len > SHOWN {
        let _ = write!(line, " adler {}", adler(written));
    }
    if len > 0 {
        let shown = if len > SHOWN {
            &written[len - RECORD_LEN..]
        } else {
            written
        };
        let _ = write!(line, " \"{}\"", escaped(shown));
    }
    line
}

/// The Adler-32 checksum.
fn adler(bytes: &[u8]) -> u32 {
    let (mut low, mut high) = (1, 0);
    for &byte in bytes {
        low = (low + u32::from(byte)) % 65_521;
        high = (high + low) % 65_521;
    }
    high << 16 | low
}

/// The line of one call and of the other on what the first has written.
fn trip_line(there: Fill, back: Fill, bytes: &[u8]) -> String {
    let mut between: Vec<u8> = (0..TRIP_ROOM).map(marker).collect();
    let mut out = between.clone();
    let (answer, len) = there(bytes, &mut between);
    if let Answer::Refused { .. } = answer {
        return answer.to_string();
    }
    let (answer, again) = back(&between[..len], &mut out);
    if let Answer::Refused { .. } = answer {
        return answer.to_string();
    }
    let lengths = format!("there {len} back {again}");
    if out[..again] == *bytes {
        return format!("{lengths} same");
    }
    let pairs = bytes.iter().zip(&out[..again]);
    let equal = pairs.take_while(|(one, other)| one == other).count();
    format!("{lengths} differs at {equal}")
}

/// The line of where disposition `k` is.
fn find_line(flow: &[u8], k: u64) -> String {
    let found = match find(flow, k) {
        Ok(found) => found,
        Err(refusal) => return format!("{} part 0", Answer::from(refusal)),
    };
    let part = &flow[found.bytes];
    let last = &part[part.len() - RECORD_LEN..];
    format!(
        "found first {} records {} cents {} part {} {} {}",
        found.first,
        found.records,
        found.cents,
        part.len(),
        quoted(&part[..10]),
        quoted(&last[..10]),
    )
}

/// Bytes of an accepted flow in quotes.
fn quoted(bytes: &[u8]) -> String {
    let text: String = bytes.iter().copied().map(char::from).collect();
    format!("\"{text}\"")
}

/// The bytes of a flow as the input file has them.
fn escaped(flow: &[u8]) -> String {
    let mut text = String::new();
    for &byte in flow {
        match byte {
            b'\\' | ..32 | 127.. => {
                let _ = write!(text, "\\{byte:02x}");
            }
            _ => text.push(char::from(byte)),
        }
    }
    text
}

/// Writes `count` generated flows, `000001.flow` and on, after them those of
/// edge sizes (`generate::edge_flows`), numbered on, and the file `expected`
/// with the small program's line for each.
pub fn write_flows(seed: u64, count: u64, dir: &Path) -> io::Result<()> {
    fs::create_dir_all(dir)?;
    let mut expected = String::new();
    let generated = (1..=count).map(|index| generate::flow_case(seed, index));
    for (index, flow) in (1_u64..).zip(generated.chain(generate::edge_flows(seed))) {
        fs::write(dir.join(format!("{index:06}.flow")), &flow)?;
        expected.push_str(&program::line(&flow));
        expected.push('\n');
    }
    fs::write(dir.join("expected"), expected)
}

/// One case of a field rule: the letter of the rule and the bytes it is given.
///
/// | letter | rule | bytes |
/// |---|---|---|
/// | `n` | digits | the field |
/// | `a` | amount | the field |
/// | `d` | date | the field |
/// | `w` | digit writer | one byte of length, eight of value, big-endian |
/// | `b` | blank | the slice |
/// | `e` | equality | one byte, the length of the first slice; both slices |
#[derive(Clone, Debug, Eq, PartialEq)]
pub struct FieldCase {
    pub rule: u8,
    pub bytes: Vec<u8>,
}

impl FieldCase {
    /// The line of the input file: the letter, then lower-case hex pairs.
    pub fn line(&self) -> String {
        let mut line = String::from(char::from(self.rule));
        for byte in &self.bytes {
            let _ = write!(line, "{byte:02x}");
        }
        line
    }

    /// The line of the output file.
    pub fn answer(&self) -> String {
        match self.rule {
            b'n' => value_line(fields::digits(&self.bytes)),
            b'a' => value_line(fields::amount(&self.bytes)),
            b'd' => date_line(fields::date(&self.bytes)),
            b'w' => writer_line(&self.bytes),
            b'b' => yes_or_no(fields::is_blank(&self.bytes)),
            b'e' => equality_line(&self.bytes),
            _ => String::from("no such rule"),
        }
    }
}

fn value_line(result: Result<u64, u8>) -> String {
    match result {
        Ok(value) => format!("value {value}"),
        Err(number) => format!("refused {number}"),
    }
}

fn date_line(result: Result<fields::Date, u8>) -> String {
    match result {
        Ok(date) => format!("day {} month {} year {}", date.day, date.month, date.year),
        Err(number) => format!("refused {number}"),
    }
}

fn writer_line(bytes: &[u8]) -> String {
    let Some((&len, value)) = bytes.split_first() else {
        return String::new();
    };
    let value = value
        .iter()
        .fold(0, |sum, &byte| sum << 8 | u64::from(byte));
    let mut out = vec![b'?'; usize::from(len)];
    fields::write_digits(&mut out, value);
    out.into_iter().map(char::from).collect()
}

fn equality_line(bytes: &[u8]) -> String {
    let (first, second) = match bytes.split_first() {
        Some((&len, rest)) => rest.split_at(usize::from(len).min(rest.len())),
        None => (bytes, bytes),
    };
    yes_or_no(fields::is_equal(first, second))
}

fn yes_or_no(yes: bool) -> String {
    String::from(if yes { "yes" } else { "no" })
}

/// The input and the output file of the field rules.
pub fn field_files() -> (String, String) {
    let (mut input, mut output) = (String::new(), String::new());
    for case in field_cases() {
        input.push_str(&case.line());
        input.push('\n');
        output.push_str(&case.answer());
        output.push('\n');
    }
    output.push_str(&six_digits_line());
    output.push('\n');
    (input, output)
}

/// The last line of the output: all strings of six digits through the date
/// rule.
fn six_digits_line() -> String {
    let (mut dates, mut no_date, mut not_digits) = (0, 0, 0);
    let mut field = [0; fields::DATE_LEN];
    for value in 0..1_000_000 {
        fields::write_digits(&mut field, value);
        match fields::date(&field) {
            Ok(_) => dates += 1,
            Err(fields::NO_DATE) => no_date += 1,
            Err(_) => not_digits += 1,
        }
    }
    format!("six digits: dates {dates} refused-8 {no_date} refused-5 {not_digits}")
}

/// All cases of the field rules.
pub fn field_cases() -> Vec<FieldCase> {
    let mut cases = Cases(Vec::new());
    cases.digits();
    cases.amounts();
    cases.dates();
    cases.writer();
    cases.blanks();
    cases.equality();
    cases.0
}

/// Bytes that are no digits: the neighbours of the digits and of the blank,
/// both ends of a byte, a digit with its high bit set, and marks that a
/// lenient number parser would take.
const INTRUDERS: [u8; 14] = [
    0, 9, 10, 31, b' ', b'+', b'-', b'.', b'/', b':', b'a', 127, 0xb1, 255,
];

struct Cases(Vec<FieldCase>);

impl Cases {
    fn push(&mut self, rule: u8, bytes: &[u8]) {
        let bytes = bytes.to_vec();
        let case = FieldCase { rule, bytes };
        if !self.0.contains(&case) {
            self.0.push(case);
        }
    }

    /// The right field `bytes`, then each byte of `places` replaced by each
    /// intruder.
    fn intrude(&mut self, rule: u8, bytes: &[u8], places: &[usize]) {
        self.push(rule, bytes);
        for &place in places {
            for intruder in INTRUDERS {
                let mut bytes = bytes.to_vec();
                if let Some(byte) = bytes.get_mut(place) {
                    *byte = intruder;
                    self.push(rule, &bytes);
                }
            }
        }
    }

    /// Right and wrong fields of a number of `len` bytes.
    fn number(&mut self, rule: u8, len: usize) {
        self.push(rule, &vec![b'0'; len]);
        self.push(rule, &vec![b'9'; len]);
        self.push(rule, &vec![b' '; len]);
        let rising: Vec<u8> = (0..len).map(|i| b'0' + ((i + 1) % 10) as u8).collect();
        self.push(rule, &rising);
        for place in [0, len / 2, len - 1] {
            let mut single = vec![b'0'; len];
            single[place] = b'1';
            self.push(rule, &single);
        }
    }

    fn digits(&mut self) {
        self.push(b'n', b"");
        self.push(b'n', b"83050");
        for byte in 0..=255 {
            self.push(b'n', &[byte]);
        }
        for len in [1, 2, 5, 7, 13, 14, 15, 16, 17, 19, 20, 21, 32] {
            self.number(b'n', len);
        }
        self.intrude(b'n', b"83050", &[0, 1, 2, 3, 4]);
        self.intrude(b'n', b"0000016", &[0, 3, 6]);
        self.intrude(b'n', b"999999999999999", &[0, 7, 14]);
        self.intrude(b'n', b"0999999999999999", &[0, 7, 15]);
    }

    fn amounts(&mut self) {
        self.push(b'a', b"");
        self.push(b'a', b"45000");
        for len in [1, 12, 13, 14, 15, 16, 26] {
            self.number(b'a', len);
        }
        self.intrude(b'a', b"0000000045000", &[0, 1, 6, 11, 12]);
        self.intrude(b'a', b"000000045000", &[0, 11]);
        self.intrude(b'a', b"00000000045000", &[0, 13]);
        self.push(b'a', b"        45000");
        self.push(b'a', b"45000        ");
        self.push(b'a', b"0000000450.00");
        self.push(b'a', b"00000000450,0");
        self.zero_amounts();
    }

    /// Amounts of zero (document 02, E5), a byte away from it, and with bytes
    /// that a lenient rule would take for zeros.
    fn zero_amounts(&mut self) {
        let zero = [b'0'; fields::AMOUNT_LEN];
        self.intrude(b'a', &zero, &[0, 6, 12]);
        for place in 0..zero.len() {
            for byte in *b"19" {
                let mut single = zero;
                single[place] = byte;
                self.push(b'a', &single);
            }
        }
        for byte in [0, b'O', b'o', 0xb0] {
            self.push(b'a', &[byte; fields::AMOUNT_LEN]);
        }
        self.push(b'a', b"000000000000O");
        self.push(b'a', b"0000000000.00");
        self.push(b'a', b"            0");
        self.push(b'a', b"0            ");
    }

    fn dates(&mut self) {
        for len in [0, 1, 4, 5, 7, 8, 12] {
            self.push(b'd', &b"010101010101"[..len]);
            self.push(b'd', &b"            "[..len]);
        }
        self.push(b'd', b"      ");
        self.push(b'd', b"15032026");
        self.push(b'd', b"2026-03-15");
        for year in 0..100 {
            self.day(29, 2, year);
        }
        for year in [0, 26, 28, 99] {
            for month in 0..=14 {
                for day in [0, 1, 28, 29, 30, 31, 32] {
                    self.day(day, month, year);
                }
            }
        }
        for day in [0, 28, 30, 31, 32, 39, 99] {
            self.day(day, 2, 96);
            self.day(day, 20, 96);
            self.day(day, 99, 96);
        }
        self.push(b'd', b"000000");
        self.push(b'd', b"999999");
        self.intrude(b'd', b"150326", &[0, 1, 2, 3, 4, 5]);
        // No digits and no date either: the digits come first.
        self.intrude(b'd', b"320026", &[4, 5]);
        self.intrude(b'd', b"001326", &[4, 5]);
    }

    fn day(&mut self, day: u8, month: u8, year: u8) {
        self.push(b'd', format!("{day:02}{month:02}{year:02}").as_bytes());
    }

    fn writer(&mut self) {
        let mut values = vec![0, 5, 83050, 9_999_999, 123_456_789_012_345];
        for exponent in 1..20 {
            let power = 10_u64.pow(exponent);
            values.extend([power - 1, power]);
        }
        values.extend([1 << 32, (1 << 32) - 1, 1 << 63, u64::MAX - 1, u64::MAX]);
        for len in [0, 1, 2, 5, 7, 13, 15, 19, 20, 21, 32] {
            for value in &values {
                let mut bytes = vec![len];
                bytes.extend(value.to_be_bytes());
                self.push(b'w', &bytes);
            }
        }
    }

    fn blanks(&mut self) {
        self.push(b'b', b"");
        for byte in 0..=255 {
            self.push(b'b', &[byte]);
        }
        for len in [2, 5, 7, 8, 9, 16, 17, 20, 24, 30, 33] {
            self.push(b'b', &vec![b' '; len]);
            for place in [0, len / 2, len - 1] {
                for byte in [0, 31, 33, 0xa0, 255] {
                    let mut bytes = vec![b' '; len];
                    bytes[place] = byte;
                    self.push(b'b', &bytes);
                }
            }
        }
    }

    fn equality(&mut self) {
        for len in [0, 1, 2, 5, 7, 8, 16, 20] {
            let first: Vec<u8> = (0..len).map(|i| b"AB 123"[i % 6]).collect();
            self.pair(&first, &first);
            for byte in [0, 31, b' ', 33, b'B', 255] {
                let longer = [&first[..], &[byte]].concat();
                self.pair(&first, &longer);
                self.pair(&longer, &first);
                self.pair(&[&[byte], &first[..]].concat(), &first);
            }
            for place in [0, len / 2, len.saturating_sub(1)] {
                for byte in [0, 31, b' ', 33, 255] {
                    let mut second = first.clone();
                    if let Some(changed) = second.get_mut(place) {
                        *changed = byte;
                        self.pair(&first, &second);
                        self.pair(&second, &first);
                    }
                }
            }
        }
        self.pair(b"", b"AB123");
        self.pair(b"AB123", b"");
        self.pair(b"ab123", b"AB123");
        self.pair(b"12345", b"54321");
        self.pair(b"\0\0\0", b"\0\0");
    }

    fn pair(&mut self, first: &[u8], second: &[u8]) {
        let mut bytes = vec![first.len() as u8];
        bytes.extend(first);
        bytes.extend(second);
        self.push(b'e', &bytes);
    }
}

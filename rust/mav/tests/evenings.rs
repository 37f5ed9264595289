//! What differs between two evenings (document 02, E7): the account and its lines, what a call leaves in each
//! of the caller's buffers, and the order of the refusals.

mod common;

use common::{of_call, put, refused, sample};
use mav::{
    raw, AccountLine, Compared, Letter, Reason, Refusal, MAX_ACCOUNT_LENGTH, MAX_COMPARED, MIN_WORK,
};

/// The account of two flows, with its numbers.
fn account(old: &[u8], new: &[u8]) -> Result<(Compared, String), Refusal> {
    let mut account = [b'#'; MAX_ACCOUNT_LENGTH];
    let compared = mav::compare(old, new, &mut work(), &mut account)?;
    let letters = account[..compared.length].to_vec();
    Ok((compared, String::from_utf8(letters).expect("letters")))
}

/// The letters of an account that is due, with their numbers.
fn due(letters: &str) -> Result<(Compared, String), Refusal> {
    let count = |letter| letters.matches(letter).count() as u64;
    let compared = Compared {
        kept: count('K'),
        dropped: count('D'),
        added: count('A'),
        length: letters.len(),
    };
    Ok((compared, letters.to_owned()))
}

/// Line `n` of the account of two flows.
fn line<'a>(old: &'a [u8], new: &'a [u8], n: u64) -> Result<AccountLine<'a>, Refusal> {
    mav::compare_line(old, new, &mut work(), n)
}

/// The least working memory.
fn work() -> Vec<u16> {
    vec![0; MIN_WORK]
}

/// The flow of these of the forty rents, in this order.
fn evening(numbers: &[usize]) -> Vec<u8> {
    let list = sample("forty-rents.list");
    let mut rents: Vec<Vec<u8>> = Vec::new();
    for item in mav::items(&list).skip(1) {
        if item[0] == b'D' {
            rents.push(Vec::new());
        }
        rents.last_mut().expect("a D comes first").extend(item);
    }
    assert_eq!(rents.len(), 40);
    let mut evening = list[..50].to_vec();
    for number in numbers {
        evening.extend(&rents[number - 1]);
    }
    mav::write_to_vec(&evening).expect("rents").1
}

/// The flow of so many rents, all like the first of the two with this amount.
fn rents(count: usize, cents: u64) -> Vec<u8> {
    let mut list = sample("two-rents.list");
    // After the H of 50 bytes: D, six bytes of date, and the amount.
    list[57..70].copy_from_slice(format!("{cents:013}").as_bytes());
    let rent = list[50..643].to_vec();
    list.truncate(50);
    list.extend(rent.repeat(count));
    let (told, flow) = mav::write_to_vec(&list).expect("rents");
    assert_eq!(told.dispositions, count as u64);
    flow
}

#[test]
fn the_limits_are_those_of_the_document() {
    assert_eq!((MAX_COMPARED, MIN_WORK), (256, 66_049));
    assert_eq!(MIN_WORK as u64, (MAX_COMPARED + 1) * (MAX_COMPARED + 1));
    assert_eq!(MAX_ACCOUNT_LENGTH as u64, 2 * MAX_COMPARED);
}

#[test]
fn the_two_evenings_of_the_samples() {
    let (old, new) = (sample("last-night.flow"), sample("tonight.flow"));
    assert_eq!(account(&old, &new), due("KKDKDAAKKK"));
    // The way back.
    assert_eq!(account(&new, &old), due("KKAKDDAKKK"));
    assert_eq!(account(&old, &old), due("KKKKKKKK"));
    assert_eq!(account(&new, &new), due("KKKKKKKK"));
}

#[test]
fn every_line_of_the_samples_has_its_record_14() {
    use Letter::{Added, Dropped, Kept};
    let (old, new) = (sample("last-night.flow"), sample("tonight.flow"));
    // The rents have 7 records, but the second has 8, and so has the sixth.
    let lines = [
        (Kept, 2),
        (Kept, 9),
        (Dropped, 17),
        (Kept, 17),
        (Dropped, 31),
        (Added, 24),
        (Added, 31),
        (Kept, 38),
        (Kept, 46),
        (Kept, 53),
    ];
    for (n, (letter, record)) in (1..).zip(lines) {
        let told = line(&old, &new, n).expect("one of ten");
        assert_eq!((told.letter, told.record), (letter, record), "{n}");
        let flow = if letter == Dropped { &old } else { &new };
        let due = &flow[120 * (record as usize - 1)..120 * record as usize];
        // Not bytes that are alike, but the same ones.
        assert_eq!(told.part.as_ptr_range(), due.as_ptr_range(), "{n}");
        assert_eq!(&told.part[1..3], b"14");
    }
}

#[test]
fn a_flow_and_itself() {
    for file in [
        "two-rents.flow",
        "two-rents-recall.flow",
        "two-rents-filler.flow",
    ] {
        let flow = sample(file);
        assert_eq!(account(&flow, &flow), due("KK"), "{file}");
        // Of one slice lent twice the part is told all the same.
        let told = line(&flow, &flow, 2).expect("two lines");
        assert_eq!(told.part.as_ptr_range(), flow[960..1_080].as_ptr_range());
    }
    let flow = sample("forty-rents.flow");
    assert_eq!(account(&flow, &flow), due(&"K".repeat(40)));
}

#[test]
fn a_withdrawn_one_is_dropped_and_its_number_does_not_count() {
    let old = sample("two-rents.flow");
    let mut new = old.clone();
    mav::withdraw(&mut new, 1).expect("two");
    assert_eq!(account(&old, &new), due("DK"));
    assert_eq!(account(&new, &old), due("AK"));
    let dropped = line(&old, &new, 1).expect("two lines");
    assert_eq!((dropped.letter, dropped.record), (Letter::Dropped, 2));
    assert_eq!(dropped.part.as_ptr_range(), old[120..240].as_ptr_range());
    // The one kept is told of the new flow, in which it is the first.
    let kept = line(&old, &new, 2).expect("two lines");
    assert_eq!((kept.letter, kept.record), (Letter::Kept, 2));
    assert_eq!(kept.part.as_ptr_range(), new[120..240].as_ptr_range());
    assert_eq!(&kept.part[3..10], b"0000001");
    let mut new = old.clone();
    mav::withdraw(&mut new, 2).expect("two");
    assert_eq!(account(&old, &new), due("KD"));
}

#[test]
fn what_no_item_carries_does_not_count() {
    let flow = sample("two-rents.flow");
    assert_eq!(account(&flow, &sample("two-rents-filler.flow")), due("KK"));
    // Sender, bank, date and name of the header, and with them the trailer and the ABI of each 14.
    let mut other = flow.clone();
    for end in [1, 16] {
        put(&mut other, end, 4, b"ZZ99909999311226ANOTHER NAME        ");
    }
    for opening in [2, 9] {
        put(&mut other, opening, 48, b"09999");
    }
    mav::read(&other).expect("an accepted flow");
    assert_eq!(account(&flow, &other), due("KK"));
}

#[test]
fn what_an_item_carries_counts() {
    let flow = sample("two-rents.flow");
    // Record and position of a byte of each item of the second rent.
    for (record, position) in [
        (9, 46),
        (9, 28),
        (9, 69),
        (9, 101),
        (10, 35),
        (11, 40),
        (12, 70),
        (13, 120),
        (14, 120),
        (15, 120),
    ] {
        let mut other = flow.clone();
        let byte = if position == 28 { b'5' } else { b'1' };
        put(&mut other, record, position, &[byte]);
        if position == 46 {
            put(&mut other, 16, 53, b"000000000083051");
        }
        mav::read(&other).expect("an accepted flow");
        assert_eq!(
            account(&flow, &other),
            due("KDA"),
            "record {record}, {position}"
        );
    }
}

#[test]
fn recalls_are_compared_with_recalls_alone() {
    let recalls = sample("two-rents-recall.flow");
    let mut one = recalls.clone();
    mav::withdraw(&mut one, 2).expect("two");
    assert_eq!(account(&recalls, &one), due("KD"));
    let requests = sample("two-rents.flow");
    let refusal = of_call(Reason::KindsDiffer);
    for (old, new) in [(&requests, &recalls), (&recalls, &requests)] {
        assert_eq!(account(old, new), Err(refusal));
        for n in [0, 1, u64::MAX] {
            assert_eq!(line(old, new, n), Err(refusal));
        }
    }
}

#[test]
fn the_account_is_the_one_of_the_rule() {
    for (old, new, letters) in [
        (&[1, 2, 3][..], &[1, 2, 3][..], "KKK"),
        (&[1, 2, 3], &[2, 3], "DKK"),
        (&[1, 2, 3], &[1, 3], "KDK"),
        (&[2, 3], &[1, 2, 3], "AKK"),
        // Another in its place: dropped before it is added.
        (&[1, 2, 3], &[1, 4, 3], "KDAK"),
        // Two of two, in the other order: the first is dropped, and stands behind.
        (&[1, 2], &[2, 1], "DKA"),
        // Nothing is kept: all drops come first.
        (&[1, 2], &[3, 4, 5], "DDAAA"),
        // The same one several times.
        (&[1, 1, 1], &[1], "KDD"),
        (&[1], &[1, 1, 1], "KAA"),
        // To keep a run of three costs less than to keep the first.
        (&[1, 2, 3, 4], &[2, 3, 4, 1], "DKKKA"),
        // An add before a drop, where a drop would lose two.
        (&[1, 2, 3, 4], &[4, 1, 2, 3], "AKKKD"),
    ] {
        let told = account(&evening(old), &evening(new));
        assert_eq!(told, due(letters), "{old:?} {new:?}");
    }
}

/// Goes through an account, and holds each line against the dispositions of the flows.
fn as_told(old: &[u8], new: &[u8]) {
    let (_, letters) = account(old, new).expect("right flows");
    let mut of_old = mav::dispositions(old).expect("right");
    let mut of_new = mav::dispositions(new).expect("right");
    for (n, byte) in (1..).zip(letters.bytes()) {
        let letter = Letter::of(byte).expect("K, D or A");
        let (before, after) = match letter {
            Letter::Kept => (of_old.next(), of_new.next()),
            Letter::Dropped => (of_old.next(), None),
            Letter::Added => (None, of_new.next()),
        };
        let disposition = after.or(before).expect("as many as there are letters");
        let told = line(old, new, n).expect("one of the lines");
        assert_eq!(
            (told.letter, told.record),
            (letter, disposition.first_record)
        );
        let opening = &disposition.part[..120];
        assert_eq!(told.part.as_ptr_range(), opening.as_ptr_range());
    }
    assert_eq!((of_old.next(), of_new.next()), (None, None));
    let past = letters.len() as u64 + 1;
    let refusal = of_call(Reason::NoSuchDisposition);
    assert_eq!(line(old, new, past), Err(refusal));
}

#[test]
fn every_line_goes_through_both_flows_in_order() {
    let evenings = [
        &[1, 2, 3, 4, 5, 6, 7][..],
        &[7, 6, 5, 4, 3, 2, 1],
        &[2, 2, 9, 4, 4],
        &[40],
        &[1, 3, 5, 7, 9, 11, 2, 4, 6],
    ]
    .map(evening);
    for old in &evenings {
        for new in &evenings {
            as_told(old, new);
        }
    }
}

#[test]
fn no_line_has_the_number_0_or_one_past_the_end() {
    let (old, new) = (sample("last-night.flow"), sample("tonight.flow"));
    let refusal = of_call(Reason::NoSuchDisposition);
    for n in [0, 11, 12, 513, 1 << 32, (1 << 32) + 1, u64::MAX] {
        assert_eq!(line(&old, &new, n), Err(refusal), "{n}");
    }
}

#[test]
fn two_hundred_and_fifty_six_a_side() {
    let old = rents(256, 45_000);
    assert_eq!(account(&old, &old), due(&"K".repeat(256)));
    // All of them differ: the longest account there is.
    let new = rents(256, 45_001);
    let letters = ["D", "A"].map(|letter| letter.repeat(256)).concat();
    assert_eq!(account(&old, &new), due(&letters));
    let last = line(&old, &new, 512).expect("512 lines");
    assert_eq!((last.letter, last.record), (Letter::Added, 2 + 255 * 7));
    assert_eq!(
        account(&old, &rents(1, 45_000)),
        due(&("K".to_owned() + &"D".repeat(255)))
    );
}

#[test]
fn more_than_256_on_either_side() {
    let (least, most) = (rents(1, 45_000), rents(256, 45_000));
    let refusal = of_call(Reason::TooManyRequests);
    for count in [257, 300] {
        let many = rents(count, 45_000);
        for (old, new) in [
            (&many, &least),
            (&least, &many),
            (&most, &many),
            (&many, &many),
        ] {
            assert_eq!(account(old, new), Err(refusal));
            assert_eq!(line(old, new, 1), Err(refusal));
        }
    }
}

/// What each call refuses, with its working memory, room and line; the account first.
fn refusals(
    old: &[u8],
    new: &[u8],
    work: usize,
    room: usize,
    n: u64,
) -> (Option<Refusal>, Option<Refusal>) {
    let mut work = vec![0; work];
    let told = mav::compare(old, new, &mut work, &mut vec![0; room]);
    (told.err(), mav::compare_line(old, new, &mut work, n).err())
}

#[test]
fn refusals_come_in_their_order() {
    let both = |refusal| (Some(refusal), Some(refusal));
    let right = sample("two-rents.flow");
    let recalls = sample("two-rents-recall.flow");
    let block_twice = sample("refused-09-block-twice.flow");
    let digits = sample("refused-05-digits.flow");
    let many = rents(257, 45_000);
    let nine = refused(Reason::DispositionNumber, 9, 4);
    let five = refused(Reason::NotDigits, 2, 34);
    // The old flow's, the new flow's, and either before all that follows.
    assert_eq!(refusals(&block_twice, &digits, 0, 0, 0), both(nine));
    assert_eq!(refusals(&digits, &block_twice, 0, 0, 0), both(five));
    assert_eq!(refusals(&block_twice, &many, 0, 0, 0), both(nine));
    assert_eq!(refusals(&many, &block_twice, 0, 0, 0), both(nine));
    assert_eq!(refusals(&recalls, &digits, 0, 0, 0), both(five));
    assert_eq!(
        refusals(&[], &digits, 0, 0, 0),
        both(of_call(Reason::Length))
    );
    assert_eq!(
        refusals(&right, &[], 0, 0, 0),
        both(of_call(Reason::Length))
    );
    // 27 before 28, 28 before 34.
    let too_many = of_call(Reason::TooManyRequests);
    assert_eq!(refusals(&many, &recalls, 0, 0, 0), both(too_many));
    assert_eq!(refusals(&recalls, &many, 0, 0, 0), both(too_many));
    let kinds = of_call(Reason::KindsDiffer);
    assert_eq!(refusals(&right, &recalls, 0, 0, 0), both(kinds));
    // 34 before 21 and 15.
    let memory = of_call(Reason::WorkingMemory);
    for work in [0, 1, MIN_WORK - 1] {
        assert_eq!(refusals(&right, &right, work, 0, 0), both(memory));
        assert_eq!(refusals(&right, &right, work, 512, 1), both(memory));
    }
    let room = Some(of_call(Reason::Room));
    let no_line = Some(of_call(Reason::NoSuchDisposition));
    assert_eq!(refusals(&right, &right, MIN_WORK, 0, 0), (room, no_line));
    assert_eq!(refusals(&right, &right, MIN_WORK, 1, 3), (room, no_line));
    assert_eq!(refusals(&right, &right, MIN_WORK, 2, 2), (None, None));
}

/// How many guards stand on each side of a buffer.
const GUARDS: usize = 64;

/// A buffer between guards, all of which have values of their own.
#[derive(PartialEq)]
struct Lent<T>(Vec<T>);

impl<T: Copy> Lent<T> {
    fn new(contents: &[T], guard: impl Fn(usize) -> T) -> Lent<T> {
        let before = (0..GUARDS).map(&guard);
        let after = (GUARDS..2 * GUARDS).map(&guard);
        Lent(
            before
                .chain(contents.iter().copied())
                .chain(after)
                .collect(),
        )
    }

    fn slice(&mut self) -> &mut [T] {
        let end = self.0.len() - GUARDS;
        &mut self.0[GUARDS..end]
    }
}

/// Bytes that no flow and no account has stand around it.
fn bytes(contents: &[u8]) -> Lent<u8> {
    Lent::new(contents, |i| 0x80 | (i % 127) as u8)
}

/// An account of this length in which no letter stands.
fn marked(room: usize) -> Lent<u8> {
    let marks: Vec<u8> = (0..room).map(|i| 0x80 | (i % 113) as u8).collect();
    bytes(&marks)
}

/// Working memory of this length of which no number is zero, nor its guards.
fn numbers(length: usize) -> Lent<u16> {
    let mark = |i: usize| 1 + (i % 65_521) as u16;
    Lent::new(&(0..length).map(mark).collect::<Vec<_>>(), mark)
}

/// The working memory that is due after a call on it.
fn left<T>(told: &Result<T, Refusal>, length: usize) -> Lent<u16> {
    let mut left = numbers(length);
    if told.is_ok() {
        left.slice().fill(0);
    }
    left
}

/// Makes both calls on buffers between guards, and holds all memory against what is due: as before where
/// refused; where accepted the working memory is zero, and the account as before beyond its length. Gives the
/// reasons, the account's first.
fn kept(old: &[u8], new: &[u8], work: usize, room: usize, n: u64) -> [Option<Reason>; 2] {
    let (mut of_old, mut of_new) = (bytes(old), bytes(new));
    let (mut lent, mut account) = (numbers(work), marked(room));
    let told = mav::compare(
        of_old.slice(),
        of_new.slice(),
        lent.slice(),
        account.slice(),
    );
    assert!(lent == left(&told, work));
    let written = told.as_ref().map_or(0, |compared| compared.length);
    let letters = account.slice()[..written].to_vec();
    assert!(letters.iter().all(|&byte| Letter::of(byte).is_some()));
    let mut due = marked(room);
    due.slice()[..written].copy_from_slice(&letters);
    assert!(account == due);
    let mut lent = numbers(work);
    let of_line = mav::compare_line(of_old.slice(), of_new.slice(), lent.slice(), n);
    assert!(lent == left(&of_line, work));
    let refusals = [told.err(), of_line.err()];
    assert!(of_old == bytes(old) && of_new == bytes(new));
    refusals.map(|told| told.map(|refusal| refusal.reason))
}

#[test]
fn an_accepted_call_leaves_the_working_memory_zero_and_the_rest() {
    let (old, new) = (sample("last-night.flow"), sample("tonight.flow"));
    for work in [MIN_WORK, MIN_WORK + 1, 70_000, 200_000] {
        for room in [10, 11, 512, 1_000] {
            for n in [1, 5, 10] {
                assert_eq!(kept(&old, &new, work, room, n), [None, None]);
            }
        }
    }
    let (old, new) = (rents(256, 1), rents(256, 2));
    assert_eq!(kept(&old, &new, MIN_WORK, 512, 512), [None, None]);
    assert_eq!(kept(&old, &old, MIN_WORK + 1, 256, 256), [None, None]);
}

#[test]
fn a_refused_call_leaves_every_byte_and_every_number() {
    let right = sample("two-rents.flow");
    let recalls = sample("two-rents-recall.flow");
    let many = rents(257, 45_000);
    let of_record_14 = [Reason::OtherKind, Reason::ZeroAmount];
    for reason in Reason::ALL.iter().take(14).chain(&of_record_14) {
        let file = refused_flow(reason.number());
        let wrong = sample(&file);
        for (old, new) in [(&wrong, &right), (&right, &wrong), (&wrong, &wrong)] {
            assert_eq!(
                kept(old, new, MIN_WORK, 512, 1),
                [Some(*reason); 2],
                "{file}"
            );
        }
    }
    let told = |reason| [Some(reason); 2];
    assert_eq!(
        kept(&right, &many, MIN_WORK, 512, 1),
        told(Reason::TooManyRequests)
    );
    assert_eq!(
        kept(&many, &right, MIN_WORK, 512, 1),
        told(Reason::TooManyRequests)
    );
    assert_eq!(
        kept(&right, &recalls, MIN_WORK, 512, 1),
        told(Reason::KindsDiffer)
    );
    for work in [0, 1, 257, MIN_WORK - 1] {
        assert_eq!(
            kept(&right, &right, work, 512, 1),
            told(Reason::WorkingMemory)
        );
    }
    let last = [Some(Reason::Room), Some(Reason::NoSuchDisposition)];
    for (work, room, n) in [(MIN_WORK, 0, 0), (MIN_WORK, 1, 3), (70_000, 1, u64::MAX)] {
        assert_eq!(kept(&right, &right, work, room, n), last);
    }
}

/// The sample of a flow that is refused by this number.
fn refused_flow(number: u64) -> String {
    let front = format!("refused-{number:02}-");
    let folder = common::root().join("samples");
    let entries = std::fs::read_dir(folder).expect("the samples");
    let mut names = entries.map(|entry| entry.expect("a sample").file_name());
    let found = names.find_map(|name| {
        let name = name.into_string().ok()?;
        (name.starts_with(&front) && name.ends_with(".flow")).then_some(name)
    });
    found.unwrap_or_else(|| panic!("no sample of {number}"))
}

/// What a call returns, and the entries after it.
fn reply(call: impl FnOnce(&mut raw::Entries) -> u8) -> (u8, raw::Entries) {
    let mut answer = [u64::MAX; 8];
    let status = call(&mut answer);
    (status, answer)
}

#[test]
fn all_eight_entries_are_written() {
    let (old, new) = (sample("last-night.flow"), sample("tonight.flow"));
    let recalls = sample("two-rents-recall.flow");
    let (mut lent, mut room) = (work(), [0; 10]);
    let told = reply(|answer| raw::compare(&old, &new, &mut lent, &mut room, answer));
    assert_eq!(told, (1, [6, 2, 2, 10, 0, 0, 0, 0]));
    assert_eq!(&room, b"KKDKDAAKKK");
    let told = reply(|answer| raw::compare_line(&old, &new, &mut lent, 3, answer));
    assert_eq!(told, (1, [u64::from(b'D'), 17, 0, 0, 0, 0, 0, 0]));
    let told = reply(|answer| raw::compare_line(&old, &new, &mut lent, 4, answer));
    assert_eq!(told, (1, [u64::from(b'K'), 17, 0, 0, 0, 0, 0, 0]));
    let told = reply(|answer| raw::compare_line(&old, &new, &mut lent, 6, answer));
    assert_eq!(told, (1, [u64::from(b'A'), 24, 0, 0, 0, 0, 0, 0]));
    // Refused: number, record, position, and no length.
    let told = reply(|answer| raw::compare(&old, &new, &mut lent, &mut room[..9], answer));
    assert_eq!(told, (0, [21, 0, 0, 0, 0, 0, 0, 0]));
    let told = reply(|answer| raw::compare_line(&old, &new, &mut lent, 11, answer));
    assert_eq!(told, (0, [15, 0, 0, 0, 0, 0, 0, 0]));
    let told = reply(|answer| raw::compare(&old, &recalls, &mut lent, &mut room, answer));
    assert_eq!(told, (0, [28, 0, 0, 0, 0, 0, 0, 0]));
    let told = reply(|answer| raw::compare_line(&old, &recalls, &mut lent, 1, answer));
    assert_eq!(told, (0, [28, 0, 0, 0, 0, 0, 0, 0]));
    let told = reply(|answer| raw::compare(&old, &new, &mut lent[1..], &mut room, answer));
    assert_eq!(told, (0, [34, 0, 0, 0, 0, 0, 0, 0]));
    let told = reply(|answer| raw::compare_line(&old, &new, &mut [], 1, answer));
    assert_eq!(told, (0, [34, 0, 0, 0, 0, 0, 0, 0]));
    let many = rents(257, 1);
    let told = reply(|answer| raw::compare(&many, &new, &mut lent, &mut room, answer));
    assert_eq!(told, (0, [27, 0, 0, 0, 0, 0, 0, 0]));
    let wrong = sample("refused-09-block-twice.flow");
    let told = reply(|answer| raw::compare(&old, &wrong, &mut lent, &mut room, answer));
    assert_eq!(told, (0, [9, 9, 4, 0, 0, 0, 0, 0]));
    let told = reply(|answer| raw::compare_line(&wrong, &new, &mut lent, 1, answer));
    assert_eq!(told, (0, [9, 9, 4, 0, 0, 0, 0, 0]));
}

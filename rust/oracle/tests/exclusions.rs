//! What document 01, "What the promises must exclude", shuts out.

mod common;

use common::*;
use oracle::amend::{change, withdraw};
use oracle::find::find;
use oracle::generate::{self, Size};
use oracle::reader::read;
use oracle::rng::Rng;
use oracle::Answer;

#[test]
fn a_reader_that_refuses_everything_or_has_one_reply() {
    assert_eq!(two_rents().read(), accepted(2, 83_050, 16));
    assert_eq!(one_rent().read(), accepted(1, 45_000, 9));
    assert_eq!(two_recalls().read(), recalled(2, 83_050, 16));
    assert_eq!(read(b""), refused(1, 0, 0));
}

/// Right flows are accepted, and a right call on one is never refused.
#[test]
fn an_amendment_that_always_refuses() {
    for index in 0..500 {
        let mut rng = Rng::for_case(61, index);
        let flow = generate::draft(&mut rng, Size::Small).flow();
        let Answer::Accepted { dispositions, .. } = read(&flow) else {
            panic!("a draft is right");
        };
        for k in 1..=dispositions {
            let changed = change(&mut flow.clone(), k, 9_999_999_999_999);
            assert!(matches!(changed, Answer::Accepted { .. }));
            let (withdrawn, _) = withdraw(&mut flow.clone(), k);
            match dispositions {
                1 => assert_eq!(withdrawn, refused(18, 0, 0)),
                _ => assert!(matches!(withdrawn, Answer::Accepted { .. })),
            }
        }
    }
}

#[test]
fn an_amendment_that_touches_nothing() {
    let mut flow = two_rents().bytes();
    change(&mut flow, 1, 45_001);
    let mut due = two_rents_list();
    due[57..70].copy_from_slice(b"0000000045001");
    assert_eq!(list_of(&flow), due);
    let (_, len) = withdraw(&mut flow, 2);
    assert_eq!(list_of(&flow[..len]), due[..50 + 593]);
}

/// Call after call on the same buffer, each answered from what the one before
/// it left.
#[test]
fn one_that_serves_the_first_amendment_and_fakes_the_rest() {
    let mut buffer = oracle::samples::forty_rents().flow();
    let mut len = buffer.len();
    let (mut count, mut cents, mut records) = (40, 2_225_000, 368);
    while count > 1 {
        let k = 1 + count * 5 % 7 % count;
        let found = find(&buffer[..len], k).unwrap();
        let answer = change(&mut buffer[..len], k, count);
        cents = cents - found.cents + count;
        assert_eq!(answer, accepted(count, cents, records));
        assert_eq!(find(&buffer[..len], k).unwrap().cents, count);
        let (answer, left) = withdraw(&mut buffer[..len], k);
        cents -= count;
        count -= 1;
        records -= found.records;
        assert_eq!(answer, accepted(count, cents, records));
        assert_eq!(left, records as usize * 120);
        len = left;
        assert_eq!(read(&buffer[..len]), answer);
    }
    assert!(buffer[len..].iter().all(|&byte| byte == b' '));
}

#[test]
fn made_up_counts() {
    for index in 0..500 {
        let mut rng = Rng::for_case(62, index);
        let size = Size::any(&mut rng, 50);
        let flow = generate::draft(&mut rng, size).flow();
        let openings = || flow.chunks(120).filter(|record| &record[1..3] == b"14");
        let cents = openings().map(|record| {
            let text = std::str::from_utf8(&record[33..46]).unwrap();
            text.parse::<u64>().unwrap()
        });
        let answer = match &openings().next().unwrap()[28..33] {
            b"07000" => accepted,
            _ => recalled,
        };
        let due = answer(
            openings().count() as u64,
            cents.sum(),
            flow.len() as u64 / 120,
        );
        assert_eq!(read(&flow), due);
    }
}

//! The dispositions of a flow one after the other: each is the one that `find` gives.

mod common;

use common::{differences, positions, refused, sample};
use mav::{Disposition, FlowKind, Reason};

const RIGHT: [&str; 7] = [
    "two-rents.flow",
    "two-rents-recall.flow",
    "two-rents-filler.flow",
    "one-rent.flow",
    "forty-rents.flow",
    "last-night.flow",
    "tonight.flow",
];

/// All that is given of a flow, held against `find`.
fn as_found(flow: &[u8]) -> Vec<Disposition<'_>> {
    let given = mav::dispositions(flow).expect("an accepted flow");
    assert_eq!(Ok(given.accepted()), mav::read(flow));
    let count = given.accepted().dispositions;
    assert_eq!(given.len() as u64, count);
    let given: Vec<_> = given.collect();
    let found: Vec<_> = (1..=count)
        .map(|k| mav::find(flow, k).expect("one of the count"))
        .collect();
    assert_eq!(given, found);
    for (given, found) in given.iter().zip(&found) {
        // Not bytes that are alike, but the same ones.
        assert_eq!(given.part.as_ptr_range(), found.part.as_ptr_range());
        assert_eq!(
            flow[given.range()].as_ptr_range(),
            given.part.as_ptr_range()
        );
    }
    given
}

#[test]
fn the_two_rents() {
    for file in ["two-rents.flow", "two-rents-recall.flow"] {
        let flow = sample(file);
        let due = [(1, 2, 45_000, 120..960), (2, 9, 38_050, 960..1_800)].map(
            |(number, first_record, cents, bytes)| Disposition {
                number,
                first_record,
                records: 7,
                cents,
                part: &flow[bytes],
            },
        );
        assert_eq!(as_found(&flow), due);
    }
}

#[test]
fn the_kind_is_that_of_the_flow() {
    let kind = |file| mav::dispositions(&sample(file)).map(|given| given.accepted().kind);
    assert_eq!(kind("two-rents.flow"), Ok(FlowKind::Requests));
    assert_eq!(kind("two-rents-recall.flow"), Ok(FlowKind::Recalls));
}

#[test]
fn the_samples() {
    for file in RIGHT {
        let flow = sample(file);
        let given = as_found(&flow);
        let parts: Vec<&[u8]> = given.iter().map(|given| given.part).collect();
        assert_eq!(parts.concat(), flow[120..flow.len() - 120], "{file}");
    }
    // With 16 and without it, with a 50 and with one to five 59.
    let forty = sample("forty-rents.flow");
    let given = as_found(&forty);
    let mut lengths: Vec<u64> = given.iter().map(|given| given.records).collect();
    lengths.sort_unstable();
    lengths.dedup();
    assert_eq!(lengths, [7, 8, 9, 11]);
}

#[test]
fn a_refused_flow_gives_its_refusal_alone() {
    let flow = sample("two-rents.flow");
    for length in 0..flow.len() {
        let told = mav::dispositions(&flow[..length]).map(|given| given.accepted());
        assert_eq!(told, mav::read(&flow[..length]));
    }
    let block_twice = sample("refused-09-block-twice.flow");
    let refusal = mav::dispositions(&block_twice).unwrap_err();
    assert_eq!(refusal.reason, Reason::DispositionNumber);
    let refusal = mav::dispositions(&sample("refused-22-kind.flow")).unwrap_err();
    assert_eq!(refusal, refused(Reason::OtherKind, 9, 29));
}

/// How many are left is known before each, and after the last one there is nothing more.
#[test]
fn the_length_falls_to_zero_and_stays() {
    let flow = sample("forty-rents.flow");
    let mut given = mav::dispositions(&flow).expect("right");
    for left in (0..40).rev() {
        assert!(given.next().is_some());
        assert_eq!((given.len(), given.size_hint()), (left, (left, Some(left))));
    }
    for _ in 0..3 {
        assert_eq!(given.next(), None);
        assert_eq!(given.len(), 0);
    }
    assert_eq!(given.accepted().dispositions, 40);
}

#[test]
fn a_copy_goes_on_from_where_it_was_made() {
    let flow = sample("forty-rents.flow");
    let mut given = mav::dispositions(&flow).expect("right");
    assert_eq!(given.nth(16), mav::find(&flow, 17).ok());
    let copy = given.clone();
    assert_eq!(copy.len(), 23);
    assert!(copy.eq(given));
}

/// The positions that hold any text by document 01: the carried ones without a check but "present", and
/// those neither checked nor carried.
fn free(record_type: &[u8]) -> &'static [(usize, usize)] {
    match record_type {
        b"IM" => &[(1, 1), (40, 104), (112, 113), (115, 120)],
        b"14" => &[(1, 1), (11, 22), (58, 91), (98, 119)],
        b"16" => &[(1, 1), (26, 120)],
        b"70" => &[(1, 1), (11, 93), (95, 120)],
        b"EF" => &[(1, 1), (40, 45), (90, 113), (115, 120)],
        _ => &[(1, 1), (11, 120)],
    }
}

/// The flow with this text over and over at every free position, from one field on to the next and from the
/// last byte of a record to the first of the next. It is right as before.
fn filled(flow: &[u8], text: &[u8], skip: usize) -> Vec<u8> {
    let mut filled = flow.to_vec();
    let mut letters = text.iter().cycle().skip(skip);
    for (index, record) in flow.chunks_exact(120).enumerate() {
        for &(first, last) in free(&record[1..3]) {
            for byte in &mut filled[positions(index + 1, first, last)] {
                *byte = *letters.next().expect("a cycle has no end");
            }
        }
    }
    filled
}

#[test]
fn texts_that_look_like_openings_and_trailers() {
    for file in RIGHT {
        let flow = sample(file);
        let due = as_found(&flow);
        for text in ["14", " 14", "EF", " EF", "140000001", "1414EF", "0000014"] {
            for skip in 0..text.len() {
                let filled = filled(&flow, text.as_bytes(), skip);
                assert!(differences(&filled, &flow).len() > flow.len() / 2);
                let places = |given: &[Disposition]| -> Vec<_> {
                    let place = |at: &Disposition| (at.number, at.range(), at.cents);
                    given.iter().map(place).collect()
                };
                assert_eq!(places(&as_found(&filled)), places(&due), "{file} {text}");
            }
        }
    }
}

/// 1 at the first position of every record: those of type 40 then begin with 140, and those of type 16 and
/// 14 with 116 and 114.
#[test]
fn a_14_beside_its_place_opens_nothing() {
    let mut flow = sample("forty-rents.flow");
    let count = as_found(&flow).len();
    for first in flow.iter_mut().step_by(120) {
        *first = b'1';
    }
    assert!(flow
        .chunks_exact(120)
        .any(|record| record.starts_with(b"140")));
    assert_eq!(as_found(&flow).len(), count);
    // And from the last byte of a record to the first of the next.
    for first in flow.iter_mut().step_by(120) {
        *first = b'4';
    }
    for record in flow.chunks_exact_mut(120) {
        if matches!(&record[1..3], b"30" | b"40" | b"50" | b"59" | b"51" | b"70") {
            record[119] = b'1';
        }
    }
    assert_eq!(as_found(&flow).len(), count);
}

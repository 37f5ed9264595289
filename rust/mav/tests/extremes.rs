//! Empty slices, numbers at both ends, and lengths around the longest flow.

mod common;

use common::{accepted, of_call, refused, sample};
use mav::{FieldRefusal, Reason, MAX_AMOUNT, MAX_FLOW_LENGTH, MAX_RECORDS, MAX_TOTAL};

#[test]
fn an_empty_flow_has_no_length() {
    let refusal = of_call(Reason::Length);
    assert_eq!(mav::read(&[]), Err(refusal));
    assert_eq!(mav::read_back(&[], &mut []), Err(refusal));
    assert_eq!(mav::read_back(&[], &mut [0; 120]), Err(refusal));
    assert_eq!(mav::read_back_to_vec(&[]), Err(refusal));
    assert_eq!(mav::dispositions(&[]).err(), Some(refusal));
    for k in [0, 1, u64::MAX] {
        assert_eq!(mav::find(&[], k), Err(refusal));
        assert_eq!(mav::withdraw(&mut vec![], k), Err(refusal));
        assert_eq!(mav::withdraw_in_place(&mut [], k), Err(refusal));
        for cents in [0, u64::MAX] {
            assert_eq!(mav::change(&mut [], k, cents), Err(refusal));
        }
    }
}

#[test]
fn an_empty_list_has_no_place_for_the_trailer() {
    assert_eq!(mav::write(&[], &mut []), Err(of_call(Reason::Room)));
    assert_eq!(mav::write(&[], &mut [0; 119]), Err(of_call(Reason::Room)));
    let refusal = refused(Reason::RecordType, 1, 2);
    assert_eq!(mav::write(&[], &mut [0; 120]), Err(refusal));
    assert_eq!(mav::write_to_vec(&[]), Err(refusal));
}

#[test]
fn an_empty_output_has_no_room() {
    let refusal = of_call(Reason::Room);
    assert_eq!(mav::write(&sample("two-rents.list"), &mut []), Err(refusal));
    assert_eq!(
        mav::read_back(&sample("two-rents.flow"), &mut []),
        Err(refusal)
    );
    // A list of which not even an item is known, and a flow that is none, are refused before the room.
    assert_eq!(mav::write(b"?", &mut []), Err(refused(Reason::Item, 1, 0)));
    assert_eq!(mav::read_back(b"?", &mut []), Err(of_call(Reason::Length)));
}

#[test]
fn an_empty_field_is_not_digits() {
    assert_eq!(mav::digits(&[]), Err(FieldRefusal::NotDigits));
    assert_eq!(mav::amount(&[]), Err(FieldRefusal::NotDigits));
    assert_eq!(mav::date(&[]), Err(FieldRefusal::NotDigits));
}

#[test]
fn fields_at_their_lengths() {
    assert_eq!(mav::digits(&[b'9'; 15]), Ok(MAX_TOTAL));
    assert_eq!(mav::digits(&[b'9'; 16]), Err(FieldRefusal::NotDigits));
    assert_eq!(mav::amount(&[b'9'; 13]), Ok(MAX_AMOUNT));
    assert_eq!(mav::amount(&[b'0'; 12]), Err(FieldRefusal::NotDigits));
    assert_eq!(mav::amount(&[b'0'; 14]), Err(FieldRefusal::NotDigits));
    assert_eq!(mav::date(b"000100"), Err(FieldRefusal::NotADate));
    assert_eq!(mav::date(b"0101000"), Err(FieldRefusal::NotDigits));
    assert_eq!(mav::date(b"311299"), Ok(()));
    assert_eq!(
        FieldRefusal::NotADate.to_string().split(':').next(),
        Some("refused 8")
    );
}

#[test]
fn no_disposition_has_the_number_0_or_one_above_the_count() {
    let mut flow = sample("two-rents.flow");
    let refusal = of_call(Reason::NoSuchDisposition);
    for k in [0, 3, 4, 1 << 32, (1 << 32) + 1, u64::MAX - 1, u64::MAX] {
        assert_eq!(mav::find(&flow, k), Err(refusal), "{k}");
        assert_eq!(mav::withdraw(&mut flow, k), Err(refusal), "{k}");
        // Before the amount is looked at.
        for cents in [0, u64::MAX] {
            assert_eq!(mav::change(&mut flow, k, cents), Err(refusal), "{k}");
        }
    }
    assert_eq!(flow, sample("two-rents.flow"));
}

#[test]
fn amounts_at_the_limit() {
    let mut flow = sample("two-rents.flow");
    let refusal = of_call(Reason::NotAnAmount);
    for cents in [0, MAX_AMOUNT + 1, u64::MAX] {
        assert_eq!(mav::change(&mut flow, 1, cents), Err(refusal), "{cents}");
    }
    assert_eq!(flow, sample("two-rents.flow"));
    // 9999999999999 + 38050.
    let told = mav::change(&mut flow, 1, MAX_AMOUNT);
    assert_eq!(told, Ok(accepted(2, 10_000_000_038_049, 16)));
    assert_eq!(mav::change(&mut flow, 1, 1), Ok(accepted(2, 38_051, 16)));
}

#[test]
fn the_longest_flow() {
    assert_eq!(MAX_FLOW_LENGTH as u64, 120 * MAX_RECORDS);
    // Zeros that are never touched: the first record is refused at once, one record more as a length.
    let zeros = vec![0; MAX_FLOW_LENGTH + 120];
    let longest = &zeros[..MAX_FLOW_LENGTH];
    assert_eq!(mav::read(longest), Err(refused(Reason::Byte, 1, 1)));
    assert_eq!(mav::read(&zeros[1..]), Err(of_call(Reason::Length)));
    assert_eq!(mav::read(&zeros), Err(of_call(Reason::Length)));
}

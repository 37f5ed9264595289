//! The reader: judges a flow in place and finds its first fault.
//!
//! The order of faults is that of document 01, "Numbers a clerk may see":
//! the length; then the lowest record; inside a record first its bytes, then
//! its type, then its fields by rising position, and for one field "not
//! digits" before whatever compares the digits.

use crate::answer::{number, Accepted, Answer, Refusal};
use crate::fields::{amount, date, digits, is_blank};
use crate::kind::FlowKind;
use crate::record::{field, record_type, Record, MAX_RECORDS, RECORD_LEN};

/// Judges a flow.
pub fn read(flow: &[u8]) -> Answer {
    judge(flow).into()
}

/// Judges a flow, for the calls that go on with an accepted one.
pub(crate) fn judge(flow: &[u8]) -> Result<Accepted, Refusal> {
    let records = split(flow)?;
    let mut walk = Walk::new();
    if let Some(header) = records.first() {
        for record in records {
            walk.step(header, record)?;
        }
    }
    walk.finish()
}

/// The records of a flow, or 1 (document 01, table of numbers, row 1).
fn split(flow: &[u8]) -> Result<&[Record], Refusal> {
    let (records, rest) = flow.as_chunks::<RECORD_LEN>();
    if records.is_empty() || !rest.is_empty() || records.len() as u64 > MAX_RECORDS {
        return Err(Refusal::of_call(number::LENGTH));
    }
    Ok(records)
}

/// What may stand at the next place of a flow (document 01, "The flow as
/// bytes", the order of records).
#[derive(Clone, Copy, Debug, Eq, PartialEq)]
enum Next {
    /// IM.
    Header,
    /// 14: after IM.
    First,
    /// 16 or 20: after 14.
    After14,
    /// 20: after 16.
    After16,
    /// 30: after 20.
    After20,
    /// 40: after 30.
    After30,
    /// 50 or 59: after 40.
    After40,
    /// 51 or a further 59: after one to four 59.
    After59(u8),
    /// 51: after 50 or the fifth 59.
    Before51,
    /// 70: after 51.
    After51,
    /// 14 or EF: after 70.
    After70,
    /// Nothing: after EF.
    End,
}

impl Next {
    /// What may come after a record of this type, or nothing if the type is
    /// not permitted at this place.
    #[inline]
    fn after(self, kind: [u8; 2]) -> Option<Next> {
        Some(match (self, &kind) {
            (Next::Header, b"IM") => Next::First,
            (Next::First | Next::After70, b"14") => Next::After14,
            (Next::After14, b"16") => Next::After16,
            (Next::After14 | Next::After16, b"20") => Next::After20,
            (Next::After20, b"30") => Next::After30,
            (Next::After30, b"40") => Next::After40,
            (Next::After40, b"50") => Next::Before51,
            (Next::After40, b"59") => Next::After59(1),
            (Next::After59(4), b"59") => Next::Before51,
            (Next::After59(seen), b"59") => Next::After59(seen + 1),
            (Next::After59(_) | Next::Before51, b"51") => Next::After51,
            (Next::After51, b"70") => Next::After70,
            (Next::After70, b"EF") => Next::End,
            _ => return None,
        })
    }
}

/// What the reader knows after the records it has judged so far.
pub(crate) struct Walk {
    next: Next,
    records: u64,
    dispositions: u64,
    cents: u64,
    /// The kind of the flow, once the first record 14 has told it.
    kind: Option<FlowKind>,
    /// The company code of the first record 14, blanks or not, once it is there.
    company: Option<[u8; 5]>,
}

/// A fault of one record, as number and position.
type Fault = (u8, u8);

impl Walk {
    /// Before the first record.
    pub(crate) fn new() -> Walk {
        Walk {
            next: Next::Header,
            records: 0,
            dispositions: 0,
            cents: 0,
            kind: None,
            company: None,
        }
    }

    /// Judges the next record. `header` is the flow's first record, for that
    /// one itself as well.
    #[inline]
    pub(crate) fn step(&mut self, header: &Record, record: &Record) -> Result<(), Refusal> {
        self.records += 1;
        self.judge(header, record)
            .map_err(|(number, position)| Refusal {
                number,
                record: self.records,
                position,
            })
    }

    #[inline]
    fn judge(&mut self, header: &Record, record: &Record) -> Result<(), Fault> {
        check_bytes(record)?;
        let kind = record_type(record);
        self.next = self.next.after(kind).ok_or((number::TYPE, 2))?;
        match &kind {
            b"IM" => return check_header(record),
            b"EF" => return self.check_trailer(header, record),
            b"14" => self.dispositions += 1,
            _ => {}
        }
        self.check_number(record)?;
        match &kind {
            b"14" => self.check_14(header, record),
            b"16" => check_16(header, record),
            b"20" => check_present(record, 11, 34),
            b"30" => check_present(record, 11, 40),
            b"59" => check_present(record, 11, 65),
            b"70" => check_listed(record, 94, b" PB"),
            _ => Ok(()),
        }
    }

    /// The refusal 3 of a trailer due at the next place, if it may not stand
    /// there.
    pub(crate) fn may_end(&self) -> Result<(), Refusal> {
        match self.next.after(*b"EF") {
            Some(_) => Ok(()),
            None => Err(Refusal {
                number: number::TYPE,
                record: self.records + 1,
                position: 2,
            }),
        }
    }

    /// The count and the sum of the dispositions so far.
    pub(crate) fn totals(&self) -> (u64, u64) {
        (self.dispositions, self.cents)
    }

    /// The answer when there is no further record (row 4 of the numbers).
    fn finish(&self) -> Result<Accepted, Refusal> {
        match self.kind {
            Some(kind) if self.next == Next::End => Ok(Accepted {
                dispositions: self.dispositions,
                cents: self.cents,
                records: self.records,
                kind,
            }),
            _ => Err(Refusal {
                number: number::ENDED,
                record: self.records + 1,
                position: 0,
            }),
        }
    }

    /// 4-10 of every record of a disposition (document 01, the paragraph
    /// under the table of checks).
    #[inline]
    fn check_number(&self, record: &Record) -> Result<(), Fault> {
        let found = digits_at(record, 4, 10)?;
        if found != self.dispositions {
            return Err((number::DISPOSITION, 4));
        }
        Ok(())
    }

    /// Document 01, table of checks, row 14; the company code by document 02,
    /// E4, the amount above zero by E5.
    #[inline]
    fn check_14(&mut self, header: &Record, record: &Record) -> Result<(), Fault> {
        check_date(record, 23, 28)?;
        let kind = self.check_causale(record)?;
        let cents = amount(field(record, 34, 46)).map_err(|number| (number, 34))?;
        check_listed(record, 47, &[kind.row().sign])?;
        check_abi(header, record, 48, 52)?;
        if !is_blank(field(record, 53, 57)) {
            digits_at(record, 53, 57)?;
        }
        self.check_company(record)?;
        check_listed(record, 97, b" 1234569")?;
        check_listed(record, 120, b"E")?;
        // At most 1,428,571 dispositions below 10^13 cents: never saturates.
        self.cents = self.cents.saturating_add(cents);
        Ok(())
    }

    /// 29-33 of record 14 (document 02, E1): the causale of a kind, or 6; then
    /// of the kind that the flow's first record 14 has told, or 22.
    #[inline]
    fn check_causale(&mut self, record: &Record) -> Result<FlowKind, Fault> {
        let found = FlowKind::of_causale(field(record, 29, 33));
        let kind = found.ok_or((number::NOT_PERMITTED, 29))?;
        if *self.kind.get_or_insert(kind) != kind {
            return Err((number::OTHER_KIND, 29));
        }
        Ok(kind)
    }

    /// 92-96 of record 14 (document 02, E4): the five bytes that the flow's
    /// first record 14 has there, or 11. Blanks are a content like any other.
    #[inline]
    fn check_company(&mut self, record: &Record) -> Result<(), Fault> {
        let mut company = [b' '; 5];
        company.copy_from_slice(field(record, 92, 96));
        if *self.company.get_or_insert(company) != company {
            return Err((number::COMPANY, 92));
        }
        Ok(())
    }

    /// Document 01, table of checks, row EF; the totals by document 02, E1.
    fn check_trailer(&self, header: &Record, record: &Record) -> Result<(), Fault> {
        for (first, last) in [(4, 8), (9, 13), (14, 19), (20, 39)] {
            check_equal(
                record,
                first,
                last,
                field(header, first, last),
                number::HEADER,
            )?;
        }
        check_value(
            record,
            (46, 52),
            self.dispositions,
            number::DISPOSITION_COUNT,
        )?;
        // No trailer may stand before the first record 14, which tells the kind.
        for (place, due) in self.kind.unwrap_or_default().totals(self.cents) {
            check_value(record, place, due, number::TOTAL)?;
        }
        check_value(record, (83, 89), self.records, number::RECORD_COUNT)?;
        check_equal(record, 114, 114, field(header, 114, 114), number::HEADER)
    }
}

/// Row 2 of the numbers: the lowest byte outside 32 to 126.
#[inline]
fn check_bytes(record: &Record) -> Result<(), Fault> {
    // Without an early end, so that the usual case runs over many bytes at
    // a time.
    let right = record
        .iter()
        .fold(true, |right, &b| right & is_printable(b));
    if right {
        return Ok(());
    }
    let index = record.iter().take_while(|&&b| is_printable(b)).count();
    Err((number::BYTE, index as u8 + 1))
}

#[inline(always)]
fn is_printable(byte: u8) -> bool {
    (32..=126).contains(&byte)
}

/// Document 01, table of checks, row IM.
fn check_header(record: &Record) -> Result<(), Fault> {
    check_present(record, 4, 8)?;
    digits_at(record, 9, 13)?;
    check_date(record, 14, 19)?;
    check_present(record, 20, 39)?;
    if !is_blank(field(record, 105, 111)) {
        check_listed(record, 105, b"1")?;
        check_listed(record, 106, b"$")?;
        digits_at(record, 107, 111)?;
    }
    check_listed(record, 114, b"E")
}

/// Document 01, table of checks, row 16.
fn check_16(header: &Record, record: &Record) -> Result<(), Fault> {
    if !matches!(field(record, 11, 12), b"IT" | b"SM") {
        return Err((number::NOT_PERMITTED, 11));
    }
    digits_at(record, 13, 14)?;
    check_present(record, 15, 15)?;
    check_abi(header, record, 16, 20)?;
    if digits_at(record, 21, 25)? == 0 {
        return Err((number::NOT_PERMITTED, 21));
    }
    check_present(record, 26, 37)
}

/// The value of a digit field, or 5 at its first position.
#[inline(always)]
fn digits_at(record: &Record, first: usize, last: usize) -> Result<u64, Fault> {
    digits(field(record, first, last)).map_err(|number| (number, first as u8))
}

/// A date, or 5 or 8 at its first position.
#[inline(always)]
fn check_date(record: &Record, first: usize, last: usize) -> Result<(), Fault> {
    match date(field(record, first, last)) {
        Ok(_) => Ok(()),
        Err(number) => Err((number, first as u8)),
    }
}

/// An obligatory field, or 7.
#[inline(always)]
fn check_present(record: &Record, first: usize, last: usize) -> Result<(), Fault> {
    if is_blank(field(record, first, last)) {
        return Err((number::BLANK, first as u8));
    }
    Ok(())
}

/// One byte among those listed, or 6.
#[inline(always)]
fn check_listed(record: &Record, position: usize, listed: &[u8]) -> Result<(), Fault> {
    if !listed.contains(&record[position - 1]) {
        return Err((number::NOT_PERMITTED, position as u8));
    }
    Ok(())
}

/// A field equal to `due`, or `number` at its first position.
#[inline(always)]
fn check_equal(
    record: &Record,
    first: usize,
    last: usize,
    due: &[u8],
    number: u8,
) -> Result<(), Fault> {
    if field(record, first, last) != due {
        return Err((number, first as u8));
    }
    Ok(())
}

/// A digit field of the value due, or `number`, after 5.
#[inline(always)]
fn check_value(
    record: &Record,
    (first, last): (usize, usize),
    due: u64,
    number: u8,
) -> Result<(), Fault> {
    if digits_at(record, first, last)? != due {
        return Err((number, first as u8));
    }
    Ok(())
}

/// An ABI of five digits, or 5; equal to the header's at 9-13, or 10.
#[inline(always)]
fn check_abi(header: &Record, record: &Record, first: usize, last: usize) -> Result<(), Fault> {
    digits_at(record, first, last)?;
    check_equal(record, first, last, field(header, 9, 13), number::HEADER)
}

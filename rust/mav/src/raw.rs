//! The C interface on slices: what each call returns, and all eight entries of its answer.
//!
//! This is the only module with `unsafe` code. A call is handed the pointer and the length of each
//! slice, and a pointer to the eight entries; by the contracts of the crate `capi` it reads and writes
//! nothing else, asks nothing of their contents, and keeps none of them. The pointer of an empty slice,
//! which Rust leaves dangling, is neither read nor written through. Each call returns 1 where it is
//! accepted and 0 where it is refused, and then leaves every byte of the other slices as it was.
//!
//! ```
//! use mav::raw;
//!
//! let mut answer = [0; 8];
//! assert_eq!(raw::digits(b"0000016", &mut answer), 1);
//! assert_eq!(answer, [16, 0, 0, 0, 0, 0, 0, 0]);
//!
//! // Refused by number 1, at record 0 and position 0.
//! assert_eq!(raw::read(&[], &mut answer), 0);
//! assert_eq!(answer, [1, 0, 0, 0, 0, 0, 0, 0]);
//! ```

/// The eight entries of an answer: three numbers, the length where the call has one, the kind of flow, three
/// zeros. Of a refusal the three numbers are its number, its record and its position. The kind is 1 for
/// requests and 2 for recalls where [`read`], [`write`](fn@write), [`list`], [`change`] or [`withdraw`] is
/// accepted, and 0 in every refusal and in every other call.
pub type Entries = [u64; 8];

extern "C" {
    fn mav_digits(field: *const u8, len: usize, answer: *mut Entries) -> u8;
    fn mav_amount(field: *const u8, len: usize, answer: *mut Entries) -> u8;
    fn mav_date(field: *const u8, len: usize, answer: *mut Entries) -> u8;
    fn mav_read(flow: *const u8, len: usize, answer: *mut Entries) -> u8;
    fn mav_find(flow: *const u8, len: usize, k: u64, answer: *mut Entries) -> u8;
    fn mav_write(
        list: *const u8,
        len: usize,
        out: *mut u8,
        room: usize,
        answer: *mut Entries,
    ) -> u8;
    fn mav_list(flow: *const u8, len: usize, out: *mut u8, room: usize, answer: *mut Entries)
        -> u8;
    fn mav_change(flow: *mut u8, len: usize, k: u64, cents: u64, answer: *mut Entries) -> u8;
    fn mav_withdraw(flow: *mut u8, len: usize, k: u64, answer: *mut Entries) -> u8;
    fn mav_compare(
        old: *const u8,
        old_len: usize,
        new: *const u8,
        new_len: usize,
        work: *mut u16,
        work_len: usize,
        account: *mut u8,
        room: usize,
        answer: *mut Entries,
    ) -> u8;
    fn mav_compare_line(
        old: *const u8,
        old_len: usize,
        new: *const u8,
        new_len: usize,
        work: *mut u16,
        work_len: usize,
        n: u64,
        answer: *mut Entries,
    ) -> u8;
}

/// The number of a field of 1 to 15 digits: entry 0.
#[must_use = "0 says that the call is refused"]
pub fn digits(field: &[u8], answer: &mut Entries) -> u8 {
    // SAFETY: the pointers and the length are those of the borrows, which last for the call.
    unsafe { mav_digits(field.as_ptr(), field.len(), answer) }
}

/// The cents of a field of 13 digits, above zero: entry 0.
#[must_use = "0 says that the call is refused"]
pub fn amount(field: &[u8], answer: &mut Entries) -> u8 {
    // SAFETY: as for `digits`.
    unsafe { mav_amount(field.as_ptr(), field.len(), answer) }
}

/// Whether a field of 6 digits is a day of the calendar. An accepted answer is all zeros.
#[must_use = "0 says that the call is refused"]
pub fn date(field: &[u8], answer: &mut Entries) -> u8 {
    // SAFETY: as for `digits`.
    unsafe { mav_date(field.as_ptr(), field.len(), answer) }
}

/// The numbers of a flow: dispositions, cents and records; and its kind, entry 4.
#[must_use = "0 says that the call is refused"]
pub fn read(flow: &[u8], answer: &mut Entries) -> u8 {
    // SAFETY: as for `digits`.
    unsafe { mav_read(flow.as_ptr(), flow.len(), answer) }
}

/// Where disposition `k` stands: its first record, its number of records and its cents.
#[must_use = "0 says that the call is refused"]
pub fn find(flow: &[u8], k: u64, answer: &mut Entries) -> u8 {
    // SAFETY: as for `digits`.
    unsafe { mav_find(flow.as_ptr(), flow.len(), k, answer) }
}

/// Writes the flow of a list at the front of `out`. Entry 3 is the length written, 0 where refused.
#[must_use = "0 says that the call is refused"]
pub fn write(list: &[u8], out: &mut [u8], answer: &mut Entries) -> u8 {
    // SAFETY: as for `digits`; `out` is borrowed alone, so it overlaps neither of the others.
    unsafe {
        mav_write(
            list.as_ptr(),
            list.len(),
            out.as_mut_ptr(),
            out.len(),
            answer,
        )
    }
}

/// Writes the list of a flow at the front of `out`. Entry 3 is the length written, 0 where refused.
#[must_use = "0 says that the call is refused"]
pub fn list(flow: &[u8], out: &mut [u8], answer: &mut Entries) -> u8 {
    // SAFETY: as for `write`.
    unsafe {
        mav_list(
            flow.as_ptr(),
            flow.len(),
            out.as_mut_ptr(),
            out.len(),
            answer,
        )
    }
}

/// Gives disposition `k` the amount. An accepted answer has the numbers and the kind of the flow left.
#[must_use = "0 says that the call is refused"]
pub fn change(flow: &mut [u8], k: u64, cents: u64, answer: &mut Entries) -> u8 {
    // SAFETY: as for `write`, with `flow` in the place of `out`.
    unsafe { mav_change(flow.as_mut_ptr(), flow.len(), k, cents, answer) }
}

/// Takes disposition `k` out. Entry 3 is the length of the flow left, the length of `flow` where refused.
#[must_use = "0 says that the call is refused"]
pub fn withdraw(flow: &mut [u8], k: u64, answer: &mut Entries) -> u8 {
    // SAFETY: as for `change`.
    unsafe { mav_withdraw(flow.as_mut_ptr(), flow.len(), k, answer) }
}

/// Writes the account of what differs between two flows at the front of `account`: how many lines are K, D and
/// A. Entry 3 is the length written, 0 where refused. An accepted call leaves `work` all zero.
#[must_use = "0 says that the call is refused"]
pub fn compare(
    old: &[u8],
    new: &[u8],
    work: &mut [u16],
    account: &mut [u8],
    answer: &mut Entries,
) -> u8 {
    // SAFETY: as for `write`, with `work` and `account` in the place of `out`; the two flows are only read,
    // so they may overlap.
    unsafe {
        mav_compare(
            old.as_ptr(),
            old.len(),
            new.as_ptr(),
            new.len(),
            work.as_mut_ptr(),
            work.len(),
            account.as_mut_ptr(),
            account.len(),
            answer,
        )
    }
}

/// Line `n` of that account: its letter as a byte, and its record 14, counted from 1 in its own flow. An
/// accepted call leaves `work` all zero.
#[must_use = "0 says that the call is refused"]
pub fn compare_line(old: &[u8], new: &[u8], work: &mut [u16], n: u64, answer: &mut Entries) -> u8 {
    // SAFETY: as for `compare`.
    unsafe {
        mav_compare_line(
            old.as_ptr(),
            old.len(),
            new.as_ptr(),
            new.len(),
            work.as_mut_ptr(),
            work.len(),
            n,
            answer,
        )
    }
}

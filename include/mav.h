/*
 * The C interface of the proved M.Av. library: flows of 120-byte records, of new requests or of recalls,
 * by the rules of documents 01 and 02. Link the archive target/staticlib/libcapi.a, which
 * `bash tools/library.sh` writes. It is for x86-64 Linux, and needs nothing but the C library.
 *
 * What a call does. Each function returns 1 where the call is accepted and 0 where it is refused, and
 * writes all eight entries of `answer`. Whatever the bytes and the numbers are, it ends with an answer,
 * and a refused call leaves all memory but `answer` as it was. No function allocates memory, and none
 * keeps anything between calls.
 *
 * What the caller owes:
 *  - Each pointer and the length behind it are those of one piece of the caller's memory, and the
 *    length in bytes is below 2^63. Where the pointer is not const the memory may be written.
 *  - With a length of 0 the pointer is neither read nor written through, and may be null or dangling.
 *  - `answer` points to eight uint64_t, is aligned as such, and is never null. `work` is aligned as
 *    uint16_t, and the length behind it counts numbers and not bytes.
 *  - All of that memory has been given a value before the call, `out`, `work`, `account` and `answer`
 *    too. Which value does not matter.
 *  - What a call writes, that is `answer`, `out`, `work`, `account`, and a flow that is changed,
 *    overlaps with no other argument of the same call.
 *  - Until the call returns, nobody else writes to any of that memory, and nobody reads what the call
 *    writes: no other thread, no signal handler, and no writer of a file that is mapped there.
 */
#ifndef MAV_H
#define MAV_H

#include <stddef.h>
#include <stdint.h>

#ifdef __cplusplus
extern "C" {
#endif

/* The entries of an answer. Those that are not named for a call are 0, and the last three always are. */
enum {
    /* Refused: the number, the record from 1 (for MAV_REFUSED_ITEM the item from 1) and the first
     * position of the field from 1. Record and position are 0 where a refusal has no place. */
    MAV_NUMBER = 0,
    MAV_RECORD = 1,
    MAV_POSITION = 2,

    /* Accepted, of a flow that is read, written, listed or amended: its three numbers. */
    MAV_DISPOSITIONS = 0,
    MAV_CENTS = 1,
    MAV_RECORDS = 2,

    /* Accepted by mav_find. The records of the disposition are the bytes from 120 * (first record - 1)
     * on, 120 for each. */
    MAV_FOUND_FIRST_RECORD = 0,
    MAV_FOUND_RECORDS = 1,
    MAV_FOUND_CENTS = 2,

    /* Accepted by mav_digits or mav_amount. */
    MAV_VALUE = 0,

    /* Accepted by mav_compare: how many lines of the account are K, D and A. */
    MAV_KEPT = 0,
    MAV_DROPPED = 1,
    MAV_ADDED = 2,

    /* Accepted by mav_compare_line: the line's letter, 'K', 'D' or 'A', and its record 14, counted from 1
     * in its own flow, the old one for D and the new one for K and A. That record is the 120 bytes from
     * 120 * (record - 1) on. */
    MAV_LINE_LETTER = 0,
    MAV_LINE_RECORD = 1,

    /* mav_write, mav_list and mav_compare: the bytes written, 0 where refused. mav_withdraw: the length of
     * the flow left, the length given where refused. */
    MAV_LENGTH = 3,

    /* Accepted, of a flow that is read, written, listed or amended: its kind, one of those below. */
    MAV_KIND = 4,

    MAV_ENTRIES = 8
};

/* The kinds of flow. The two may not share one: the first record 14 decides. New requests have causale
 * 07000 and sign - in every record 14, the total at 53-67 of the trailer, and a list that opens with H;
 * recalls of requests already sent have 07100, +, 68-82 and Q. */
enum {
    MAV_KIND_REQUESTS = 1,
    MAV_KIND_RECALLS = 2
};

/* The numbers of a refusal. 19 is not used. */
enum {
    MAV_REFUSED_LENGTH = 1,                 /* length 0, no multiple of 120, or above MAV_MAX_FLOW_LENGTH */
    MAV_REFUSED_BYTE = 2,                   /* a byte outside 32 to 126 */
    MAV_REFUSED_RECORD_TYPE = 3,            /* a type that is not permitted at this place */
    MAV_REFUSED_ENDED = 4,                  /* the flow ended where a record was due */
    MAV_REFUSED_NOT_DIGITS = 5,             /* not digits; of a field alone also the wrong length */
    MAV_REFUSED_NOT_PERMITTED = 6,          /* a value that is not among those permitted */
    MAV_REFUSED_BLANK = 7,                  /* an obligatory field that is all blank */
    MAV_REFUSED_NOT_A_DATE = 8,             /* digits, but no date of the calendar */
    MAV_REFUSED_DISPOSITION_NUMBER = 9,     /* a wrong disposition number */
    MAV_REFUSED_DIFFERS_FROM_HEADER = 10,   /* a field that differs from the header */
    MAV_REFUSED_COMPANY_CODE = 11,          /* a company code that differs from the first record 14's */
    MAV_REFUSED_DISPOSITION_COUNT = 12,     /* a wrong count of dispositions in the trailer */
    MAV_REFUSED_TOTAL = 13,                 /* a wrong total in the trailer */
    MAV_REFUSED_RECORD_COUNT = 14,          /* a wrong count of records in the trailer */
    MAV_REFUSED_NO_SUCH_DISPOSITION = 15,   /* k is 0 or above the count; n, of the lines of an account */
    MAV_REFUSED_NOT_AN_AMOUNT = 16,         /* a new amount of 0 or above MAV_MAX_AMOUNT */
    MAV_REFUSED_TOTAL_TOO_LARGE = 17,       /* the total would be above MAV_MAX_TOTAL */
    MAV_REFUSED_ONLY_DISPOSITION = 18,      /* the only disposition cannot be withdrawn */
    MAV_REFUSED_ITEM = 20,                  /* an item of a list of unknown kind, or cut short */
    MAV_REFUSED_ROOM = 21,                  /* the output is shorter than needed */
    MAV_REFUSED_OTHER_KIND = 22,            /* a record 14 of another kind than the first one */
    MAV_REFUSED_ZERO_AMOUNT = 25,           /* an amount of 0 */
    MAV_REFUSED_TOO_MANY_REQUESTS = 27,     /* more than MAV_MAX_COMPARED dispositions on a side */
    MAV_REFUSED_KINDS_DIFFER = 28,          /* the two flows are of different kinds */
    MAV_REFUSED_WORKING_MEMORY = 34         /* fewer than MAV_MIN_WORK numbers of working memory */
};

#define MAV_RECORD_LENGTH 120
#define MAV_MAX_FLOW_LENGTH 1199999880
#define MAV_MAX_AMOUNT UINT64_C(9999999999999)
#define MAV_MAX_TOTAL UINT64_C(999999999999999)
#define MAV_MAX_COMPARED 256
#define MAV_MIN_WORK 66049
#define MAV_MAX_ACCOUNT_LENGTH 512

/* The number of a field of 1 to 15 digits. Refused: 5. */
uint8_t mav_digits(const uint8_t *field, size_t length, uint64_t answer[MAV_ENTRIES]);

/* The cents of an amount of 13 digits, which is above zero. Refused: 5, 25. */
uint8_t mav_amount(const uint8_t *field, size_t length, uint64_t answer[MAV_ENTRIES]);

/* Whether six digits, day, month and year, are a date of 2000 to 2099. Refused: 5, 8. */
uint8_t mav_date(const uint8_t *field, size_t length, uint64_t answer[MAV_ENTRIES]);

/* Judges a flow. Refused: 1 to 14, 22 or 25, the first fault in the documents' order. */
uint8_t mav_read(const uint8_t *flow, size_t length, uint64_t answer[MAV_ENTRIES]);

/* Where disposition k stands, counted from 1. Refused: as mav_read, then 15. */
uint8_t mav_find(const uint8_t *flow, size_t length, uint64_t k, uint64_t answer[MAV_ENTRIES]);

/* Writes the flow that a request list encodes at the front of out, which has 120 * (items + 1) bytes or
 * more, and leaves the rest of out as it was. A list that opens with H is of requests, one that opens
 * with Q of recalls. Refused: 20, 1, 21, then as mav_read by 2, 3, 5 to 8, 10, 11 or 25, then 17. The
 * call itself numbers the records, gives them the kind of their header and writes the trailer, so that
 * 4, 9, 12 to 14 and 22 cannot come. */
uint8_t mav_write(const uint8_t *list, size_t length, uint8_t *out, size_t room,
                  uint64_t answer[MAV_ENTRIES]);

/* Writes the request list of a flow at the front of out, and leaves the rest of out as it was. It opens
 * with H, that of recalls with Q. A list is shorter than its flow, so that a room of `length` is always
 * enough. Refused: as mav_read, then 21. */
uint8_t mav_list(const uint8_t *flow, size_t length, uint8_t *out, size_t room,
                 uint64_t answer[MAV_ENTRIES]);

/* Gives disposition k another amount: only 34-46 of its record 14 and the total of the trailer are
 * written, 53-67 of requests and 68-82 of recalls. Refused: as mav_read, then 15, 16, 17. */
uint8_t mav_change(uint8_t *flow, size_t length, uint64_t k, uint64_t cents,
                   uint64_t answer[MAV_ENTRIES]);

/* Takes disposition k out. Later ones move up and are numbered anew, and the freed bytes at the end
 * become blanks: the next call is given answer[MAV_LENGTH] bytes. Refused: as mav_read, then 15, 18. */
uint8_t mav_withdraw(uint8_t *flow, size_t length, uint64_t k, uint64_t answer[MAV_ENTRIES]);

/* Writes at the front of account the shortest account of what differs between two flows, one byte a line,
 * and leaves the rest of account as it was: K for a disposition that is in both, D for one of the old flow
 * that is dropped, A for one of the new flow that is added. Two are the same where their items in the
 * flows' lists are; their numbers and the headers do not count. A room of MAV_MAX_ACCOUNT_LENGTH is always
 * enough. work is memory to work in, MAV_MIN_WORK numbers or more: whatever it held, all of it is zero
 * after an accepted call. The two flows may be the same memory. Refused: as mav_read the old flow, then the
 * new one (which of the two it is, the answer does not say: mav_read does), then 27, 28, 34, 21. */
uint8_t mav_compare(const uint8_t *old_flow, size_t old_length, const uint8_t *new_flow,
                    size_t new_length, uint16_t *work, size_t work_length, uint8_t *account,
                    size_t room, uint64_t answer[MAV_ENTRIES]);

/* What line n of that account is, counted from 1, and where its record 14 stands. work is as for
 * mav_compare. Refused: as mav_compare, but never by 21, and then 15. */
uint8_t mav_compare_line(const uint8_t *old_flow, size_t old_length, const uint8_t *new_flow,
                         size_t new_length, uint16_t *work, size_t work_length, uint64_t n,
                         uint64_t answer[MAV_ENTRIES]);

#ifdef __cplusplus
}
#endif

#endif

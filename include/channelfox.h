/* Channelfox for C: stored tables, plans and runs, by the rules of document 01.
 *
 * Link with libchannelfox.a (`rt lib` in crates/channelfox); of a C library it needs memcpy and memset and nothing else. Bytes, rows,
 * numbers and run states may be good or bad: what is bad is refused with a number and a place, and nothing more is asked than what
 * stands here.
 *
 * Memory. Nothing is allocated and nothing is kept between calls. What is lent for reading (`const`) is never changed; a buffer or a run
 * that is lent for writing is changed as its function says, and nothing beside it. The parts lent to one call must not overlap where one
 * of them is written.
 * Threads. No function has a state of its own, so any number of threads may call at once, as long as no two of them work on the same
 * run or the same buffer at the same time.
 * NULL. A pointer that goes with a length must point to that many elements, and with length 0 to anything but NULL. NULL is not
 * looked for: a NULL pointer, as any that does not go with its length, has no defined outcome.
 * Sizes, in bytes: a table 1,032, a stored table 1,296, a plan 1,544, a run 3,344; an object row 16, a planned row 24, a run row 52, a
 * part 24; the answers a verdict (16) more.
 * Stack, measured with 64 objects, arguments and answer by value included: channelfox_advance 33 KB, channelfox_start_stored 31,
 * channelfox_start 30, the plans 16, channelfox_slot 13, channelfox_read_value 13, the others under 7 (built by rattle-kit-13f).
 * Padding. There are two bytes of padding behind each `id`, and padding behind `number`, `clock` and the `form` of a stored table: they
 * are not set, so two equal structs may differ under memcmp. Compare field by field.
 * Targets. The library is compiled for x86-64 Linux, for C99 and later and for C++.
 *
 * Refusals (verdict.number; 0 is "accepted"), with the place told:
 *    1 fewer than 8 bytes                                   0
 *    2 more than 4,096 bytes                                0
 *    3 the mark is neither 4D 4C nor 4D 32 (see below)      0
 *    4 count 0 or above 64                                  0
 *    5 distance below 8 + 12 n, in form two 8 + 16 n        0
 *    6 hold outside 1 to its cost, or above 65,536          record
 *    7 cost outside 1 to 1,000,000                          record
 *    8 validity outside 2 to 1,000,000                      record
 *    9 id equal to an earlier record's                      record
 *   10 an object has no deadline                            place in priority order of the first such object
 *   11 the number of first releases is not n                0
 *   12 a first release not below its object's period        place in priority order
 *   13 not a run state                                      0
 *   14 no object with that id                               0
 *   15 distance above the number of bytes                   0
 *   16 the buffer is smaller than what is to be written     0
 *   17 line not of the form id,cost,validity,hold CR LF     line, counted from 0
 *   18 a first release other than 0 in form one             record
 * The stored table is checked for 1 to 5, then 15, then 7, 6, 8, 9 record by record; a sheet for 2, then 17 line by line, then 4, then
 * 7, 6, 8, 9 row by row. 3 is also told of a form that is neither one nor two, and in converting of a mark that is not that of the form
 * converted from. 16 in writing a stored table is a buffer below 8 + 12 n bytes, in form two 8 + 16 n.
 *
 * Stored forms. Form one has records of 12 bytes and the mark 4D 4C. Form two has records of 16 bytes, the last 4 being the first release
 * of the object, and the mark 4D 32. Everything that reads stored bytes reads both; first releases that form one does not have are 0.
 * Reading, writing and converting do not plan, so that a first release not below its object's period is found only at the start of a run.
 *
 * Holds. Once a job has done its first unit, the core does nothing but that job, in slots not stolen, until it has done `hold` units:
 * the first slots of a job that writes flash, say. 1 is a job that may be set aside after any slot. A hold costs the objects ahead: each
 * of them may have to wait for the longest hold behind it less one slot, and its deadline has room for that. The stored form has the
 * hold less one in its spare field.
 */
#ifndef CHANNELFOX_H
#define CHANNELFOX_H

#include <stdbool.h>
#include <stddef.h>
#include <stdint.h>

#ifdef __cplusplus
extern "C" {
#endif

#define CHANNELFOX_VERSION "0.8.0"

#define CHANNELFOX_ROWS 64

/* number 0 and place 0: accepted; otherwise the refusal. */
typedef struct {
    uint8_t number;
    size_t place;
} channelfox_verdict;

typedef struct {
    uint16_t id;
    uint32_t cost;
    uint32_t validity;
    uint32_t hold; /* 1 to the cost, at most 65,536 */
} channelfox_object_row;

typedef struct {
    size_t count;
    channelfox_object_row rows[CHANNELFOX_ROWS];
} channelfox_table;

/* The form of stored bytes: none, one or two. Where a form is handed in, any other number is none. */
enum { CHANNELFOX_FORM_NONE = 0, CHANNELFOX_FORM_ONE = 1, CHANNELFOX_FORM_TWO = 2 };

typedef struct {
    uint32_t form; /* CHANNELFOX_FORM_NONE, _ONE or _TWO */
    channelfox_table table;
    uint32_t firsts[CHANNELFOX_ROWS]; /* the first release of each row, in the order of the table */
} channelfox_stored;

typedef struct {
    uint16_t id;
    uint32_t cost;
    uint32_t validity;
    uint32_t hold;
    uint32_t deadline;
    uint32_t period;
} channelfox_plan_row;

typedef struct {
    size_t count;
    channelfox_plan_row rows[CHANNELFOX_ROWS];
} channelfox_plan;

/* The stored value of an object: none, held with its sample instant, or lapsed. What a reading says has other numbers (below). */
enum { CHANNELFOX_STORED_NONE = 0, CHANNELFOX_STORED_HELD = 1, CHANNELFOX_STORED_LAPSED = 2 };

typedef struct {
    channelfox_plan_row planned;
    uint32_t next;    /* clock value of the next release */
    uint32_t left;    /* work left of the job in hand, 0 if none */
    uint32_t sample;  /* that job's sample instant */
    uint32_t lapsed;  /* whether that sample has lapsed: 0 or 1 */
    uint32_t stored;  /* CHANNELFOX_STORED_NONE, _HELD or _LAPSED */
    uint32_t held;    /* the sample instant of a held value, 0 otherwise */
    uint32_t skips;   /* releases skipped, stopping at 4,294,967,295 */
} channelfox_run_row;

typedef struct {
    uint32_t clock;
    size_t count;
    channelfox_run_row rows[CHANNELFOX_ROWS];
} channelfox_run;

typedef struct {
    channelfox_verdict verdict;
    channelfox_table table;
} channelfox_read_answer;

typedef struct {
    channelfox_verdict verdict;
    channelfox_stored stored;
} channelfox_stored_answer;

typedef struct {
    channelfox_verdict verdict;
    channelfox_plan plan;
} channelfox_plan_answer;

typedef struct {
    channelfox_verdict verdict;
    channelfox_run run;
} channelfox_run_answer;

/* What a reading says: no value yet, a value that has lapsed, or a fresh one with its age. No number here is one of
 * CHANNELFOX_STORED_*, so a row's `stored` is never equal to CHANNELFOX_READING_FRESH. */
enum { CHANNELFOX_READING_NONE = 3, CHANNELFOX_READING_STALE = 4, CHANNELFOX_READING_FRESH = 5 };

typedef struct {
    channelfox_verdict verdict;
    uint32_t value; /* CHANNELFOX_READING_NONE, _STALE or _FRESH; 0 where refused */
    uint32_t age;   /* of a fresh value, in slots; otherwise 0 */
} channelfox_reading;

typedef struct {
    channelfox_verdict verdict;
    size_t size; /* bytes written; 0 where refused */
} channelfox_written;

/* The part chosen: of the site bytes (1), of the factory bytes (2), their form, `size` bytes from `start` on. */
typedef struct {
    uint32_t source;
    uint32_t form; /* CHANNELFOX_FORM_NONE, _ONE or _TWO */
    size_t start;
    size_t size;
} channelfox_part;

/* Reads a stored table of either form. Refusals 1 to 9 and 15, with form 0, count 0 and every field zero. Rows and first releases beyond
 * the count are zero. */
channelfox_stored_answer channelfox_read(const uint8_t *bytes, size_t length);

/* The second door: a list of rows in memory becomes a table. Refusals 4, 7, 6, 8, 9, with count 0 and every field
 * zero. */
channelfox_read_answer channelfox_rows(const channelfox_object_row *rows, size_t length);

/* Writes a table as stored bytes of form one: n records and the trailer, 8 + 12 n bytes without gap at the start of the buffer, and
 * nothing beyond them is touched. Refusals 4, 7, 6, 8, 9, then 16 where the buffer has fewer bytes, leave the buffer as it is. Rows of
 * the table beyond its count are not read. What is written reads back as the same rows in the same order. */
channelfox_written channelfox_write(channelfox_table table, uint8_t *buffer, size_t length);

/* Writes a stored table in the form that it names, in the same way: 8 + 12 n bytes, in form two 8 + 16 n. Refusals 3 where the form is
 * neither one nor two, 4, 7, 6, 8, 9, then 18 at the first first release other than 0 where the form is one, then 16. First releases
 * beyond the count are not read, as rows are not. What is written reads back as the same form, rows and first releases. */
channelfox_written channelfox_write_stored(channelfox_stored stored, uint8_t *buffer, size_t length);

/* Writes stored bytes of the form `from` in the other form at the start of the buffer, and nothing beyond them is touched: one to two
 * with first releases of 0, two to one without them. Refusals 1, 2, 3 where the mark is not that of `from`, the others of
 * channelfox_read, then 18 going to form one, then 16, leave the buffer as it is. Bytes of form one without unread bytes, to form two
 * and back, are the same bytes. 1,032 bytes are always enough. */
channelfox_written channelfox_convert(const uint8_t *bytes, size_t length, uint32_t from, uint8_t *buffer, size_t buffer_length);

/* Reads a reseller's sheet: lines of id, cost, validity and hold, separated by commas and each ended by CR LF, up to 4,096 bytes. Numbers
 * are decimal digits without leading zero (0 itself is "0"), an id up to 65,535 and the others up to 4,294,967,295; a header, a sign, a
 * space, a quote, an empty field, three fields or a last line without CR LF is no such line. Refusals 2, then 17 at the first line that
 * is not of the form, then 4 where there is no line or more than 64, then 7, 6, 8, 9, with count 0 and every field zero. */
channelfox_read_answer channelfox_import(const uint8_t *bytes, size_t length);

/* Writes a table as a sheet at the start of the buffer, a line for each row in their order, and nothing beyond it is touched. Refusals
 * 4, 7, 6, 8, 9, then 16 where the sheet has more bytes than the buffer, leave the buffer as it is; 1,856 bytes are always enough. What
 * is exported imports as the same rows in the same order, and every sheet that imports, exported again, gives the same bytes. */
channelfox_written channelfox_export(channelfox_table table, uint8_t *buffer, size_t length);

/* The records part of the site table if that reads without refusal, otherwise of the factory table if that one does,
 * otherwise the empty part at the start of the factory bytes (source 2, form 0, start 0, size 0). Records of form one have 12 bytes
 * each, of form two 16. */
channelfox_part channelfox_choose(const uint8_t *site, size_t site_length, const uint8_t *factory, size_t factory_length);

/* Plans a table: refusals 4, 7, 6, 8, 9, then 10, with count 0 and every field zero. Rows of the table beyond its count are
 * not read; rows of the plan beyond its count are zero. */
channelfox_plan_answer channelfox_plan_table(channelfox_table table);

/* The classic plan, Half-Half: deadline and period both half the validity, rounded down, in the same order. Refusals as above; 10
 * where the smallest balancing number of slots, worked out with those periods, is above an object's half. A table that fits so is
 * never refused by channelfox_plan_table, and no deadline there is later. */
channelfox_plan_answer channelfox_plan_classic(channelfox_table table);

/* The table with its rows in priority order, which the places told with 10 and 12 count; rows beyond the count are zero. Refusals
 * 4, 7, 6, 8, 9, with count 0 and every field zero. */
channelfox_read_answer channelfox_ranked(channelfox_table table);

/* Reads a stored table of either form and plans it: refusals 1 to 10 and 15, with count 0 and every field zero. */
channelfox_plan_answer channelfox_plan_stored(const uint8_t *bytes, size_t length);

/* Plans a table and starts a run of it at any clock, with one first release for each object, in priority order, counted
 * from the clock. Refusals 4, 7, 6, 8, 9, 10, then 11, then 12, with count 0 and every field zero or none. */
channelfox_run_answer channelfox_start(channelfox_table table, uint32_t clock, const uint32_t *firsts, size_t length);

/* Reads a stored table of either form, plans it and starts a run of it at any clock, with the first releases that are stored with it,
 * each going with its object; 0 in form one. Refusals 1 to 10 and 15, then 12, with count 0 and every field zero or none. */
channelfox_run_answer channelfox_start_stored(const uint8_t *bytes, size_t length, uint32_t clock);

/* One slot, in place. Refusal 13 leaves the run exactly as it came in. A row whose `lapsed` is not 0 or 1, whose `stored` is
 * above 2, or that holds an instant while nothing is held, is no run state (here and below), and neither is one whose hold is outside 1
 * to its cost or above 65,536, nor a run with two jobs in their hold at once. */
channelfox_verdict channelfox_slot(channelfox_run *run, bool stolen);

/* One slot for each byte of `stolen`: 0, the core is ours; anything else, it is stolen. No byte is no slot: an acceptable run comes
 * back accepted and unchanged. A run state that is not acceptable gets refusal 13, whatever `length` is, and comes back exactly as it
 * came in. */
channelfox_run_answer channelfox_advance(channelfox_run run, const uint8_t *stolen, size_t length);

/* What is known of an object's value. Refusals 13, then 14, with no age and no value. */
channelfox_reading channelfox_read_value(channelfox_run run, uint16_t id);

/* What a refusal number says, in a few words and without a line end; "accepted" for 0. */
static inline const char *channelfox_refusal_text(unsigned number) {
    switch (number) {
    case 0:
        return "accepted";
    case 1:
        return "fewer than 8 bytes";
    case 2:
        return "more than 4096 bytes";
    case 3:
        return "the bytes do not end in the mark of a stored table";
    case 4:
        return "the number of objects is not from 1 to 64";
    case 5:
        return "the distance is too small for so many records";
    case 6:
        return "a hold is not from 1 to its cost, at most 65536";
    case 7:
        return "a cost is not from 1 to 1000000";
    case 8:
        return "a validity is not from 2 to 1000000";
    case 9:
        return "an id is that of an earlier record";
    case 10:
        return "an object has no deadline within half its validity";
    case 11:
        return "there are not as many first releases as objects";
    case 12:
        return "a first release is not below its object's period";
    case 13:
        return "not a run state";
    case 14:
        return "no object has that id";
    case 15:
        return "the distance is above the number of bytes";
    case 16:
        return "the buffer is too small for what is to be written";
    case 17:
        return "a line is not of the form id,cost,validity,hold CR LF";
    case 18:
        return "a first release other than 0 has no place in form one";
    default:
        return "no such refusal";
    }
}

#ifdef __cplusplus
}
#endif

#endif

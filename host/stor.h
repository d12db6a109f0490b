/*
 * The settlement package for a host in C. Link with libhost.a, which `rt lib` in crates/host proves and writes to crates/host/out/.
 *
 * Every call has an answer for every length and every contents of what it is lent; what it answers, and what all lent memory holds after it, is
 * proved in crates/host/specs/Calls.antt. The package keeps nothing between calls, allocates nothing, and calls no function but memcpy and memset.
 *
 * What a caller owes:
 * - Each pointer is followed by its length, in elements and not in bytes, and that many elements are there, aligned for their type. With length 0
 *   a pointer is not followed, and may be null or any other.
 * - Memory that a call may write does not overlap any other memory lent to that call.
 * - Nothing else writes lent memory, and nothing reads what a call may write, until the call returns. Calls on different memory may run at once.
 * - All memory stays the caller's. A call holds it only until it returns.
 * - Input elements hold values: meter, revision, line, sum, month and file memory have been written once, if only with zeros.
 * - A call has STOR_STACK bytes of stack left.
 */
#ifndef STOR_H
#define STOR_H

#include <stddef.h>
#include <stdint.h>

#ifdef __cplusplus
extern "C" {
#endif

/* More stack than any call takes, in bytes; what calls took when it was written is in docs/HOSTS.md. */
#define STOR_STACK 32768

/* The number and the offset of a file's answer. Number 0: taken, and the offset is the file's length. Any other number is a refusal, and the offset
 * is that of the refused command, the file's length where settling was refused, or 0 where writing was. (An offset of 2^56 or more would stand as
 * 2^56 - 1.) */
#define STOR_NUMBER(answer) ((unsigned)((answer) & 0xFF))
#define STOR_OFFSET(answer) ((uint64_t)(answer) >> 8)

/* Meter memory: the metered kW of each minute, from minute 0; 1,440 minutes a day, and in a dated October an hour more. A cell outside -500,000 to
 * 500,000 is no reading. */
#define STOR_MINUTES_MOST 44700
#define STOR_NO_READING INT32_MIN

/* Revision memory: beside each cell of meter memory the number of the revision that put its reading there, 0 of a plain reading. Of a minute
 * without a reading the byte means nothing. It goes with meter memory in every call and has a length of its own: where either is shorter than the
 * contract's days, and in a dated October an hour more, that is 15. A contract taken clears the bytes of its days, a date in October those of the hour
 * behind them; a plain reading or a revision taken sets its minute's; no other byte is ever written. */

/* The longest unit file of which every command is taken, in bytes: contract, date, full tables, in each minute a plain reading and 255 revisions,
 * close. */
#define STOR_FILE_MOST 91502666
/* The longest unit file that a call writes, in bytes: of each minute one reading with its revision. Memory for a written file needs no more. */
#define STOR_WRITTEN_MOST 359366

/* Line memory: a statement's lines one after the other, each as eight numbers. A statement has at most STOR_LINES_MOST lines. */
#define STOR_LINES_MOST 1682
enum {
    STOR_LINE_INSTRUCTION = 0, /* from 1 */
    STOR_LINE_PERIOD = 1,      /* from 1 */
    STOR_LINE_STAGE = 2,       /* 0 ramp up, 1 steady, 2 ramp down */
    STOR_LINE_RATE = 3,        /* 0 utilisation, 1 optional */
    STOR_LINE_EXPECTED = 4,    /* kWh */
    STOR_LINE_DELIVERED = 5,   /* kWh */
    STOR_LINE_CAPPED = 6,      /* kWh */
    STOR_LINE_PENCE = 7,
    STOR_LINE_NUMBERS = 8
};

/* Sum memory: six numbers, then two for each of the 128 places for a window. */
enum {
    STOR_SUM_LINES = 0,        /* number of lines */
    STOR_SUM_WINDOWS = 1,      /* number of windows entered */
    STOR_SUM_CAPPED = 2,       /* kWh */
    STOR_SUM_UTILISATION = 3,  /* pence */
    STOR_SUM_AVAILABILITY = 4, /* pence */
    STOR_SUM_ALL = 5,          /* pence */
    STOR_SUM_NUMBERS = 262
};
/* A window's paid periods and pence; w counts from 0. */
#define STOR_SUM_PERIODS(w) (6 + 2 * (w))
#define STOR_SUM_PENCE(w) (7 + 2 * (w))

/* Month memory: what watching a month needs of it, worked out once. Five numbers, the times of 64 instructions, and a number for each period: so many
 * places, of which no month fills the last. */
#define STOR_INSTRUCTIONS_MOST 64
#define STOR_PERIODS_MOST 1491
enum {
    STOR_MONTH_KW = 0,           /* contracted kW */
    STOR_MONTH_KIND = 1,         /* 0 generator, 1 demand reducer */
    STOR_MONTH_UTILISATION = 2,  /* rate, pence per MWh */
    STOR_MONTH_OPTIONAL = 3,     /* rate, pence per MWh */
    STOR_MONTH_INSTRUCTIONS = 4, /* how many there are */
    STOR_MONTH_NUMBERS = 1816
};
/* The minutes of an instruction; n counts from 1. It is active from START to the minute before END, and its base minutes are ISSUE - 3 to ISSUE. */
#define STOR_MONTH_ISSUE(n) (4 + (n))
#define STOR_MONTH_START(n) (68 + (n))   /* e - U */
#define STOR_MONTH_EXPIRY(n) (132 + (n)) /* e */
#define STOR_MONTH_CEASE(n) (196 + (n))
#define STOR_MONTH_END(n) (260 + (n)) /* f */
/* 1 where a period is in a live window, else 0; p counts from 0. */
#define STOR_MONTH_LIVE(p) (325 + (p))

/* Totals: what is shown after an active minute; zeros before the first. */
enum {
    STOR_TOTAL_INSTRUCTION = 0, /* from 1 */
    STOR_TOTAL_MINUTE = 1,
    STOR_TOTAL_BASE = 2,      /* the four base readings together: quarter kW */
    STOR_TOTAL_EXPECTED = 3,  /* of the segment so far, quarter kW-minutes */
    STOR_TOTAL_DELIVERED = 4, /* of the segment so far, quarter kW-minutes */
    STOR_TOTAL_CAPPED = 5,    /* of the lines complete, kWh */
    STOR_TOTAL_PENCE = 6,     /* of the lines complete */
    STOR_TOTAL_NUMBERS = 7
};
/* With an instruction's first active minute so many base readings are given. */
#define STOR_BASE_READINGS 4

/* What kind of day a day of a dated month is: the offset's place in the answer of the calls that ask for it. */
enum {
    STOR_DAY_NONE = 0,       /* the book has no date, or its month no such day */
    STOR_DAY_WORKING = 1,
    STOR_DAY_NON_WORKING = 2 /* a Sunday, or a number of the list of holidays */
};

/* What a step answers. */
enum {
    STOR_STEP_TAKEN = 0,
    STOR_STEP_UNFIT = 101,          /* month or totals that are none: too few numbers, or one too large for so many minutes */
    STOR_STEP_NO_INSTRUCTION = 102, /* the month has no such instruction */
    STOR_STEP_NOT_NEXT = 103,       /* not the next active minute */
    STOR_STEP_NO_READING = 104      /* a reading outside its range, or other than four base readings in theirs where they are due */
};

/* Reads and enters a whole unit file, from the empty book. Meter and revision memory after it hold what the commands taken left; a contract longer
 * than either is refused (15). */
uint64_t stor_enter_file(const uint8_t *file, size_t file_length, int32_t *meter, size_t meter_length, uint8_t *revisions, size_t revisions_length);

/* The same, and settles the book. Taken, line memory holds the statement's lines and sum memory its sums, and what stands after them is as it was.
 * On a refusal both are exactly as they were, and meter and revision memory hold what the commands taken before it left. Line memory shorter than
 * the statement and sum memory of fewer than STOR_SUM_NUMBERS are refused last (26), after everything that is wrong with the file or its book. */
uint64_t stor_settle_file(const uint8_t *file, size_t file_length, int32_t *meter, size_t meter_length, uint8_t *revisions, size_t revisions_length,
                          int64_t *lines, size_t lines_length, int64_t *sums, size_t sums_length);

/* How many numbers a row of each table has. */
enum {
    STOR_CONTRACT_NUMBERS = 14,
    STOR_WINDOW_NUMBERS = 3,
    STOR_INSTRUCTION_NUMBERS = 2,
    STOR_DEFAULT_NUMBERS = 3
};

/* Settles the closed book that tables say, over readings in meter memory; of revision memory it asks the length alone. The answer is the refusal's
 * number, or 0. Every table is rows of numbers of 32 bits, one row after the other:
 *   contract      one row: days, kind, service, contracted kW, ramp up, ramp down, response, recovery, availability, utilisation, optional rate,
 *                 and of the month's date year, month and day, which is 1; three zeros: it has none
 *   windows       start, end, verdict for each
 *   instructions  issue, cease for each
 *   defaults      minute, kind, reach for each
 * A contract of other than one row, a table that ends inside a row and a number too wide for its field are refused (11), as is every book that no list
 * of commands leaves. Line and sum memory too short are refused last (26). */
uint8_t stor_settle_tables(const uint32_t *contract, size_t contract_length, const uint32_t *windows, size_t windows_length,
                           const uint32_t *instructions, size_t instructions_length, const uint32_t *defaults, size_t defaults_length,
                           const int32_t *meter, size_t meter_length, const uint8_t *revisions, size_t revisions_length, int64_t *lines,
                           size_t lines_length, int64_t *sums, size_t sums_length);

/* Writes the same book, with the readings in meter memory and their revisions, as a unit file into the first bytes of file memory; those after it are
 * as they were. The answer's offset is the file's length. On a refusal it is 0, and file memory is exactly as it was: tables as above that say no book
 * (11), meter or revision memory too short (15), file memory shorter than the file (26; STOR_WRITTEN_MOST bytes are room for every month). */
uint64_t stor_write_tables(const uint32_t *contract, size_t contract_length, const uint32_t *windows, size_t windows_length,
                           const uint32_t *instructions, size_t instructions_length, const uint32_t *defaults, size_t defaults_length,
                           const int32_t *meter, size_t meter_length, const uint8_t *revisions, size_t revisions_length, uint8_t *file,
                           size_t file_length);

/* Reads and enters a whole unit file, from the empty book, and writes its book, open, empty or closed, as a unit file into the first bytes of other
 * memory; those after it are as they were. The answer's offset is the length of what was written. On a refusal all of that memory is exactly as it
 * was, and the offset is that of the refused command, or 0 where the memory is shorter than the file to be written (26; STOR_WRITTEN_MOST bytes are
 * room for every month). Meter and revision memory hold what the commands taken left. */
uint64_t stor_write_file(const uint8_t *file, size_t file_length, int32_t *meter, size_t meter_length, uint8_t *revisions, size_t revisions_length,
                         uint8_t *written, size_t written_length);

/* Reads and enters a whole unit file, from the empty book, and works out its month, open, empty or closed, into the first STOR_MONTH_NUMBERS numbers of
 * month memory; those after them are as they were. On a refusal all of month memory is exactly as it was; fewer numbers than STOR_MONTH_NUMBERS are
 * refused last (26, and the offset is the file's length). Meter and revision memory hold what the commands taken left. */
uint64_t stor_watch_file(const uint8_t *file, size_t file_length, int32_t *meter, size_t meter_length, uint8_t *revisions, size_t revisions_length,
                         uint32_t *month, size_t month_length);

/* The same for the book that tables say, as above: 11, 26 or 0. No reading is looked at. */
uint8_t stor_watch_tables(const uint32_t *contract, size_t contract_length, const uint32_t *windows, size_t windows_length,
                          const uint32_t *instructions, size_t instructions_length, const uint32_t *defaults, size_t defaults_length, uint32_t *month,
                          size_t month_length);

/* One step: the next active minute of a month, with its reading, takes the totals of the minutes before it to those after it. The base readings are given
 * with an instruction's first active minute, and are not looked at with any other. Where the answer is not STOR_STEP_TAKEN the totals are exactly as they
 * were; of several the first in the order of their numbers is given. Numbers after the first STOR_TOTAL_NUMBERS are never written. */
uint8_t stor_watch_step(const uint32_t *month, size_t month_length, int64_t *totals, size_t totals_length, uint32_t instruction, uint16_t minute,
                        int32_t kw, const int32_t *base, size_t base_length);

/* Reads and enters a whole unit file, from the empty book, and answers what kind of day a day of its book's month is, open or closed: STOR_NUMBER is the
 * refusal's number, and STOR_OFFSET then the offset of the refused command; where the number is 0, STOR_OFFSET is one of STOR_DAY_.. . Days count from 1.
 * The list of holidays may hold any numbers, in any order and more than once; those that are no day of the month do nothing. Meter and revision memory
 * hold what the commands taken left. */
uint64_t stor_day_file(const uint8_t *file, size_t file_length, int32_t *meter, size_t meter_length, uint8_t *revisions, size_t revisions_length,
                       uint32_t day, const uint32_t *holidays, size_t holidays_length);

/* The same of the book that tables say, as above: STOR_NUMBER is 11, and STOR_OFFSET 0, or STOR_NUMBER is 0 and STOR_OFFSET one of STOR_DAY_.. . */
uint64_t stor_day_tables(const uint32_t *contract, size_t contract_length, const uint32_t *windows, size_t windows_length, const uint32_t *instructions,
                         size_t instructions_length, const uint32_t *defaults, size_t defaults_length, uint32_t day, const uint32_t *holidays,
                         size_t holidays_length);

#ifdef __cplusplus
}
#endif

#endif

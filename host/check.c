/* check FILE: settles one unit file of up to 31 days through stor.h and prints its T row, or the R row of its refusal. Before that it writes a day in
   tables as a unit file, which must settle as the tables do and have the same revisions and the same month, and watches it up to every answer of a step;
   and an October in tables, of which each day must be of the kind that the file's is. After it it writes the book of a file that was settled, which must settle alike, and watches it, which must end with the same kWh and pence. It shows
   that the header and the library fit together; `stor` is the program to use. */
#include <inttypes.h>
#include <stdio.h>
#include <stdlib.h>
#include <string.h>

#include "stor.h"

enum { LINES_LENGTH = STOR_LINE_NUMBERS * STOR_LINES_MOST };

static int32_t meter[STOR_MINUTES_MOST];
static uint8_t revisions[STOR_MINUTES_MOST];
static int64_t lines[LINES_LENGTH];
static int64_t sums[STOR_SUM_NUMBERS];
static uint32_t month[STOR_MONTH_NUMBERS];

/* The whole file in memory of its own, or no memory where it cannot be read. */
static uint8_t *contents(const char *name, size_t *length)
{
    FILE *file = fopen(name, "rb");
    if (file == NULL)
        return NULL;
    uint8_t *bytes = NULL;
    long end = fseek(file, 0, SEEK_END) == 0 ? ftell(file) : -1;
    if (end >= 0 && fseek(file, 0, SEEK_SET) == 0) {
        *length = (size_t)end;
        bytes = malloc(*length + 1); /* an empty file has memory too */
        if (bytes != NULL && fread(bytes, 1, *length, file) != *length) {
            free(bytes);
            bytes = NULL;
        }
    }
    fclose(file);
    return bytes;
}

/* One step into totals, with the reading in meter memory. */
static uint8_t step(int64_t *totals, uint32_t instruction, uint32_t minute, const int32_t *base, size_t base_length)
{
    return stor_watch_step(month, STOR_MONTH_NUMBERS, totals, STOR_TOTAL_NUMBERS, instruction, (uint16_t)minute, meter[minute], base, base_length);
}

/* Steps through all active minutes of the month, from zeros; whether each is taken. */
static int walked(int64_t *totals)
{
    memset(totals, 0, STOR_TOTAL_NUMBERS * sizeof *totals);
    for (uint32_t n = 1; n <= month[STOR_MONTH_INSTRUCTIONS]; n++) {
        uint32_t first = month[STOR_MONTH_START(n)];
        const int32_t *base = meter + month[STOR_MONTH_ISSUE(n)] - (STOR_BASE_READINGS - 1);
        if (step(totals, n, first, base, STOR_BASE_READINGS) != STOR_STEP_TAKEN)
            return 0;
        for (uint32_t m = first + 1; m < month[STOR_MONTH_END(n)]; m++) {
            if (step(totals, n, m, NULL, 0) != STOR_STEP_TAKEN)
                return 0;
        }
    }
    return 1;
}

/* Whether the totals after the last active minute are those of the sums. */
static int totals_agree(void)
{
    int64_t totals[STOR_TOTAL_NUMBERS];
    return walked(totals) && totals[STOR_TOTAL_CAPPED] == sums[STOR_SUM_CAPPED] && totals[STOR_TOTAL_PENCE] == sums[STOR_SUM_UTILISATION];
}

/* Whether steps of a month with one instruction are answered as they should be, before its first active minute and after its last. */
static int steps_answer(void)
{
    static const int32_t base[STOR_BASE_READINGS];
    int64_t totals[STOR_TOTAL_NUMBERS] = {0};
    uint32_t first = month[STOR_MONTH_START(1)], end = month[STOR_MONTH_END(1)];
    if (stor_watch_step(month, STOR_MONTH_NUMBERS - 1, totals, STOR_TOTAL_NUMBERS, 1, (uint16_t)first, 0, base, STOR_BASE_READINGS) != STOR_STEP_UNFIT ||
        stor_watch_step(month, STOR_MONTH_NUMBERS, totals, STOR_TOTAL_NUMBERS - 1, 1, (uint16_t)first, 0, base, STOR_BASE_READINGS) != STOR_STEP_UNFIT ||
        step(totals, 2, first, base, STOR_BASE_READINGS) != STOR_STEP_NO_INSTRUCTION ||
        step(totals, 1, first + 1, base, STOR_BASE_READINGS) != STOR_STEP_NOT_NEXT ||
        step(totals, 1, first, base, STOR_BASE_READINGS - 1) != STOR_STEP_NO_READING || totals[STOR_TOTAL_INSTRUCTION] != 0)
        return 0;
    return walked(totals) && step(totals, 1, end, NULL, 0) == STOR_STEP_NOT_NEXT && totals[STOR_TOTAL_INSTRUCTION] == 1 &&
           totals[STOR_TOTAL_MINUTE] == end - 1;
}

/* Whether a day in tables, with 0 kW in every minute and one of them revised, gives the same sums and the same month by its tables and by the file that is
   written of them, and whether that file is as long as it should be and brings the revision back. */
static int day_agrees(void)
{
    static const uint32_t contract[STOR_CONTRACT_NUMBERS] = {1, 0, 0, 3000, 3000, 3000, 1, 0, 100, 100, 100};
    static const uint32_t windows[STOR_WINDOW_NUMBERS] = {0, 60, 0}, instructions[STOR_INSTRUCTION_NUMBERS] = {10, 40};
    static const uint32_t defaults[STOR_DEFAULT_NUMBERS] = {5, 1, 1};
    static uint8_t day[STOR_WRITTEN_MOST];
    static int64_t by_file[STOR_SUM_NUMBERS];
    static uint32_t by_tables[STOR_MONTH_NUMBERS];
    enum { MINUTES = 1440, REVISED = 12, REVISION = 200 };
    revisions[REVISED] = REVISION;
    uint8_t number = stor_settle_tables(contract, STOR_CONTRACT_NUMBERS, windows, STOR_WINDOW_NUMBERS, instructions, STOR_INSTRUCTION_NUMBERS, defaults,
                                        STOR_DEFAULT_NUMBERS, meter, STOR_MINUTES_MOST, revisions, STOR_MINUTES_MOST, lines, LINES_LENGTH, sums,
                                        STOR_SUM_NUMBERS);
    uint64_t answer =
        stor_write_tables(contract, STOR_CONTRACT_NUMBERS, windows, STOR_WINDOW_NUMBERS, instructions, STOR_INSTRUCTION_NUMBERS, defaults,
                          STOR_DEFAULT_NUMBERS, meter, STOR_MINUTES_MOST, revisions, STOR_MINUTES_MOST, day, STOR_WRITTEN_MOST);
    /* contract, window, instruction, default, close, seven bytes a reading, and one more of the revised one */
    if (number != 0 || STOR_NUMBER(answer) != 0 || STOR_OFFSET(answer) != 32 + 6 + 5 + 5 + 1 + 7 * MINUTES + 1)
        return 0;
    size_t length = (size_t)STOR_OFFSET(answer);
    memset(revisions, 0, sizeof revisions);
    answer = stor_settle_file(day, length, meter, STOR_MINUTES_MOST, revisions, STOR_MINUTES_MOST, lines, LINES_LENGTH, by_file, STOR_SUM_NUMBERS);
    if (STOR_NUMBER(answer) != 0 || revisions[REVISED] != REVISION || memcmp(sums, by_file, sizeof sums) != 0)
        return 0;
    number = stor_watch_tables(contract, STOR_CONTRACT_NUMBERS, windows, STOR_WINDOW_NUMBERS, instructions, STOR_INSTRUCTION_NUMBERS, defaults,
                               STOR_DEFAULT_NUMBERS, by_tables, STOR_MONTH_NUMBERS);
    answer = stor_watch_file(day, length, meter, STOR_MINUTES_MOST, revisions, STOR_MINUTES_MOST, month, STOR_MONTH_NUMBERS);
    return number == 0 && STOR_NUMBER(answer) == 0 && memcmp(month, by_tables, sizeof month) == 0 && month[STOR_MONTH_KW] == contract[3] &&
           month[STOR_MONTH_LIVE(1)] == 1 && month[STOR_MONTH_LIVE(2)] == 0 && totals_agree() && steps_answer();
}

/* The kinds of the days of an October that began on a Tuesday, with the 4th a holiday: by the calendar's sheet. */
static uint64_t kind_in_october(uint32_t day)
{
    if (day < 1 || day > 31)
        return STOR_DAY_NONE;
    return day % 7 == 6 || day == 4 ? STOR_DAY_NON_WORKING : STOR_DAY_WORKING;
}

/* Whether October 2024 in tables, its gained hour's last minute read, is written as a file with its date, and each day of either is of the kind that it
   should be; and whether tables of a day that is not the first are refused. */
static int dates_agree(void)
{
    static const uint32_t contract[STOR_CONTRACT_NUMBERS] = {31, 0, 0, 3000, 3000, 3000, 1, 0, 100, 100, 100, 2024, 10, 1};
    static const uint32_t holidays[] = {0, 200, 4, 4};
    static uint8_t october[STOR_WRITTEN_MOST];
    enum { HOLIDAYS = sizeof holidays / sizeof *holidays, LAST = STOR_MINUTES_MOST - 1 };
    for (size_t m = 0; m < STOR_MINUTES_MOST; m++)
        meter[m] = STOR_NO_READING;
    meter[LAST] = 7;
    uint64_t answer = stor_write_tables(contract, STOR_CONTRACT_NUMBERS, NULL, 0, NULL, 0, NULL, 0, meter, STOR_MINUTES_MOST, revisions,
                                        STOR_MINUTES_MOST, october, STOR_WRITTEN_MOST);
    /* contract, date, reading, close */
    size_t length = (size_t)STOR_OFFSET(answer);
    if (STOR_NUMBER(answer) != 0 || length != 32 + 5 + 7 + 1 || october[32] != 0x54 || october[35] != 10)
        return 0;
    meter[LAST] = 0;
    for (uint32_t day = 0; day <= 32; day++) {
        uint64_t by_file = stor_day_file(october, length, meter, STOR_MINUTES_MOST, revisions, STOR_MINUTES_MOST, day, holidays, HOLIDAYS);
        uint64_t by_tables = stor_day_tables(contract, STOR_CONTRACT_NUMBERS, NULL, 0, NULL, 0, NULL, 0, day, holidays, HOLIDAYS);
        if (STOR_NUMBER(by_file) != 0 || STOR_OFFSET(by_file) != kind_in_october(day) || by_tables != by_file || meter[LAST] != 7)
            return 0;
    }
    uint32_t second[STOR_CONTRACT_NUMBERS];
    memcpy(second, contract, sizeof second);
    second[STOR_CONTRACT_NUMBERS - 1] = 2;
    memset(meter, 0, sizeof meter);
    return stor_day_tables(second, STOR_CONTRACT_NUMBERS, NULL, 0, NULL, 0, NULL, 0, 1, NULL, 0) == 11;
}

/* Whether watching a file that was settled ends with the same capped kWh and pence. */
static int minutes_agree(const uint8_t *file, size_t length)
{
    uint64_t answer = stor_watch_file(file, length, meter, STOR_MINUTES_MOST, revisions, STOR_MINUTES_MOST, month, STOR_MONTH_NUMBERS);
    return STOR_NUMBER(answer) == 0 && STOR_OFFSET(answer) == length && totals_agree();
}

/* Whether the book of a file that was settled gives the same sums when it is written as a file and settled again. */
static int book_agrees(const uint8_t *file, size_t length)
{
    static uint8_t written[STOR_WRITTEN_MOST];
    static int64_t again[STOR_SUM_NUMBERS];
    uint64_t answer = stor_write_file(file, length, meter, STOR_MINUTES_MOST, revisions, STOR_MINUTES_MOST, written, STOR_WRITTEN_MOST);
    if (STOR_NUMBER(answer) != 0)
        return 0;
    answer = stor_settle_file(written, (size_t)STOR_OFFSET(answer), meter, STOR_MINUTES_MOST, revisions, STOR_MINUTES_MOST, lines, LINES_LENGTH, again,
                              STOR_SUM_NUMBERS);
    return STOR_NUMBER(answer) == 0 && memcmp(sums, again, sizeof sums) == 0;
}

int main(int count, char **words)
{
    size_t length = 0;
    if (count != 2) {
        fprintf(stderr, "usage: check FILE\n");
        return 2;
    }
    if (!day_agrees()) {
        fprintf(stderr, "check: a day written as a file is not settled and watched as its tables are\n");
        return 1;
    }
    if (!dates_agree()) {
        fprintf(stderr, "check: a dated month written as a file has other days than its tables\n");
        return 1;
    }
    uint8_t *file = contents(words[1], &length);
    if (file == NULL) {
        fprintf(stderr, "check: %s cannot be read\n", words[1]);
        return 1;
    }
    uint64_t answer =
        stor_settle_file(file, length, meter, STOR_MINUTES_MOST, revisions, STOR_MINUTES_MOST, lines, LINES_LENGTH, sums, STOR_SUM_NUMBERS);
    int settled = STOR_NUMBER(answer) == 0;
    int watched = !settled || minutes_agree(file, length);
    int written = !settled || book_agrees(file, length);
    free(file);
    if (!watched || !written) {
        fprintf(stderr, "check: %s, watched or written again, does not end as it is settled\n", words[1]);
        return 1;
    }
    if (STOR_NUMBER(answer) != 0)
        printf("R %u %" PRIu64 "\n", STOR_NUMBER(answer), STOR_OFFSET(answer));
    else
        printf("T %" PRId64 " %" PRId64 " %" PRId64 " %" PRId64 "\n", sums[STOR_SUM_CAPPED], sums[STOR_SUM_UTILISATION],
               sums[STOR_SUM_AVAILABILITY], sums[STOR_SUM_ALL]);
    return 0;
}

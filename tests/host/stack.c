/* stack FILE..: how much stack the library's calls take, held to what stor.h says. Each call runs on a stack of its own, filled with a mark before;
   the lowest byte that lost its mark tells how deep the call went. */
#include <pthread.h>
#include <stdint.h>
#include <stdio.h>
#include <stdlib.h>
#include <string.h>

#include "stor.h"

enum { SIZE = 1 << 20, MARK = 0xA5, LINES_LENGTH = STOR_LINE_NUMBERS * STOR_LINES_MOST };

static unsigned char stack[SIZE] __attribute__((aligned(4096)));
static uint8_t file[1 << 20], written[1 << 20];
static size_t length;
static int32_t meter[STOR_MINUTES_MOST];
static uint8_t revisions[STOR_MINUTES_MOST];
static int64_t lines[LINES_LENGTH];
static int64_t sums[STOR_SUM_NUMBERS];
static uint64_t answer;

static void *nothing(void *p) { return p; }

static void *enters(void *p)
{
    answer = stor_enter_file(file, length, meter, STOR_MINUTES_MOST, revisions, STOR_MINUTES_MOST);
    return p;
}

static void *settles(void *p)
{
    answer = stor_settle_file(file, length, meter, STOR_MINUTES_MOST, revisions, STOR_MINUTES_MOST, lines, LINES_LENGTH, sums, STOR_SUM_NUMBERS);
    return p;
}

/* A day with one window, one instruction and one default, and 0 kW in every minute. */
static const uint32_t contract[STOR_CONTRACT_NUMBERS] = {1, 0, 0, 3000, 3000, 3000, 1, 0, 100, 100, 100};
static const uint32_t windows[STOR_WINDOW_NUMBERS] = {0, 60, 0}, instructions[STOR_INSTRUCTION_NUMBERS] = {10, 40};
static const uint32_t defaults[STOR_DEFAULT_NUMBERS] = {5, 1, 1};

static void *settles_tables(void *p)
{
    answer = stor_settle_tables(contract, STOR_CONTRACT_NUMBERS, windows, STOR_WINDOW_NUMBERS, instructions, STOR_INSTRUCTION_NUMBERS, defaults,
                                STOR_DEFAULT_NUMBERS, meter, STOR_MINUTES_MOST, revisions, STOR_MINUTES_MOST, lines, LINES_LENGTH, sums,
                                STOR_SUM_NUMBERS);
    return p;
}

static void *writes_tables(void *p)
{
    answer = stor_write_tables(contract, STOR_CONTRACT_NUMBERS, windows, STOR_WINDOW_NUMBERS, instructions, STOR_INSTRUCTION_NUMBERS, defaults,
                               STOR_DEFAULT_NUMBERS, meter, STOR_MINUTES_MOST, revisions, STOR_MINUTES_MOST, file, sizeof file);
    return p;
}

static void *writes(void *p)
{
    answer = stor_write_file(file, length, meter, STOR_MINUTES_MOST, revisions, STOR_MINUTES_MOST, written, sizeof written);
    return p;
}

static uint32_t month[STOR_MONTH_NUMBERS];
static int64_t totals[STOR_TOTAL_NUMBERS];

static void *watches(void *p)
{
    answer = stor_watch_file(file, length, meter, STOR_MINUTES_MOST, revisions, STOR_MINUTES_MOST, month, STOR_MONTH_NUMBERS);
    return p;
}

static void *watches_tables(void *p)
{
    answer = stor_watch_tables(contract, STOR_CONTRACT_NUMBERS, windows, STOR_WINDOW_NUMBERS, instructions, STOR_INSTRUCTION_NUMBERS, defaults,
                               STOR_DEFAULT_NUMBERS, month, STOR_MONTH_NUMBERS);
    return p;
}

/* The day's first active minute, which is its segment's last too. */
static void *steps(void *p)
{
    answer = stor_watch_step(month, STOR_MONTH_NUMBERS, totals, STOR_TOTAL_NUMBERS, 1, (uint16_t)month[STOR_MONTH_START(1)], 0, meter, STOR_BASE_READINGS);
    return p;
}

static const uint32_t holidays[] = {1, 2, 3};
enum { HOLIDAYS = sizeof holidays / sizeof *holidays };

static void *asks_day(void *p)
{
    answer = stor_day_file(file, length, meter, STOR_MINUTES_MOST, revisions, STOR_MINUTES_MOST, 31, holidays, HOLIDAYS);
    return p;
}

/* An October, whose 31st is a working day. */
static void *asks_day_of_tables(void *p)
{
    static const uint32_t october[STOR_CONTRACT_NUMBERS] = {31, 0, 0, 3000, 3000, 3000, 1, 0, 100, 100, 100, 2024, 10, 1};
    answer = stor_day_tables(october, STOR_CONTRACT_NUMBERS, windows, STOR_WINDOW_NUMBERS, instructions, STOR_INSTRUCTION_NUMBERS, defaults,
                             STOR_DEFAULT_NUMBERS, 31, holidays, HOLIDAYS);
    return p;
}

/* How far down a thread's stack was written. */
static size_t depth(void *(*run)(void *))
{
    pthread_attr_t attributes;
    pthread_t thread;
    size_t at = 0;
    memset(stack, MARK, SIZE);
    if (pthread_attr_init(&attributes) != 0 || pthread_attr_setstack(&attributes, stack, SIZE) != 0 ||
        pthread_create(&thread, &attributes, run, NULL) != 0 || pthread_join(thread, NULL) != 0) {
        fprintf(stderr, "stack: no thread\n");
        exit(1);
    }
    while (at < SIZE && stack[at] == MARK)
        at++;
    return SIZE - at;
}

static size_t most;

/* A call that hands on a book hands on 2.5 KB: less than that was not measured. A step hands on a few numbers. */
enum { A_BOOK = 2048, NUMBERS = 16 };

static void hold(const char *what, void *(*run)(void *), size_t own, size_t least)
{
    size_t took = depth(run) - own;
    if (took > most)
        most = took;
    if (took < least || took > STOR_STACK) {
        fprintf(stderr, "stack: %s took %zu bytes, stor.h says at most %d\n", what, took, STOR_STACK);
        exit(1);
    }
}

int main(int count, char **words)
{
    size_t own = depth(nothing);
    int settled = 0, rewritten = 0, watched = 0, asked = 0;
    for (int i = 1; i < count; i++) {
        FILE *from = fopen(words[i], "rb");
        if (from == NULL) {
            fprintf(stderr, "stack: %s cannot be read\n", words[i]);
            return 1;
        }
        length = fread(file, 1, sizeof file, from);
        fclose(from);
        hold(words[i], enters, own, A_BOOK);
        hold(words[i], settles, own, A_BOOK);
        settled += answer % 256 == 0;
        hold(words[i], writes, own, A_BOOK);
        rewritten += answer % 256 == 0;
        hold(words[i], watches, own, A_BOOK);
        watched += answer % 256 == 0;
        hold(words[i], asks_day, own, A_BOOK);
        asked += answer % 256 == 0 && answer / 256 != STOR_DAY_NONE;
    }
    memset(meter, 0, sizeof meter);
    hold("tables", settles_tables, own, A_BOOK);
    if (settled == 0 || answer != 0) {
        fprintf(stderr, "stack: nothing was settled\n");
        return 1;
    }
    hold("tables, written", writes_tables, own, A_BOOK);
    if (rewritten == 0 || answer % 256 != 0) {
        fprintf(stderr, "stack: nothing was written\n");
        return 1;
    }
    hold("tables, watched", watches_tables, own, A_BOOK);
    if (watched == 0 || answer != 0) {
        fprintf(stderr, "stack: no month was worked out\n");
        return 1;
    }
    hold("tables, a day", asks_day_of_tables, own, A_BOOK);
    if (asked == 0 || answer != 256 * STOR_DAY_WORKING) {
        fprintf(stderr, "stack: no day was asked for\n");
        return 1;
    }
    hold("a step", steps, own, NUMBERS);
    if (answer != STOR_STEP_TAKEN) {
        fprintf(stderr, "stack: no step was taken\n");
        return 1;
    }
    printf("stack: %zu bytes at most, stor.h says %d\n", most, STOR_STACK);
    return 0;
}

/* lemondarts_join as C sees it: tables joined, each refusal, and what the call leaves unchanged or zero. */
#include <stdio.h>
#include <string.h>

#include "lemondarts.h"

enum { BEFORE = 0xAA, MORE = 8 };

static int failures;
static uint8_t out[LEMONDARTS_TABLE + MORE];
static uint8_t work[LEMONDARTS_WORK + MORE];
static uint64_t values[LEMONDARTS_VALUES + MORE];
static uint8_t tables[9 * LEMONDARTS_TABLE];
static size_t length;

static void check(const char *what, int right) {
    if (!right) {
        printf("wrong: %s\n", what);
        failures++;
    }
}

/* Whether bytes from here to there all are this one. */
static int all(const void *bytes, size_t from, size_t to, uint8_t byte) {
    while (from < to && ((const uint8_t *)bytes)[from] == byte) {
        from++;
    }
    return from == to;
}

static void begin(void) {
    length = 0;
}

/* Writes a table after those before it: counts an action of its own, and denies it after `rows` - 1 of them. */
static void counting(unsigned type, unsigned actions, unsigned rows, unsigned counted) {
    uint8_t header[LEMONDARTS_TABLE_HEADER] = { 0, 0, 0, 0, 0, 0, LEMONDARTS_TABLE_HEADER, 0 };
    unsigned row, action;
    header[0] = (uint8_t)type;
    header[2] = (uint8_t)actions;
    header[4] = (uint8_t)rows;
    memcpy(tables + length, header, sizeof header);
    length += sizeof header;
    for (row = 0; row < rows; row++) {
        for (action = 0; action < actions; action++) {
            tables[length++] = (uint8_t)(action != counted ? row : row + 1 < rows ? row + 1 : LEMONDARTS_TRIP);
        }
    }
}

/* Joins with these lengths of the buffers. All of them hold other bytes first. */
static uint64_t join_in(size_t count, size_t out_length, size_t work_length, size_t values_length) {
    memset(out, BEFORE, sizeof out);
    memset(work, BEFORE, sizeof work);
    memset(values, BEFORE, sizeof values);
    return lemondarts_join(count, tables, length, out, out_length, work, work_length, values, values_length);
}

static uint64_t join(size_t count) {
    return join_in(count, sizeof out, sizeof work, LEMONDARTS_VALUES + MORE);
}

/* Whether both work areas are zero over their lengths, and as they were after these. */
static int cleared(void) {
    return all(work, 0, LEMONDARTS_WORK, 0) && all(work, LEMONDARTS_WORK, sizeof work, BEFORE)
        && all(values, 0, 8 * LEMONDARTS_VALUES, 0) && all(values, 8 * LEMONDARTS_VALUES, sizeof values, BEFORE);
}

static void refused(const char *what, size_t count, unsigned number) {
    check(what, join(count) == number && all(out, 0, sizeof out, BEFORE) && cleared());
}

static void short_of(const char *what, size_t out_length, size_t work_length, size_t values_length) {
    check(what, join_in(0, out_length, work_length, values_length) == LEMONDARTS_SHORT_AREA && all(out, 0, sizeof out, BEFORE)
          && all(work, 0, sizeof work, BEFORE) && all(values, 0, sizeof values, BEFORE));
}

int main(void) {
    /* At most one of action 0 and two of action 1. Rows by what has come: nothing, 0, 1, both, two of 1, all three. */
    static const uint8_t expected[20] = { 1, 0, 2, 0, 6, 0, 8, 0, 1, 2, 255, 3, 3, 4, 255, 5, 5, 255, 255, 255 };
    uint64_t answer;
    unsigned k;

    begin();
    counting(LEMONDARTS_ENFORCED, 2, 2, 0);
    counting(LEMONDARTS_ENFORCED, 2, 3, 1);
    answer = join(2);
    check("two tables are joined", LEMONDARTS_OK(answer) && LEMONDARTS_VALUE(answer) == LEMONDARTS_ENFORCED && LEMONDARTS_ACTIONS(answer) == 2
          && LEMONDARTS_ROWS(answer) == 6 && LEMONDARTS_TABLE_LENGTH(answer) == sizeof expected);
    check("their table, and nothing after it", memcmp(out, expected, sizeof expected) == 0 && all(out, sizeof expected, sizeof out, BEFORE));
    check("the work areas are zero", cleared());
    check("it loads", lemondarts_load(out, sizeof expected) == answer);
    check("areas of the lengths asked for", join_in(2, LEMONDARTS_TABLE, LEMONDARTS_WORK, LEMONDARTS_VALUES) == answer
          && memcmp(out, expected, sizeof expected) == 0);

    short_of("an output of 1,031 bytes", LEMONDARTS_TABLE - 1, LEMONDARTS_WORK, LEMONDARTS_VALUES);
    short_of("a work area of 65,535 bytes", LEMONDARTS_TABLE, LEMONDARTS_WORK - 1, LEMONDARTS_VALUES);
    short_of("1,023 values", LEMONDARTS_TABLE, LEMONDARTS_WORK, LEMONDARTS_VALUES - 1);

    refused("count 0", 0, LEMONDARTS_BAD_COUNTS);
    refused("count 1", 1, LEMONDARTS_BAD_COUNTS);
    refused("count 9", 9, LEMONDARTS_BAD_COUNTS);
    refused("the largest count", (size_t)-1, LEMONDARTS_BAD_COUNTS);
    refused("the third table is missing", 3, LEMONDARTS_MALFORMED);
    length--;
    refused("the second is cut", 2, LEMONDARTS_MALFORMED);
    length += 2;
    refused("a byte left over", 2, LEMONDARTS_MALFORMED);

    begin();
    counting(LEMONDARTS_WATCHED, 2, 2, 0);
    refused("a watched table, then nothing", 2, LEMONDARTS_WATCHED_TABLE);
    begin();
    counting(LEMONDARTS_ENFORCED, 2, 2, 0);
    counting(LEMONDARTS_WATCHED, 2, 2, 2);
    refused("a table that is watched and has rows alike", 2, LEMONDARTS_NOT_CANONICAL);

    begin();
    counting(LEMONDARTS_ENFORCED, 2, 33, 0);
    counting(LEMONDARTS_ENFORCED, 2, 32, 1);
    refused("over 1,024 values", 2, LEMONDARTS_TOO_MANY_VALUES);
    counting(LEMONDARTS_ENFORCED, 3, 1, 0);
    refused("another number of actions", 3, LEMONDARTS_OTHER_ACTIONS);
    begin();
    counting(LEMONDARTS_ENFORCED, 2, 32, 0);
    counting(LEMONDARTS_ENFORCED, 2, 32, 1);
    refused("over 64 rows", 2, LEMONDARTS_TOO_MANY_ROWS);

    begin();
    for (k = 0; k < LEMONDARTS_MOST_JOINED; k++) {
        counting(LEMONDARTS_ENFORCED, 16, 64, 3);
    }
    answer = join(LEMONDARTS_MOST_JOINED);
    check("a table as often as it may stand is itself", LEMONDARTS_OK(answer) && LEMONDARTS_TABLE_LENGTH(answer) == LEMONDARTS_TABLE
          && memcmp(out, tables, LEMONDARTS_TABLE) == 0 && all(out, LEMONDARTS_TABLE, sizeof out, BEFORE) && cleared());
    return failures > 0;
}

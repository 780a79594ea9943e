/* lemondarts_explain as C sees it: places and nodes, each refusal, and what the call leaves unchanged or zero. */
#include <stdio.h>
#include <string.h>

#include "lemondarts.h"

enum { BEFORE = 0xAA, MORE = 8, LONG = 70000 };

static int failures;
static uint64_t place[LEMONDARTS_LIST_PLACE + MORE];
static uint8_t work[LEMONDARTS_WORK + MORE];
static uint64_t values[LEMONDARTS_VALUES + MORE];
static uint8_t sheet[LEMONDARTS_SHEET];
static size_t sheet_length;
static uint8_t list[LONG];
static size_t list_length;

/* Four actions, each with the one proposition of its number. */
static const uint16_t actions[4] = { 1, 2, 4, 8 };

static void check(const char *what, int right) {
    if (!right) {
        printf("wrong: %s\n", what);
        failures++;
    }
}

/* Whether bytes from here to there all are this one. */
static int all(const void *bytes, size_t from, size_t to, uint8_t byte) {
    while (from < to && ((const uint8_t *)bytes)[from] == byte) {
        from++;
    }
    return from == to;
}

/* Reads a rule to `sheet`. */
static void rule(const char *text) {
    uint64_t answer = lemondarts_read_text((const uint8_t *)text, strlen(text), actions, 4, sheet, sizeof sheet);
    check(text, LEMONDARTS_OK(answer));
    sheet_length = LEMONDARTS_SHEET_LENGTH(answer);
}

/* The list, a digit an action. */
static void given(const char *digits) {
    for (list_length = 0; digits[list_length] != 0; list_length++) {
        list[list_length] = (uint8_t)(digits[list_length] - '0');
    }
}

/* Explains with these lengths of the buffers. All of them hold other bytes first. */
static uint64_t explain_in(size_t place_length, size_t work_length, size_t values_length) {
    memset(place, BEFORE, sizeof place);
    memset(work, BEFORE, sizeof work);
    memset(values, BEFORE, sizeof values);
    return lemondarts_explain(sheet, sheet_length, list, list_length, place, place_length, work, work_length, values, values_length);
}

static uint64_t explain(void) {
    return explain_in(LEMONDARTS_LIST_PLACE + MORE, sizeof work, LEMONDARTS_VALUES + MORE);
}

/* Whether both work areas are zero over their lengths, and as they were after these. */
static int cleared(void) {
    return all(work, 0, LEMONDARTS_WORK, 0) && all(work, LEMONDARTS_WORK, sizeof work, BEFORE)
        && all(values, 0, 8 * LEMONDARTS_VALUES, 0) && all(values, 8 * LEMONDARTS_VALUES, sizeof values, BEFORE);
}

static void denied(const char *what, uint64_t where, unsigned node) {
    check(what, explain() == ((uint64_t)node << 16 | LEMONDARTS_DENIED) && place[0] == where && all(place, 8, sizeof place, BEFORE) && cleared());
}

/* Refused, or done where the number is 0. */
static void answered(const char *what, unsigned number, unsigned value) {
    check(what, explain() == ((uint64_t)value << 16 | number) && all(place, 0, sizeof place, BEFORE) && cleared());
}

static void short_of(const char *what, size_t place_length, size_t work_length, size_t values_length) {
    check(what, explain_in(place_length, work_length, values_length) == LEMONDARTS_SHORT_AREA && all(place, 0, sizeof place, BEFORE)
          && all(work, 0, sizeof work, BEFORE) && all(values, 0, sizeof values, BEFORE));
}

int main(void) {
    /* Node 3: no p0. Node 7: no p1. Node 9: fewer than four actions. Nodes 10 and 11: And. */
    rule("enforce and always holds not p0 and always holds not p1 not count 4");
    given("");
    answered("no action is given", LEMONDARTS_DONE, 0);
    given("232");
    answered("no action is denied", LEMONDARTS_DONE, 0);
    given("0");
    denied("the first", 0, 3);
    given("2310");
    denied("the third", 2, 7);
    given("2323");
    denied("the fourth", 3, 9);
    given("2320");
    denied("two parts at once", 3, 3);
    check("areas of the lengths asked for", explain_in(LEMONDARTS_LIST_PLACE, LEMONDARTS_WORK, LEMONDARTS_VALUES) == (3u << 16 | LEMONDARTS_DENIED)
          && place[0] == 3);

    short_of("no place", 0, LEMONDARTS_WORK, LEMONDARTS_VALUES);
    short_of("a work area of 65,535 bytes", LEMONDARTS_LIST_PLACE, LEMONDARTS_WORK - 1, LEMONDARTS_VALUES);
    short_of("1,023 values", LEMONDARTS_LIST_PLACE, LEMONDARTS_WORK, LEMONDARTS_VALUES - 1);

    given("4");
    answered("no such action", LEMONDARTS_NO_ACTION, 0);
    given("2304");
    answered("no such action, after the denial", LEMONDARTS_NO_ACTION, 0);
    rule("watch count 2");
    answered("a watched sheet", LEMONDARTS_WATCHED_TABLE, 0);
    rule("watch after count 60 count 5");
    answered("over 64 rows", LEMONDARTS_TOO_MANY_ROWS, 2);
    sheet_length--;
    answered("a sheet that is cut", LEMONDARTS_BAD_LENGTH, 0);

    rule("enforce or and always holds not p0 always holds not p1 always holds not p2");
    given("02");
    denied("Or over And", 1, 13);

    rule("enforce always holds not p1");
    memset(list, 0, sizeof list);
    list_length = sizeof list;
    answered("70,000 actions", LEMONDARTS_DONE, 0);
    list[LONG - 1] = 1;
    denied("a place over 65,535", LONG - 1, 3);
    return failures > 0;
}

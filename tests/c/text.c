/* lemondarts_read_text as C sees it: a rule read and compiled, each refusal with its spot, and what the call leaves unchanged. */
#include <stdio.h>
#include <string.h>

#include "lemondarts.h"

enum { BEFORE = 0xAA };

static int failures;
static uint8_t sheet[LEMONDARTS_SHEET + 8];
static const uint16_t actions[17] = { 1, 2, 4, 8 };

static void check(const char *what, int right) {
    if (!right) {
        printf("wrong: %s\n", what);
        failures++;
    }
}

/* Whether the bytes of `sheet` from here on are as they were before the call. */
static int kept(size_t from) {
    while (from < sizeof sheet && sheet[from] == BEFORE) {
        from++;
    }
    return from == sizeof sheet;
}

static uint64_t read_text(const char *text, size_t count, size_t length) {
    memset(sheet, BEFORE, sizeof sheet);
    return lemondarts_read_text((const uint8_t *)text, strlen(text), actions, count, sheet, length);
}

static void refused(const char *text, size_t count, size_t length, unsigned number, unsigned spot) {
    uint64_t answer = read_text(text, count, length);
    check(text, LEMONDARTS_NUMBER(answer) == number && LEMONDARTS_VALUE(answer) == spot && LEMONDARTS_ACTIONS(answer) == 0
          && LEMONDARTS_NODES(answer) == 0 && kept(0));
}

int main(void) {
    /* Header, the actions, p0, Now 0, p1, not 2, Holds 3, After+ 1 4, Always 5. */
    static const uint8_t expected[53] = {
        4, 0, 7, 0, 10, 0, 18, 0, 53, 0, 1, 0, 2, 0, 4, 0, 8, 0,
        3, 0, 0, 0, 0, 10, 0, 0, 0, 0, 3, 1, 0, 0, 0, 4, 0, 2, 0, 0, 11, 0, 3, 0, 0, 21, 0, 1, 4, 0, 17, 0, 5, 0, 0,
    };
    static const uint8_t rows[16] = { 1, 0, 4, 0, 2, 0, 8, 0, 1, 0, 0, 0, 1, 255, 0, 0 };
    static uint8_t table[LEMONDARTS_TABLE], work[LEMONDARTS_WORK];
    static uint64_t values[LEMONDARTS_VALUES];
    static char text[1026];
    unsigned k;

    uint64_t answer = read_text("enforce always\n  after now p0 holds not p1\n", 4, sizeof sheet);
    check("the rule is read", LEMONDARTS_OK(answer) && LEMONDARTS_SHEET_LENGTH(answer) == sizeof expected
          && LEMONDARTS_ACTIONS(answer) == 4 && LEMONDARTS_NODES(answer) == 7);
    check("its sheet, and nothing after it", memcmp(sheet, expected, sizeof expected) == 0 && kept(sizeof expected));
    answer = lemondarts_compile(sheet, LEMONDARTS_SHEET_LENGTH(answer), table, sizeof table, work, sizeof work, values, LEMONDARTS_VALUES);
    check("its table", LEMONDARTS_OK(answer) && LEMONDARTS_TABLE_LENGTH(answer) == sizeof rows && memcmp(table, rows, sizeof rows) == 0);

    check("an output of 362 bytes", LEMONDARTS_OK(read_text("watch now p0", 16, LEMONDARTS_SHEET)));
    refused("watch now p0", 17, LEMONDARTS_SHEET - 1, LEMONDARTS_SHORT_AREA, 0);
    refused("watch now p0", 17, sizeof sheet, LEMONDARTS_BAD_COUNTS, 0);
    refused("watch now p0", 0, sizeof sheet, LEMONDARTS_BAD_COUNTS, 0);
    refused("", 4, sizeof sheet, LEMONDARTS_BAD_TEXT, 0);
    refused("watch\tnow p0", 4, sizeof sheet, LEMONDARTS_BAD_TEXT, 0);
    refused("enforce now p0", 4, sizeof sheet, LEMONDARTS_BAD_TEXT, 1);
    refused("watch now", 4, sizeof sheet, LEMONDARTS_BAD_TEXT, 2);
    refused("watch count 61", 4, sizeof sheet, LEMONDARTS_BAD_TEXT, 2);
    refused("watch now p0 p0", 4, sizeof sheet, LEMONDARTS_BAD_TEXT, 3);
    memset(text, ' ', 1025);
    memcpy(text, "watch now p0", 12);
    refused(text, 4, sizeof sheet, LEMONDARTS_TEXT_TOO_LONG, 0);
    text[1024] = 0;
    check("a text of 1,024 bytes", LEMONDARTS_OK(read_text(text, 4, sizeof sheet)));
    strcpy(text, "watch");
    for (k = 0; k < 63; k++) {
        strcat(text, " eventually");
    }
    strcat(text, " now p0");
    refused(text, 4, sizeof sheet, LEMONDARTS_TOO_MANY_NODES, 0);
    return failures > 0;
}

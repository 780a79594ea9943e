/* The names and texts of include/lemondarts.h: version, fields of an answer, a text for each number. For C and C++; needs no library. */
#include <stdio.h>
#include <string.h>

#include "lemondarts.h"

static int failures;

static void check(const char *what, int right) {
    if (!right) {
        printf("wrong: %s\n", what);
        failures++;
    }
}

/* An answer by its four fields. */
static uint64_t packed(uint64_t number, uint64_t value, uint64_t actions, uint64_t rows) {
    return rows << 48 | actions << 32 | value << 16 | number;
}

/* A call that counts how often it is made. */
static unsigned calls;
static uint64_t called(void) {
    calls++;
    return packed(0, LEMONDARTS_ENFORCED, 5, 21);
}

/* Each name evaluates its answer once. */
static void once(void) {
    check("fields of a call", LEMONDARTS_NUMBER(called()) == 0 && LEMONDARTS_VALUE(called()) == 1 && LEMONDARTS_ACTIONS(called()) == 5
          && LEMONDARTS_ROWS(called()) == 21 && LEMONDARTS_NODES(called()) == 21);
    check("verdicts of a call", LEMONDARTS_OK(called()) && LEMONDARTS_PERMITTED(called()) && LEMONDARTS_FULFILS(called(), 0));
    check("lengths of a call", LEMONDARTS_TABLE_LENGTH(called()) == 113 && LEMONDARTS_SHEET_LENGTH(called()) == 1);
    check("a call made once for each", calls == 10);
}

/* Every number of the header has a text of its own, and no other number has one. */
static void texts(void) {
    static const unsigned numbers[] = { 0, 1, 2, 3, 4, 5, 6, 7, 8, 9, 10, 11, 12, 13, 14, 21, 22, 23, 24, 25, 31, 32, 33, 34, 255 };
    const char *unknown = lemondarts_refusal_text(1000);
    unsigned number, other, listed;
    for (number = 0; number < 70000; number++) {
        listed = 0;
        for (other = 0; other < sizeof numbers / sizeof *numbers; other++) {
            listed |= numbers[other] == number;
            check("two numbers with one text",
                  numbers[other] == number || strcmp(lemondarts_refusal_text(number), lemondarts_refusal_text(numbers[other])) != 0);
        }
        check("a text where there is a number, and only there", listed == (strcmp(lemondarts_refusal_text(number), unknown) != 0));
    }
}

int main(void) {
    char version[32];
    uint64_t compiled = packed(0, LEMONDARTS_WATCHED, 16, 64);
    uint64_t fulfilling = packed(0, 0x81, 0, 0);
    uint64_t denied = packed(LEMONDARTS_DENIED, 7, 0, 0);
    uint64_t refused = packed(LEMONDARTS_TOO_MANY_ROWS, 63, 0, 0);
    uint64_t read = packed(0, 362, 16, 64);
    uint64_t unread = packed(LEMONDARTS_BAD_TEXT, 340, 0, 0);
    uint64_t joined = packed(0, LEMONDARTS_ENFORCED, 5, 21);
    uint64_t explained = packed(LEMONDARTS_DENIED, 63, 0, 0);

    snprintf(version, sizeof version, "%d.%d.%d", LEMONDARTS_VERSION_MAJOR, LEMONDARTS_VERSION_MINOR, LEMONDARTS_VERSION_PATCH);
    check("the version's text", strcmp(version, LEMONDARTS_VERSION) == 0);
    check("the version's number, also for the preprocessor", LEMONDARTS_VERSION_NUMBER == 40700u);
#if LEMONDARTS_VERSION_NUMBER < 40700
    check("the version's number in #if", 0);
#endif

    check("a compiled table is done", LEMONDARTS_OK(compiled) && LEMONDARTS_NUMBER(compiled) == 0);
    check("its type, actions and rows", LEMONDARTS_VALUE(compiled) == 2 && LEMONDARTS_ACTIONS(compiled) == 16 && LEMONDARTS_ROWS(compiled) == 64);
    check("its length", LEMONDARTS_TABLE_LENGTH(compiled) == LEMONDARTS_TABLE);
    check("an action that fulfils rules is permitted", LEMONDARTS_PERMITTED(fulfilling));
    check("the rules that it fulfils",
          LEMONDARTS_FULFILS(fulfilling, 0) && !LEMONDARTS_FULFILS(fulfilling, 1) && LEMONDARTS_FULFILS(fulfilling, 7));
    check("a denied action is not permitted", !LEMONDARTS_PERMITTED(denied) && LEMONDARTS_VALUE(denied) == 7);
    check("a refusal is not done, and has its node", !LEMONDARTS_OK(refused) && !LEMONDARTS_PERMITTED(refused) && LEMONDARTS_VALUE(refused) == 63);
    check("a text that was read is done", LEMONDARTS_OK(read) && LEMONDARTS_SHEET_LENGTH(read) == LEMONDARTS_SHEET);
    check("its actions and nodes", LEMONDARTS_ACTIONS(read) == LEMONDARTS_MOST_ACTIONS && LEMONDARTS_NODES(read) == LEMONDARTS_MOST_NODES);
    check("a text that was not is refused, and has its word", !LEMONDARTS_OK(unread) && LEMONDARTS_NUMBER(unread) == 32 && LEMONDARTS_VALUE(unread) == 340);
    check("a joined table is done, and has its length", LEMONDARTS_OK(joined) && LEMONDARTS_TABLE_LENGTH(joined) == 113);
    check("the tables of a join", LEMONDARTS_FEWEST_JOINED == 2 && LEMONDARTS_MOST_JOINED == LEMONDARTS_PLACES);
    check("an explained denial is not done, and has its node", !LEMONDARTS_OK(explained) && LEMONDARTS_VALUE(explained) == LEMONDARTS_MOST_NODES - 1);
    check("the lengths", LEMONDARTS_AREA == LEMONDARTS_PLACES * LEMONDARTS_TABLE && LEMONDARTS_RECORD == 2 * LEMONDARTS_PLACES
          && LEMONDARTS_TABLE == LEMONDARTS_TABLE_HEADER + LEMONDARTS_MOST_ACTIONS * LEMONDARTS_MOST_ROWS
          && LEMONDARTS_SHEET == LEMONDARTS_SHEET_HEADER + LEMONDARTS_SHEET_ACTION * LEMONDARTS_MOST_ACTIONS + LEMONDARTS_SHEET_NODE * LEMONDARTS_MOST_NODES);
    once();
    texts();
    return failures > 0;
}

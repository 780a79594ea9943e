/* A shop's rules as one table: reads seven rules typed as text, compiles each, joins their tables, and asks two boards, one with the seven tables
 * on and one with the joined table alone, for the same actions.
 *
 * From the top of the repository, after `tools/archive`:
 *
 *     gcc -std=c99 -Wall -Wextra -Iinclude -o join examples/join.c target/staticlib/liblemondarts.a && ./join | diff examples/join.txt -
 */
#include <stdio.h>
#include <stdlib.h>
#include <string.h>

#include "lemondarts.h"

/* The roastery's actions. Each satisfies the one proposition of its number. */
enum { CHARGE, DROP, TRAY, LOG, GAS, ACTIONS, ENFORCED = 7 };

static const char *const action_names[ACTIONS] = { "charge", "drop", "tray", "log", "gas" };
static const uint16_t actions[ACTIONS] = { 1, 2, 4, 8, 16 };

/* The house rules of README.md. The last is watched. */
static const char *const rules[ENFORCED + 1][2] = {
    { "no charge before the tray is empty", "enforce before eventually now p2 always holds not p0" },
    { "a drop between two charges", "enforce always after now p0 before eventually now p1 always holds not p0" },
    { "the log is among the first three actions", "enforce or holds p3 or after count 1 holds p3 after count 2 holds p3" },
    { "never gas while the drum is empty",
      "enforce and before eventually now p0 always holds not p4 always after now p1 before eventually now p0 always holds not p4" },
    { "at most three charges", "enforce ignoring not p0 not count 4" },
    { "no drop right after a charge", "enforce always after now p0 holds not p1" },
    { "after a drop the log comes before the next charge", "enforce always after now p1 ignoring not or p0 p3 holds p3" },
    { "report the third drop", "watch ignoring not p1 count 3" },
};

/* The caller's buffers. */
static uint8_t records[2][LEMONDARTS_RECORD];
static uint8_t areas[2][LEMONDARTS_AREA];
static uint8_t tables[LEMONDARTS_MOST_JOINED * LEMONDARTS_TABLE];
static uint8_t joined[LEMONDARTS_TABLE];
static uint8_t work[LEMONDARTS_WORK];
static uint64_t values[LEMONDARTS_VALUES];

static void must(uint64_t answer, const char *what) {
    if (!LEMONDARTS_OK(answer)) {
        printf("%s: refused %u %u, %s\n", what, LEMONDARTS_NUMBER(answer), LEMONDARTS_VALUE(answer),
               lemondarts_refusal_text(LEMONDARTS_NUMBER(answer)));
        exit(1);
    }
}

static void put_on(unsigned board, size_t place, const uint8_t *table, size_t length, const char *name) {
    must(lemondarts_put_on(records[board], LEMONDARTS_RECORD, areas[board], LEMONDARTS_AREA, place, table, length), name);
}

/* Reads and compiles a rule. Its table is written after the `length` bytes of those before it; gives the length with it. */
static size_t add(size_t place, size_t length) {
    uint8_t sheet[LEMONDARTS_SHEET], *table = tables + length;
    const char *name = rules[place][0], *text = rules[place][1];
    uint64_t answer = lemondarts_read_text((const uint8_t *)text, strlen(text), actions, ACTIONS, sheet, sizeof sheet);
    must(answer, name);
    answer = lemondarts_compile(sheet, LEMONDARTS_SHEET_LENGTH(answer), table, LEMONDARTS_TABLE, work, sizeof work, values, LEMONDARTS_VALUES);
    must(answer, name);
    printf("%s: %u rows\n", name, LEMONDARTS_ROWS(answer));
    if (place < ENFORCED) {
        put_on(0, place, table, LEMONDARTS_TABLE_LENGTH(answer), name);
    }
    return length + LEMONDARTS_TABLE_LENGTH(answer);
}

static uint64_t join(size_t count, size_t length) {
    return lemondarts_join(count, tables, length, joined, sizeof joined, work, sizeof work, values, LEMONDARTS_VALUES);
}

/* Asks both boards for an action, and prints the verdicts. */
static void ask(size_t action) {
    uint64_t answers[2];
    unsigned board;
    for (board = 0; board < 2; board++) {
        answers[board] = lemondarts_action(records[board], LEMONDARTS_RECORD, areas[board], LEMONDARTS_AREA, action);
    }
    printf("%s: ", action_names[action]);
    if (LEMONDARTS_PERMITTED(answers[0])) {
        printf("permitted");
    } else {
        printf("denied (%s)", rules[LEMONDARTS_VALUE(answers[0])][0]);
    }
    printf("; joined: %s\n", LEMONDARTS_PERMITTED(answers[1]) ? "permitted" : "denied");
}

int main(void) {
    static const size_t asked[] = { CHARGE, TRAY, GAS, CHARGE, LOG, CHARGE, GAS, DROP, CHARGE, LOG, CHARGE, DROP, GAS, DROP };
    size_t place, length = 0, k;
    uint64_t answer;
    for (k = 0; k < 2; k++) {
        must(lemondarts_new_board(records[k], LEMONDARTS_RECORD, areas[k], LEMONDARTS_AREA), "new board");
    }
    for (place = 0; place < ENFORCED; place++) {
        length = add(place, length);
    }

    answer = join(ENFORCED, length);
    must(answer, "join");
    printf("%u tables of %u bytes together: joined %u rows, %u bytes\n", (unsigned)ENFORCED, (unsigned)length, LEMONDARTS_ROWS(answer),
           (unsigned)LEMONDARTS_TABLE_LENGTH(answer));
    put_on(1, 0, joined, LEMONDARTS_TABLE_LENGTH(answer), "the joined table");

    length = add(ENFORCED, length);
    answer = join(ENFORCED + 1, length);
    printf("joined with it: refused %u, %s\n", LEMONDARTS_NUMBER(answer), lemondarts_refusal_text(LEMONDARTS_NUMBER(answer)));

    for (k = 0; k < sizeof asked / sizeof *asked; k++) {
        ask(asked[k]);
    }
    return 0;
}

/* A roast under three rules: compiles their sheets, puts the tables on a board, and asks for each action whether it is permitted.
 *
 * From the top of the repository, after `tools/archive`:
 *
 *     gcc -std=c99 -Wall -Wextra -Iinclude -o roast examples/roast.c target/staticlib/liblemondarts.a && ./roast | diff examples/roast.txt -
 */
#include <stdio.h>
#include <stdlib.h>

#include "lemondarts_sheet.h"

/* The roastery's actions. Each satisfies the one proposition of its number. */
enum { CHARGE, DROP, TRAY, LOG, ACTIONS };

static const char *const action_names[ACTIONS] = { "charge", "drop", "tray", "log" };

/* Begins a sheet with the roastery's actions. */
static void begin(lemondarts_sheet *s) {
    unsigned action;
    lemondarts_sheet_init(s);
    for (action = 0; action < ACTIONS; action++) {
        lemondarts_sheet_action(s, (uint16_t)(1u << action));
    }
}

/* Eventually Now action. */
static int once(lemondarts_sheet *s, unsigned action) {
    return lemondarts_sheet_eventually(s, lemondarts_sheet_now(s, lemondarts_sheet_proposition(s, action)));
}

/* Always Holds not action. */
static int never(lemondarts_sheet *s, unsigned action) {
    return lemondarts_sheet_always(s, lemondarts_sheet_holds(s, lemondarts_sheet_negation(s, lemondarts_sheet_proposition(s, action))));
}

/* Whenever (Eventually Now first): Before+ (Eventually Now release) (Always Holds not forbidden). */
static void no_until(lemondarts_sheet *s, unsigned first, unsigned forbidden, unsigned release) {
    int begun, released, held;
    begin(s);
    begun = once(s, first);
    released = once(s, release);
    held = never(s, forbidden);
    lemondarts_sheet_whenever(s, begun, lemondarts_sheet_before_plus(s, released, held));
}

/* The caller's buffers. */
static uint8_t record[LEMONDARTS_RECORD];
static uint8_t area[LEMONDARTS_AREA];
static uint8_t table[LEMONDARTS_TABLE];
static uint8_t work[LEMONDARTS_WORK];
static uint64_t values[LEMONDARTS_VALUES];

static void must(uint64_t answer, const char *what) {
    if (!LEMONDARTS_OK(answer)) {
        printf("%s: refused %u %u, %s\n", what, LEMONDARTS_NUMBER(answer), LEMONDARTS_VALUE(answer),
               lemondarts_refusal_text(LEMONDARTS_NUMBER(answer)));
        exit(1);
    }
}

/* Compiles a sheet, prints the rows of its table, and puts it on. */
static void put_on(size_t place, const char *name, const lemondarts_sheet *s) {
    uint8_t sheet[LEMONDARTS_SHEET];
    size_t length = lemondarts_sheet_finish(s, sheet, sizeof sheet);
    unsigned row, action;
    uint64_t answer = lemondarts_compile(sheet, length, table, sizeof table, work, sizeof work, values, LEMONDARTS_VALUES);
    must(answer, name);
    printf("place %u: %s (%s)\n", (unsigned)place, name, LEMONDARTS_VALUE(answer) == LEMONDARTS_ENFORCED ? "enforced" : "watched");
    for (row = 0; row < LEMONDARTS_ROWS(answer); row++) {
        printf("  row %u:", row);
        for (action = 0; action < LEMONDARTS_ACTIONS(answer); action++) {
            uint8_t entry = table[LEMONDARTS_TABLE_HEADER + row * LEMONDARTS_ACTIONS(answer) + action];
            if (entry == LEMONDARTS_TRIP) {
                printf(" -");
            } else {
                printf(" %u", (unsigned)entry);
            }
        }
        printf("\n");
    }
    must(lemondarts_put_on(record, sizeof record, area, sizeof area, place, table, LEMONDARTS_TABLE_LENGTH(answer)), name);
}

/* Asks for an action, and prints the verdict. */
static void ask(size_t action) {
    unsigned place;
    uint64_t answer = lemondarts_action(record, sizeof record, area, sizeof area, action);
    if (action < ACTIONS) {
        printf("%s: ", action_names[action]);
    } else {
        printf("action %u: ", (unsigned)action);
    }
    if (LEMONDARTS_PERMITTED(answer)) {
        printf("permitted");
        for (place = 0; place < LEMONDARTS_PLACES; place++) {
            if (LEMONDARTS_FULFILS(answer, place)) {
                printf(", fulfils the rule on place %u", place);
            }
        }
        printf("\n");
    } else if (LEMONDARTS_NUMBER(answer) == LEMONDARTS_DENIED) {
        printf("denied by the rule on place %u\n", LEMONDARTS_VALUE(answer));
    } else {
        printf("refused %u\n", LEMONDARTS_NUMBER(answer));
    }
}

int main(void) {
    lemondarts_sheet s;
    if (lemondarts_version() != LEMONDARTS_VERSION_NUMBER) {
        printf("the archive is not of this header, %s\n", LEMONDARTS_VERSION);
        return 1;
    }
    must(lemondarts_new_board(record, sizeof record, area, sizeof area), "new board");
    ask(CHARGE);

    no_until(&s, CHARGE, CHARGE, DROP);
    put_on(0, "after a charge, no charge before the drop", &s);
    no_until(&s, DROP, CHARGE, TRAY);
    put_on(1, "after a drop, no charge before the tray is empty", &s);
    begin(&s);
    once(&s, DROP);
    put_on(2, "the drop has come", &s);

    ask(CHARGE);
    ask(CHARGE);
    ask(LOG);
    ask(DROP);
    ask(CHARGE);
    ask(DROP);
    ask(TRAY);
    ask(CHARGE);
    ask(4);

    must(lemondarts_take_off(record, sizeof record, area, sizeof area, 0), "take off");
    printf("place 0 is empty\n");
    ask(CHARGE);
    return 0;
}

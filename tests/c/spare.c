/* Nodes that the policy does not use, as C sees them: they change no table, no number of a refusal and no denial; 4 and 5 are found in them too. */
#include <stdio.h>
#include <string.h>

#include "lemondarts_sheet.h"

enum { BEFORE = 0xAA, ACTIONS = 4 };

static int failures;
static uint8_t sheet[LEMONDARTS_SHEET];
static size_t sheet_length;
static uint8_t out[LEMONDARTS_TABLE];
static uint8_t work[LEMONDARTS_WORK];
static uint64_t values[LEMONDARTS_VALUES];

static void check(const char *what, int right) {
    if (!right) {
        printf("wrong: %s\n", what);
        failures++;
    }
}

/* Begins a sheet over four actions, each with the one proposition of its number. */
static void begin(lemondarts_sheet *s) {
    int action;
    lemondarts_sheet_init(s);
    for (action = 0; action < ACTIONS; action++) {
        lemondarts_sheet_action(s, (uint16_t)(1u << action));
    }
}

static void finish(const lemondarts_sheet *s) {
    sheet_length = lemondarts_sheet_finish(s, sheet, sizeof sheet);
    check("a sheet is written", sheet_length > 0);
}

/* Always Holds not p: four nodes. */
static int never(lemondarts_sheet *s, unsigned p) {
    return lemondarts_sheet_always(s, lemondarts_sheet_holds(s, lemondarts_sheet_negation(s, lemondarts_sheet_proposition(s, p))));
}

/* Nodes 0 to 2: Count 60; Always of it, which is ill typed; After- of it twice, which has 120 rows. */
static void spare_nodes(lemondarts_sheet *s) {
    int large = lemondarts_sheet_count(s, 60);
    lemondarts_sheet_always(s, large);
    lemondarts_sheet_after_minus(s, large, large);
}

/* Neither p0 nor p1: nodes 3, 7 and 8. With spare nodes, in front and between: nodes 6, 11 and 12. */
static void rule(int with_spare_nodes) {
    lemondarts_sheet s;
    int first;
    begin(&s);
    if (with_spare_nodes) {
        spare_nodes(&s);
    }
    first = never(&s, 0);
    if (with_spare_nodes) {
        lemondarts_sheet_eventually(&s, first); /* ill typed */
    }
    lemondarts_sheet_and(&s, first, never(&s, 1));
    finish(&s);
}

static uint64_t compile(void) {
    memset(out, BEFORE, sizeof out);
    return lemondarts_compile(sheet, sheet_length, out, sizeof out, work, sizeof work, values, LEMONDARTS_VALUES);
}

/* Refused with this number at this node, and the output is as it was. */
static void refused(const char *what, unsigned number, unsigned node) {
    size_t n = 0;
    check(what, compile() == ((uint64_t)node << 16 | number));
    while (n < sizeof out && out[n] == BEFORE) {
        n++;
    }
    check(what, n == sizeof out);
}

static void compiled(const char *what) {
    static const uint8_t table[] = { 1, 0, 4, 0, 1, 0, 8, 0, 255, 255, 0, 0 };
    check(what, LEMONDARTS_TABLE_LENGTH(compile()) == sizeof table && memcmp(out, table, sizeof table) == 0 && out[sizeof table] == BEFORE);
}

/* Actions 2, 3 and this one: denied at place 2 by this node, or permitted where the node is 0. */
static void explained(const char *what, uint8_t action, unsigned node) {
    uint8_t list[3] = { 2, 3, 0 };
    uint64_t place[LEMONDARTS_LIST_PLACE] = { 9 };
    uint64_t answer;
    list[2] = action;
    answer = lemondarts_explain(sheet, sheet_length, list, sizeof list, place, LEMONDARTS_LIST_PLACE, work, sizeof work, values, LEMONDARTS_VALUES);
    if (node == 0) {
        check(what, answer == LEMONDARTS_DONE && place[0] == 9);
    } else {
        check(what, answer == ((uint64_t)node << 16 | LEMONDARTS_DENIED) && place[0] == 2);
    }
}

/* Changes a byte of a node. */
static void change(unsigned node, unsigned field, uint8_t byte) {
    sheet[LEMONDARTS_SHEET_HEADER + LEMONDARTS_SHEET_ACTION * ACTIONS + LEMONDARTS_SHEET_NODE * node + field] = byte;
}

/* After- (Count 60) (Count 5), with spare nodes before it or none. */
static void too_large(int with_spare_nodes) {
    lemondarts_sheet s;
    int first;
    begin(&s);
    if (with_spare_nodes) {
        spare_nodes(&s);
    }
    first = lemondarts_sheet_count(&s, 60);
    lemondarts_sheet_after_minus(&s, first, lemondarts_sheet_count(&s, 5));
    finish(&s);
}

/* Not of Always of Count 2: node 1, which is used, is ill typed. */
static void ill_typed(void) {
    lemondarts_sheet s;
    begin(&s);
    lemondarts_sheet_not(&s, lemondarts_sheet_always(&s, lemondarts_sheet_count(&s, 2)));
    finish(&s);
}

int main(void) {
    rule(0);
    compiled("no spare node");
    explained("no spare node: p0", 0, 3);
    explained("no spare node: p1", 1, 7);
    explained("no spare node: p2", 2, 0);
    rule(1);
    compiled("spare nodes");
    explained("spare nodes: p0", 0, 6);
    explained("spare nodes: p1", 1, 11);
    explained("spare nodes: p2", 2, 0);

    change(2, 0, 9);
    refused("a spare node of unknown kind", LEMONDARTS_UNKNOWN_KIND, 2);
    change(0, 1, 61);
    refused("Count 61 before it", LEMONDARTS_BAD_FIELD, 0);
    rule(1);
    change(7, 2, 7);
    refused("a spare node that is its own part", LEMONDARTS_BAD_FIELD, 7);
    change(12, 2, 7);
    change(7, 2, 6);
    refused("the ill-typed node is used", LEMONDARTS_BAD_TYPE, 7);

    too_large(0);
    refused("65 rows", LEMONDARTS_TOO_MANY_ROWS, 2);
    too_large(1);
    refused("65 rows after spare nodes", LEMONDARTS_TOO_MANY_ROWS, 5);
    ill_typed();
    refused("an ill-typed node", LEMONDARTS_BAD_TYPE, 1);
    change(2, 3, 1);
    refused("a wrong field after an ill-typed node", LEMONDARTS_BAD_FIELD, 2);
    return failures > 0;
}

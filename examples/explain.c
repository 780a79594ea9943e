/* Which part of a rule denied it: reads a house rule typed as text, six parts under Ands, runs a roast on a board, and has each denial explained.
 *
 * From the top of the repository, after `tools/archive`:
 *
 *     gcc -std=c99 -Wall -Wextra -Iinclude -o explain examples/explain.c target/staticlib/liblemondarts.a && ./explain | diff examples/explain.txt -
 */
#include <stdio.h>
#include <stdlib.h>
#include <string.h>

#include "lemondarts_text.h"

/* The roastery's actions. Each satisfies the one proposition of its number. */
enum { CHARGE, DROP, TRAY, LOG, GAS, ACTIONS, PARTS = 6, MOST = 100 };

static const char *const action_names[ACTIONS] = { "charge", "drop", "tray", "log", "gas" };
static const uint16_t actions[ACTIONS] = { 1, 2, 4, 8, 16 };

/* Six house rules of README.md, to be parts of one. */
static const char *const parts[PARTS][2] = {
    { "no charge before the tray is empty", "before eventually now p2 always holds not p0" },
    { "a drop between two charges", "always after now p0 before eventually now p1 always holds not p0" },
    { "the log is among the first three actions", "or holds p3 or after count 1 holds p3 after count 2 holds p3" },
    { "at most three charges", "ignoring not p0 not count 4" },
    { "no drop right after a charge", "always after now p0 holds not p1" },
    { "after a drop the log comes before the next charge", "always after now p1 ignoring not or p0 p3 holds p3" },
};

/* The whole rule: enforce and PART and PART .. PART PART. */
static char rule[LEMONDARTS_MOST_TEXT] = "enforce";

/* The caller's buffers. */
static uint8_t sheet[LEMONDARTS_SHEET];
static size_t sheet_length;
static uint8_t record[LEMONDARTS_RECORD];
static uint8_t area[LEMONDARTS_AREA];
static uint8_t work[LEMONDARTS_WORK];
static uint64_t values[LEMONDARTS_VALUES];

/* The actions that were permitted since the rule was put on, and room for the one that is asked for. */
static uint8_t list[MOST];
static size_t permitted;

static void must(uint64_t answer, const char *what) {
    if (!LEMONDARTS_OK(answer)) {
        printf("%s: refused %u %u, %s\n", what, LEMONDARTS_NUMBER(answer), LEMONDARTS_VALUE(answer),
               lemondarts_refusal_text(LEMONDARTS_NUMBER(answer)));
        exit(1);
    }
}

/* Reads a text to `sheet`, and gives its number of nodes. */
static unsigned read_text(const char *text) {
    uint64_t answer = lemondarts_read_text((const uint8_t *)text, strlen(text), actions, ACTIONS, sheet, sizeof sheet);
    must(answer, text);
    sheet_length = LEMONDARTS_SHEET_LENGTH(answer);
    return LEMONDARTS_NODES(answer);
}

/* Which part a node is, by its words in the text of the rule, or PARTS where it is none. */
static unsigned part_of(unsigned node) {
    lemondarts_words words = lemondarts_words_of_node((const uint8_t *)rule, strlen(rule), node);
    unsigned k = 0;
    while (k < PARTS && (strlen(parts[k][1]) != words.length || memcmp(parts[k][1], rule + words.start, words.length) != 0)) {
        k++;
    }
    return k;
}

static void read_rule(void) {
    unsigned nodes, node, k;
    for (k = 0; k < PARTS; k++) {
        strcat(strcat(rule, k + 1 < PARTS ? " and " : " "), parts[k][1]);
    }
    nodes = read_text(rule);
    printf("the rule has %u nodes\n", nodes);
    for (node = 0; node < nodes; node++) {
        if (part_of(node) < PARTS) {
            printf("  node %u: %s\n", node, parts[part_of(node)][0]);
        }
    }
}

static void put_on(void) {
    uint8_t table[LEMONDARTS_TABLE];
    uint64_t answer = lemondarts_compile(sheet, sheet_length, table, sizeof table, work, sizeof work, values, LEMONDARTS_VALUES);
    must(answer, "compile");
    printf("its table has %u rows\n", LEMONDARTS_ROWS(answer));
    must(lemondarts_new_board(record, sizeof record, area, sizeof area), "new board");
    must(lemondarts_put_on(record, sizeof record, area, sizeof area, 0, table, LEMONDARTS_TABLE_LENGTH(answer)), "put on");
}

/* Explains so many actions of the list, and prints which one is denied and by which part. */
static void explain(size_t count) {
    uint64_t place[LEMONDARTS_LIST_PLACE];
    uint64_t answer = lemondarts_explain(sheet, sheet_length, list, count, place, LEMONDARTS_LIST_PLACE, work, sizeof work, values, LEMONDARTS_VALUES);
    unsigned node;
    if (LEMONDARTS_NUMBER(answer) == LEMONDARTS_DENIED) {
        node = LEMONDARTS_VALUE(answer);
        printf("denied, place %u of the list, node %u: %s\n", (unsigned)place[0], node, part_of(node) < PARTS ? parts[part_of(node)][0] : "no part");
    } else if (LEMONDARTS_OK(answer)) {
        printf("no action is denied\n");
    } else {
        printf("refused %u, %s\n", LEMONDARTS_NUMBER(answer), lemondarts_refusal_text(LEMONDARTS_NUMBER(answer)));
    }
}

/* Asks the board for an action, and has it explained where it is denied. */
static void ask(uint8_t action) {
    uint64_t answer = lemondarts_action(record, sizeof record, area, sizeof area, action);
    printf("%s: ", action_names[action]);
    list[permitted] = action;
    if (LEMONDARTS_PERMITTED(answer)) {
        permitted++;
        printf("permitted\n");
    } else {
        explain(permitted + 1);
    }
}

int main(void) {
    static const uint8_t asked[] = { CHARGE, TRAY, CHARGE, GAS, LOG, CHARGE, GAS, DROP, CHARGE, LOG, CHARGE, DROP };
    size_t k;
    read_rule();
    put_on();
    for (k = 0; k < sizeof asked; k++) {
        ask(asked[k]);
    }

    /* A list from elsewhere, as a log book has it: the first denied action is found in it. */
    memcpy(list, asked, sizeof asked);
    printf("the same as a list: ");
    explain(sizeof asked);
    printf("no action at all: ");
    explain(0);
    list[sizeof asked] = ACTIONS;
    printf("with an action 5 at the end: ");
    explain(sizeof asked + 1);
    read_text("watch ignoring not p1 count 3");
    printf("by a watched rule: ");
    explain(sizeof asked);
    return 0;
}

/* Measures the stack that each call takes: runs it on a painted stack, and counts the bytes that it changed.
 *
 * From the top of the repository, after `tools/archive`:
 *
 *     gcc -std=c11 -O2 -Wall -Wextra -Iinclude -o stack examples/stack.c target/staticlib/liblemondarts.a && ./stack
 *
 * The numbers change with the version of the toolchain; include/lemondarts.h has them rounded up. Ends with status 1 where a call takes more.
 */
#define _XOPEN_SOURCE 700
#include <stdio.h>
#include <string.h>
#include <ucontext.h>

#include "lemondarts.h"

enum { STACK = 1 << 18, PAINT = 0xA5 };

static _Alignas(16) uint8_t stack[STACK];
static ucontext_t back, there;

static uint8_t record[LEMONDARTS_RECORD];
static uint8_t area[LEMONDARTS_AREA];
static uint8_t out[LEMONDARTS_TABLE];
static uint8_t work[LEMONDARTS_WORK];
static uint64_t values[LEMONDARTS_VALUES];
static uint8_t table[LEMONDARTS_TABLE];
static uint64_t answer;

/* Always (After+ (Eventually Now p0) (Before+ (Eventually Now p1) (Always Holds not p0))), over four actions. */
static const uint8_t sheet[78] = {
    4, 0, 12, 0, 10, 0, 18, 0, 78, 0, 1, 0, 2, 0, 4, 0, 8, 0,
    3, 0, 0, 0, 0, 10, 0, 0, 0, 0, 16, 0, 1, 0, 0, 3, 1, 0, 0, 0, 10, 0, 3, 0, 0, 16, 0, 4, 0, 0,
    4, 0, 0, 0, 0, 11, 0, 6, 0, 0, 17, 0, 7, 0, 0, 19, 0, 5, 8, 0, 21, 0, 2, 9, 0, 17, 0, 10, 0, 0,
};

/* Or (Ignoring p0: Count 32) (Ignoring p1: Count 32), over two actions: 1,024 values, so the large lists are used; refused 9. */
static const uint8_t wide[44] = {
    2, 0, 6, 0, 10, 0, 14, 0, 44, 0, 1, 0, 2, 0,
    3, 0, 0, 0, 0, 3, 1, 0, 0, 0, 12, 32, 0, 0, 0, 23, 0, 0, 2, 0, 23, 0, 1, 2, 0, 15, 0, 3, 4, 0,
};

static uint8_t tables[LEMONDARTS_MOST_JOINED * LEMONDARTS_TABLE];
static size_t table_count, tables_length;

/* And of the node before, twice, from node 2 to the last: Not Count 60 is reached by all of them. */
static uint8_t ands[LEMONDARTS_SHEET_HEADER + LEMONDARTS_SHEET_ACTION + LEMONDARTS_SHEET_NODE * LEMONDARTS_MOST_NODES];
static const uint8_t list[60];
static const uint8_t two_charges[3] = { 0, 2, 0 };
static uint64_t place[LEMONDARTS_LIST_PLACE];

static uint8_t text[LEMONDARTS_MOST_TEXT];
static size_t text_length;
static uint8_t written[LEMONDARTS_SHEET];
static const uint16_t actions[4] = { 1, 2, 4, 8 };

static void nothing(void) {}
static void load(void) { answer = lemondarts_load(table, sizeof table); }
static void compile(void) { answer = lemondarts_compile(sheet, sizeof sheet, out, sizeof out, work, sizeof work, values, LEMONDARTS_VALUES); }
static void compile_wide(void) { answer = lemondarts_compile(wide, sizeof wide, out, sizeof out, work, sizeof work, values, LEMONDARTS_VALUES); }
static void join(void) {
    answer = lemondarts_join(table_count, tables, tables_length, out, sizeof out, work, sizeof work, values, LEMONDARTS_VALUES);
}
static void explain_in(const uint8_t *of, size_t length, const uint8_t *actions_done, size_t count) {
    answer = lemondarts_explain(of, length, actions_done, count, place, LEMONDARTS_LIST_PLACE, work, sizeof work, values, LEMONDARTS_VALUES);
}
static void explain(void) { explain_in(sheet, sizeof sheet, two_charges, sizeof two_charges); }
static void explain_ands(void) { explain_in(ands, sizeof ands, list, sizeof list); }
static void explain_wide(void) { explain_in(wide, sizeof wide, list, sizeof list); }
static void read_text(void) { answer = lemondarts_read_text(text, text_length, actions, 4, written, sizeof written); }
static void new_board(void) { answer = lemondarts_new_board(record, sizeof record, area, sizeof area); }
static void put_on(void) { answer = lemondarts_put_on(record, sizeof record, area, sizeof area, 0, table, sizeof table); }
static void action(void) { answer = lemondarts_action(record, sizeof record, area, sizeof area, 0); }
static void take_off(void) { answer = lemondarts_take_off(record, sizeof record, area, sizeof area, 0); }

static size_t used(void (*call)(void)) {
    size_t untouched = 0;
    memset(stack, PAINT, sizeof stack);
    getcontext(&there);
    there.uc_stack.ss_sp = stack;
    there.uc_stack.ss_size = sizeof stack;
    there.uc_link = &back;
    makecontext(&there, call, 0);
    swapcontext(&back, &there);
    while (untouched < sizeof stack && stack[untouched] == PAINT) {
        untouched++;
    }
    return sizeof stack - untouched;
}

/* Measures a call, and gives whether it takes more than the header says, or answers otherwise than expected. */
static int show(const char *name, void (*call)(void), size_t bare, size_t most, unsigned number) {
    size_t bytes = used(call) - bare;
    int wrong = bytes > most || LEMONDARTS_NUMBER(answer) != number;
    printf("%-24s %6u bytes, at most %u, answer %u%s\n", name, (unsigned)bytes, (unsigned)most, LEMONDARTS_NUMBER(answer), wrong ? ": WRONG" : "");
    return wrong;
}

/* The largest table: 64 rows of 16 actions, a chain in which the last row trips. */
static void make_table(void) {
    static const uint8_t header[8] = { 2, 0, 16, 0, 64, 0, 8, 0 };
    unsigned k;
    memcpy(table, header, sizeof header);
    for (k = 0; k < 1024; k++) {
        table[8 + k] = (uint8_t)(k / 16 < 63 ? k / 16 + 1 : 255);
    }
}

/* Tables to join, of so many rows, each over an action of its own: a chain of these in which the last row trips. */
static void make_tables(size_t count, unsigned action_count, unsigned rows) {
    unsigned k;
    tables_length = 0;
    for (table_count = 0; table_count < count; table_count++) {
        uint8_t *entries = tables + tables_length + LEMONDARTS_TABLE_HEADER;
        uint8_t header[LEMONDARTS_TABLE_HEADER] = { LEMONDARTS_ENFORCED, 0, (uint8_t)action_count, 0, (uint8_t)rows, 0, LEMONDARTS_TABLE_HEADER, 0 };
        memcpy(tables + tables_length, header, sizeof header);
        for (k = 0; k < rows * action_count; k++) {
            unsigned row = k / action_count, next = row + 1 < rows ? row + 1 : LEMONDARTS_TRIP;
            entries[k] = (uint8_t)(k % action_count == table_count ? next : row);
        }
        tables_length += sizeof header + rows * action_count;
    }
}

static void make_ands(void) {
    static const uint8_t front[22] = { 1, 0, 64, 0, 10, 0, 12, 0, 76, 1, 0, 0, 12, 60, 0, 0, 0, 13, 0, 0, 0, 0 };
    uint8_t k;
    memcpy(ands, front, sizeof front);
    for (k = 2; k < LEMONDARTS_MOST_NODES; k++) {
        uint8_t node[LEMONDARTS_SHEET_NODE] = { LEMONDARTS_KIND_AND, 0, (uint8_t)(k - 1), (uint8_t)(k - 1), 0 };
        memcpy(ands + 12 + 5 * k, node, sizeof node);
    }
}

static void add(const char *words) {
    memcpy(text + text_length, words, strlen(words));
    text_length += strlen(words);
}

/* A text: a word, another again and again, and an end. */
static void make_text(const char *first, const char *again, unsigned times, const char *end) {
    text_length = 0;
    add(first);
    for (; times > 0; times--) {
        add(again);
    }
    add(end);
}

int main(void) {
    size_t bare = used(nothing);
    int wrong = 0;
    make_table();
    make_ands();
    make_text("enforce ", "always ", 62, "holds p0");
    wrong |= show("read_text, 64 nodes", read_text, bare, LEMONDARTS_STACK_TEXT, LEMONDARTS_DONE);
    make_text("enforce ", "or ", 338, "or");
    wrong |= show("read_text, 1,024 bytes", read_text, bare, LEMONDARTS_STACK_TEXT, LEMONDARTS_BAD_TEXT);
    make_text("watch now ", "not ", 253, "p0");
    wrong |= show("read_text, 255 nodes", read_text, bare, LEMONDARTS_STACK_TEXT, LEMONDARTS_TOO_MANY_NODES);
    wrong |= show("load", load, bare, LEMONDARTS_STACK_LOAD, LEMONDARTS_DONE);
    wrong |= show("compile, up to 64 values", compile, bare, LEMONDARTS_STACK_COMPILE, LEMONDARTS_DONE);
    wrong |= show("compile, more values", compile_wide, bare, LEMONDARTS_STACK_COMPILE, LEMONDARTS_TOO_MANY_ROWS);
    make_tables(2, 2, 8);
    wrong |= show("join, 64 values", join, bare, LEMONDARTS_STACK_JOIN, LEMONDARTS_DONE);
    make_tables(2, 2, 32);
    wrong |= show("join, 1,024 values", join, bare, LEMONDARTS_STACK_JOIN, LEMONDARTS_TOO_MANY_ROWS);
    make_tables(8, 16, 64);
    wrong |= show("join, the longest tables", join, bare, LEMONDARTS_STACK_JOIN, LEMONDARTS_TOO_MANY_VALUES);
    wrong |= show("explain, up to 64 values", explain, bare, LEMONDARTS_STACK_EXPLAIN, LEMONDARTS_DENIED);
    wrong |= show("explain, 62 Ands", explain_ands, bare, LEMONDARTS_STACK_EXPLAIN, LEMONDARTS_DENIED);
    wrong |= show("explain, more values", explain_wide, bare, LEMONDARTS_STACK_EXPLAIN, LEMONDARTS_TOO_MANY_ROWS);
    wrong |= show("new_board", new_board, bare, LEMONDARTS_STACK_CALL, LEMONDARTS_DONE);
    wrong |= show("put_on", put_on, bare, LEMONDARTS_STACK_LOAD, LEMONDARTS_DONE);
    wrong |= show("action", action, bare, LEMONDARTS_STACK_CALL, LEMONDARTS_DONE);
    wrong |= show("take_off", take_off, bare, LEMONDARTS_STACK_CALL, LEMONDARTS_DONE);
    return wrong;
}

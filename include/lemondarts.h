/* Lemondarts: rules as text, rule sheets, tables, denials explained and the board, for C and C++.
 *
 * What can be linked today is liblemondarts.a, a static archive for x86-64 Linux (`tools/archive` writes it to target/staticlib/,
 * `make install` installs it). It needs no other library but memcpy, memmove and memset, and allocates nothing.
 *
 * What holds for every call:
 * - It answers every input. A call that is refused leaves the board and the output as they were, and so does a denied action.
 * - A pointer comes with its length in elements. The pointer must not be null, even where the length is 0, and that many elements must be
 *   readable, and writable where the parameter is not const.
 * - The caller's buffers of one call must not overlap. No call keeps a pointer.
 * - Bytes need no alignment; `values`, and `place` of lemondarts_explain, are aligned as uint64_t, to 8 bytes, `actions` of lemondarts_read_text as
 *   uint16_t, to 2.
 * - Threads: nothing is kept between calls, so calls on different boards and areas may run at once. Calls on one board, or with one work area,
 *   come one after the other: the caller holds a lock.
 * - Stack: compiling, joining and explaining take some 45 KiB, loading and putting on some 3.4 KiB, the others under 1 KiB;
 *   reading a text some 27 KiB for the deepest that 1,024 bytes can say, 5.5 KiB for one that gives a sheet.
 *   LEMONDARTS_STACK_.. below is what to plan for; examples/stack.c measures it.
 * - Nothing else is asked of the caller: the contracts of the calls have no precondition.
 *
 * What the checks are not. 10, 11 and 25 find bytes that cannot be, not bytes that were changed: a table or a board whose bytes were changed to
 * another that can be is accepted, and denies and permits by what then stands there. 23 compares the number of actions, not the list: whether
 * action 2 means the same in all tables is for the caller to see to. So a unit should keep a checksum over record and area (and over each stored
 * table), look at it before a call and renew it after.
 */
#ifndef LEMONDARTS_H
#define LEMONDARTS_H

#include <stddef.h>
#include <stdint.h>

/* The version of this header and its calls. A change raises
 * - MAJOR, where a caller may have to change: a call, a name, an answer, or the bytes of a sheet, a table or a record become others or go;
 * - MINOR, where something is added: a call, a name, a kind of node, sheets that compile and did not;
 * - PATCH, where neither is so: stack, time, comments.
 */
#define LEMONDARTS_VERSION_MAJOR 4
#define LEMONDARTS_VERSION_MINOR 7
#define LEMONDARTS_VERSION_PATCH 0
#define LEMONDARTS_VERSION "4.7.0"
/* The three as one number, 40700: what lemondarts_version returns where the archive is of this header. */
#define LEMONDARTS_VERSION_NUMBER (LEMONDARTS_VERSION_MAJOR * 10000u + LEMONDARTS_VERSION_MINOR * 100u + LEMONDARTS_VERSION_PATCH)

/* Lengths. A buffer may be longer; what comes after these lengths is not touched. */
#define LEMONDARTS_RECORD 16     /* a board's record, in bytes */
#define LEMONDARTS_AREA 8256     /* a board's area, in bytes: 1,032 for each of 8 places */
#define LEMONDARTS_TABLE 1032    /* the output of compiling and joining, in bytes: the longest table */
#define LEMONDARTS_WORK 65536    /* the work area of compiling, joining and explaining, in bytes */
#define LEMONDARTS_VALUES 1024   /* the values of compiling, joining and explaining, in numbers of 64 bits */
#define LEMONDARTS_LIST_PLACE 1  /* the output of explaining, in numbers of 64 bits: a place in the list of actions, not one of a board */

/* Stack, in bytes: at most this much in a call, rounded up, without what the caller and an interrupt take. */
#define LEMONDARTS_STACK_COMPILE 49152 /* lemondarts_compile */
#define LEMONDARTS_STACK_JOIN 49152    /* lemondarts_join */
#define LEMONDARTS_STACK_EXPLAIN 49152 /* lemondarts_explain */
#define LEMONDARTS_STACK_TEXT 40960    /* lemondarts_read_text */
#define LEMONDARTS_STACK_LOAD 4096     /* lemondarts_load, lemondarts_put_on */
#define LEMONDARTS_STACK_CALL 1024     /* the other calls */

/* Limits. */
#define LEMONDARTS_PLACES 8          /* places are numbered 0 to 7 */
#define LEMONDARTS_MOST_ACTIONS 16   /* of a sheet or a table */
#define LEMONDARTS_MOST_NODES 64     /* of a sheet */
#define LEMONDARTS_MOST_ROWS 64      /* of a table */
#define LEMONDARTS_MOST_COUNT 60     /* the largest argument of Count and Fulfilling */
#define LEMONDARTS_MOST_TEXT 1024    /* of the text of a rule, in bytes */
#define LEMONDARTS_FEWEST_JOINED 2   /* tables of a join */
#define LEMONDARTS_MOST_JOINED 8     /* tables of a join */

/* A sheet: a header (counts of actions and nodes, offsets of the action list and the node list, total length; 16 bits each, low byte first), an
 * action list (16 bits an action: bit p set where it satisfies proposition p), a node list (five bytes a node: kind, argument, parts a, b, c).
 * Parts are numbers of earlier nodes; the last node is the policy. A node is used where it is the policy, or a part of a node that is used; of any
 * other the kind and the fields are checked, and nothing else. include/lemondarts_sheet.h writes sheets.
 */
#define LEMONDARTS_SHEET_HEADER 10   /* in bytes */
#define LEMONDARTS_SHEET_ACTION 2    /* an action of the action list, in bytes */
#define LEMONDARTS_SHEET_NODE 5      /* a node, in bytes */
#define LEMONDARTS_SHEET 362         /* the longest sheet with no gap: 16 actions and 64 nodes; the output of reading a text */

/* A table: a header (type, actions, rows, offset of the rows, which is 8; 16 bits each, low byte first), then a byte for each action of each row:
 * the next row, or a trip.
 */
#define LEMONDARTS_TABLE_HEADER 8    /* in bytes */
#define LEMONDARTS_TRIP 255u         /* an entry that trips the rule */

/* Kinds of nodes: action formulas. */
#define LEMONDARTS_KIND_TRUE 1u
#define LEMONDARTS_KIND_FALSE 2u
#define LEMONDARTS_KIND_PROPOSITION 3u   /* the argument is its number, 0 to 15 */
#define LEMONDARTS_KIND_NEGATION 4u      /* not a */
#define LEMONDARTS_KIND_CONJUNCTION 5u   /* a and b */
#define LEMONDARTS_KIND_DISJUNCTION 6u   /* a or b */

/* Kinds of nodes: policies. */
#define LEMONDARTS_KIND_NOW 10u          /* the first action satisfies formula a; watched */
#define LEMONDARTS_KIND_HOLDS 11u        /* there is no action yet, or the first satisfies formula a; enforced */
#define LEMONDARTS_KIND_COUNT 12u        /* as many actions as the argument, 1 to 60, or more; watched */
#define LEMONDARTS_KIND_NOT 13u          /* a is not satisfied; of the other type */
#define LEMONDARTS_KIND_AND 14u          /* a and b, of one type */
#define LEMONDARTS_KIND_OR 15u           /* a or b, of one type */
#define LEMONDARTS_KIND_EVENTUALLY 16u   /* some suffix satisfies a; watched */
#define LEMONDARTS_KIND_ALWAYS 17u       /* every suffix satisfies a; enforced */
#define LEMONDARTS_KIND_BEFORE_MINUS 18u /* Before- a b: the prefix up to and with the first fulfilment of a, else the whole, satisfies b; watched */
#define LEMONDARTS_KIND_BEFORE_PLUS 19u  /* Before+ a b: as Before-, b is enforced; enforced */
#define LEMONDARTS_KIND_AFTER_MINUS 20u  /* After- a b: a is fulfilled, and what follows satisfies b; watched */
#define LEMONDARTS_KIND_AFTER_PLUS 21u   /* After+ a b: a is not fulfilled, or what follows satisfies b; enforced */
#define LEMONDARTS_KIND_FULFILLING 22u   /* a within k actions, the argument: what follows satisfies b; else what follows those k satisfies c; enforced */
#define LEMONDARTS_KIND_IGNORING 23u     /* without the actions that satisfy formula a, b is satisfied; of b's type */

/* An answer is one number of 64 bits: four fields of 16 bits, lowest first. Each name below evaluates its answer once, so this may be a call:
 * LEMONDARTS_OK(lemondarts_load(table, length)).
 */
static inline unsigned lemondarts_field(uint64_t answer, unsigned field) { return (answer >> 16 * field) & 65535u; }
#define LEMONDARTS_NUMBER(answer) lemondarts_field(answer, 0)  /* 0 done, 255 denied, else a refusal */
#define LEMONDARTS_VALUE(answer) lemondarts_field(answer, 1)   /* see each call; of a sheet's 4 to 9 the node, of 32 the word */
#define LEMONDARTS_ACTIONS(answer) lemondarts_field(answer, 2) /* a table's or a sheet's number of actions, 1 to 16 */
#define LEMONDARTS_ROWS(answer) lemondarts_field(answer, 3)    /* a table's number of rows, 1 to 64 */
#define LEMONDARTS_NODES(answer) lemondarts_field(answer, 3)   /* of a done read_text: the sheet's number of nodes, 1 to 64 */

/* Whether a call other than lemondarts_action is done. Of lemondarts_explain: whether no action of the list is denied. */
#define LEMONDARTS_OK(answer) (LEMONDARTS_NUMBER(answer) == LEMONDARTS_DONE)

/* Whether lemondarts_action permits: the number is 0, whatever watched rules the action fulfils. Do not ask `if (!answer)`: the answer to a
 * permitted action that fulfils a rule is not 0, and the action would be rejected.
 */
#define LEMONDARTS_PERMITTED(answer) (LEMONDARTS_NUMBER(answer) == LEMONDARTS_DONE)
#define LEMONDARTS_FULFILS(answer, place) ((LEMONDARTS_VALUE(answer) >> (place) & 1u) != 0) /* of a permitted action, place 0 to 7 */

/* The length in bytes of the table that a done load, compile or join speaks of. */
#define LEMONDARTS_TABLE_LENGTH(answer) lemondarts_table_length(answer)
static inline size_t lemondarts_table_length(uint64_t answer) {
    return LEMONDARTS_TABLE_HEADER + LEMONDARTS_ROWS(answer) * LEMONDARTS_ACTIONS(answer);
}

/* The length in bytes of the sheet that a done read_text wrote. */
#define LEMONDARTS_SHEET_LENGTH(answer) lemondarts_sheet_length(answer)
static inline size_t lemondarts_sheet_length(uint64_t answer) { return LEMONDARTS_VALUE(answer); }

/* Types, the value of a done load, compile or join. */
#define LEMONDARTS_ENFORCED 1u /* trips when its policy becomes violated: denies actions */
#define LEMONDARTS_WATCHED 2u  /* trips when its policy becomes satisfied: is reported fulfilled */

/* Numbers of answers, and what to do. */
#define LEMONDARTS_DONE 0u
#define LEMONDARTS_DENIED 255u           /* do not carry the action out; of lemondarts_explain: the list has such an action */
#define LEMONDARTS_BAD_LENGTH 1u         /* sheet under 10 bytes, or its total is not its length: send the whole sheet */
#define LEMONDARTS_BAD_COUNTS 2u         /* actions not 1 to 16, nodes not 1 to 64, or tables to join not 2 to 8: correct the count, or split the sheet */
#define LEMONDARTS_BAD_AREAS 3u          /* action or node list misplaced: correct the offsets in the header */
#define LEMONDARTS_UNKNOWN_KIND 4u       /* the node's kind is unknown: correct the node, or take it out where it is not used */
#define LEMONDARTS_BAD_FIELD 5u          /* the node's part, argument or unused field is wrong: correct the node, or take it out where it is not used */
#define LEMONDARTS_BAD_TYPE 6u           /* a part is of the wrong type, or the last node is no policy: no table can hold a program to this rule */
#define LEMONDARTS_BOUND_TOO_LARGE 7u    /* a finite bound above 65,534: shorten the rule */
#define LEMONDARTS_TOO_MANY_VALUES 8u    /* over 1,024 remembered values: simplify the node, or join fewer tables */
#define LEMONDARTS_TOO_MANY_ROWS 9u      /* over 64 rows: simplify the node, or join fewer tables */
#define LEMONDARTS_MALFORMED 10u         /* table of wrong length, header or entry, or bytes after those to join: compile or send it again */
#define LEMONDARTS_NOT_CANONICAL 11u     /* rows misnumbered, unmet or alike: compile the sheet again, do not repair the table */
#define LEMONDARTS_NO_ACTION 12u         /* the action, or one of the list to explain, is not in the rules' list: correct the number */
#define LEMONDARTS_NO_PLACE 13u          /* the place is not below 8: correct the number */
#define LEMONDARTS_SHORT_AREA 14u        /* a buffer, the record among them, is too short: see the lengths above */
#define LEMONDARTS_PLACE_EMPTY 21u       /* nothing to take off */
#define LEMONDARTS_PLACE_TAKEN 22u       /* take the old table off first, or use another place */
#define LEMONDARTS_OTHER_ACTIONS 23u     /* the rules on, or those to join, have another number of actions: use one action list */
#define LEMONDARTS_BOARD_EMPTY 24u       /* no rule is on: put one on before asking */
#define LEMONDARTS_BOARD_IMPOSSIBLE 25u  /* record or area was damaged: make a new board and put the tables on again */
#define LEMONDARTS_TEXT_TOO_LONG 31u     /* a text over 1,024 bytes: shorten it, or split the rule */
#define LEMONDARTS_BAD_TEXT 32u          /* the text is not in the language: correct this word, or complete the rule */
#define LEMONDARTS_TOO_MANY_NODES 33u    /* a text of over 64 nodes: shorten it, or split the rule */
#define LEMONDARTS_WATCHED_TABLE 34u     /* a watched table among those to join: leave it out, and put it on a place of its own; or a watched sheet to
                                          * explain: it denies nothing */

/* A short text for the number of an answer, for logs. */
static inline const char *lemondarts_refusal_text(unsigned number) {
    switch (number) {
    case LEMONDARTS_DONE: return "done";
    case LEMONDARTS_BAD_LENGTH: return "the sheet is under 10 bytes, or its total is not its length";
    case LEMONDARTS_BAD_COUNTS: return "not 1 to 16 actions, not 1 to 64 nodes, or not 2 to 8 tables to join";
    case LEMONDARTS_BAD_AREAS: return "the sheet's action list or node list is misplaced";
    case LEMONDARTS_UNKNOWN_KIND: return "the node's kind is unknown";
    case LEMONDARTS_BAD_FIELD: return "a part, the argument or an unused field of the node is wrong";
    case LEMONDARTS_BAD_TYPE: return "a part is of the wrong type, or the last node is no policy";
    case LEMONDARTS_BOUND_TOO_LARGE: return "the node's bound is above 65534";
    case LEMONDARTS_TOO_MANY_VALUES: return "the node, or the join, remembers over 1024 values";
    case LEMONDARTS_TOO_MANY_ROWS: return "the node, or the join, needs over 64 rows";
    case LEMONDARTS_MALFORMED: return "the table's length, header or an entry is wrong";
    case LEMONDARTS_NOT_CANONICAL: return "the table's rows are misnumbered, not all met, or two are alike";
    case LEMONDARTS_NO_ACTION: return "an action is not in the rules' list";
    case LEMONDARTS_NO_PLACE: return "the place is not below 8";
    case LEMONDARTS_SHORT_AREA: return "a buffer is too short";
    case LEMONDARTS_PLACE_EMPTY: return "the place is empty";
    case LEMONDARTS_PLACE_TAKEN: return "the place is taken";
    case LEMONDARTS_OTHER_ACTIONS: return "the rules on, or those to join, have another number of actions";
    case LEMONDARTS_BOARD_EMPTY: return "no rule is on";
    case LEMONDARTS_BOARD_IMPOSSIBLE: return "the board's record or area is damaged";
    case LEMONDARTS_TEXT_TOO_LONG: return "the text is over 1024 bytes";
    case LEMONDARTS_BAD_TEXT: return "the word does not fit, or the text ends too soon";
    case LEMONDARTS_TOO_MANY_NODES: return "the text has over 64 nodes";
    case LEMONDARTS_WATCHED_TABLE: return "a watched table is among those to join, or a watched sheet is to be explained";
    case LEMONDARTS_DENIED: return "denied";
    default: return "unknown number";
    }
}

#ifdef __cplusplus
extern "C" {
#endif

/* The version of the archive. Where it is not LEMONDARTS_VERSION_NUMBER, this header is of another archive: stop.
 * It is no answer: it has no fields, and is never a refusal.
 */
uint64_t lemondarts_version(void);

/* Loads a table: checks it, and keeps nothing.
 * Reads `table`, any bytes. Writes nothing.
 * Done: the value is the type, with ACTIONS and ROWS. Else 10 or 11.
 */
uint64_t lemondarts_load(const uint8_t *table, size_t table_length);

/* Compiles a rule sheet to its table.
 * Reads `sheet`, any bytes. `out` is 1,032 bytes or more, `work` 65,536 bytes or more, `values` 1,024 numbers or more, aligned to 8 bytes.
 * Done: the table is at the front of `out`, LEMONDARTS_TABLE_LENGTH bytes, and what comes after it is unchanged; the value is the type, with
 * ACTIONS and ROWS. Refused: `out` is unchanged. The first refusal in the order 14, 1, 2, 3; node by node 4, 5 of all nodes; node by node 6, 7 of
 * those that are used; the last node's 6; node by node 8, 9 of those that are used. For 4 to 9 the value is the node.
 * `work` and `values` may hold anything. On return they are zero over the lengths above, and unchanged where the answer is 14.
 */
uint64_t lemondarts_compile(const uint8_t *sheet, size_t sheet_length, uint8_t *out, size_t out_length,
                            uint8_t *work, size_t work_length, uint64_t *values, size_t values_length);

/* Joins tables: one that denies exactly where at least one of them denies.
 * Reads `tables`, any bytes: `count` tables, 2 to 8, one after the other, each as long as its own header says (8 + rows x actions bytes). They
 * are enforced and have one number of actions. `out`, `work` and `values` are as for lemondarts_compile.
 * Done: the table is at the front of `out`, LEMONDARTS_TABLE_LENGTH bytes, and what comes after it is unchanged; the value is
 * LEMONDARTS_ENFORCED, with ACTIONS and ROWS. It is a table like any other: it may be put on, or joined again. The order of the tables, and whether
 * some of them were joined before, make no difference to its bytes. Refused: `out` is unchanged. The first refusal in the order 14; 2; table by
 * table 10, 11, 34; 10 for bytes after the last table; 23; 8 (over 1,024 tuples of their rows occur); 9 (over 64 rows). The value is 0.
 * `work` and `values` may hold anything. On return they are zero over the lengths above, and unchanged where the answer is 14.
 * A denial no longer says which of the rules denied: put tables on places of their own where that is to be told.
 */
uint64_t lemondarts_join(size_t count, const uint8_t *tables, size_t tables_length, uint8_t *out, size_t out_length,
                         uint8_t *work, size_t work_length, uint64_t *values, size_t values_length);

/* Explains a denial: finds the first action of a list that a rule denies, and names the part of the rule that denies it. Writes no table.
 * Reads `sheet`, any bytes, enforced, and `actions`, any bytes and any number of them, also none: a byte an action, its number. `place` is one
 * number or more, aligned to 8 bytes; `work` and `values` are as for lemondarts_compile.
 * Done: no action of the list is denied; the value is 0. Denied (255): place[0] is the place in the list, from 0, of the first denied action, and
 * what comes after it is unchanged. The value is the node: of the policy's own node, which is the last, and those reached from it through And
 * alone, the lowest-numbered one that is violated by the actions up to and with the denied one. It is no And. Refused, or done: `place` is unchanged.
 * The first refusal in the order 14; 1 to 9 as lemondarts_compile answers them; 34 where the sheet is watched; 12 where a number anywhere in the
 * list, also after the denial, is no action of the sheet. For 4 to 9 the value is the node.
 * `work` and `values` may hold anything. On return they are zero over the lengths above, and unchanged where the answer is 14.
 * A rule on a board is moved by permitted actions alone. To have a denial of the board explained, list the actions that were permitted since the
 * rule was put on, and the denied one after them.
 */
uint64_t lemondarts_explain(const uint8_t *sheet, size_t sheet_length, const uint8_t *actions, size_t actions_length, uint64_t *place,
                            size_t place_length, uint8_t *work, size_t work_length, uint64_t *values, size_t values_length);

/* Reads a rule typed as text, and writes its sheet.
 * Reads `text`, any bytes, and `actions`, for each action the set of propositions that it satisfies, aligned to 2 bytes. `sheet` is 362 bytes or
 * more. The text is words of lower-case letters and digits, separated by one or more spaces or newlines, which may also stand at either end; a tab
 * or any other byte separates nothing. It is
 *     watch W, or enforce E
 * where W, a watched policy, is one of
 *     now A, count K, not E, and W W, or W W, eventually W, before W W, after W W, ignoring A W
 * E, an enforced one, is one of
 *     holds A, not W, and E E, or E E, always E, before W E, after W E, fulfilling K W E E, ignoring A E
 * A, a formula, is one of
 *     true, false, p0 to p15, not A, and A A, or A A
 * and K is 1 to 60 without leading zero. `enforce always after now p0 holds not p1` says: no p1 right after p0.
 * Done: the sheet is at the front of `sheet`, LEMONDARTS_SHEET_LENGTH bytes, and what comes after it is unchanged; its action list is `actions`.
 * Each word but `watch`, `enforce` and a K is a node of its own, and follows the nodes of its parts, those of the left part first: so the word after
 * `watch` or `enforce` is the last node. include/lemondarts_text.h finds the words of a node. The value is the sheet's length, with ACTIONS and
 * NODES. It can be given to lemondarts_compile and lemondarts_explain, which may refuse it by 8 or 9, and by none of 1 to 7. Refused: `sheet` is
 * unchanged. The first refusal in the order 14, 2 (no action, or over 16), 31, 32, 33. For 32 the value is the number of words before the first that
 * does not fit, or of all words where the text ends too soon.
 */
uint64_t lemondarts_read_text(const uint8_t *text, size_t text_length, const uint16_t *actions, size_t action_count,
                              uint8_t *sheet, size_t sheet_length);

/* The board is two buffers that the caller keeps and passes to each call: the record, 16 bytes, and the area, 8,256 bytes, where its tables stand.
 * Keep the two together, and write to neither. The record has two bytes a place: its case (0 empty, 1 enforced, 2 watched, 3 fulfilled) and its
 * row (0 for 0 and 3). Any bytes are read as a record; one that cannot be is refused by 25.
 * After a done call the record's 16 bytes are written; after a refusal or a denial neither record nor area is changed.
 */

/* Makes a new board: eight empty places and a zeroed area. Reads neither; writes both.
 * Done, or 14.
 */
uint64_t lemondarts_new_board(uint8_t *record, size_t record_length, uint8_t *area, size_t area_length);

/* Puts a table on an empty place, starting at row 0. Reads record, area and `table`, any bytes; writes the record and the place's 1,032 bytes.
 * `table` may be the output of lemondarts_compile or lemondarts_join with its length given by LEMONDARTS_TABLE_LENGTH, and may not lie in `area`.
 * Done, or the first of 14, 13, 25, 22, 10, 11, 23.
 */
uint64_t lemondarts_put_on(uint8_t *record, size_t record_length, uint8_t *area, size_t area_length, size_t place, const uint8_t *table, size_t table_length);

/* Empties a place, and zeroes its 1,032 bytes. Reads record and area; writes the record and the place's bytes.
 * Done, or the first of 14, 13, 25, 21.
 */
uint64_t lemondarts_take_off(uint8_t *record, size_t record_length, uint8_t *area, size_t area_length, size_t place);

/* Asks whether an action is permitted, and if it is, moves every rule by it. Reads record and area; writes the record where permitted, and never
 * the area.
 * Done is permitted (LEMONDARTS_PERMITTED): the value is the set of places whose watched rule this action fulfils, bit p for place p
 * (LEMONDARTS_FULFILS). Denied (255): the value is the lowest place that denies; no rule has moved. Else the first of 14, 25, 24, 12: carry no
 * action out.
 */
uint64_t lemondarts_action(uint8_t *record, size_t record_length, const uint8_t *area, size_t area_length, size_t action);

#ifdef __cplusplus
}
#endif

#endif

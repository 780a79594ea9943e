/* Lemondarts: writes rule sheets, for C99 and C++. Header only; it needs no library.
 *
 *     lemondarts_sheet sheet;
 *     uint8_t bytes[LEMONDARTS_SHEET];
 *     lemondarts_sheet_init(&sheet);
 *     lemondarts_sheet_action(&sheet, 1);      // action 0 satisfies proposition 0
 *     lemondarts_sheet_action(&sheet, 2);      // action 1 satisfies proposition 1
 *     int first = lemondarts_sheet_proposition(&sheet, 0);
 *     lemondarts_sheet_always(&sheet, lemondarts_sheet_holds(&sheet, lemondarts_sheet_negation(&sheet, first)));
 *     size_t length = lemondarts_sheet_finish(&sheet, bytes, sizeof bytes);
 *
 * The node made last is the policy; a node that it does not use is no part of the rule. Where two parts are made in one expression C leaves open
 * which is made first: the rule is the same, but not the bytes. Types are not checked here: the compiler does that, and answers the node.
 */
#ifndef LEMONDARTS_SHEET_H
#define LEMONDARTS_SHEET_H

#include "lemondarts.h"

/* A number below 256 as a byte. */
#ifdef __cplusplus
#define LEMONDARTS_BYTE(number) static_cast<uint8_t>(number)
#else
#define LEMONDARTS_BYTE(number) ((uint8_t)(number))
#endif

/* A sheet in the making. */
typedef struct lemondarts_sheet {
    uint16_t propositions[LEMONDARTS_MOST_ACTIONS];              /* of each action, bit p for proposition p */
    uint8_t nodes[LEMONDARTS_MOST_NODES][LEMONDARTS_SHEET_NODE]; /* kind, argument, parts a, b, c */
    uint8_t action_count;
    uint8_t node_count;
    int failed; /* an action or a node was not taken: without it the sheet would be another rule */
} lemondarts_sheet;

/* Begins a sheet with no action and no node. */
static inline void lemondarts_sheet_init(lemondarts_sheet *sheet) {
    sheet->action_count = 0;
    sheet->node_count = 0;
    sheet->failed = 0;
}

/* Adds an action that satisfies these propositions, bit p for proposition p. Gives its number, or -1 where there are 16. */
static inline int lemondarts_sheet_action(lemondarts_sheet *sheet, uint16_t propositions) {
    if (sheet->action_count >= LEMONDARTS_MOST_ACTIONS) {
        sheet->failed = 1;
        return -1;
    }
    sheet->propositions[sheet->action_count] = propositions;
    return sheet->action_count++;
}

/* Adds a node. Fields that its kind does not use are 0. Gives its number, or -1 where there are 64, or a field is no byte; a part of -1 is none. */
static inline int lemondarts_sheet_node(lemondarts_sheet *sheet, unsigned kind, unsigned argument, int a, int b, int c) {
    uint8_t *node;
    if (sheet->node_count >= LEMONDARTS_MOST_NODES || (kind | argument) > 255u || (a | b | c) < 0 || (a | b | c) > 255) {
        sheet->failed = 1;
        return -1;
    }
    node = sheet->nodes[sheet->node_count];
    node[0] = LEMONDARTS_BYTE(kind);
    node[1] = LEMONDARTS_BYTE(argument);
    node[2] = LEMONDARTS_BYTE(a);
    node[3] = LEMONDARTS_BYTE(b);
    node[4] = LEMONDARTS_BYTE(c);
    return sheet->node_count++;
}

/* A node of each kind: action formulas. */
static inline int lemondarts_sheet_true(lemondarts_sheet *s) { return lemondarts_sheet_node(s, LEMONDARTS_KIND_TRUE, 0, 0, 0, 0); }
static inline int lemondarts_sheet_false(lemondarts_sheet *s) { return lemondarts_sheet_node(s, LEMONDARTS_KIND_FALSE, 0, 0, 0, 0); }
static inline int lemondarts_sheet_proposition(lemondarts_sheet *s, unsigned p) { return lemondarts_sheet_node(s, LEMONDARTS_KIND_PROPOSITION, p, 0, 0, 0); }
static inline int lemondarts_sheet_negation(lemondarts_sheet *s, int a) { return lemondarts_sheet_node(s, LEMONDARTS_KIND_NEGATION, 0, a, 0, 0); }
static inline int lemondarts_sheet_conjunction(lemondarts_sheet *s, int a, int b) { return lemondarts_sheet_node(s, LEMONDARTS_KIND_CONJUNCTION, 0, a, b, 0); }
static inline int lemondarts_sheet_disjunction(lemondarts_sheet *s, int a, int b) { return lemondarts_sheet_node(s, LEMONDARTS_KIND_DISJUNCTION, 0, a, b, 0); }

/* Policies. */
static inline int lemondarts_sheet_now(lemondarts_sheet *s, int a) { return lemondarts_sheet_node(s, LEMONDARTS_KIND_NOW, 0, a, 0, 0); }
static inline int lemondarts_sheet_holds(lemondarts_sheet *s, int a) { return lemondarts_sheet_node(s, LEMONDARTS_KIND_HOLDS, 0, a, 0, 0); }
static inline int lemondarts_sheet_count(lemondarts_sheet *s, unsigned k) { return lemondarts_sheet_node(s, LEMONDARTS_KIND_COUNT, k, 0, 0, 0); }
static inline int lemondarts_sheet_not(lemondarts_sheet *s, int a) { return lemondarts_sheet_node(s, LEMONDARTS_KIND_NOT, 0, a, 0, 0); }
static inline int lemondarts_sheet_and(lemondarts_sheet *s, int a, int b) { return lemondarts_sheet_node(s, LEMONDARTS_KIND_AND, 0, a, b, 0); }
static inline int lemondarts_sheet_or(lemondarts_sheet *s, int a, int b) { return lemondarts_sheet_node(s, LEMONDARTS_KIND_OR, 0, a, b, 0); }
static inline int lemondarts_sheet_eventually(lemondarts_sheet *s, int a) { return lemondarts_sheet_node(s, LEMONDARTS_KIND_EVENTUALLY, 0, a, 0, 0); }
static inline int lemondarts_sheet_always(lemondarts_sheet *s, int a) { return lemondarts_sheet_node(s, LEMONDARTS_KIND_ALWAYS, 0, a, 0, 0); }
static inline int lemondarts_sheet_before_minus(lemondarts_sheet *s, int a, int b) { return lemondarts_sheet_node(s, LEMONDARTS_KIND_BEFORE_MINUS, 0, a, b, 0); }
static inline int lemondarts_sheet_before_plus(lemondarts_sheet *s, int a, int b) { return lemondarts_sheet_node(s, LEMONDARTS_KIND_BEFORE_PLUS, 0, a, b, 0); }
static inline int lemondarts_sheet_after_minus(lemondarts_sheet *s, int a, int b) { return lemondarts_sheet_node(s, LEMONDARTS_KIND_AFTER_MINUS, 0, a, b, 0); }
static inline int lemondarts_sheet_after_plus(lemondarts_sheet *s, int a, int b) { return lemondarts_sheet_node(s, LEMONDARTS_KIND_AFTER_PLUS, 0, a, b, 0); }
static inline int lemondarts_sheet_fulfilling(lemondarts_sheet *s, unsigned k, int a, int b, int c) { return lemondarts_sheet_node(s, LEMONDARTS_KIND_FULFILLING, k, a, b, c); }
static inline int lemondarts_sheet_ignoring(lemondarts_sheet *s, int a, int b) { return lemondarts_sheet_node(s, LEMONDARTS_KIND_IGNORING, 0, a, b, 0); }

/* Whenever a: b, which is two nodes: Always (After+ a b). */
static inline int lemondarts_sheet_whenever(lemondarts_sheet *s, int a, int b) { return lemondarts_sheet_always(s, lemondarts_sheet_after_plus(s, a, b)); }

/* A number of 16 bits, low byte first. Gives what comes after it. */
static inline uint8_t *lemondarts_sheet_word(uint8_t *at, unsigned number) {
    at[0] = LEMONDARTS_BYTE(number & 255u);
    at[1] = LEMONDARTS_BYTE(number >> 8 & 255u);
    return at + 2;
}

/* Writes the sheet: header, action list, node list, nothing more. Gives its length, at most LEMONDARTS_SHEET; or 0, with `out` unchanged, where
 * `out` is too short, there is no action or no node, or one was not taken. The sheet may be gone on with.
 */
static inline size_t lemondarts_sheet_finish(const lemondarts_sheet *sheet, uint8_t *out, size_t out_length) {
    unsigned actions = sheet->action_count, nodes = sheet->node_count;
    unsigned nodes_at = LEMONDARTS_SHEET_HEADER + LEMONDARTS_SHEET_ACTION * actions;
    unsigned total = nodes_at + LEMONDARTS_SHEET_NODE * nodes;
    unsigned n, field;
    if (sheet->failed || actions == 0 || nodes == 0 || out_length < total) {
        return 0;
    }
    out = lemondarts_sheet_word(out, actions);
    out = lemondarts_sheet_word(out, nodes);
    out = lemondarts_sheet_word(out, LEMONDARTS_SHEET_HEADER);
    out = lemondarts_sheet_word(out, nodes_at);
    out = lemondarts_sheet_word(out, total);
    for (n = 0; n < actions; n++) {
        out = lemondarts_sheet_word(out, sheet->propositions[n]);
    }
    for (n = 0; n < nodes; n++) {
        for (field = 0; field < LEMONDARTS_SHEET_NODE; field++) {
            *out++ = sheet->nodes[n][field];
        }
    }
    return total;
}

#endif

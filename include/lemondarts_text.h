/* Lemondarts: finds the words of a node in the text of a rule, for C99 and C++. Header only; it needs no library.
 *
 *     // `sheet` was written by lemondarts_read_text of `text`; lemondarts_explain of it answered LEMONDARTS_DENIED
 *     lemondarts_words words = lemondarts_words_of_node(text, text_length, LEMONDARTS_VALUE(answer));
 *     printf("denied by: %.*s\n", (int)words.length, (const char *)text + words.start);
 */
#ifndef LEMONDARTS_TEXT_H
#define LEMONDARTS_TEXT_H

#include <string.h>

#include "lemondarts.h"

/* A part of a text, in bytes. */
typedef struct lemondarts_words {
    size_t start;
    size_t length; /* 0: there is no such node */
} lemondarts_words;

/* How many parts follow a word, a K counted as one. */
static inline unsigned lemondarts_word_parts(const uint8_t *word, size_t length) {
    static const struct {
        const char *name;
        unsigned parts;
    } words[] = {
        { "not", 1 },    { "now", 1 },    { "holds", 1 },    { "count", 1 }, { "eventually", 1 }, { "always", 1 },
        { "and", 2 },    { "or", 2 },     { "before", 2 },   { "after", 2 }, { "ignoring", 2 },   { "fulfilling", 4 },
    };
    unsigned k;
    for (k = 0; k < sizeof words / sizeof *words; k++) {
        if (strlen(words[k].name) == length && memcmp(words[k].name, word, length) == 0) {
            return words[k].parts;
        }
    }
    return 0;
}

/* The words of a node: its own word, and those of its parts. `node` is one of the sheet that lemondarts_read_text wrote of this text, as
 * lemondarts_explain names it, or a refusal 8 or 9 of lemondarts_compile. Of a text that lemondarts_read_text refuses any part of it may be found.
 */
static inline lemondarts_words lemondarts_words_of_node(const uint8_t *text, size_t text_length, unsigned node) {
    struct {
        size_t start;
        unsigned missing; /* parts that are still to come */
    } open[LEMONDARTS_MOST_NODES]; /* the words whose parts are not all read, each a part of the one before */
    lemondarts_words found = { 0, 0 };
    unsigned depth = 0, numbered = 0;
    size_t at = 0, start, words;
    for (words = 0;; words++) {
        while (at < text_length && (text[at] == ' ' || text[at] == '\n')) {
            at++;
        }
        if (at == text_length) {
            return found;
        }
        for (start = at; at < text_length && text[at] != ' ' && text[at] != '\n'; at++) {
        }
        if (words == 0) {
            continue; /* `watch` or `enforce` */
        }
        if (text[start] >= '0' && text[start] <= '9') { /* a K: a part that is no node */
            if (depth == 0) {
                return found;
            }
            open[depth - 1].missing--;
        } else {
            if (depth == LEMONDARTS_MOST_NODES) {
                return found;
            }
            open[depth].start = start;
            open[depth].missing = lemondarts_word_parts(text + start, at - start);
            depth++;
        }
        /* A node is numbered once its parts are. */
        for (; depth > 0 && open[depth - 1].missing == 0; numbered++) {
            depth--;
            if (numbered == node) {
                found.start = open[depth].start;
                found.length = at - found.start;
                return found;
            }
            if (depth > 0) {
                open[depth - 1].missing--;
            }
        }
    }
}

#endif

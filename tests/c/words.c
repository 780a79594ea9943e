/* include/lemondarts_text.h: the words of each node of a text, held to the sheet that lemondarts_read_text writes of it. */
#include <stdio.h>

#include "lemondarts_text.h"

static int failures;

static void check(const char *what, int right) {
    if (!right) {
        printf("wrong: %s\n", what);
        failures++;
    }
}

static lemondarts_words of(const char *text, unsigned node) {
    return lemondarts_words_of_node((const uint8_t *)text, strlen(text), node);
}

/* Whether the words of a node are these. */
static int are(const char *text, unsigned node, const char *expected) {
    lemondarts_words words = of(text, node);
    return words.length == strlen(expected) && memcmp(text + words.start, expected, words.length) == 0;
}

/* The first word of a node of each kind, and the number of its parts. */
static const struct {
    const char *word;
    unsigned parts;
} kinds[24] = {
    { "", 0 },           { "true", 0 },   { "false", 0 },  { "p", 0 },     { "not", 1 },   { "and", 2 },        { "or", 2 },      { "", 0 },
    { "", 0 },           { "", 0 },       { "now", 1 },    { "holds", 1 }, { "count", 0 }, { "not", 1 },        { "and", 2 },     { "or", 2 },
    { "eventually", 1 }, { "always", 1 }, { "before", 2 }, { "before", 2 }, { "after", 2 }, { "after", 2 }, { "fulfilling", 3 }, { "ignoring", 2 },
};

/* Each node's words begin with the word of its kind, and hold those of its parts. After the last node there is none. */
static void whole(const char *text) {
    static const uint16_t actions[2] = { 1, 2 };
    static uint8_t sheet[LEMONDARTS_SHEET];
    uint64_t answer = lemondarts_read_text((const uint8_t *)text, strlen(text), actions, 2, sheet, sizeof sheet);
    const uint8_t *nodes = sheet + LEMONDARTS_SHEET_HEADER + 2 * LEMONDARTS_SHEET_ACTION;
    unsigned node, part;
    check(text, LEMONDARTS_OK(answer));
    for (node = 0; node < LEMONDARTS_NODES(answer); node++) {
        const uint8_t *bytes = nodes + LEMONDARTS_SHEET_NODE * node;
        const char *word = kinds[bytes[0]].word;
        lemondarts_words words = of(text, node);
        check(text, words.length >= strlen(word) && memcmp(text + words.start, word, strlen(word)) == 0);
        for (part = 0; part < kinds[bytes[0]].parts; part++) {
            lemondarts_words inner = of(text, bytes[2 + part]);
            check(text, words.start < inner.start && inner.start + inner.length <= words.start + words.length);
        }
    }
    check(text, of(text, node).length == 0);
}

int main(void) {
    const char *rule = " enforce  fulfilling 3 after now p0\ncount 12 holds not p1 always holds or true p15 ";
    unsigned node;
    char deep[LEMONDARTS_MOST_TEXT] = "watch";
    check("a proposition", are(rule, 0, "p0"));
    check("a node over a node", are(rule, 1, "now p0"));
    check("a number is no node, and ends one", are(rule, 2, "count 12"));
    check("two parts over two lines", are(rule, 3, "after now p0\ncount 12"));
    check("a negation", are(rule, 5, "not p1"));
    check("the second part", are(rule, 6, "holds not p1"));
    check("the third part", are(rule, 11, "always holds or true p15"));
    check("the whole rule", are(rule, 12, "fulfilling 3 after now p0\ncount 12 holds not p1 always holds or true p15"));
    check("no such node", of(rule, 13).length == 0 && of(rule, ~0u).length == 0);

    whole(rule);
    whole("watch and not always holds false or eventually now and p0 not p1 ignoring p0 before count 1 after now true count 60");
    whole("enforce and or holds p0 not now p1 before eventually now p0 after count 2 ignoring p1 always holds p0");
    whole("watch count 1");

    /* Texts that are not read: a part of the text, or nothing. */
    check("no text", of("", 0).length == 0 && of(" \n", 0).length == 0 && of("watch", 0).length == 0);
    check("a number first", of("watch 1 2 3", 0).length == 0);
    for (node = 0; node < 90; node++) {
        strcat(deep, " not");
    }
    check("too deep", of(strcat(deep, " p0"), 0).length == 0);
    return failures > 0;
}

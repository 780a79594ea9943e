/* Writes sheets of this folder with include/lemondarts_sheet.h, and holds the bytes to the files; then the builder's limits.
 *
 * From the top of the repository; it needs no library:
 *
 *     gcc -std=c99 -Wall -Wextra -Iinclude -o builder examples/builder.c && ./builder examples
 *
 * The argument is the folder of the sheets. Prints a line for each check, and ends with status 1 if one fails.
 */
#include <stdio.h>
#include <string.h>

#include "lemondarts_sheet.h"

/* The roastery's propositions. */
enum { CHARGE, DROP, TRAY, LOG };

static const char *folder;
static int failures;

static void report(const char *what, int right) {
    printf("%s %s\n", right ? "OK  " : "FAIL", what);
    failures += !right;
}

/* Begins a sheet over charge, drop, tray and log, each with the one proposition of its number. */
static void begin(lemondarts_sheet *s) {
    int action;
    lemondarts_sheet_init(s);
    for (action = CHARGE; action <= LOG; action++) {
        lemondarts_sheet_action(s, (uint16_t)(1u << action));
    }
}

/* Holds what the sheet writes to the bytes of a file. */
static void same_as(const lemondarts_sheet *s, const char *name) {
    uint8_t written[LEMONDARTS_SHEET], stored[LEMONDARTS_SHEET + 1];
    char path[1024];
    size_t length = lemondarts_sheet_finish(s, written, sizeof written), stored_length = 0;
    FILE *file;
    snprintf(path, sizeof path, "%s/%s", folder, name);
    file = fopen(path, "rb");
    if (file) {
        stored_length = fread(stored, 1, sizeof stored, file);
        fclose(file);
    }
    report(name, length > 0 && length == stored_length && memcmp(written, stored, length) == 0);
}

/* Eventually Now p. */
static int once(lemondarts_sheet *s, unsigned p) {
    return lemondarts_sheet_eventually(s, lemondarts_sheet_now(s, lemondarts_sheet_proposition(s, p)));
}

/* Always Holds not p, over a proposition's node. */
static int never(lemondarts_sheet *s, int p) {
    return lemondarts_sheet_always(s, lemondarts_sheet_holds(s, lemondarts_sheet_negation(s, p)));
}

static void files(void) {
    lemondarts_sheet s;
    int charge, drop, log, now, then, otherwise, first, released, held;

    begin(&s);
    never(&s, lemondarts_sheet_proposition(&s, CHARGE));
    same_as(&s, "never_charge.sheet");

    begin(&s);
    once(&s, DROP);
    same_as(&s, "eventually_drop.sheet");

    begin(&s);
    lemondarts_sheet_holds(&s, lemondarts_sheet_proposition(&s, DROP));
    same_as(&s, "holds_drop.sheet");

    begin(&s);
    lemondarts_sheet_eventually(&s, lemondarts_sheet_holds(&s, lemondarts_sheet_proposition(&s, DROP)));
    same_as(&s, "eventually_holds_drop.sheet");

    begin(&s);
    drop = lemondarts_sheet_proposition(&s, DROP);
    lemondarts_sheet_not(&s, lemondarts_sheet_now(&s, lemondarts_sheet_negation(&s, drop)));
    same_as(&s, "not_now_not_drop.sheet");

    begin(&s);
    lemondarts_sheet_now(&s, lemondarts_sheet_false(&s));
    same_as(&s, "now_false.sheet");

    begin(&s);
    lemondarts_sheet_now(&s, lemondarts_sheet_true(&s));
    same_as(&s, "now_true.sheet");

    begin(&s);
    lemondarts_sheet_count(&s, 2);
    same_as(&s, "count_2.sheet");

    begin(&s);
    first = lemondarts_sheet_count(&s, 60);
    lemondarts_sheet_after_minus(&s, first, lemondarts_sheet_count(&s, 4));
    same_as(&s, "count_64.sheet");

    begin(&s);
    released = once(&s, TRAY);
    lemondarts_sheet_before_plus(&s, released, never(&s, lemondarts_sheet_proposition(&s, CHARGE)));
    same_as(&s, "no_charge_before_tray.sheet");
    lemondarts_sheet_action(&s, 1u << CHARGE | 1u << TRAY);
    same_as(&s, "no_charge_before_tray_5.sheet");

    begin(&s);
    first = once(&s, DROP);
    lemondarts_sheet_after_plus(&s, first, never(&s, lemondarts_sheet_proposition(&s, CHARGE)));
    same_as(&s, "no_charge_after_drop.sheet");

    begin(&s);
    now = lemondarts_sheet_now(&s, lemondarts_sheet_proposition(&s, LOG));
    then = lemondarts_sheet_holds(&s, lemondarts_sheet_true(&s));
    otherwise = never(&s, lemondarts_sheet_proposition(&s, DROP));
    lemondarts_sheet_fulfilling(&s, 1, now, then, otherwise);
    same_as(&s, "log_first.sheet");

    begin(&s);
    log = lemondarts_sheet_proposition(&s, LOG);
    lemondarts_sheet_ignoring(&s, log, lemondarts_sheet_holds(&s, lemondarts_sheet_proposition(&s, DROP)));
    same_as(&s, "drop_first_but_for_log.sheet");

    begin(&s);
    charge = lemondarts_sheet_proposition(&s, CHARGE);
    first = lemondarts_sheet_eventually(&s, lemondarts_sheet_now(&s, charge));
    released = once(&s, DROP);
    held = never(&s, charge);
    lemondarts_sheet_whenever(&s, first, lemondarts_sheet_before_plus(&s, released, held));
    same_as(&s, "drop_between_charges.sheet");

    begin(&s);
    charge = lemondarts_sheet_proposition(&s, CHARGE);
    first = lemondarts_sheet_eventually(&s, lemondarts_sheet_now(&s, charge));
    lemondarts_sheet_always(&s, first); /* left over: no node uses it */
    released = once(&s, DROP);
    held = never(&s, charge);
    lemondarts_sheet_whenever(&s, first, lemondarts_sheet_before_plus(&s, released, held));
    same_as(&s, "drop_between_charges_spare.sheet");

    begin(&s);
    held = lemondarts_sheet_holds(&s, lemondarts_sheet_negation(&s, lemondarts_sheet_proposition(&s, CHARGE)));
    lemondarts_sheet_node(&s, 24, 0, 0, 0, 0); /* left over, of an unknown kind */
    lemondarts_sheet_always(&s, held);
    same_as(&s, "spare_unknown_kind.sheet");
}

/* Each kind that no file has, as bytes. */
static void kinds(void) {
    static const uint8_t expected[] = { 5, 0, 0, 1, 0, 6, 0, 0, 1, 0, 14, 0, 0, 1, 0, 15, 0, 0, 1, 0, 18, 0, 0, 1, 0 };
    lemondarts_sheet s;
    uint8_t written[LEMONDARTS_SHEET];
    size_t length;
    lemondarts_sheet_init(&s);
    lemondarts_sheet_action(&s, 0);
    lemondarts_sheet_conjunction(&s, 0, 1);
    lemondarts_sheet_disjunction(&s, 0, 1);
    lemondarts_sheet_and(&s, 0, 1);
    lemondarts_sheet_or(&s, 0, 1);
    lemondarts_sheet_before_minus(&s, 0, 1);
    length = lemondarts_sheet_finish(&s, written, sizeof written);
    report("the other kinds", length == 12 + sizeof expected && memcmp(written + 12, expected, sizeof expected) == 0);
}

static void limits(void) {
    lemondarts_sheet s;
    uint8_t written[LEMONDARTS_SHEET];
    int n, right = 1;

    lemondarts_sheet_init(&s);
    lemondarts_sheet_count(&s, 1);
    report("no action: 0 bytes", lemondarts_sheet_finish(&s, written, sizeof written) == 0);
    lemondarts_sheet_init(&s);
    lemondarts_sheet_action(&s, 1);
    report("no node: 0 bytes", lemondarts_sheet_finish(&s, written, sizeof written) == 0);

    for (n = 1; n < LEMONDARTS_MOST_ACTIONS; n++) {
        right &= lemondarts_sheet_action(&s, 1) == n;
    }
    for (n = 0; n < LEMONDARTS_MOST_NODES; n++) {
        right &= lemondarts_sheet_count(&s, 1) == n;
    }
    report("actions and nodes are numbered from 0", right);
    memset(written, 7, sizeof written);
    report("an output a byte too short: 0 bytes, and unchanged",
           lemondarts_sheet_finish(&s, written, LEMONDARTS_SHEET - 1) == 0 && written[0] == 7);
    report("16 actions and 64 nodes: the longest sheet", lemondarts_sheet_finish(&s, written, sizeof written) == LEMONDARTS_SHEET);

    report("a 65th node: -1", lemondarts_sheet_count(&s, 1) == -1);
    report("after it no sheet, which would be another rule", lemondarts_sheet_finish(&s, written, sizeof written) == 0);
    begin(&s);
    lemondarts_sheet_count(&s, 1);
    report("a part of -1: -1", lemondarts_sheet_not(&s, -1) == -1 && lemondarts_sheet_finish(&s, written, sizeof written) == 0);
    begin(&s);
    report("an argument that is no byte: -1", lemondarts_sheet_count(&s, 256 + 2) == -1);
    for (n = LOG + 1; n < LEMONDARTS_MOST_ACTIONS; n++) {
        lemondarts_sheet_action(&s, 1);
    }
    report("a 17th action: -1", lemondarts_sheet_action(&s, 1) == -1);
}

int main(int argc, char **argv) {
    folder = argc > 1 ? argv[1] : "examples";
    files();
    kinds();
    limits();
    printf("%d failed\n", failures);
    return failures > 0;
}

/*
 * Tries what the header adds to the library's functions: the version and the
 * format number, the calls on a struct pelchunda_unit beside the plain ones, the
 * readers of rows, and the words.
 *
 *     gcc -std=c99 -O2 -Wall -Wextra -I include examples/header.c crates/unit_c/out/libunit_c.a -o header
 *     ./header
 */
#include <stdio.h>
#include <string.h>

#include "pelchunda.h"

#define STORE PELCHUNDA_STORE_BYTES
#define EVENT PELCHUNDA_EVENT_BYTES
#define ID PELCHUNDA_ID_BYTES
#define TABLE PELCHUNDA_TABLE_BYTES

static uint8_t table[TABLE]; /* document 01's cord table */

/* One unit by the wrappers, one by the plain calls; they must stay alike. */
static struct pelchunda_unit unit, plain;
static uint8_t out[PELCHUNDA_BUNDLE_BYTES], plain_out[PELCHUNDA_BUNDLE_BYTES];

static int failures;

static void check(const char *what, int holds)
{
    if (!holds) {
        printf("header: %s is not as expected\n", what);
        failures++;
    }
}

static int alike(void)
{
    return unit.count == plain.count && memcmp(unit.store, plain.store, STORE) == 0 &&
           memcmp(out, plain_out, sizeof out) == 0;
}

/* A join of ports 3 and 7, kinds 4 and 5, 12 m, by member 0 under the creator,
 * with the creator for its parent. */
static void make_join(uint8_t *e, const uint8_t *creator_id)
{
    memset(e, 0, EVENT);
    e[0] = 3;
    e[2] = 1;
    e[5] = 4;
    e[6] = 5;
    e[9] = 3;
    e[11] = 7;
    e[13] = 12;
    memcpy(e + 32, creator_id, ID);
    memcpy(e + 96, creator_id, ID);
}

/* A create event of room 0 by member 0 with a format number. */
static uint8_t start_with_format(unsigned format)
{
    uint8_t e[EVENT];
    memset(e, 0, sizeof e);
    e[14] = (uint8_t)(format / 256);
    e[15] = (uint8_t)(format % 256);
    return pelchunda_unit_start(&unit, table, e);
}

static void try_numbers(void)
{
    char text[16];
    unsigned number = PELCHUNDA_VERSION_NUMBER;
    check("version", pelchunda_version() == PELCHUNDA_VERSION_NUMBER);
    snprintf(text, sizeof text, "%u.%u.%u", number / 10000, number / 100 % 100, number % 100);
    check("version in words", strcmp(text, PELCHUNDA_VERSION) == 0);
    check("format", start_with_format(PELCHUNDA_FORMAT_NUMBER) == PELCHUNDA_OK && unit.count == 1);
    check("next format", start_with_format(PELCHUNDA_FORMAT_NUMBER + 1) == PELCHUNDA_BAD_FIELD && unit.count == 0);
    check("stack", PELCHUNDA_STACK_BYTES <= 49152);
}

static void try_words(void)
{
    static const struct {
        uint8_t number;
        const char *word;
    } numbers[] = {
        {PELCHUNDA_OK, "done"},
        {PELCHUNDA_WRONG_LENGTH, "wrong length"},
        {PELCHUNDA_BAD_STORE, "bad store"},
        {PELCHUNDA_BAD_FIELD, "bad field"},
        {PELCHUNDA_OTHER_ROOM, "other room"},
        {PELCHUNDA_WRONG_CREATE, "wrong create event"},
        {PELCHUNDA_CORD_TOO_LONG, "cord too long"},
        {PELCHUNDA_STORE_FULL, "store full"},
        {PELCHUNDA_BAD_BUNDLE, "bad bundle"},
        {PELCHUNDA_NOT_HELD, "not held"},
        {PELCHUNDA_SHORT_OUTPUT, "output too short"},
        {11, "no number of a unit"},
        {PELCHUNDA_BAD_TABLE, "bad cord table"},
        {13, "no number of a unit"},
        {255, "no number of a unit"},
    };
    for (size_t i = 0; i < sizeof numbers / sizeof numbers[0]; i++) {
        check(numbers[i].word, strcmp(pelchunda_number_word(numbers[i].number), numbers[i].word) == 0);
    }
    check("waiting", strcmp(pelchunda_verdict_word(PELCHUNDA_WAITING), "waiting") == 0);
    check("unsound", strcmp(pelchunda_verdict_word(PELCHUNDA_UNSOUND), "unsound") == 0);
    check("void", strcmp(pelchunda_verdict_word(PELCHUNDA_VOID), "void") == 0);
    check("effective", strcmp(pelchunda_verdict_word(PELCHUNDA_EFFECTIVE), "effective") == 0);
    check("no verdict", strcmp(pelchunda_verdict_word(4), "no verdict") == 0);
}

/* Start and takes: the answers, and what they leave. */
static void try_takes(const uint8_t *creator, const uint8_t *join, const uint8_t *bundle, size_t len)
{
    uint8_t repeat = 7, plain_repeat = 7;
    uint32_t figures[3] = {7, 7, 7}, plain_figures[3] = {7, 7, 7};
    uint32_t tally[3] = {1, 2, 3}, plain_tally[3] = {1, 2, 3};
    check("start", pelchunda_unit_start(&unit, table, creator) == 0);
    check("plain start", pelchunda_start(plain.store, STORE, &plain.count, table, TABLE, creator, EVENT) == 0 &&
                             alike());
    check("take", pelchunda_unit_take(&unit, join, &repeat) == 0 && repeat == 0 && unit.count == 2);
    check("plain take", pelchunda_take(plain.store, STORE, &plain.count, table, TABLE, join, EVENT, &plain_repeat) == 0 &&
                            alike());
    check("counted", pelchunda_unit_take_counted(&unit, join, &repeat, tally) == 0 && repeat == 1 && tally[1] == 3);
    check("plain counted", pelchunda_take_counted(plain.store, STORE, &plain.count, table, TABLE, join, EVENT, &plain_repeat,
                                                  plain_tally) == 0 && plain_repeat == 1 && alike());
    check("bundle", pelchunda_unit_take_bundle(&unit, bundle, len, figures) == 0 && figures[PELCHUNDA_REPEATS] == 2);
    check("plain bundle", pelchunda_take_bundle(plain.store, STORE, &plain.count, table, TABLE, bundle, len,
                                                plain_figures) == 0);
    check("figures", memcmp(figures, plain_figures, sizeof figures) == 0 && alike());
    check("bundle counted", pelchunda_unit_take_bundle_counted(&unit, bundle, len, figures, tally) == 0);
    check("plain bundle counted", pelchunda_take_bundle_counted(plain.store, STORE, &plain.count, table, TABLE, bundle, len,
                                                                plain_figures, plain_tally) == 0);
    check("tally", memcmp(tally, plain_tally, sizeof tally) == 0 && tally[1] == 5 && alike());
}

/* The calls that ask for one event, and that write; with the first row of each
 * kind, read. */
static void try_reports(const uint8_t *join, const uint8_t *creator_id, const uint8_t *join_id)
{
    uint8_t verdict = 7, other_id[ID] = {0};
    const uint8_t *event = NULL;
    size_t rows = 7, ended = 7, joins = 7, bytes = 7;
    check("look-up", pelchunda_unit_look_up(&unit, join_id, &event) == 0 && event == unit.store + EVENT);
    check("looked up", memcmp(event, join, EVENT) == 0);
    check("not held", pelchunda_unit_look_up(&unit, other_id, &event) == PELCHUNDA_NOT_HELD);
    check("left", event == unit.store + EVENT);
    check("verdict", pelchunda_unit_verdict(&unit, join_id, &verdict) == 0 && verdict == PELCHUNDA_EFFECTIVE);

    check("order", pelchunda_unit_order(&unit, out, sizeof out, &rows) == 0 && rows == 2);
    check("plain order", pelchunda_order(plain.store, STORE, plain.count, table, TABLE, plain_out, sizeof plain_out,
                                         &rows) == 0 && alike());
    struct pelchunda_order_row first = pelchunda_order_row_at(out, 0), second = pelchunda_order_row_at(out, 1);
    check("row 0", memcmp(first.id, creator_id, ID) == 0 && first.height == 0 && first.verdict == PELCHUNDA_EFFECTIVE);
    check("row 1", memcmp(second.id, join_id, ID) == 0 && second.height == 1 && second.verdict == PELCHUNDA_EFFECTIVE);

    check("map", pelchunda_unit_map(&unit, out, sizeof out, &rows, &ended, &joins) == 0 && rows == 1 && ended == 0 && joins == 1);
    struct pelchunda_map_row link = pelchunda_map_row_at(out, 0);
    check("ports", link.port_a == 3 && link.port_b == 7);
    check("kinds and metres", link.kind_a == 4 && link.kind_b == 5 && link.metres == 12);

    check("write-out", pelchunda_unit_write_out(&unit, out, sizeof out, &bytes) == 0 && bytes == 2 * EVENT + 12);
    check("written", memcmp(out, unit.store, 2 * EVENT) == 0);
    check("text", pelchunda_unit_text(&unit, out, sizeof out, &bytes) == 0 && bytes == 57);
    check("text's lines", memcmp(out, "LINKS 1 WAITING 0 UNSOUND 0 VOID 0\n0003 0007 04 05 00012\n", 57) == 0);
}

/* A unit keeps the table of its start: each call is lent that one. By a table of
 * zeros, which is good, no cord may be joined, and one that is held is too long;
 * a bad one is shown by each call, 12, and is not taken by a start. */
static void try_table(const uint8_t *creator, const uint8_t *join, const uint8_t *id)
{
    uint8_t zeros[TABLE], bad[TABLE], repeat = 7, verdict = 7;
    const uint8_t *event = NULL;
    uint32_t figures[3] = {7, 7, 7}, tally[3] = {1, 2, 3};
    size_t rows = 7, ended = 7, joins = 7, bytes = 7;
    memset(zeros, 0, sizeof zeros);
    memcpy(bad, table, sizeof bad);
    bad[2 * 3 + 1] = 36; /* kinds 0 and 3; that of 3 and 0 stays 35 */

    check("table kept", memcmp(unit.table, table, TABLE) == 0);
    memcpy(unit.table, bad, TABLE);
    check("take by it", pelchunda_unit_take(&unit, join, &repeat) == PELCHUNDA_BAD_TABLE);
    check("take counted by it", pelchunda_unit_take_counted(&unit, join, &repeat, tally) == PELCHUNDA_BAD_TABLE);
    check("tally of it", tally[PELCHUNDA_NEW] == 1 && tally[PELCHUNDA_REPEATS] == 2 && tally[PELCHUNDA_REFUSED] == 4);
    check("bundle by it", pelchunda_unit_take_bundle(&unit, join, EVENT, figures) == PELCHUNDA_BAD_TABLE);
    check("bundle counted by it", pelchunda_unit_take_bundle_counted(&unit, join, EVENT, figures, tally) ==
                                      PELCHUNDA_BAD_TABLE && tally[PELCHUNDA_REFUSED] == 4);
    check("look-up by it", pelchunda_unit_look_up(&unit, id, &event) == PELCHUNDA_BAD_TABLE);
    check("verdict by it", pelchunda_unit_verdict(&unit, id, &verdict) == PELCHUNDA_BAD_TABLE);
    check("order by it", pelchunda_unit_order(&unit, out, sizeof out, &rows) == PELCHUNDA_BAD_TABLE);
    check("map by it", pelchunda_unit_map(&unit, out, sizeof out, &rows, &ended, &joins) == PELCHUNDA_BAD_TABLE);
    check("write-out by it", pelchunda_unit_write_out(&unit, out, sizeof out, &bytes) == PELCHUNDA_BAD_TABLE);
    check("text by it", pelchunda_unit_text(&unit, out, sizeof out, &bytes) == PELCHUNDA_BAD_TABLE);
    memcpy(unit.table, zeros, TABLE);
    check("held and too long", pelchunda_unit_verdict(&unit, id, &verdict) == PELCHUNDA_BAD_STORE);

    check("start by zeros", pelchunda_unit_start(&unit, zeros, creator) == 0 && memcmp(unit.table, zeros, TABLE) == 0);
    check("no cord", pelchunda_unit_take(&unit, join, &repeat) == PELCHUNDA_CORD_TOO_LONG);
    check("start by its own", pelchunda_unit_start(&unit, unit.table, creator) == 0 && unit.count == 1);
    check("start by a bad one", pelchunda_unit_start(&unit, bad, creator) == PELCHUNDA_BAD_TABLE && unit.count == 0);
}

/* A row whose bytes all differ, so that a reader that takes another byte is
 * seen. */
static void try_readers(void)
{
    uint8_t bytes[2 * PELCHUNDA_ORDER_ROW_BYTES];
    for (size_t i = 0; i < sizeof bytes; i++) {
        bytes[i] = (uint8_t)(i + 1);
    }
    struct pelchunda_order_row row = pelchunda_order_row_at(bytes, 1);
    check("order row", row.id == bytes + 36 && row.height == 69 * 256 + 70 && row.verdict == 71);
    struct pelchunda_map_row link = pelchunda_map_row_at(bytes, 2);
    check("map row's ports", link.port_a == 17 * 256 + 18 && link.port_b == 19 * 256 + 20);
    check("map row's cord", link.kind_a == 21 && link.kind_b == 22 && link.metres == 23 * 256 + 24);
}

int main(void)
{
    uint8_t creator[EVENT], join[EVENT], creator_id[ID], join_id[ID], bundle[2 * EVENT + 12];
    memset(creator, 0, sizeof creator);
    check("document's table", pelchunda_document_table(table, sizeof table) == PELCHUNDA_OK);
    check("id", pelchunda_id(creator, EVENT, creator_id, ID) == 0);
    make_join(join, creator_id);
    check("id", pelchunda_id(join, EVENT, join_id, ID) == 0);
    memcpy(bundle, creator, EVENT);
    memcpy(bundle + EVENT, join, EVENT);
    memcpy(bundle + 2 * EVENT, "\0\0\1\200\0\2\0\0BACK", 12);

    try_numbers();
    try_words();
    try_takes(creator, join, bundle, sizeof bundle);
    try_reports(join, creator_id, join_id);
    try_table(creator, join, join_id);
    try_readers();
    if (failures != 0) {
        return 1;
    }
    printf("header: all as expected\n");
    return 0;
}

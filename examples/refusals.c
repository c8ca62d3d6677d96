/*
 * Calls each function with null pointers of length 0, with wrong lengths, with
 * bad cord tables and with whatever else it refuses, and checks the number that
 * it returns and that what it was lent is as it was; the count is 0 after a
 * refused start.
 *
 *     gcc -std=c99 -Wall -Wextra -Werror -I include examples/refusals.c crates/unit_c/out/libunit_c.a -o refusals
 *     ./refusals
 */
#include <stdio.h>
#include <string.h>

#include "pelchunda.h"

#define STORE PELCHUNDA_STORE_BYTES
#define EVENT PELCHUNDA_EVENT_BYTES
#define ID PELCHUNDA_ID_BYTES
#define TABLE PELCHUNDA_TABLE_BYTES

static uint8_t store[STORE], store_before[STORE];
static uint8_t out[STORE + 12], out_before[STORE + 12];
static uint8_t zeros[STORE + EVENT];
static uint8_t document[TABLE]; /* document 01's cord table */

/* The table that the calls below are lent. */
static const uint8_t *table = document;
static size_t table_len = TABLE;

static int failures;

static void check(const char *what, int holds)
{
    if (!holds) {
        printf("refusals: %s is not as expected\n", what);
        failures++;
    }
}

/* Keeps copies of the store and the output, to compare them with. */
static void keep(void)
{
    memcpy(store_before, store, sizeof store);
    memcpy(out_before, out, sizeof out);
}

static int kept(void)
{
    return memcmp(store, store_before, sizeof store) == 0 && memcmp(out, out_before, sizeof out) == 0;
}

/* ---- one refused call each ---- */

static void start(const char *what, uint8_t want, uint8_t *s, size_t s_len, const uint8_t *e, size_t e_len)
{
    size_t count = 77;
    uint8_t got = pelchunda_start(s, s_len, &count, table, table_len, e, e_len);
    check(what, got == want && count == 0 && kept());
}

/* Both takes of one event. */
static void take(const char *what, uint8_t want, uint8_t *s, size_t s_len, size_t n, const uint8_t *e, size_t e_len)
{
    size_t count = n;
    uint8_t repeat = 77;
    uint32_t tally[3] = {5, 6, 7};
    uint8_t got = pelchunda_take(s, s_len, &count, table, table_len, e, e_len, &repeat);
    check(what, got == want && count == n && repeat == 77 && kept());
    got = pelchunda_take_counted(s, s_len, &count, table, table_len, e, e_len, &repeat, tally);
    check(what, got == want && count == n && repeat == 77 && kept());
    check(what, tally[0] == 5 && tally[1] == 6 && tally[2] == 8);
}

/* Both takes of a bundle. */
static void bundle(const char *what, uint8_t want, uint8_t *s, size_t s_len, size_t n, const uint8_t *b, size_t b_len)
{
    size_t count = n;
    uint32_t figures[3] = {5, 6, 7}, tally[3] = {8, 9, 10};
    uint8_t got = pelchunda_take_bundle(s, s_len, &count, table, table_len, b, b_len, figures);
    check(what, got == want && count == n && kept());
    got = pelchunda_take_bundle_counted(s, s_len, &count, table, table_len, b, b_len, figures, tally);
    check(what, got == want && count == n && kept());
    check(what, figures[0] == 5 && figures[1] == 6 && figures[2] == 7);
    check(what, tally[0] == 8 && tally[1] == 9 && tally[2] == 10);
}

/* Look-up and verdict. */
static void ask(const char *what, uint8_t want, const uint8_t *s, size_t s_len, size_t n, const uint8_t *i, size_t i_len)
{
    uint16_t place = 7777;
    uint8_t verdict = 77;
    check(what, pelchunda_look_up(s, s_len, n, table, table_len, i, i_len, &place) == want && place == 7777 && kept());
    check(what, pelchunda_verdict(s, s_len, n, table, table_len, i, i_len, &verdict) == want && verdict == 77 && kept());
}

static void order(const char *what, uint8_t want, const uint8_t *s, size_t s_len, size_t n, uint8_t *o, size_t o_len)
{
    size_t rows = 77;
    check(what, pelchunda_order(s, s_len, n, table, table_len, o, o_len, &rows) == want && rows == 77 && kept());
}

static void map(const char *what, uint8_t want, const uint8_t *s, size_t s_len, size_t n, uint8_t *o, size_t o_len)
{
    size_t rows = 77, ended = 78, joins = 79;
    uint8_t got = pelchunda_map(s, s_len, n, table, table_len, o, o_len, &rows, &ended, &joins);
    check(what, got == want && rows == 77 && ended == 78 && joins == 79 && kept());
}

static void write_out(const char *what, uint8_t want, const uint8_t *s, size_t s_len, size_t n, uint8_t *o, size_t o_len)
{
    size_t bytes = 77;
    check(what, pelchunda_write_out(s, s_len, n, table, table_len, o, o_len, &bytes) == want && bytes == 77 && kept());
}

static void text(const char *what, uint8_t want, const uint8_t *s, size_t s_len, size_t n, uint8_t *o, size_t o_len)
{
    size_t bytes = 77;
    check(what, pelchunda_text(s, s_len, n, table, table_len, o, o_len, &bytes) == want && bytes == 77 && kept());
}

static void first_event(const char *what, uint8_t want, const uint8_t *b, size_t b_len)
{
    size_t offset = 77;
    check(what, pelchunda_first_event(b, b_len, &offset) == want && offset == 77 && kept());
}

static void id(const char *what, uint8_t want, const uint8_t *e, size_t e_len, uint8_t *i, size_t i_len)
{
    check(what, pelchunda_id(e, e_len, i, i_len) == want && kept());
}

static void ids(const char *what, uint8_t want, const uint8_t *e, size_t e_len, uint8_t *i, size_t i_len)
{
    check(what, pelchunda_ids(e, e_len, i, i_len) == want && kept());
}

/* ---- events and bundles ---- */

/* The creator is 192 zero bytes: a create by member 0, of room 0. */
static const uint8_t *const creator = zeros;

/* A join of ports 3 and 7, kinds a and b, by member 0 under the creator, with
 * the creator for its parent. */
static void make_join(uint8_t *e, uint8_t a, uint8_t b, uint8_t metres)
{
    memset(e, 0, EVENT);
    e[0] = 3;
    e[2] = 1;
    e[5] = a;
    e[6] = b;
    e[9] = 3;
    e[11] = 7;
    e[13] = metres;
    check("id of the creator", pelchunda_id(creator, EVENT, e + 32, ID) == 0);
    memcpy(e + 96, e + 32, ID);
}

/* A trailer behind n events. */
static void make_trailer(uint8_t *at, unsigned n)
{
    unsigned distance = n * EVENT;
    memset(at, 0, 8);
    at[2] = (uint8_t)(distance / 256);
    at[3] = (uint8_t)(distance % 256);
    at[5] = (uint8_t)n;
    memcpy(at + 8, "BACK", 4);
}

/* ---- the trials ---- */

static void try_start(void)
{
    uint8_t e[EVENT];
    keep();
    start("start: null store", 1, NULL, 0, creator, EVENT);
    start("start: null event", 1, store, STORE, NULL, 0);
    start("start: all null", 1, NULL, 0, NULL, 0);
    start("start: short store", 1, store, STORE - 1, creator, EVENT);
    start("start: short event", 1, store, STORE, creator, EVENT - 1);
    start("start: long event", 1, store, STORE, zeros, EVENT + 1);
    memcpy(e, creator, EVENT);
    e[1] = 32;
    start("start: author 32", 3, store, STORE, e, EVENT);
    make_join(e, 4, 5, 12);
    start("start: with a join", 5, store, STORE, e, EVENT);
}

static void try_take(void)
{
    uint8_t e[EVENT];
    keep();
    take("take: null store", 1, NULL, 0, 1, creator, EVENT);
    take("take: null event", 1, store, STORE, 1, NULL, 0);
    take("take: all null", 1, NULL, 0, 1, NULL, 0);
    take("take: short store", 1, store, STORE - 1, 1, creator, EVENT);
    take("take: short event", 1, store, STORE, 1, creator, EVENT - 1);
    take("take: count 0", 2, store, STORE, 0, creator, EVENT);
    take("take: count 2 of 1", 2, store, STORE, 2, creator, EVENT);
    take("take: count 257", 2, store, STORE, 257, creator, EVENT);
    take("take: largest count", 2, store, STORE, (size_t)-1, creator, EVENT);
    memcpy(e, creator, EVENT);
    e[1] = 1;
    take("take: another create", 5, store, STORE, 1, e, EVENT);
    e[1] = 32;
    take("take: author 32", 3, store, STORE, 1, e, EVENT);
    make_join(e, 3, 4, 1);
    take("take: kinds 3 and 4", 6, store, STORE, 1, e, EVENT);
    e[31] = 1;
    take("take: another room", 4, store, STORE, 1, e, EVENT);
}

static void try_bundle(void)
{
    uint8_t b[12];
    keep();
    make_trailer(b, 0);
    bundle("bundle: null store", 1, NULL, 0, 1, b, 12);
    bundle("bundle: null bundle", 8, store, STORE, 1, NULL, 0);
    bundle("bundle: all null", 1, NULL, 0, 1, NULL, 0);
    bundle("bundle: short store", 1, store, STORE - 1, 1, b, 12);
    bundle("bundle: count 0", 2, store, STORE, 0, b, 12);
    bundle("bundle: 11 bytes", 8, store, STORE, 1, b + 1, 11);
    make_trailer(b, 1);
    bundle("bundle: past the front", 8, store, STORE, 1, b, 12);
    make_trailer(b, 0);
    b[11] = 'k';
    bundle("bundle: BACk", 8, store, STORE, 1, b, 12);
}

static void try_reports(void)
{
    keep();
    ask("ask: null store", 1, NULL, 0, 1, zeros, ID);
    ask("ask: null id", 1, store, STORE, 1, NULL, 0);
    ask("ask: short store", 1, store, STORE - 1, 1, zeros, ID);
    ask("ask: short id", 1, store, STORE, 1, zeros, ID - 1);
    ask("ask: count 0", 2, store, STORE, 0, zeros, ID);
    ask("ask: id not held", 9, store, STORE, 1, zeros, ID);
    order("order: null store", 1, NULL, 0, 1, out, sizeof out);
    order("order: null output", 10, store, STORE, 1, NULL, 0);
    order("order: count 0", 2, store, STORE, 0, out, sizeof out);
    order("order: 35 bytes", 10, store, STORE, 1, out, 35);
    write_out("write-out: null store", 1, NULL, 0, 1, out, sizeof out);
    write_out("write-out: null output", 10, store, STORE, 1, NULL, 0);
    write_out("write-out: count 257", 2, store, STORE, 257, out, sizeof out);
    write_out("write-out: 203 bytes", 10, store, STORE, 1, out, 203);
}

static void try_map(void)
{
    uint8_t e[EVENT], repeat = 77;
    size_t count = 1, rows = 77, ended = 77, joins = 77;
    keep();
    map("map: null store", 1, NULL, 0, 1, out, sizeof out);
    map("map: count 0", 2, store, STORE, 0, out, sizeof out);
    uint8_t got = pelchunda_map(store, STORE, 1, table, table_len, NULL, 0, &rows, &ended, &joins);
    check("map: no link, null output", got == 0);
    check("map: no link", rows == 0 && ended == 0 && joins == 0 && kept());
    make_join(e, 4, 5, 12);
    check("join", pelchunda_take(store, STORE, &count, table, table_len, e, EVENT, &repeat) == 0);
    check("join stored", count == 2 && repeat == 0);
    keep();
    check("join again", pelchunda_take(store, STORE, &count, table, table_len, e, EVENT, &repeat) == 0);
    check("join is a repeat", count == 2 && repeat == 1 && kept());
    map("map: one link, null output", 10, store, STORE, 2, NULL, 0);
    map("map: one link, 7 bytes", 10, store, STORE, 2, out, 7);
}

/* ---- cord tables ---- */

/* Sets both bytes of the entry of kinds a and b, and leaves its mirror. */
static void set_entry(uint8_t *t, unsigned a, unsigned b, unsigned metres)
{
    t[2 * (16 * a + b)] = (uint8_t)(metres / 256);
    t[2 * (16 * a + b) + 1] = (uint8_t)(metres % 256);
}

static void lend(const uint8_t *t, size_t len)
{
    table = t;
    table_len = len;
}

/* Calls with an event, a bundle or an id, all lent a bad table: 1 comes before
 * 12, and 12 before 2, 3, 5, 8 and 9. */
static void try_bad_table_offers(const char *what)
{
    uint8_t e[EVENT];
    memcpy(e, creator, EVENT);
    start(what, 12, store, STORE, creator, EVENT);
    start(what, 1, store, STORE - 1, creator, EVENT);
    start(what, 1, store, STORE, creator, EVENT - 1);
    take(what, 12, store, STORE, 1, creator, EVENT);
    take(what, 1, store, STORE - 1, 1, creator, EVENT);
    take(what, 1, store, STORE, 1, creator, EVENT - 1);
    take(what, 12, store, STORE, 0, creator, EVENT);
    e[1] = 32;
    start(what, 12, store, STORE, e, EVENT);
    take(what, 12, store, STORE, 1, e, EVENT);
    make_join(e, 3, 4, 1);
    start(what, 12, store, STORE, e, EVENT);
    take(what, 12, store, STORE, 1, e, EVENT);
    bundle(what, 1, store, STORE - 1, 1, NULL, 0);
    bundle(what, 12, store, STORE, 0, NULL, 0);
    bundle(what, 12, store, STORE, 1, NULL, 0);
    ask(what, 1, store, STORE - 1, 1, zeros, ID);
    ask(what, 1, store, STORE, 1, zeros, ID - 1);
    ask(what, 12, store, STORE, 0, zeros, ID);
    ask(what, 12, store, STORE, 1, zeros, ID);
}

/* Calls with an output: 12 comes before 2 and 10. */
static void try_bad_table_outputs(const char *what)
{
    static void (*const calls[])(const char *, uint8_t, const uint8_t *, size_t, size_t, uint8_t *, size_t) = {
        order, map, write_out, text,
    };
    for (size_t i = 0; i < sizeof calls / sizeof calls[0]; i++) {
        calls[i](what, 1, store, STORE - 1, 1, out, sizeof out);
        calls[i](what, 12, store, STORE, 1, out, sizeof out);
        calls[i](what, 12, store, STORE, 0, out, sizeof out);
        calls[i](what, 12, store, STORE, 1, NULL, 0);
    }
}

static void try_bad_table(const char *what, const uint8_t *t, size_t len)
{
    lend(t, len);
    try_bad_table_offers(what);
    try_bad_table_outputs(what);
    lend(document, TABLE);
}

static void try_bad_tables(void)
{
    uint8_t t[TABLE + 1];
    keep();
    memcpy(t, document, TABLE);
    t[TABLE] = 0;
    try_bad_table("table: null", NULL, 0);
    try_bad_table("table: 511 bytes", t, TABLE - 1);
    try_bad_table("table: 513 bytes", t, TABLE + 1);
    set_entry(t, 4, 5, 81);
    try_bad_table("table: an entry unlike its mirror", t, TABLE);
    set_entry(t, 4, 5, 80 + 256);
    try_bad_table("table: its first byte unlike", t, TABLE);
    set_entry(t, 4, 5, 80);
    set_entry(t, 3, 4, 1);
    set_entry(t, 4, 3, 1);
    try_bad_table("table: 1 between unlike families", t, TABLE);
}

/* With the creator and a join of kinds 4 and 5, 12 m, held: check 6 is by the
 * table that is lent, for what is offered and for what is held. */
static void try_good_tables(void)
{
    uint8_t e[EVENT], t[TABLE];
    size_t rows = 77;
    keep();
    memset(t, 0, sizeof t);
    set_entry(t, 4, 5, 12);
    set_entry(t, 5, 4, 12);
    lend(t, TABLE);
    check("table: just enough", pelchunda_order(store, STORE, 2, table, table_len, out, 72, &rows) == 0 && rows == 2);
    memcpy(out, out_before, sizeof out);
    make_join(e, 4, 5, 13);
    take("table: a metre too long", 6, store, STORE, 2, e, EVENT);
    make_join(e, 4, 4, 1);
    take("table: a kind without cords", 6, store, STORE, 2, e, EVENT);
    set_entry(t, 4, 5, 11);
    set_entry(t, 5, 4, 11);
    take("table: held too long", 2, store, STORE, 2, e, EVENT);
    bundle("table: held too long", 2, store, STORE, 2, NULL, 0);
    ask("table: held too long", 2, store, STORE, 2, zeros, ID);
    order("table: held too long", 2, store, STORE, 2, out, sizeof out);
    map("table: held too long", 2, store, STORE, 2, out, sizeof out);
    write_out("table: held too long", 2, store, STORE, 2, out, sizeof out);
    text("table: held too long", 2, store, STORE, 2, out, sizeof out);
    lend(document, TABLE);
    ask("table: good again", 9, store, STORE, 2, zeros, ID);
}

/* Document 01: within a family the limit of the smaller grade, else 0. */
static void try_document_table(void)
{
    static const unsigned limits[4][4] = {
        {35, 55, 90, 100}, {80, 150, 300, 550}, {500, 1000, 2000, 10000}, {3, 5, 7, 10},
    };
    uint8_t want[TABLE + 1], got[TABLE + 1];
    memset(want, 0xa5, sizeof want);
    memset(got, 0xa5, sizeof got);
    check("document's table: null output", pelchunda_document_table(NULL, 0) == 10);
    check("document's table: 511 bytes", pelchunda_document_table(got, TABLE - 1) == 10);
    check("document's table: as it was", memcmp(got, want, sizeof got) == 0);
    for (unsigned a = 0; a < 16; a++) {
        for (unsigned b = 0; b < 16; b++) {
            set_entry(want, a, b, a / 4 == b / 4 ? limits[a / 4][a < b ? a % 4 : b % 4] : 0);
        }
    }
    check("document's table: 513 bytes", pelchunda_document_table(got, TABLE + 1) == 0);
    check("document's table: its bytes", memcmp(got, want, sizeof got) == 0);
    check("document's table", pelchunda_document_table(document, TABLE) == 0 && memcmp(document, want, TABLE) == 0);
}

/* The text of the creator alone is one line of 35 bytes. */
static void try_text(void)
{
    size_t bytes = 77;
    keep();
    text("text: null store", 1, NULL, 0, 1, out, sizeof out);
    text("text: short store", 1, store, STORE - 1, 1, out, sizeof out);
    text("text: count 0", 2, store, STORE, 0, out, sizeof out);
    text("text: null output", 10, store, STORE, 1, NULL, 0);
    text("text: 34 bytes", 10, store, STORE, 1, out, 34);
    check("text: 35 bytes", pelchunda_text(store, STORE, 1, table, table_len, out, 35, &bytes) == 0 && bytes == 35);
    check("text: the line", memcmp(out, "LINKS 0 WAITING 0 UNSOUND 0 VOID 0\n", 35) == 0);
}

/* A bundle of the creator behind a drawing of 5 bytes. */
static void try_first_event(void)
{
    uint8_t b[5 + EVENT + 12];
    size_t offset = 77;
    memset(b, 0xa5, 5);
    memcpy(b + 5, creator, EVENT);
    make_trailer(b + 5 + EVENT, 1);
    keep();
    first_event("first event: null bundle", 8, NULL, 0);
    first_event("first event: cut bundle", 8, b, sizeof b - 1);
    first_event("first event: past the front", 8, b + 6, sizeof b - 6);
    check("first event", pelchunda_first_event(b, sizeof b, &offset) == 0 && offset == 5 && kept());
    make_trailer(b + 5 + EVENT, 0);
    first_event("first event: none", 5, b, sizeof b);
    first_event("first event: a trailer alone", 5, b + 5 + EVENT, 12);
}

/* Of an output that is longer than the ids, the bytes past them stay. */
static void try_id(void)
{
    uint8_t i[ID + 1], j[2 * ID + 1], two[2 * EVENT];
    memset(i, 0xa5, sizeof i);
    memset(j, 0xa5, sizeof j);
    memset(two, 0, sizeof two);
    keep();
    id("id: null event", 1, NULL, 0, i, ID);
    id("id: null id", 10, creator, EVENT, NULL, 0);
    id("id: short event", 1, creator, EVENT - 1, i, ID);
    id("id: short event and null id", 1, creator, EVENT - 1, NULL, 0);
    id("id: short id", 10, creator, EVENT, i, ID - 1);
    ids("ids: null events and null ids", 0, NULL, 0, NULL, 0);
    ids("ids: null events", 0, NULL, 0, i, ID);
    ids("ids: null ids", 10, creator, EVENT, NULL, 0);
    ids("ids: short event", 1, creator, EVENT - 1, i, ID);
    ids("ids: short id", 10, creator, EVENT, i, ID - 1);
    ids("ids: 257 events", 1, zeros, STORE + EVENT, out, sizeof out);
    for (size_t k = 0; k < sizeof i; k++) {
        check("id: as it was", i[k] == 0xa5);
    }
    id("id: one byte more", 0, creator, EVENT, i, ID + 1);
    ids("ids: one byte more", 0, two, sizeof two, j, sizeof j);
    check("id: the byte past it", i[ID] == 0xa5 && j[2 * ID] == 0xa5);
    check("ids: each the id", memcmp(i, j, ID) == 0 && memcmp(i, j + ID, ID) == 0);
}

/* 256 held: a new event meets 7, a held one is a repeat. A figure of the tally
 * at its end stays there. */
static void try_full(void)
{
    uint8_t e[EVENT], repeat = 77;
    size_t count = 77;
    uint32_t tally[3] = {0, 0xffffffff, 0xffffffff};
    check("full: start", pelchunda_start(store, STORE, &count, table, table_len, creator, EVENT) == 0 && count == 1);
    make_join(e, 4, 5, 12);
    for (unsigned k = 1; k < PELCHUNDA_PLACES; k++) {
        e[32] = (uint8_t)k;
        uint8_t got = pelchunda_take_counted(store, STORE, &count, table, table_len, e, EVENT, &repeat, tally);
        check("full: take", got == 0 && repeat == 0);
    }
    check("full: 256 held", count == PELCHUNDA_PLACES && tally[0] == PELCHUNDA_PLACES - 1);
    keep();
    repeat = 77;
    uint8_t again = pelchunda_take_counted(store, STORE, &count, table, table_len, e, EVENT, &repeat, tally);
    check("full: repeat", again == 0 && repeat == 1);
    e[33] ^= 1;
    take("full: a new event", 7, store, STORE, count, e, EVENT);
    uint8_t late = pelchunda_take_counted(store, STORE, &count, table, table_len, e, EVENT, &repeat, tally);
    check("full: refused", late == 7 && kept());
    check("full: tally", tally[0] == PELCHUNDA_PLACES - 1 && tally[1] == 0xffffffff && tally[2] == 0xffffffff);
}

int main(void)
{
    size_t count = 77;
    memset(store, 0xa5, sizeof store);
    memset(out, 0x5a, sizeof out);
    try_document_table();
    try_start();
    check("start", pelchunda_start(store, STORE, &count, table, table_len, creator, EVENT) == 0 && count == 1);
    try_take();
    try_bundle();
    try_reports();
    try_bad_tables();
    try_map();
    try_good_tables();
    try_id();
    try_text();
    try_first_event();
    try_full();
    if (failures != 0) {
        return 1;
    }
    printf("refusals: all as expected\n");
    return 0;
}

/*
 * The acceptance test: makes recorded calls on the very chip and compares what
 * they answer and leave with what was recorded. The record, acceptance_calls.h,
 * is written by tools/acceptance_calls.py from the answers of other
 * implementations. It covers what no proof covers: the compiler's back end, the
 * linker and the silicon. On a computer:
 *
 *     gcc -std=c99 -O2 acceptance.c acceptance_host.c $(pkg-config --cflags --libs pelchunda) -o acceptance
 *     ./acceptance
 *
 * A recorded call has a letter, a payload and an answer:
 *
 *     S start          T take, counted     t take
 *     B bundle, counted                    b bundle
 *     L look-up        V verdict           (payload: what is offered or asked)
 *     O order          M map               W write-out (payload: the output's length)
 *     R text of a bundle that a fresh unit takes
 *     k document 01's cord table           (payload: the output's length)
 *     I id of an event J ids of events     v version
 *     C sets the count, P bytes of the store, N its length, Y the tally,
 *     K the cord table, Z everything back: no call, and no answer
 *
 * Stores and outputs are compared by their SHA-256, which this file computes by
 * itself.
 */
#include "acceptance.h"

#include "pelchunda.h"

#define STORE_AREA (PELCHUNDA_STORE_BYTES + 256)
#define OUT_AREA 65536
#define STORE_FILL 165
#define OUT_FILL 238
#define UNSET 165 /* what a number shows before a call */
#define VALUES 7

struct answer {
    uint8_t number;
    uint32_t values[VALUES];
    uint8_t digest[32];
};

struct recorded {
    char letter;
    uint32_t at, len; /* of the payload */
    struct answer answer;
};

#include "acceptance_calls.h"

#define CALLS (sizeof calls / sizeof calls[0])

/* The unit under test, and what surrounds it: the store's area is longer than
 * the store, so that a write past its end is seen. */
static uint8_t store[STORE_AREA], out[OUT_AREA];
static size_t store_len, count;
static const uint8_t *table;
static size_t table_len;
static uint32_t tally[3];

/* ---- SHA-256, by FIPS 180-4 ---- */

static const uint32_t round_constants[64] = {
    0x428a2f98, 0x71374491, 0xb5c0fbcf, 0xe9b5dba5, 0x3956c25b, 0x59f111f1, 0x923f82a4, 0xab1c5ed5,
    0xd807aa98, 0x12835b01, 0x243185be, 0x550c7dc3, 0x72be5d74, 0x80deb1fe, 0x9bdc06a7, 0xc19bf174,
    0xe49b69c1, 0xefbe4786, 0x0fc19dc6, 0x240ca1cc, 0x2de92c6f, 0x4a7484aa, 0x5cb0a9dc, 0x76f988da,
    0x983e5152, 0xa831c66d, 0xb00327c8, 0xbf597fc7, 0xc6e00bf3, 0xd5a79147, 0x06ca6351, 0x14292967,
    0x27b70a85, 0x2e1b2138, 0x4d2c6dfc, 0x53380d13, 0x650a7354, 0x766a0abb, 0x81c2c92e, 0x92722c85,
    0xa2bfe8a1, 0xa81a664b, 0xc24b8b70, 0xc76c51a3, 0xd192e819, 0xd6990624, 0xf40e3585, 0x106aa070,
    0x19a4c116, 0x1e376c08, 0x2748774c, 0x34b0bcb5, 0x391c0cb3, 0x4ed8aa4a, 0x5b9cca4f, 0x682e6ff3,
    0x748f82ee, 0x78a5636f, 0x84c87814, 0x8cc70208, 0x90befffa, 0xa4506ceb, 0xbef9a3f7, 0xc67178f2,
};

static uint32_t rotated(uint32_t x, unsigned n)
{
    return x >> n | x << (32 - n);
}

/* The big-endian number of four bytes. */
static uint32_t word_at(const uint8_t *at)
{
    return (uint32_t)at[0] << 24 | (uint32_t)at[1] << 16 | (uint32_t)at[2] << 8 | at[3];
}

static void compress(uint32_t state[8], const uint8_t *block)
{
    uint32_t w[64], s[8];
    for (unsigned t = 0; t < 64; t++) {
        w[t] = t < 16 ? word_at(block + 4 * t)
                      : w[t - 16] + w[t - 7] +
                            (rotated(w[t - 15], 7) ^ rotated(w[t - 15], 18) ^ w[t - 15] >> 3) +
                            (rotated(w[t - 2], 17) ^ rotated(w[t - 2], 19) ^ w[t - 2] >> 10);
    }
    for (unsigned i = 0; i < 8; i++) {
        s[i] = state[i];
    }
    for (unsigned t = 0; t < 64; t++) {
        uint32_t t1 = s[7] + (rotated(s[4], 6) ^ rotated(s[4], 11) ^ rotated(s[4], 25)) +
                      ((s[4] & s[5]) ^ (~s[4] & s[6])) + round_constants[t] + w[t];
        uint32_t t2 = (rotated(s[0], 2) ^ rotated(s[0], 13) ^ rotated(s[0], 22)) +
                      ((s[0] & s[1]) ^ (s[0] & s[2]) ^ (s[1] & s[2]));
        for (unsigned i = 7; i > 0; i--) {
            s[i] = s[i - 1];
        }
        s[4] += t1;
        s[0] = t1 + t2;
    }
    for (unsigned i = 0; i < 8; i++) {
        state[i] += s[i];
    }
}

/* The last blocks: the bytes behind the whole blocks, a bit, zeros and the
 * length. */
static void compress_end(uint32_t state[8], const uint8_t *rest, size_t n, uint64_t bits)
{
    uint8_t end[128] = {0};
    size_t len = n < 56 ? 64 : 128;
    for (size_t i = 0; i < n; i++) {
        end[i] = rest[i];
    }
    end[n] = 0x80;
    for (unsigned i = 0; i < 8; i++) {
        end[len - 1 - i] = (uint8_t)(bits >> 8 * i);
    }
    compress(state, end);
    if (len == 128) {
        compress(state, end + 64);
    }
}

static void sha256(const uint8_t *bytes, size_t len, uint8_t digest[32])
{
    uint32_t state[8] = {0x6a09e667, 0xbb67ae85, 0x3c6ef372, 0xa54ff53a, 0x510e527f, 0x9b05688c, 0x1f83d9ab, 0x5be0cd19};
    size_t whole = len / 64 * 64;
    for (size_t at = 0; at < whole; at += 64) {
        compress(state, bytes + at);
    }
    compress_end(state, bytes + whole, len - whole, (uint64_t)len * 8);
    for (unsigned i = 0; i < 32; i++) {
        digest[i] = (uint8_t)(state[i / 4] >> (24 - i % 4 * 8));
    }
}

/* ---- the calls ---- */

static void fill(uint8_t *bytes, size_t len, uint8_t byte)
{
    for (size_t i = 0; i < len; i++) {
        bytes[i] = byte;
    }
}

static void reset(void)
{
    fill(store, STORE_AREA, STORE_FILL);
    store_len = PELCHUNDA_STORE_BYTES;
    count = 0;
    table = NULL;
    table_len = 0;
    tally[0] = tally[1] = tally[2] = 0;
}

/* Numbers that a call leaves, and the store's area: for a start and the takes. */
static void left(struct answer *a, const uint32_t *numbers, unsigned n)
{
    a->values[0] = (uint32_t)count;
    for (unsigned i = 0; i < n; i++) {
        a->values[1 + i] = numbers[i];
    }
    sha256(store, STORE_AREA, a->digest);
}

/* A take, with the tally where it is counted. */
static void take(struct answer *a, const uint8_t *event, size_t len, int counted)
{
    uint8_t repeat = UNSET;
    a->number = counted
                    ? pelchunda_take_counted(store, store_len, &count, table, table_len, event, len, &repeat, tally)
                    : pelchunda_take(store, store_len, &count, table, table_len, event, len, &repeat);
    uint32_t numbers[4] = {repeat, tally[0], tally[1], tally[2]};
    left(a, numbers, counted ? 4 : 1);
}

static void take_bundle(struct answer *a, const uint8_t *bundle, size_t len, int counted)
{
    uint32_t figures[3] = {UNSET, UNSET, UNSET};
    a->number = counted ? pelchunda_take_bundle_counted(store, store_len, &count, table, table_len, bundle, len,
                                                        figures, tally)
                        : pelchunda_take_bundle(store, store_len, &count, table, table_len, bundle, len, figures);
    uint32_t numbers[6] = {figures[0], figures[1], figures[2], tally[0], tally[1], tally[2]};
    left(a, numbers, counted ? 6 : 3);
}

static void look_up(struct answer *a, const uint8_t *id, size_t len)
{
    uint16_t place = UNSET;
    a->number = pelchunda_look_up(store, store_len, count, table, table_len, id, len, &place);
    a->values[0] = place;
    if (a->number == PELCHUNDA_OK && place < PELCHUNDA_PLACES) {
        a->values[0] = PELCHUNDA_EVENT_BYTES;
        sha256(store + (size_t)place * PELCHUNDA_EVENT_BYTES, PELCHUNDA_EVENT_BYTES, a->digest);
    }
}

static void verdict(struct answer *a, const uint8_t *id, size_t len)
{
    uint8_t shown = UNSET;
    a->number = pelchunda_verdict(store, store_len, count, table, table_len, id, len, &shown);
    a->values[0] = shown;
}

/* Order, map, write-out or document 01's table, with an output of n bytes. */
static void report(struct answer *a, char letter, size_t n)
{
    size_t numbers[3] = {UNSET, UNSET, UNSET};
    fill(out, n, OUT_FILL);
    switch (letter) {
    case 'O': a->number = pelchunda_order(store, store_len, count, table, table_len, out, n, &numbers[0]); break;
    case 'M':
        a->number = pelchunda_map(store, store_len, count, table, table_len, out, n, &numbers[0], &numbers[1],
                                  &numbers[2]);
        break;
    case 'W': a->number = pelchunda_write_out(store, store_len, count, table, table_len, out, n, &numbers[0]); break;
    default: a->number = pelchunda_document_table(out, n);
    }
    for (unsigned i = 0; i < (letter == 'M' ? 3u : letter == 'k' ? 0u : 1u); i++) {
        a->values[i] = (uint32_t)numbers[i];
    }
    sha256(out, n, a->digest);
}

/* The text of a bundle that a fresh unit takes, or the first refusal. */
static void text_of(struct answer *a, const uint8_t *bundle, size_t len)
{
    size_t offset = 0, bytes = UNSET;
    uint32_t figures[3] = {0, 0, 0};
    a->number = pelchunda_first_event(bundle, len, &offset);
    if (a->number == PELCHUNDA_OK) {
        a->number = pelchunda_start(store, store_len, &count, table, table_len, bundle + offset, PELCHUNDA_EVENT_BYTES);
    }
    if (a->number == PELCHUNDA_OK) {
        a->number = pelchunda_take_bundle(store, store_len, &count, table, table_len, bundle, len, figures);
    }
    if (a->number == PELCHUNDA_OK) {
        a->number = pelchunda_text(store, store_len, count, table, table_len, out, sizeof out, &bytes);
    }
    a->values[0] = (uint32_t)bytes;
    if (a->number == PELCHUNDA_OK && bytes <= sizeof out) {
        sha256(out, bytes, a->digest);
    }
}

static void ids(struct answer *a, const uint8_t *events, size_t len)
{
    a->number = pelchunda_ids(events, len, out, sizeof out);
    if (a->number == PELCHUNDA_OK) {
        sha256(out, len / PELCHUNDA_EVENT_BYTES * PELCHUNDA_ID_BYTES, a->digest);
    }
}

/* ---- what is no call ---- */

static void poke(const uint8_t *bytes, size_t len)
{
    size_t at = word_at(bytes);
    for (size_t i = 4; i < len; i++) {
        store[at + i - 4] = bytes[i];
    }
}

static void set(char letter, const uint8_t *payload, size_t len)
{
    switch (letter) {
    case 'C': count = word_at(payload); break;
    case 'N': store_len = word_at(payload); break;
    case 'P': poke(payload, len); break;
    case 'K':
        table = payload;
        table_len = len;
        break;
    case 'Y':
        for (unsigned i = 0; i < 3; i++) {
            tally[i] = word_at(payload + 4 * i);
        }
        break;
    default: reset();
    }
}

/* ---- the comparison ---- */

static const struct {
    char letter;
    const char *name;
} names[] = {
    {'S', "start"},   {'T', "take counted"}, {'t', "take"}, {'B', "bundle counted"}, {'b', "bundle"},
    {'L', "look-up"}, {'V', "verdict"},      {'O', "order"}, {'M', "map"},           {'W', "write-out"},
    {'R', "text"},    {'k', "document's table"}, {'I', "id"}, {'J', "ids"},          {'v', "version"},
};

/* The name of a call, or a null pointer where the letter is none. */
static const char *name_of(char letter)
{
    for (size_t i = 0; i < sizeof names / sizeof names[0]; i++) {
        if (names[i].letter == letter) {
            return names[i].name;
        }
    }
    return NULL;
}

/* Makes a call, or sets something. */
static void make(const struct recorded *r, struct answer *a)
{
    const uint8_t *payload = r->len == 0 ? NULL : payloads + r->at;
    switch (r->letter) {
    case 'S':
        a->number = pelchunda_start(store, store_len, &count, table, table_len, payload, r->len);
        left(a, NULL, 0);
        break;
    case 'T': take(a, payload, r->len, 1); break;
    case 't': take(a, payload, r->len, 0); break;
    case 'B': take_bundle(a, payload, r->len, 1); break;
    case 'b': take_bundle(a, payload, r->len, 0); break;
    case 'L': look_up(a, payload, r->len); break;
    case 'V': verdict(a, payload, r->len); break;
    case 'O':
    case 'M':
    case 'W':
    case 'k': report(a, r->letter, word_at(payload)); break;
    case 'R': text_of(a, payload, r->len); break;
    case 'I': a->number = pelchunda_id(payload, r->len, a->digest, sizeof a->digest); break;
    case 'J': ids(a, payload, r->len); break;
    case 'v': a->number = pelchunda_version() != PELCHUNDA_VERSION_NUMBER; break;
    default: set(r->letter, payload, r->len);
    }
}

/* What differs between an answer and the recorded one, or a null pointer. */
static const char *difference(const struct answer *a, const struct answer *want)
{
    if (a->number != want->number) {
        return "number";
    }
    for (unsigned i = 0; i < VALUES; i++) {
        if (a->values[i] != want->values[i]) {
            return "value";
        }
    }
    for (unsigned i = 0; i < 32; i++) {
        if (a->digest[i] != want->digest[i]) {
            return "bytes";
        }
    }
    return NULL;
}

/* ---- the line of text ---- */

static char *put(char *at, const char *text)
{
    while (*text != '\0') {
        *at++ = *text++;
    }
    *at = '\0';
    return at;
}

static char *put_number(char *at, unsigned n)
{
    char digits[11];
    char *digit = digits + 10;
    *digit = '\0';
    do {
        *--digit = (char)('0' + n % 10);
        n /= 10;
    } while (n != 0);
    return put(at, digit);
}

int acceptance(void)
{
    char line[64];
    unsigned made = 0;
    reset();
    for (size_t i = 0; i < CALLS; i++) {
        struct answer a = {0, {0}, {0}};
        const char *name = name_of(calls[i].letter);
        make(&calls[i], &a);
        made += name != NULL;
        const char *differs = difference(&a, &calls[i].answer);
        if (name != NULL && differs != NULL) {
            put(put(put(put(put_number(put(line, "FAIL call "), made), ", "), name), ": "), differs);
            acceptance_show(line);
            return 1;
        }
    }
    put(put_number(put(line, "PASS "), made), " calls");
    acceptance_show(line);
    return 0;
}

/*
 * pelchunda.h: the calls of the door unit, for C99 and C++.
 *
 * Link with libpelchunda.a (x86-64). The library needs memcpy and memset of the
 * C library, and nothing else; it has no state of its own and uses no heap.
 *
 * The library's functions come first. After them stand functions of this header
 * alone: the same calls on a struct pelchunda_unit, readers of rows, and words.
 *
 * A slice of bytes is two arguments: a pointer, and a length that has its name
 * and `_len`. All calls have one order of arguments: the store, its count, the
 * cord table, what is offered or asked, the output, the numbers answered, the
 * tally. Each call returns 0, or the number of a refusal (below). What it answers
 * besides goes to the numbers behind the other pointers. A refused call leaves
 * every slice and these numbers as they were; only a start then gives the count
 * 0, and a take raises its tally's refused figure.
 *
 * The cord table is a hall's own: 256 lengths in metres, two bytes each,
 * big-endian. Number 16 * a + b of them, from 0 on, is the longest cord between
 * connectors of the kinds a and b. It must be the same as that of b and a, and 0
 * where the kinds are of unlike families, a / 4 and b / 4; else the calls return
 * 12. pelchunda_document_table writes document 01's.
 *
 * What the library guarantees, by proof, for every content and every length of
 * the slices and every count: the call returns, reads and writes nothing but
 * what it was lent, and leaves in it what the contracts of
 * crates/unit_c/src/lib.rt state. There a call has no precondition.
 *
 * What the caller must guarantee, since no proof reaches across this line:
 * - A pointer with the length n points to n bytes that may be read, and written
 *   where it is not const. Where n is 0 the pointer may be null: nothing is read
 *   or written through it. What an empty slice gets is said at each call. (The
 *   proof knows no null pointer: examples/refusals.c tries them.)
 * - A pointer to a number, or to three, is not null, is aligned for its type,
 *   and the number is initialised.
 * - What a call may write overlaps nothing else that the same call is lent.
 *   Two slices that it only reads may overlap.
 * - Nothing else writes what a call is lent, or reads what the call may write,
 *   until it returns. Two threads may call at once on different memory, or
 *   both read one store.
 * - The stack has room: the bytes are said at each call, from the caller's stack
 *   pointer just before the call down. They are upper bounds, found in the
 *   compiled library by tools/stack.py, and not proved. They take it that memcpy
 *   and memset use at most 128 bytes below their return address. (Where a
 *   dynamic linker binds these at their first call, that call takes some KiB
 *   more: link with -z now or -static.)
 * - Between calls the store and the count are kept as the last call left them,
 *   and every call for a store is lent one and the same table. If not, the calls
 *   are still safe, but what they answer is about the bytes that they are lent
 *   now: a store that is good by one table may get 2 by another.
 */
#ifndef PELCHUNDA_H
#define PELCHUNDA_H

#include <stddef.h>
#include <stdint.h>

#if SIZE_MAX != 0xffffffffffffffffu
#error "pelchunda: the library is for a size_t of 64 bits"
#endif

/* For compilers that know these attributes: an answer that nobody looks at, and
 * a null pointer where there must be a number, get a warning. Either macro may
 * be defined empty beforehand. */
#ifndef PELCHUNDA_MUST_USE
#if defined(__GNUC__)
#define PELCHUNDA_MUST_USE __attribute__((warn_unused_result))
#else
#define PELCHUNDA_MUST_USE
#endif
#endif
#ifndef PELCHUNDA_NONNULL
#if defined(__GNUC__)
#define PELCHUNDA_NONNULL(...) __attribute__((nonnull(__VA_ARGS__)))
#else
#define PELCHUNDA_NONNULL(...)
#endif
#endif

#ifdef __cplusplus
extern "C" {
#endif

/* The version of this header; pelchunda_version answers the library's. The
 * number is 10,000 * major + 100 * minor + patch. */
#define PELCHUNDA_VERSION "2.0.0"
#define PELCHUNDA_VERSION_NUMBER 20000

/* The format number of an event, its bytes 14 and 15. Another gets 3. */
#define PELCHUNDA_FORMAT_NUMBER 0

/* The most bytes of stack that any call uses. */
#define PELCHUNDA_STACK_BYTES 38584

/* Sizes in bytes, and the number of places of a store. */
#define PELCHUNDA_EVENT_BYTES 192
#define PELCHUNDA_ID_BYTES 32
#define PELCHUNDA_PLACES 256
#define PELCHUNDA_STORE_BYTES 49152     /* 256 places of 192 */
#define PELCHUNDA_TABLE_BYTES 512       /* 256 lengths of 2 */
#define PELCHUNDA_ORDER_ROW_BYTES 36
#define PELCHUNDA_ORDER_BYTES 9216      /* enough for every order: 256 rows */
#define PELCHUNDA_MAP_ROW_BYTES 8
#define PELCHUNDA_MAP_BYTES 2048        /* enough for every map */
#define PELCHUNDA_TRAILER_BYTES 12
#define PELCHUNDA_BUNDLE_BYTES 49164    /* enough for every write-out */
#define PELCHUNDA_TEXT_BYTES 8192       /* enough for every text */

/* The numbers that a call returns: the first that applies, in the call's order of
 * tests. All test from the smallest number up, but 12 right after 1. (And
 * pelchunda_first_event looks for an event only in a bundle that passes 8.) */
enum pelchunda_number {
    PELCHUNDA_OK = 0,
    PELCHUNDA_WRONG_LENGTH = 1,   /* an event not 192 bytes, a store not 49,152, an asked id not 32 */
    PELCHUNDA_BAD_STORE = 2,      /* count outside 1 to 256; or, among the held places, place 0 not a create
                                     passing 3, another failing one of 3 to 6 or of kind 0, or two equal ids */
    PELCHUNDA_BAD_FIELD = 3,      /* a field outside its table */
    PELCHUNDA_OTHER_ROOM = 4,     /* room unlike the creator's */
    PELCHUNDA_WRONG_CREATE = 5,   /* start without kind 0; take of a kind 0 unlike the creator; the first event of
                                     a bundle that has none */
    PELCHUNDA_CORD_TOO_LONG = 6,  /* a join longer than its entry in the cord table */
    PELCHUNDA_STORE_FULL = 7,     /* 256 held and the id new */
    PELCHUNDA_BAD_BUNDLE = 8,     /* bundle under 12 bytes, or a trailer field wrong, or distance past the front */
    PELCHUNDA_NOT_HELD = 9,       /* verdict or look-up of an id not held */
    PELCHUNDA_SHORT_OUTPUT = 10,  /* output too short */
    /* 11 is struck: no call returns it, and it is not given out again */
    PELCHUNDA_BAD_TABLE = 12      /* a cord table not 512 bytes, or with an entry unlike its mirror, or with one that
                                     is not 0 between unlike families */
};

/* The verdicts of pelchunda_verdict and of the order's rows. */
enum pelchunda_verdict_number {
    PELCHUNDA_WAITING = 0,
    PELCHUNDA_UNSOUND = 1,
    PELCHUNDA_VOID = 2,
    PELCHUNDA_EFFECTIVE = 3
};

/* The places of the three figures of a tally, and of a bundle's answer. */
enum pelchunda_figure {
    PELCHUNDA_NEW = 0,
    PELCHUNDA_REPEATS = 1,
    PELCHUNDA_REFUSED = 2
};

/*
 * The version of the library, as PELCHUNDA_VERSION_NUMBER.
 *
 * stack    8 bytes
 */
uint32_t pelchunda_version(void);

/*
 * Starts a unit: puts the create event into place 0 of the store.
 *
 * store    49,152 bytes; those past place 0 may be any, and stay
 * count    is 1 after the call, and 0 after a refusal
 * table    512 bytes, the cord table; later calls are lent the same
 * event    192 bytes
 * returns  0, 1, 12, 3 or 5; a refusal leaves the store as it was
 * empty    store or event: 1; table: 12, where 1 passes
 * stack    152 bytes
 */
PELCHUNDA_MUST_USE PELCHUNDA_NONNULL(3)
uint8_t pelchunda_start(uint8_t *store, size_t store_len, size_t *count,
                        const uint8_t *table, size_t table_len,
                        const uint8_t *event, size_t event_len);

/*
 * Takes one event: puts a new one into the next place.
 *
 * count    the number of events held; one more where the event was stored
 * table    512 bytes, as for pelchunda_start
 * event    192 bytes
 * repeat   0: the event was stored; 1: its id is held already, and the store
 *          and the count are as they were
 * returns  0, 1, 12 or 2 to 7; a refusal leaves the store, the count and
 *          repeat as they were
 * empty    store or event: 1; table: 12, where 1 passes
 * stack    14,848 bytes
 */
PELCHUNDA_MUST_USE PELCHUNDA_NONNULL(3, 8)
uint8_t pelchunda_take(uint8_t *store, size_t store_len, size_t *count,
                       const uint8_t *table, size_t table_len,
                       const uint8_t *event, size_t event_len,
                       uint8_t *repeat);

/*
 * As pelchunda_take, and counts the answer in a tally.
 *
 * tally    new, repeats, refused: the one that fits the answer is raised by 1,
 *          but stays at 4,294,967,295. A refusal raises refused, and leaves
 *          the other two
 * returns  as pelchunda_take
 * empty    as pelchunda_take; the tally's refused is raised
 * stack    14,864 bytes
 */
PELCHUNDA_MUST_USE PELCHUNDA_NONNULL(3, 8, 9)
uint8_t pelchunda_take_counted(uint8_t *store, size_t store_len, size_t *count,
                               const uint8_t *table, size_t table_len,
                               const uint8_t *event, size_t event_len,
                               uint8_t *repeat, uint32_t tally[3]);

/*
 * Takes each event of a bundle in turn, as single takes would. A refused event
 * is counted, and the rest go on.
 *
 * bundle   events of 192 bytes, then the trailer of 12; what stands before the
 *          first event is not read
 * count    the number of events held; more by the number of new events
 * table    512 bytes, as for pelchunda_start
 * figures  how many events were new, repeats and refused
 * returns  0, 1, 12, 2 or 8; a refusal leaves the store, the count and the
 *          figures as they were
 * empty    store: 1; table: 12, where 1 passes; bundle: 8, where table and
 *          store are good
 * stack    23,040 bytes
 */
PELCHUNDA_MUST_USE PELCHUNDA_NONNULL(3, 8)
uint8_t pelchunda_take_bundle(uint8_t *store, size_t store_len, size_t *count,
                              const uint8_t *table, size_t table_len,
                              const uint8_t *bundle, size_t bundle_len,
                              uint32_t figures[3]);

/*
 * As pelchunda_take_bundle, and adds the figures to a tally.
 *
 * tally    new, repeats, refused: each is raised by its figure, to at most
 *          4,294,967,295. A refused bundle leaves it as it was
 * returns  as pelchunda_take_bundle
 * empty    as pelchunda_take_bundle
 * stack    23,072 bytes
 */
PELCHUNDA_MUST_USE PELCHUNDA_NONNULL(3, 8, 9)
uint8_t pelchunda_take_bundle_counted(uint8_t *store, size_t store_len, size_t *count,
                                      const uint8_t *table, size_t table_len,
                                      const uint8_t *bundle, size_t bundle_len,
                                      uint32_t figures[3], uint32_t tally[3]);

/*
 * Looks up the held event with an id.
 *
 * table    512 bytes, as for pelchunda_start
 * id       32 bytes
 * place    the event's place: its 192 bytes start at store + 192 * place
 * returns  0, 1, 12, 2 or 9; a refusal leaves place as it was
 * empty    store or id: 1; table: 12, where 1 passes
 * stack    14,720 bytes
 */
PELCHUNDA_MUST_USE PELCHUNDA_NONNULL(8)
uint8_t pelchunda_look_up(const uint8_t *store, size_t store_len, size_t count,
                          const uint8_t *table, size_t table_len,
                          const uint8_t *id, size_t id_len,
                          uint16_t *place);

/*
 * Writes the order: a row for each settled event, by height, then by id.
 *
 * table    512 bytes, as for pelchunda_start
 * out      a row is id (32 bytes), height (2, big-endian, at most 255),
 *          verdict (1), zero (1); the bytes past the last row stay
 * rows     the number of rows
 * returns  0, 1, 12, 2 or 10; a refusal leaves out and rows as they were
 * empty    store: 1; table: 12, where 1 passes; out: 10, where table and store
 *          are good
 * stack    34,936 bytes
 */
PELCHUNDA_MUST_USE PELCHUNDA_NONNULL(8)
uint8_t pelchunda_order(const uint8_t *store, size_t store_len, size_t count,
                        const uint8_t *table, size_t table_len,
                        uint8_t *out, size_t out_len,
                        size_t *rows);

/*
 * The verdict of the held event with an id.
 *
 * table    512 bytes, as for pelchunda_start
 * id       32 bytes
 * verdict  0 waiting, 1 unsound, 2 void, 3 effective
 * returns  0, 1, 12, 2 or 9; a refusal leaves verdict as it was
 * empty    store or id: 1; table: 12, where 1 passes
 * stack    34,136 bytes
 */
PELCHUNDA_MUST_USE PELCHUNDA_NONNULL(8)
uint8_t pelchunda_verdict(const uint8_t *store, size_t store_len, size_t count,
                          const uint8_t *table, size_t table_len,
                          const uint8_t *id, size_t id_len,
                          uint8_t *verdict);

/*
 * Writes the map: a row for each link that stands, by port A.
 *
 * table    512 bytes, as for pelchunda_start
 * out      a row is port A and port B (2 bytes each, big-endian), the kinds of
 *          the connectors there (1 each), the length in metres (2,
 *          big-endian); the bytes past the last row stay
 * rows     the number of rows
 * ended    the number of links that were removed
 * joins    the number of joins that were run: rows + ended
 * returns  0, 1, 12, 2 or 10; a refusal leaves out and the three numbers as
 *          they were
 * empty    store: 1; table: 12, where 1 passes; out, where table and store are
 *          good: 10, or 0 where no link stands
 * stack    36,488 bytes
 */
PELCHUNDA_MUST_USE PELCHUNDA_NONNULL(8, 9, 10)
uint8_t pelchunda_map(const uint8_t *store, size_t store_len, size_t count,
                      const uint8_t *table, size_t table_len,
                      uint8_t *out, size_t out_len,
                      size_t *rows, size_t *ended, size_t *joins);

/*
 * Writes all held events as a bundle: the settled in order, then the waiting
 * by id, then the trailer.
 *
 * table    512 bytes, as for pelchunda_start
 * out      192 bytes an event and 12 more; the bytes past them stay
 * bytes    the length of the bundle
 * returns  0, 1, 12, 2 or 10; a refusal leaves out and bytes as they were
 * empty    store: 1; table: 12, where 1 passes; out: 10, where table and store
 *          are good
 * stack    19,520 bytes
 */
PELCHUNDA_MUST_USE PELCHUNDA_NONNULL(8)
uint8_t pelchunda_write_out(const uint8_t *store, size_t store_len, size_t count,
                            const uint8_t *table, size_t table_len,
                            uint8_t *out, size_t out_len,
                            size_t *bytes);

/*
 * Writes the text of the events held, as the printing program writes it: a line
 * with the numbers of links and of waiting, unsound and void events, then a
 * line for each row of the map.
 *
 * table    512 bytes, as for pelchunda_start
 * out      the lines, each with its line feed; the bytes past them stay
 * bytes    the length of the text
 * returns  0, 1, 12, 2 or 10; a refusal leaves out and bytes as they were
 * empty    store: 1; table: 12, where 1 passes; out: 10, where table and store
 *          are good
 * stack    38,584 bytes
 */
PELCHUNDA_MUST_USE PELCHUNDA_NONNULL(8)
uint8_t pelchunda_text(const uint8_t *store, size_t store_len, size_t count,
                       const uint8_t *table, size_t table_len,
                       uint8_t *out, size_t out_len,
                       size_t *bytes);

/*
 * Writes document 01's cord table, which the printing program uses.
 *
 * out      at least 512 bytes: the table; the bytes past it stay
 * returns  0; 10 where out is too short. A refusal leaves out as it was
 * empty    out: 10
 * stack    664 bytes
 */
PELCHUNDA_MUST_USE
uint8_t pelchunda_document_table(uint8_t *out, size_t out_len);

/*
 * Finds the first event of a bundle, with which a unit can be started. The
 * event is not tested.
 *
 * bundle   as for pelchunda_take_bundle
 * offset   where the event starts: its 192 bytes are at bundle + offset
 * returns  0; 8 where the bundle is bad; 5 where it has no event. A refusal
 *          leaves offset as it was
 * empty    bundle: 8
 * stack    56 bytes
 */
PELCHUNDA_MUST_USE PELCHUNDA_NONNULL(3)
uint8_t pelchunda_first_event(const uint8_t *bundle, size_t bundle_len,
                              size_t *offset);

/*
 * The id of an event: the SHA-256 of its 192 bytes. The event is not tested.
 *
 * event    192 bytes
 * id       at least 32 bytes: the id; the bytes past it stay
 * returns  0; 1 where the event has another length; 10 where id is too short.
 *          A refusal leaves id as it was
 * empty    event: 1; id: 10, where the event has its length
 * stack    1,056 bytes
 */
PELCHUNDA_MUST_USE
uint8_t pelchunda_id(const uint8_t *event, size_t event_len,
                     uint8_t *id, size_t id_len);

/*
 * The ids of n events, at most 256, one after another: each the SHA-256 of 192
 * bytes. It takes less time than n calls for one. The events are not tested.
 *
 * events   n times 192 bytes
 * ids      at least n times 32 bytes: the ids; the bytes past them stay
 * returns  0; 1 where events_len is no multiple of 192 or above 49,152; 10
 *          where ids is too short. A refusal leaves ids as it was
 * empty    events: 0, n is 0; ids: 10, where there is an event
 * stack    3,760 bytes
 */
PELCHUNDA_MUST_USE
uint8_t pelchunda_ids(const uint8_t *events, size_t events_len,
                      uint8_t *ids, size_t ids_len);

/* ---- functions of this header alone ---- */

/* A unit: a store, its count and its cord table. It has 49 KiB: rather static
 * than on the stack. Nothing but the calls below should write it. */
struct pelchunda_unit {
    uint8_t store[PELCHUNDA_STORE_BYTES];
    size_t count;
    uint8_t table[PELCHUNDA_TABLE_BYTES];
};

/* The library's calls on a unit. An event has 192 bytes, an id 32, a table 512.
 * A start keeps the table in the unit, and all calls are lent that one. */

/* `table` may be the unit's own. A refused start leaves the count 0. */
PELCHUNDA_MUST_USE PELCHUNDA_NONNULL(1, 2, 3)
static inline uint8_t pelchunda_unit_start(struct pelchunda_unit *unit, const uint8_t *table, const uint8_t *event)
{
    for (size_t i = 0; i < PELCHUNDA_TABLE_BYTES; i++) {
        unit->table[i] = table[i];
    }
    unit->count = 0;
    return pelchunda_start(unit->store, sizeof unit->store, &unit->count, unit->table, sizeof unit->table,
                           event, PELCHUNDA_EVENT_BYTES);
}

PELCHUNDA_MUST_USE PELCHUNDA_NONNULL(1, 2, 3)
static inline uint8_t pelchunda_unit_take(struct pelchunda_unit *unit, const uint8_t *event, uint8_t *repeat)
{
    return pelchunda_take(unit->store, sizeof unit->store, &unit->count, unit->table, sizeof unit->table,
                          event, PELCHUNDA_EVENT_BYTES, repeat);
}

PELCHUNDA_MUST_USE PELCHUNDA_NONNULL(1, 2, 3, 4)
static inline uint8_t pelchunda_unit_take_counted(struct pelchunda_unit *unit, const uint8_t *event,
                                                  uint8_t *repeat, uint32_t tally[3])
{
    return pelchunda_take_counted(unit->store, sizeof unit->store, &unit->count, unit->table, sizeof unit->table,
                                  event, PELCHUNDA_EVENT_BYTES, repeat, tally);
}

PELCHUNDA_MUST_USE PELCHUNDA_NONNULL(1, 4)
static inline uint8_t pelchunda_unit_take_bundle(struct pelchunda_unit *unit,
                                                 const uint8_t *bundle, size_t bundle_len,
                                                 uint32_t figures[3])
{
    return pelchunda_take_bundle(unit->store, sizeof unit->store, &unit->count, unit->table, sizeof unit->table,
                                 bundle, bundle_len, figures);
}

PELCHUNDA_MUST_USE PELCHUNDA_NONNULL(1, 4, 5)
static inline uint8_t pelchunda_unit_take_bundle_counted(struct pelchunda_unit *unit,
                                                         const uint8_t *bundle, size_t bundle_len,
                                                         uint32_t figures[3], uint32_t tally[3])
{
    return pelchunda_take_bundle_counted(unit->store, sizeof unit->store, &unit->count, unit->table, sizeof unit->table,
                                         bundle, bundle_len, figures, tally);
}

/* `event` is where the held event's 192 bytes start; a refusal leaves it. */
PELCHUNDA_MUST_USE PELCHUNDA_NONNULL(1, 2, 3)
static inline uint8_t pelchunda_unit_look_up(const struct pelchunda_unit *unit, const uint8_t *id,
                                             const uint8_t **event)
{
    uint16_t place = 0;
    uint8_t number = pelchunda_look_up(unit->store, sizeof unit->store, unit->count, unit->table, sizeof unit->table,
                                       id, PELCHUNDA_ID_BYTES, &place);
    if (number == PELCHUNDA_OK) {
        *event = unit->store + (size_t)place * PELCHUNDA_EVENT_BYTES;
    }
    return number;
}

PELCHUNDA_MUST_USE PELCHUNDA_NONNULL(1, 4)
static inline uint8_t pelchunda_unit_order(const struct pelchunda_unit *unit,
                                           uint8_t *out, size_t out_len, size_t *rows)
{
    return pelchunda_order(unit->store, sizeof unit->store, unit->count, unit->table, sizeof unit->table,
                           out, out_len, rows);
}

PELCHUNDA_MUST_USE PELCHUNDA_NONNULL(1, 2, 3)
static inline uint8_t pelchunda_unit_verdict(const struct pelchunda_unit *unit, const uint8_t *id, uint8_t *verdict)
{
    return pelchunda_verdict(unit->store, sizeof unit->store, unit->count, unit->table, sizeof unit->table,
                             id, PELCHUNDA_ID_BYTES, verdict);
}

PELCHUNDA_MUST_USE PELCHUNDA_NONNULL(1, 4, 5, 6)
static inline uint8_t pelchunda_unit_map(const struct pelchunda_unit *unit, uint8_t *out, size_t out_len,
                                         size_t *rows, size_t *ended, size_t *joins)
{
    return pelchunda_map(unit->store, sizeof unit->store, unit->count, unit->table, sizeof unit->table,
                         out, out_len, rows, ended, joins);
}

PELCHUNDA_MUST_USE PELCHUNDA_NONNULL(1, 4)
static inline uint8_t pelchunda_unit_write_out(const struct pelchunda_unit *unit,
                                               uint8_t *out, size_t out_len, size_t *bytes)
{
    return pelchunda_write_out(unit->store, sizeof unit->store, unit->count, unit->table, sizeof unit->table,
                               out, out_len, bytes);
}

PELCHUNDA_MUST_USE PELCHUNDA_NONNULL(1, 4)
static inline uint8_t pelchunda_unit_text(const struct pelchunda_unit *unit,
                                          uint8_t *out, size_t out_len, size_t *bytes)
{
    return pelchunda_text(unit->store, sizeof unit->store, unit->count, unit->table, sizeof unit->table,
                          out, out_len, bytes);
}

/* Rows, read from an order or a map that a call wrote. */

struct pelchunda_order_row {
    const uint8_t *id; /* 32 bytes, within the order that was read */
    uint16_t height;
    uint8_t verdict;
};

struct pelchunda_map_row {
    uint16_t port_a, port_b;
    uint8_t kind_a, kind_b;
    uint16_t metres;
};

/* The big-endian number of two bytes. */
static inline uint16_t pelchunda_number_at(const uint8_t *at)
{
    return (uint16_t)(at[0] << 8 | at[1]);
}

/* Row i of an order, the first being row 0. */
static inline struct pelchunda_order_row pelchunda_order_row_at(const uint8_t *order, size_t i)
{
    const uint8_t *at = order + i * PELCHUNDA_ORDER_ROW_BYTES;
    struct pelchunda_order_row row;
    row.id = at;
    row.height = pelchunda_number_at(at + 32);
    row.verdict = at[34];
    return row;
}

/* Row i of a map, the first being row 0. */
static inline struct pelchunda_map_row pelchunda_map_row_at(const uint8_t *map, size_t i)
{
    const uint8_t *at = map + i * PELCHUNDA_MAP_ROW_BYTES;
    struct pelchunda_map_row row;
    row.port_a = pelchunda_number_at(at);
    row.port_b = pelchunda_number_at(at + 2);
    row.kind_a = at[4];
    row.kind_b = at[5];
    row.metres = pelchunda_number_at(at + 6);
    return row;
}

/* The English word for a number that a call returned. */
static inline const char *pelchunda_number_word(uint8_t number)
{
    static const char none[] = "no number of a unit";
    static const char *const words[] = {
        "done",          "wrong length", "bad store",  "bad field", "other room",       "wrong create event",
        "cord too long", "store full",   "bad bundle", "not held",  "output too short", none,
        "bad cord table",
    };
    return number < sizeof words / sizeof words[0] ? words[number] : none;
}

/* The English word for a verdict. */
static inline const char *pelchunda_verdict_word(uint8_t verdict)
{
    static const char *const words[] = {"waiting", "unsound", "void", "effective"};
    return verdict < sizeof words / sizeof words[0] ? words[verdict] : "no verdict";
}

#ifdef __cplusplus
}
#endif

#endif

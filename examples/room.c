/*
 * Reads a bundle, starts a unit with its first event and document 01's cord
 * table, takes the bundle, and prints the map.
 *
 *     gcc -std=c99 -O2 room.c $(pkg-config --cflags --libs pelchunda) -o room
 *     ./room room.bun
 */
#include <stdio.h>

#include "pelchunda.h"

#define FILE_BYTES 65536

static uint8_t file[FILE_BYTES + 1];
static struct pelchunda_unit unit;
static uint8_t table[PELCHUNDA_TABLE_BYTES], map[PELCHUNDA_MAP_BYTES];

/* Says which call was refused, and why. */
static int refused(const char *call, uint8_t number)
{
    fprintf(stderr, "%s: refused, %u, %s\n", call, (unsigned)number, pelchunda_number_word(number));
    return 1;
}

/* The file's length, at most FILE_BYTES; more where it is longer or cannot be
 * read. */
static size_t read_file(const char *name)
{
    FILE *in = fopen(name, "rb");
    if (in == NULL) {
        return FILE_BYTES + 1;
    }
    size_t len = fread(file, 1, sizeof file, in);
    int failed = ferror(in);
    fclose(in);
    return failed ? FILE_BYTES + 1 : len;
}

/* A line for each row: ports A and B, the kinds there, metres. */
static void print_rows(size_t rows)
{
    for (size_t i = 0; i < rows; i++) {
        struct pelchunda_map_row row = pelchunda_map_row_at(map, i);
        printf("%04u %04u %02u %02u %05u\n", (unsigned)row.port_a, (unsigned)row.port_b,
               (unsigned)row.kind_a, (unsigned)row.kind_b, (unsigned)row.metres);
    }
}

/* Starts the unit with the bundle's first event, takes the bundle and prints
 * the map. */
static int show(size_t len)
{
    size_t offset = 0, rows = 0, ended = 0, joins = 0;
    uint32_t figures[3] = {0, 0, 0};
    uint8_t number = pelchunda_first_event(file, len, &offset);
    if (number != PELCHUNDA_OK) {
        return refused("first event", number);
    }
    number = pelchunda_document_table(table, sizeof table);
    if (number != PELCHUNDA_OK) {
        return refused("cord table", number);
    }
    number = pelchunda_unit_start(&unit, table, file + offset);
    if (number != PELCHUNDA_OK) {
        return refused("start", number);
    }
    number = pelchunda_unit_take_bundle(&unit, file, len, figures);
    if (number != PELCHUNDA_OK) {
        return refused("take of the bundle", number);
    }
    number = pelchunda_unit_map(&unit, map, sizeof map, &rows, &ended, &joins);
    if (number != PELCHUNDA_OK) {
        return refused("map", number);
    }

    printf("held %lu\n", (unsigned long)unit.count);
    printf("new %lu repeats %lu refused %lu\n", (unsigned long)figures[PELCHUNDA_NEW],
           (unsigned long)figures[PELCHUNDA_REPEATS], (unsigned long)figures[PELCHUNDA_REFUSED]);
    printf("links %lu ended %lu joins %lu\n", (unsigned long)rows, (unsigned long)ended,
           (unsigned long)joins);
    print_rows(rows);
    return 0;
}

int main(int argc, char **argv)
{
    if (argc != 2) {
        fprintf(stderr, "usage: room FILE\n");
        return 2;
    }
    size_t len = read_file(argv[1]);
    if (len > FILE_BYTES) {
        fprintf(stderr, "%s: cannot be read, or is longer than %d bytes\n", argv[1], FILE_BYTES);
        return 2;
    }
    return show(len);
}

/*
 * Two passes over a worn track: each is read as a set of sectors, some lost and some with a sum that fails, and the
 * merge of both has all that either pass has read.
 *
 *   tools/build ism
 *   gcc -Iinclude examples/two_passes.c target/staticlib/libism.a -o target/two_passes && target/two_passes
 */
#include <inttypes.h>
#include <stdio.h>
#include <stdlib.h>

#include "ism.h"

enum { TRACK = 39, SIDE = 1, SECTORS = 6, CODE = 1, SIZE = 256, ITEMS = SIZE + 114, BYTES = SIZE + 116 };

static const ism_profile drive = {
    .t1 = 58,
    .t0 = 29,
    .early = 8,
    .normal = 10,
    .late = 12,
    .min = 36,
    .b23_short = 73,
    .b23_long = 73,
    .b34_short = 106,
    .b34_long = 106,
    .rpt = 139,
};

typedef struct {
    uint8_t bytes[ISM_MAX_SET_BYTES];
    size_t used;
} set;

static uint8_t data[SIZE];
static uint16_t items[SECTORS * ITEMS];
static uint16_t track[8 * SECTORS * BYTES + 2], pass[8 * SECTORS * BYTES + 2];
static set first, second, merged;

/* Goes on, or ends the program with the refusal and its place. */
static void accept(const char *what, uint32_t number, uint32_t place) {
    if (number == ISM_ACCEPTED) return;
    printf("%s: refused, number %" PRIu32 ", place %" PRIu32 "\n", what, number, place);
    exit(1);
}

/* The intervals of sectors 1 to 6; answers how many there are. */
static size_t write_track(void) {
    for (unsigned k = 0; k < SECTORS; k++) {
        for (size_t i = 0; i < SIZE; i++) data[i] = (uint8_t)(29 * i + 7 * k);
        ism_answer made = ism_make_sector(TRACK, SIDE, (uint8_t)(k + 1), CODE, data, SIZE, items + k * ITEMS, ITEMS);
        accept("make", made.number, made.place);
    }
    ism_answer wrote = ism_write(drive, items, SECTORS * ITEMS, track, sizeof track / sizeof *track);
    accept("write", wrote.number, wrote.place);
    return wrote.count;
}

/* One pass: every interval is moved by up to the margin, in its own way, */
static void measure(size_t n, size_t turn) {
    ism_answer margin = ism_margin(drive);
    accept("margin", margin.number, margin.place);
    for (size_t k = 0; k < n; k++)
        pass[k] = (uint16_t)(track[k] + turn * k % (2 * margin.count + 1) - margin.count);
}

/* a flaw makes an interval of a sector too long, so that its field does not read, */
static void scratch(uint64_t lock, size_t behind) { pass[lock + behind] = drive.rpt; }

/* and two neighbours that have changed places leave the field as long as it was, but its sum fails. */
static void blur(uint64_t lock, size_t behind) {
    while (pass[lock + behind] >= drive.b23_short || pass[lock + behind + 1] < drive.b23_short) behind++;
    uint16_t two = pass[lock + behind];
    pass[lock + behind] = pass[lock + behind + 1];
    pass[lock + behind + 1] = two;
}

static void read_set(size_t n, set *into) {
    ism_answer read = ism_read_track(drive, pass, n, into->bytes, sizeof into->bytes);
    accept("read", read.number, read.place);
    into->used = read.used;
}

/* What a set says of a number; all sectors here have one size. */
static const char *told(const set *from, unsigned number) {
    for (size_t k = 0; k < from->used; k += 3 + SIZE)
        if (from->bytes[k] == number) return from->bytes[k + 2] ? "holds" : "fails";
    return "none";
}

int main(void) {
    size_t n = write_track();
    ism_index index = ism_index_track(drive, track, n);
    accept("index", index.number, index.place);

    measure(n, 7919);
    blur(index.entries[1].data_place, 300);    /* the data of sector 2 */
    scratch(index.entries[2].id_place, 30);    /* the ID of sector 3 */
    scratch(index.entries[4].data_place, 700); /* the data of sector 5 */
    blur(index.entries[5].data_place, 900);    /* the data of sector 6 */
    read_set(n, &first);

    measure(n, 104729);
    scratch(index.entries[0].data_place, 90); /* the data of sector 1 */
    blur(index.entries[3].data_place, 500);   /* the data of sector 4 */
    blur(index.entries[5].data_place, 400);   /* the data of sector 6 */
    read_set(n, &second);

    ism_answer both =
        ism_merge(first.bytes, first.used, second.bytes, second.used, merged.bytes, sizeof merged.bytes);
    accept("merge", both.number, both.place);
    merged.used = both.used;

    printf("%6s  %-6s %-6s %s\n", "sector", "first", "second", "merged");
    for (unsigned k = 1; k <= SECTORS; k++)
        printf("%6u  %-6s %-6s %s\n", k, told(&first, k), told(&second, k), told(&merged, k));
    return 0;
}

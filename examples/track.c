/*
 * What is on a track: sectors are made and written one after the other, every second number first, as a slow drive
 * likes them, every interval is moved by up to the drive's margin, three sectors are harmed, and the index lists what
 * still reads, by number.
 *
 *   tools/build ism
 *   gcc -Iinclude examples/track.c target/staticlib/libism.a -o target/track && target/track
 */
#include <inttypes.h>
#include <stdio.h>
#include <stdlib.h>

#include "ism.h"

enum { TRACK = 39, SIDE = 1, SECTORS = 6, CODE = 1, SIZE = 256, ITEMS = SIZE + ISM_SECTOR_OVERHEAD, BYTES = ITEMS + 2 };

static const ism_profile drive = {
    .t1 = 58,
    .t0 = 29,
    .early = 8,
    .normal = 10,
    .late = 12,
    .min = 36,
    .b23_short = 73,
    .b23_long = 73,
    .b34_short = 106,
    .b34_long = 106,
    .rpt = 139,
};

/* The numbers in the order in which the sectors stand on the track. */
static const uint8_t layout[SECTORS] = {1, 4, 2, 5, 3, 6};

static uint8_t data[SIZE];
static uint16_t items[SECTORS * ITEMS];
static uint16_t track[ISM_WRITE_ROOM(SECTORS * BYTES)];

/* Goes on, or ends the program with the refusal and its place. */
static void accept(const char *what, uint32_t number, uint32_t place) {
    if (number == ISM_ACCEPTED) return;
    printf("%s: refused, number %" PRIu32 ", place %" PRIu32 "\n", what, number, place);
    exit(1);
}

static void make_sectors(void) {
    for (unsigned k = 0; k < SECTORS; k++) {
        for (size_t i = 0; i < SIZE; i++) data[i] = (uint8_t)(37 * i + 11 * layout[k]);
        ism_answer made = ism_make_sector(TRACK, SIDE, layout[k], CODE, data, SIZE, items + k * ITEMS, ITEMS);
        accept("make", made.number, made.place);
    }
}

/* The intervals of the sectors, each moved by at most the margin; answers how many there are. */
static size_t write_track(void) {
    ism_answer wrote = ism_write(drive, items, SECTORS * ITEMS, track, sizeof track / sizeof *track);
    accept("write", wrote.number, wrote.place);
    ism_answer margin = ism_margin(drive);
    accept("margin", margin.number, margin.place);
    for (size_t k = 0; k < wrote.count; k++)
        track[k] = (uint16_t)(track[k] + 7919 * k % (2 * margin.count + 1) - margin.count);
    return wrote.count;
}

/* A flaw so many intervals behind a lock: one of them is too long. */
static void scratch(uint64_t lock, size_t behind) { track[lock + behind] = drive.rpt; }

static void print_index(const ism_index *index) {
    printf("%5s %4s %6s %5s %6s %7s  %s\n", "track", "side", "sector", "bytes", "ID at", "data at", "sum");
    for (size_t k = 0; k < index->count; k++) {
        ism_index_entry entry = index->entries[k];
        printf("%5u %4u %6u %5u %6" PRIu64, entry.track, entry.side, entry.sector, ISM_SECTOR_BYTES(entry.code),
               entry.id_place);
        if (entry.found)
            printf(" %7" PRIu64 "  %s\n", entry.data_place, entry.holds ? "holds" : "fails");
        else
            printf(" %7s\n", "none");
    }
}

int main(void) {
    make_sectors();
    items[3 * ITEMS - 55] = 0x00; /* a wrong check byte for the check order of sector 2's data */
    size_t n = write_track();

    ism_index index = ism_index_track(drive, track, n);
    accept("index", index.number, index.place);
    scratch(index.entries[3].id_place, 20);    /* the ID field of sector 4 */
    scratch(index.entries[4].data_place, 500); /* the data field of sector 5 */
    index = ism_index_track(drive, track, n);
    accept("index", index.number, index.place);
    print_index(&index);
    return 0;
}

/*
 * An afternoon at the bench: the tracks of several disks, each read a little worse than the one before, and one table
 * of all their intervals by class.
 *
 *   tools/build ism
 *   gcc -Iinclude examples/afternoon.c target/staticlib/libism.a -o target/afternoon && target/afternoon
 */
#include <inttypes.h>
#include <stdio.h>
#include <stdlib.h>

#include "ism.h"

enum { DISKS = 6, SIZE = 512, CODE = 2, ITEMS = SIZE + ISM_SECTOR_OVERHEAD, BYTES = ITEMS + 2 };

static const ism_profile drive = {
    .t1 = 58,
    .t0 = 29,
    .early = 8,
    .normal = 10,
    .late = 12,
    .min = 36,
    .b23_short = 73,
    .b23_long = 73,
    .b34_short = 106,
    .b34_long = 106,
    .rpt = 139,
};
static const char *const classes[5] = {"narrow", "2", "3", "4", "wide"};

static uint8_t data[SIZE];
static uint16_t items[ITEMS];
static uint16_t track[ISM_WRITE_ROOM(BYTES)];

/* Goes on, or ends the program with the refusal and its place. */
static void accept(const char *what, uint32_t number, uint32_t place) {
    if (number == ISM_ACCEPTED) return;
    printf("%s: refused, number %" PRIu32 ", place %" PRIu32 "\n", what, number, place);
    exit(1);
}

/* The intervals of one sector, each moved by at most `wear` half clocks; answers how many there are. */
static size_t read_disk(unsigned disk, unsigned wear) {
    for (size_t k = 0; k < SIZE; k++) data[k] = (uint8_t)(37 * k + 11 * disk);
    ism_answer made = ism_make_sector(0, 0, 1, CODE, data, SIZE, items, ITEMS);
    accept("make", made.number, made.place);
    ism_answer wrote = ism_write(drive, items, made.count, track, sizeof track / sizeof *track);
    accept("write", wrote.number, wrote.place);
    for (size_t k = 0; k < wrote.count; k++) track[k] = (uint16_t)(track[k] + 7919 * k % (2 * wear + 1) - wear);
    return wrote.count;
}

int main(void) {
    ism_report all = {0}; /* no interval yet */
    for (unsigned disk = 0; disk < DISKS; disk++) {
        size_t n = read_disk(disk, 5 * disk);
        ism_report one = ism_drive_report(drive, track, n);
        accept("report", one.number, one.place);
        all = ism_add_reports(all, one);
        accept("add", all.number, all.place);
    }

    printf("%-6s %8s %8s %8s %8s\n", "class", "count", "least", "mean", "greatest");
    for (size_t k = 0; k < 5; k++) {
        ism_report_row row = all.rows[k];
        uint64_t tenths = row.count ? (10 * row.sum + row.count / 2) / row.count : 0;
        printf("%-6s %8" PRIu64 " %8" PRIu64 " %6" PRIu64 ".%" PRIu64 " %8" PRIu64 "\n", classes[k], row.count,
               row.least, tenths / 10, tenths % 10, row.greatest);
    }
    return 0;
}

/*
 * A sector there and back: made, written as intervals, each of them moved by up to the drive's margin, found again and
 * read field by field.
 *
 *   tools/build ism
 *   gcc -Iinclude examples/sector.c target/staticlib/libism.a -o target/sector && target/sector
 */
#include <stdio.h>
#include <stdlib.h>

#include "ism.h"

enum { TRACK = 3, SIDE = 0, SECTOR = 7, CODE = 1, SIZE = 256, ITEMS = SIZE + ISM_SECTOR_OVERHEAD, BYTES = ITEMS + 2 };

static const ism_profile drive = {
    .t1 = 58,
    .t0 = 29,
    .early = 8,
    .normal = 10,
    .late = 12,
    .min = 36,
    .b23_short = 73,
    .b23_long = 73,
    .b34_short = 106,
    .b34_long = 106,
    .rpt = 139,
};

static uint8_t data[SIZE];
static uint16_t items[ITEMS];
static uint16_t track[ISM_WRITE_ROOM(BYTES)];
static uint16_t field[SIZE + ISM_DATA_OVERHEAD];

/* The answer, or the end of the program with the refusal and its place. */
static ism_answer accepted(const char *what, ism_answer answer) {
    if (answer.number != ISM_ACCEPTED) {
        printf("%s: refused, number %u, place %u\n", what, (unsigned)answer.number, (unsigned)answer.place);
        exit(1);
    }
    return answer;
}

/* Reads the field at the next lock from `start` on into `field`; answers the place after its intervals. */
static size_t read_next(const char *what, size_t intervals, size_t start, size_t bytes) {
    size_t place = accepted(what, ism_find(drive, track, intervals, start)).count;
    ism_answer read =
        accepted(what, ism_read_field(drive, track + place, intervals - place, bytes, field, SIZE + ISM_DATA_OVERHEAD));
    printf("%s field at %u: %u bytes, the sum %s\n", what, (unsigned)place, (unsigned)read.count,
           read.holds ? "holds" : "does not hold");
    return place + read.used;
}

int main(void) {
    for (size_t k = 0; k < SIZE; k++) data[k] = (uint8_t)(37 * k);

    size_t n = accepted("make", ism_make_sector(TRACK, SIDE, SECTOR, CODE, data, SIZE, items, ITEMS)).count;
    size_t intervals = accepted("write", ism_write(drive, items, n, track, sizeof track / sizeof *track)).count;
    unsigned margin = (unsigned)accepted("margin", ism_margin(drive)).count;
    printf("%u items, %u intervals, margin %u\n", (unsigned)n, (unsigned)intervals, margin);

    /* what a worn drive may do */
    for (size_t k = 0; k < intervals; k++) track[k] = (uint16_t)(track[k] + 7919 * k % (2 * margin + 1) - margin);

    size_t after_id = read_next("ID", intervals, 0, ISM_ID_BYTES);
    printf("track %u, side %u, sector %u, length code %u\n", field[4], field[5], field[6], field[7]);

    read_next("data", intervals, after_id, SIZE + ISM_DATA_OVERHEAD);
    for (size_t k = 0; k < SIZE; k++)
        if (field[4 + k] != data[k]) {
            printf("byte %u differs\n", (unsigned)k);
            return 1;
        }
    printf("the data is as it was\n");
    return 0;
}

/*
 * A page with every dot raised: a sector of FF in which 65 ones and more are followed by the bits 0 0 0 1 0 1 0 0. The
 * cells after the ones then read 3 2 3 4 3, as those of one C2 mark do, and no lock stands there: the search from lock
 * to lock meets the sector's two fields and nothing else.
 *
 *   tools/build ism
 *   gcc -Iinclude examples/full_page.c target/staticlib/libism.a -o target/full_page && target/full_page
 */
#include <stdio.h>
#include <stdlib.h>
#include <string.h>

#include "ism.h"

enum { TRACK = 3, SIDE = 0, SECTOR = 7, CODE = 2, SIZE = 512, ITEMS = SIZE + ISM_SECTOR_OVERHEAD, BYTES = ITEMS + 2 };

static const ism_profile drive = {
    .t1 = 58,
    .t0 = 29,
    .early = 8,
    .normal = 10,
    .late = 12,
    .min = 36,
    .b23_short = 73,
    .b23_long = 73,
    .b34_short = 106,
    .b34_long = 106,
    .rpt = 139,
};

static uint8_t data[SIZE];
static uint16_t items[ITEMS];
static uint16_t track[ISM_WRITE_ROOM(BYTES)];
static unsigned classes[ISM_WRITE_ROOM(BYTES)];

/* The answer, or the end of the program with the refusal and its place. */
static ism_answer accepted(const char *what, ism_answer answer) {
    if (answer.number != ISM_ACCEPTED) {
        printf("%s: refused, number %u, place %u\n", what, (unsigned)answer.number, (unsigned)answer.place);
        exit(1);
    }
    return answer;
}

/* The class of each interval, which depends on that of the one before; the first counts as coming after class 2. */
static void class_track(size_t intervals) {
    uint32_t after_short = 1;
    for (size_t k = 0; k < intervals; k++) {
        classes[k] = (unsigned)accepted("class", ism_class(drive, track[k], after_short)).count;
        after_short = classes[k] == ISM_CLASS_2;
    }
}

/* The places at which the classes of one C2 mark come after 64 intervals of class 2. */
static void print_single_marks(size_t intervals) {
    static const unsigned mark[] = {3, 2, 3, 4, 3};
    size_t run = 0;
    for (size_t k = 0; k + 5 <= intervals; k++) {
        size_t same = 0;
        while (same < 5 && classes[k + same] == mark[same]) same++;
        if (run >= 64 && same == 5) printf("the classes of one C2 mark at %u\n", (unsigned)k);
        run = classes[k] == ISM_CLASS_2 ? run + 1 : 0;
    }
}

int main(void) {
    memset(data, 0xff, SIZE);
    for (size_t k = 15; k < SIZE; k += 64) data[k] = 0x14;

    size_t n = accepted("make", ism_make_sector(TRACK, SIDE, SECTOR, CODE, data, SIZE, items, ITEMS)).count;
    size_t intervals = accepted("write", ism_write(drive, items, n, track, sizeof track / sizeof *track)).count;
    class_track(intervals);
    print_single_marks(intervals);

    ism_answer found = ism_find(drive, track, intervals, 0);
    while (found.number == ISM_ACCEPTED) {
        printf("lock at %u\n", (unsigned)found.count);
        found = ism_find(drive, track, intervals, found.count);
    }
    printf("then number %u\n", (unsigned)found.number);
    return found.number != ISM_ADRIFT;
}

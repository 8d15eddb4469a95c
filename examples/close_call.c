/*
 * How near was it? One list on three drives: a good one, a worn one and one that is nearly out of its windows. All
 * three read as the same list; the clearance, compared with the margin on the drive's card, tells them apart.
 *
 *   tools/build ism
 *   gcc -Iinclude examples/close_call.c target/staticlib/libism.a -o target/close_call && target/close_call
 */
#include <stdio.h>

#include "ism.h"

enum { ITEMS = 64, ROOM = ISM_WRITE_ROOM(ITEMS) };

static const ism_profile drive = {
    .t1 = 58,
    .t0 = 29,
    .early = 8,
    .normal = 10,
    .late = 12,
    .min = 36,
    .b23_short = 73,
    .b23_long = 73,
    .b34_short = 106,
    .b34_long = 106,
    .rpt = 139,
};

static uint16_t items[ITEMS], master[ROOM], strip[ROOM], back[ITEMS];

/* The master as a drive reads it that moves each interval by up to `most` half clocks. */
static void play(size_t n, unsigned most) {
    for (size_t k = 0; k < n; k++) strip[k] = (uint16_t)(master[k] + 7919 * k % (2 * most + 1) - most);
}

static void report(const char *what, size_t n, unsigned margin) {
    ism_answer read = ism_read(drive, strip, n, back, ITEMS);
    if (read.number != ISM_ACCEPTED) {
        printf("%s: refused, number %u, place %u\n", what, (unsigned)read.number, (unsigned)read.place);
        return;
    }
    int same = read.count == ITEMS;
    for (size_t k = 0; same && k < ITEMS; k++) same = back[k] == items[k];
    printf("%s: %s, clearance %u of %u\n", what, same ? "reads back" : "reads as another list",
           (unsigned)read.clearance, margin);
}

int main(void) {
    for (size_t k = 0; k < ITEMS; k++) items[k] = (uint16_t)(37 * k % 256);
    size_t n = (size_t)ism_write(drive, items, ITEMS, master, ROOM).count;
    unsigned margin = (unsigned)ism_margin(drive).count;

    play(n, 0);
    report("as written", n, margin);
    play(n, 4);
    report("worn drive", n, margin);
    play(n, margin);
    report("close call", n, margin);
    return 0;
}

/*
 * Drives that run slow. One sector, each interval moved by up to 6 half clocks, on drives of five speeds: read plainly,
 * and corrected by the speed that the sync field before each lock tells. The two differences say how much the drive is
 * off, and whether the two halves of a pair are alike.
 *
 *   tools/build ism
 *   gcc -Iinclude examples/slow_drive.c target/staticlib/libism.a -o target/slow_drive && target/slow_drive
 */
#include <stdio.h>

#include "ism.h"

enum { DATA = 256, ITEMS = DATA + 114, ROOM = 8 * (ITEMS + 2) + 2 };

static const ism_profile drive = {
    .t1 = 58,
    .t0 = 29,
    .early = 8,
    .normal = 10,
    .late = 12,
    .min = 36,
    .b23_short = 73,
    .b23_long = 73,
    .b34_short = 106,
    .b34_long = 106,
    .rpt = 139,
};

static uint8_t data[DATA];
static uint16_t items[ITEMS], master[ROOM], track[ROOM], field[DATA + 6];

/* The master on a worn drive whose intervals are so many percent longer, rounded down. */
static void play(size_t n, int percent) {
    unsigned long random = 33;
    for (size_t k = 0; k < n; k++) {
        random = (random * 1103515245u + 12345u) & 0x7FFFFFFFu;
        int moved = (int)master[k] + (int)(random >> 16) % 13 - 6;
        track[k] = (uint16_t)(moved * (100 + percent) / 100);
    }
}

enum { TEXT = 48 };

static void tell(char *text, uint32_t number, uint32_t holds) {
    if (number == ISM_ACCEPTED) snprintf(text, TEXT, "%s", holds ? "reads" : "sum fails");
    else snprintf(text, TEXT, "refused %u", (unsigned)number);
}

/* The field at the first lock from a start; answers the place to search on from. */
static uint64_t plainly(char *text, size_t n, uint64_t start, uint64_t bytes) {
    ism_answer lock = ism_find(drive, track, n, start);
    tell(text, lock.number, 0);
    if (lock.number != ISM_ACCEPTED) return start;
    ism_answer read = ism_read_field(drive, track + lock.count, n - (size_t)lock.count, bytes, field, DATA + 6);
    tell(text, read.number, read.holds);
    return lock.count;
}

/* The same, corrected: with the percent by which the intervals are longer, and how the halves of a pair differ. */
static uint64_t corrected(char *text, size_t n, uint64_t start, uint64_t bytes) {
    ism_corrected read = ism_read_corrected(drive, track, n, start, bytes, field, DATA + 6);
    tell(text, read.number, read.holds);
    if (read.number != ISM_ACCEPTED) return ism_find(drive, track, n, start).count;
    double percent = 100.0 * (read.even + read.odd) / (64.0 * drive.t1);
    snprintf(text, TEXT, "%s, %+.1f %%, %+.1f", read.holds ? "reads" : "sum fails", percent,
             (read.even - read.odd) / 32.0);
    return read.lock;
}

int main(void) {
    for (size_t k = 0; k < DATA; k++) data[k] = (uint8_t)(37 * k);
    ism_make_sector(1, 0, 1, 1, data, DATA, items, ITEMS);
    size_t n = (size_t)ism_write(drive, items, ITEMS, master, ROOM).count;
    static const int speeds[] = {0, -3, 3, 6, 7};

    printf("longer  plain: ID   data        corrected: ID         data\n");
    for (size_t k = 0; k < sizeof speeds / sizeof *speeds; k++) {
        char id[TEXT], sector[TEXT], slow_id[TEXT], slow_sector[TEXT];
        play(n, speeds[k]);
        plainly(sector, n, plainly(id, n, 0, 10), DATA + 6);
        corrected(slow_sector, n, corrected(slow_id, n, 0, 10), DATA + 6);
        printf("%+4d %%  %-10s  %-10s  %-20s  %s\n", speeds[k], id, sector, slow_id, slow_sector);
    }
    return 0;
}

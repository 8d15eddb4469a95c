/*
 * A page master: pages are made into sectors, written as one track, every interval moved by up to the drive's margin,
 * and read back. One of them has every dot raised. Then the track simply stops in its middle, which comes to a stated
 * end: the page that is lost. What a second pass still reads gives it back.
 *
 *   tools/build ism ism_page
 *   gcc -Iinclude examples/master.c target/staticlib/libism.a target/staticlib/libism_page.a -o target/master &&
 *     target/master
 */
#include <inttypes.h>
#include <stdio.h>
#include <stdlib.h>
#include <string.h>

#include "ism.h"
#include "ism_page.h"

enum { PAGES = 4, CODE = 3, SIZE = 1024, ITEMS = SIZE + 114, BYTES = SIZE + 116, TRACK = 8 * PAGES * BYTES + 2 };

static const ism_profile drive = {
    .t1 = 58,
    .t0 = 29,
    .early = 8,
    .normal = 10,
    .late = 12,
    .min = 36,
    .b23_short = 73,
    .b23_long = 73,
    .b34_short = 106,
    .b34_long = 106,
    .rpt = 139,
};

static uint8_t cells[PAGES * ISM_PAGE_CELLS], back[PAGES * ISM_PAGE_CELLS];
static uint8_t made[PAGES * ISM_PAGE_SET_BYTES], first[ISM_MAX_SET_BYTES], second[ISM_MAX_SET_BYTES];
static uint8_t merged[ISM_MAX_SET_BYTES];
static uint16_t items[PAGES * ITEMS], track[TRACK], field[SIZE + 6];

/* Goes on, or ends the program with the refusal and its place. */
static void accept(const char *what, uint32_t number, uint32_t place) {
    if (number == ISM_ACCEPTED) return;
    printf("%s: refused, number %" PRIu32 ", place %" PRIu32 "\n", what, number, place);
    exit(1);
}

/* Page 1 has an `a`, dot 1, in its first cell, page 2 every dot raised, page 3 dots 1 to 6 along its lines' ends. */
static void draw_pages(void) {
    cells[0] = 1;
    memset(cells + ISM_PAGE_CELLS, 0xFF, ISM_PAGE_CELLS);
    for (size_t line = 1; line <= ISM_PAGE_LINES; line++)
        cells[2 * ISM_PAGE_CELLS + line * ISM_PAGE_LINE_CELLS - 1] = 0x3F;
    for (size_t k = 0; k < ISM_PAGE_CELLS; k++) cells[3 * ISM_PAGE_CELLS + k] = (uint8_t)(37 * k);
}

/* The intervals of the pages' sectors, each moved by at most the margin; answers how many there are. */
static size_t write_pages(void) {
    ism_answer set = ism_make_pages(cells, sizeof cells, PAGES, made, sizeof made);
    accept("make pages", set.number, set.place);
    for (size_t k = 0; k < PAGES; k++) {
        const uint8_t *sector = made + k * ISM_PAGE_SET_BYTES;
        ism_answer put = ism_make_sector(0, 0, sector[0], CODE, sector + 3, SIZE, items + k * ITEMS, ITEMS);
        accept("make sector", put.number, put.place);
    }
    ism_answer wrote = ism_write(drive, items, PAGES * ITEMS, track, TRACK);
    accept("write", wrote.number, wrote.place);
    ism_answer margin = ism_margin(drive);
    accept("margin", margin.number, margin.place);
    for (size_t k = 0; k < wrote.count; k++)
        track[k] = (uint16_t)(track[k] + 7919 * k % (2 * margin.count + 1) - margin.count);
    return wrote.count;
}

/* The sectors of a stretch of the track whose data was found, as a set; answers its bytes. */
static size_t read_set(const uint16_t *intervals, size_t n, uint8_t *set) {
    ism_index index = ism_index_track(drive, intervals, n);
    accept("index", index.number, index.place);
    size_t used = 0;
    for (size_t k = 0; k < index.count; k++) {
        ism_index_entry entry = index.entries[k];
        if (!entry.found) continue;
        size_t size = (size_t)128 << entry.code;
        const uint16_t *from = intervals + entry.data_place;
        ism_answer read = ism_read_field(drive, from, n - entry.data_place, size + 6, field, SIZE + 6);
        accept("read", read.number, read.place);
        set[used] = entry.sector;
        set[used + 1] = entry.code;
        set[used + 2] = entry.holds;
        for (size_t i = 0; i < size; i++) set[used + 3 + i] = (uint8_t)field[4 + i];
        used += 3 + size;
    }
    printf("%zu of %d sectors, ", used / ISM_PAGE_SET_BYTES, PAGES);
    return used;
}

static void print_pages(const uint8_t *set, size_t n) {
    memset(back, 0, sizeof back);
    ism_pages read = ism_read_pages(set, n, PAGES, back, sizeof back);
    if (read.number == ISM_LOST_PAGE) {
        printf("page %" PRIu32 " is lost\n", read.place);
        return;
    }
    accept("read pages", read.number, read.place);
    printf("%" PRIu64 " pages,", read.count);
    for (size_t k = 0; k < read.count; k++) printf(" %" PRIu32, read.dots[k]);
    printf(" dots; the pages are %s\n", memcmp(back, cells, sizeof back) == 0 ? "as they were" : "OTHERS");
}

int main(void) {
    draw_pages();
    size_t n = write_pages();
    printf("the whole track:          ");
    print_pages(first, read_set(track, n, first));

    /* the track stops in the data of page 3 */
    printf("a track that just stops:  ");
    size_t half = read_set(track, n * 5 / 8, first);
    print_pages(first, half);

    /* a second pass that begins within page 2 */
    printf("one that begins late:     ");
    size_t rest = read_set(track + n * 3 / 8, n - n * 3 / 8, second);
    print_pages(second, rest);

    ism_answer both = ism_merge(first, half, second, rest, merged, sizeof merged);
    accept("merge", both.number, both.place);
    printf("both passes merged:       %" PRIu64 " of %d sectors, ", both.count, PAGES);
    print_pages(merged, both.used);
    return 0;
}

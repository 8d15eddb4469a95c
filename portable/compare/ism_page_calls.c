/* The calls of ism_page.h, over sets that ism.h's functions also take. */
#include "calls.h"
#include "ism_page.h"

#include <string.h>

#define MOST_CELLS (ISM_MAX_PAGES * ISM_PAGE_CELLS)
#define MOST_PAGES_BYTES (ISM_MAX_PAGES * ISM_PAGE_SET_BYTES)

static uint8_t cells[MOST_CELLS + 1008], set[MOST_SET_BYTES + 8];

static uint32_t call_interface(source *s) {
    (void)s;
    add(ism_page_interface_9());
    return 0;
}

/* How many pages: mostly few, at times out of range. */
static uint64_t any_pages(source *s) {
    if (one_in(s, 12)) return one_in(s, 2) ? any(s) : between(s, 0, 18);
    return one_in(s, 4) ? between(s, 1, ISM_MAX_PAGES) : between(s, 1, 4);
}

static void fill_cells(source *s, size_t n) {
    int is_full = one_in(s, 8); /* every dot raised */
    for (size_t k = 0; k < n; k++) cells[k] = is_full ? 0xFF : (uint8_t)any(s);
}

/* Pages as a set, at times with a sector lost, of another code, soiled, twice, or more behind them. */
static size_t fill_pages(source *s, uint64_t pages) {
    unsigned stand = pages < 1 || pages > ISM_MAX_PAGES ? 1 : (unsigned)pages;
    if (one_in(s, 6)) return fill_set(s, set, MOST_SET_BYTES);
    fill_cells(s, stand * ISM_PAGE_CELLS);
    size_t n = (size_t)ism_make_pages(cells, stand * ISM_PAGE_CELLS, stand, set, MOST_PAGES_BYTES).used;
    uint8_t *sector = set + between(s, 0, stand - 1) * ISM_PAGE_SET_BYTES;
    switch (between(s, 0, 7)) {
    case 0:
        sector[0] = (uint8_t)between(s, 0, 20);
        break;
    case 1:
        sector[1] = (uint8_t)between(s, 2, 4);
        break;
    case 2:
        sector[2] = (uint8_t)between(s, 0, 2);
        break;
    case 3:
        sector[between(s, 1000, ISM_PAGE_SET_BYTES - 1)] ^= (uint8_t)any(s);
        break;
    case 4:
        n += fill_set(s, set + n, MOST_SET_BYTES - n);
        break;
    default:
        break;
    }
    return n;
}

static uint32_t call_read_pages(source *s) {
    uint64_t pages = any_pages(s);
    size_t n = fill_pages(s, pages), most = MOST_CELLS + 1000;
    size_t room = any_room(s, pages <= ISM_MAX_PAGES ? (size_t)pages * ISM_PAGE_CELLS : 0, most);
    memset(cells, 0xE5, most + 8);
    ism_pages read = ism_read_pages(LIST(set, n), pages, LIST(cells, room));
    add(read.number);
    add(read.place);
    add(read.count);
    add(read.used);
    for (unsigned k = 0; k < ISM_MAX_PAGES; k++) add(read.dots[k]);
    add_bytes(set, n);
    add_bytes(cells, room + 8);
    return read.number;
}

static uint32_t call_make_pages(source *s) {
    uint64_t pages = any_pages(s);
    size_t n = pages <= ISM_MAX_PAGES ? (size_t)pages * ISM_PAGE_CELLS : (size_t)between(s, 0, MOST_CELLS);
    if (one_in(s, 8)) n = (size_t)between(s, n > 1 ? n - 1 : 0, n + 1);
    size_t room = any_room(s, pages <= ISM_MAX_PAGES ? (size_t)pages * ISM_PAGE_SET_BYTES : 0, MOST_PAGES_BYTES + 100);
    fill_cells(s, n);
    memset(set, 0xE5, MOST_PAGES_BYTES + 108);
    uint32_t answered = add_answer(ism_make_pages(LIST(cells, n), pages, LIST(set, room)));
    add_bytes(cells, n);
    add_bytes(set, room + 8);
    return answered;
}

const entry entries[] = {
    {"ism_read_pages", call_read_pages,
     BIT(0) | BIT(ISM_MISCOUNT) | BIT(ISM_MISFIT) | BIT(ISM_CROWDED) | BIT(ISM_AT_ODDS) | BIT(ISM_LOST_PAGE) |
         BIT(ISM_SOILED_FILL) | BIT(ISM_FULL)},
    {"ism_make_pages", call_make_pages, BIT(0) | BIT(ISM_MISCOUNT) | BIT(ISM_MISFIT) | BIT(ISM_FULL)},
    {"ism_page_interface_9", call_interface, BIT(0)},
    {NULL, NULL, 0},
};

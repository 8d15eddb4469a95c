/*
 * The functions of ism_page.h in careful C: sums of ones are kept in the bytes of words, as many as they hold, so that
 * a compiler can use vectors; no vector instructions by hand, no table.
 */
#include <string.h>

#define ISM_PAGE_WITHOUT_LIBRARY
#include "common.h"
#include "ism_page.h"

#define FILL 24
#define HEAD 3 /* number, code and whether the sum holds stand before a sector's data */

static ism_pages turned_away(uint32_t number, uint32_t place) {
    ism_pages answer = {.number = number, .place = place};
    return answer;
}

/* The ones of each byte of a word, in that byte. */
static inline uint64_t ones_of_bytes(uint64_t x) {
    x -= x >> 1 & 0x5555555555555555u;
    x = (x & 0x3333333333333333u) + (x >> 2 & 0x3333333333333333u);
    return (x + (x >> 4)) & 0x0F0F0F0F0F0F0F0Fu;
}

/* Five times 25 words: a byte of their sum is at most 200. */
static uint32_t dots_of(const uint8_t *page) {
    uint32_t dots = 0;
    for (int part = 0; part < 5; part++) {
        uint64_t sum = 0;
        for (int k = 0; k < 25; k++) {
            uint64_t word;
            memcpy(&word, page + 200 * part + 8 * k, sizeof word);
            sum += ones_of_bytes(word);
        }
        sum = (sum & 0x00FF00FF00FF00FFu) + (sum >> 8 & 0x00FF00FF00FF00FFu);
        dots += (uint32_t)(sum * 0x0001000100010001u >> 48);
    }
    return dots;
}

static inline bool is_soiled(const uint8_t *fill) {
    uint64_t words[FILL / 8];
    memcpy(words, fill, sizeof words);
    return (words[0] | words[1] | words[2]) != 0;
}

ism_pages NAME(read_pages)(const uint8_t *set, size_t n, uint64_t pages, uint8_t *cells, size_t room) {
    if (pages < 1 || pages > ISM_MAX_PAGES) return turned_away(ISM_MISCOUNT, 0);
    const uint8_t *found[256];
    uint64_t seen[4] = {0}, twice[4] = {0};
    size_t sectors = 0;
    for (size_t at = 0; at < n; sectors++) {
        size_t left = n - at;
        if (left < HEAD || set[at + 1] > 3 || left - HEAD < (size_t)128 << set[at + 1])
            return turned_away(ISM_MISFIT, 0);
        unsigned number = set[at];
        uint64_t bit = (uint64_t)1 << number % 64;
        twice[number / 64] |= seen[number / 64] & bit;
        seen[number / 64] |= bit;
        found[number] = set + at;
        at += HEAD + ((size_t)128 << set[at + 1]);
    }
    if (sectors > ISM_MAX_SECTORS) return turned_away(ISM_CROWDED, 0);
    for (unsigned k = 0; k < 4; k++)
        if (twice[k] != 0) return turned_away(ISM_AT_ODDS, 64 * k + (unsigned)__builtin_ctzll(twice[k]));
    for (unsigned page = 1; page <= pages; page++)
        if (!(seen[0] >> page & 1) || found[page][1] != 3 || found[page][2] == 0)
            return turned_away(ISM_LOST_PAGE, page);
    for (unsigned page = 1; page <= pages; page++)
        if (is_soiled(found[page] + HEAD + ISM_PAGE_CELLS)) return turned_away(ISM_SOILED_FILL, page);
    if (room < ISM_PAGE_CELLS * pages) return turned_away(ISM_FULL, 0);
    ism_pages answer = {.count = pages, .used = ISM_PAGE_CELLS * pages};
    for (unsigned page = 0; page < pages; page++) {
        memcpy(cells + ISM_PAGE_CELLS * page, found[page + 1] + HEAD, ISM_PAGE_CELLS);
        answer.dots[page] = dots_of(found[page + 1] + HEAD);
    }
    return answer;
}

ism_answer NAME(make_pages)(const uint8_t *cells, size_t n, uint64_t pages, uint8_t *set, size_t room) {
    if (pages < 1 || pages > ISM_MAX_PAGES) return refused(ISM_MISCOUNT, 0);
    if (n != ISM_PAGE_CELLS * pages) return refused(ISM_MISFIT, 0);
    if (room < ISM_PAGE_SET_BYTES * pages) return refused(ISM_FULL, 0);
    for (unsigned page = 1; page <= pages; page++, set += ISM_PAGE_SET_BYTES, cells += ISM_PAGE_CELLS) {
        set[0] = (uint8_t)page;
        set[1] = 3;
        set[2] = 1;
        memcpy(set + HEAD, cells, ISM_PAGE_CELLS);
        memset(set + HEAD + ISM_PAGE_CELLS, 0, FILL);
    }
    ism_answer answer = counted(pages);
    answer.used = ISM_PAGE_SET_BYTES * pages;
    return answer;
}

/*
 * Writer, readers and finder of ism.h in careful C, as a second baseline: no vector instructions by hand, no
 * table but the lengths of cells, which a call makes from its profile. Jumps that depend on the data are avoided:
 * classes are compares that are added, places of transitions are counted zeros.
 *
 * A stream is seen as half cells, a clock and a data half cell for each bit, sixteen to a byte. A transition is a one.
 */
#include <string.h>

#include "common.h"

/* A byte through the register: the eight bits at once, by x^16 + x^12 + x^5 + 1. */
static inline uint16_t feed(uint16_t crc, unsigned byte) {
    unsigned x = (crc >> 8 ^ byte) & 0xFF;
    x ^= x >> 4;
    return (uint16_t)((unsigned)crc << 8 ^ x << 12 ^ x << 5 ^ x);
}

/* The register before a byte: all ones before a mark byte that does not follow a mark byte. */
static inline uint16_t reset(uint16_t crc, unsigned last, unsigned byte) {
    return byte >= ISM_MARK && last < ISM_MARK ? ALL_ONES : crc;
}

/* --------------------------------------------------------------------------------------------------------- writer */

/* The code word of a written byte behind a data bit: a clock is 1 between two 0s. */
static inline unsigned word_of(unsigned before, unsigned byte) {
    if (byte == ISM_MARK_A1) return WORD_A1;
    if (byte == ISM_MARK_C2) return WORD_C2;
    byte = (byte | byte << 4) & 0x0F0F;
    byte = (byte | byte << 2) & 0x3333;
    byte = (byte | byte << 1) & DATA;
    return byte | (~(byte << 1 | byte >> 1 | (before & 1) << 15) & CLOCKS);
}

#define LENGTHS 64

/*
 * The length of a cell by the zeros of the cell before, its own and those of the cell behind, two bits each: whether
 * there are some decides between early, normal and late at both of its ends.
 */
static void set_lengths(uint16_t *lengths, const ism_profile *p) {
    const int32_t point[2][2] = {{2 * p->normal, 2 * p->early}, {2 * p->late, 2 * p->normal}};
    for (int before = 0; before < 3; before++)
        for (int zeros = 0; zeros < 3; zeros++)
            for (int behind = 0; behind < 3; behind++)
                lengths[16 * before + 4 * zeros + behind] =
                    (uint16_t)(p->t1 + zeros * p->t0 + point[zeros > 0][behind > 0] - point[before > 0][zeros > 0]);
}

/* Where the writing stands. A length is stored when the cell behind its cell is known. */
struct pen {
    uint16_t *out;
    size_t cells; /* zeros of the last cells, two bits each, the newest lowest */
    size_t next;  /* where a transition without zeros before it would be, in half cells from the end of the word */
};

/* The transitions of a word, in order. */
static inline struct pen put_ones(struct pen pen, const uint16_t *lengths, unsigned ones) {
    while (ones != 0) {
        size_t place = 31 - (unsigned)__builtin_clz(ones);
        pen.cells = (4 * pen.cells + pen.next - place) % LENGTHS;
        *pen.out++ = lengths[pen.cells];
        pen.next = place - 2;
        ones ^= 1u << place;
    }
    pen.next += 16;
    return pen;
}

/* The first transition stores nothing: before the cell that it ends there is none. The lead's is 17 from the end. */
static inline struct pen put_first(uint16_t *out, const uint16_t *lengths, unsigned word) {
    size_t place = 31 - (unsigned)__builtin_clz(word);
    struct pen pen = {out, 17 - 2 - place, place - 2};
    return put_ones(pen, lengths, word ^ 1u << place);
}

/* The closing clock, the closing 0 and the last transition; behind it counts a cell without zeros. */
static inline unsigned closing_word(unsigned before) { return before & 1 ? 0x2000 : 0xA000; }

/* The written bytes of a list: its items, or where there are check orders one byte after the other. */
struct bytes {
    const uint16_t *items, *end;
    unsigned last, low; /* low: the second byte of a check order if it is due, else NOT_DUE */
    uint16_t crc;
    bool checks;
};

#define NOT_DUE 0x100u

static inline bool more(const struct bytes *b) { return b->items < b->end || (b->checks && b->low != NOT_DUE); }

static inline unsigned next_byte(struct bytes *b) {
    if (!b->checks) return *b->items++;
    unsigned byte = b->low;
    b->low = NOT_DUE;
    if (byte == NOT_DUE) {
        byte = *b->items++;
        if (byte == ISM_CHECK) {
            byte = b->crc >> 8;
            b->low = b->crc & 0xFF;
        }
    }
    b->crc = feed(reset(b->crc, b->last, byte), byte);
    b->last = byte;
    return byte;
}

/* Bits of a byte in which no cell ends: a 0 behind a 1, and the left out clock of a mark. */
static inline unsigned bits_without_cell(unsigned before, unsigned byte) {
    unsigned falls = (before << 7 | (byte & 0xFF) >> 1) & ~byte & 0xFF;
    falls = (falls & 0x55) + (falls >> 1 & 0x55);
    falls = (falls & 0x33) + (falls >> 2 & 0x33);
    return (falls & 15) + (falls >> 4) + (byte >> 8);
}

static inline size_t count_cells(struct bytes b) {
    size_t count = 2;
    unsigned before = 0;
    while (more(&b)) {
        unsigned byte = next_byte(&b);
        count += 8 - bits_without_cell(before, byte);
        before = byte;
    }
    return count - (before & 1);
}

static inline size_t put_cells(struct bytes b, const uint16_t *lengths, uint16_t *out) {
    struct pen pen;
    if (more(&b)) {
        unsigned before = next_byte(&b);
        pen = put_first(out, lengths, word_of(0, before));
        while (more(&b)) {
            unsigned byte = next_byte(&b);
            pen = put_ones(pen, lengths, word_of(before, byte));
            before = byte;
        }
        pen = put_ones(pen, lengths, closing_word(before));
    } else {
        pen = put_first(out, lengths, closing_word(0));
    }
    *pen.out++ = lengths[4 * pen.cells % LENGTHS];
    return (size_t)(pen.out - out);
}

/* The cells of a list if there is room for them. */
static inline ism_answer put_list(const ism_profile *p, struct bytes b, size_t written, uint16_t *out, size_t room) {
    uint16_t lengths[LENGTHS];
    if (room < 8 * written + 2 && room < count_cells(b)) return refused(ISM_FULL, 0);
    set_lengths(lengths, p);
    return counted(put_cells(b, lengths, out));
}

ism_answer NAME(write)(ism_profile profile, const uint16_t *items, size_t n, uint16_t *out, size_t room) {
    ism_answer verdict = check_profile(&profile);
    if (verdict.number != ISM_ACCEPTED) return verdict;
    if (n > ISM_MAX_BYTES) return refused(ISM_OVERLONG, 0);
    size_t written = n;
    bool foreign = false;
    for (size_t i = 0; i < n; i++) {
        written += items[i] == ISM_CHECK;
        foreign |= !is_item(items[i]);
    }
    if (written > ISM_MAX_BYTES) return refused(ISM_OVERLONG, 0);
    if (foreign) return refused(ISM_FOREIGN, lowest_foreign(items));
    struct bytes plain = {items, items + n, 0, NOT_DUE, ALL_ONES, false}, checked = plain;
    checked.checks = true;
    return written == n ? put_list(&profile, plain, written, out, room)
                        : put_list(&profile, checked, written, out, room);
}

/* -------------------------------------------------------------------------------------------------------- readers */

/* The windows of a profile. Where the bounds behind both kinds are equal, they are not chosen. */
struct windows {
    unsigned min, width, b23, b34;
    unsigned behind[2][2]; /* both bounds, behind any other interval and behind one of class 2 */
    bool pairs;
};

static struct windows windows_of(const ism_profile *p) {
    struct windows w = {.min = p->min, .width = (unsigned)(p->rpt - p->min), .b23 = p->b23_short, .b34 = p->b34_short};
    for (unsigned two = 0; two < 2; two++) {
        w.behind[two][0] = b23_behind(p, two);
        w.behind[two][1] = b34_behind(p, two);
    }
    w.pairs = has_pairs(p);
    return w;
}

static inline bool is_outside(struct windows w, unsigned interval) { return interval - w.min >= w.width; }

static ism_answer refused_outside(struct windows w, unsigned interval, size_t place) {
    return refused(interval < w.min ? ISM_NARROW : ISM_WIDE, place);
}

/* Half cells as they are read: the newest is the lowest bit. A word is read with the data half cell before it. */
struct half_cells {
    uint32_t bits;
    int64_t over; /* half cells beyond the word that is being read; while it is not whole, below 0 */
};

#define WORD 16
#define CLOSED (4 - 1 - WORD) /* behind the last word of a strip: its last data, closing clock, 0 and clock */

/* The clock of the lead 0 and, two half cells before it, a transition: before the first interval counts a class 2. */
static const struct half_cells lead = {5, -1 - WORD};

/* Whether the newest cell has 2 units, and so its interval, neither narrow nor wide, class 2. */
static inline bool is_behind_two(struct half_cells h) { return h.bits >> 2 & 1; }

/* The half cells with one interval more, narrow and wide ones aside. */
ALWAYS_INLINE struct half_cells with_cell(struct half_cells h, struct windows w, bool pairs, unsigned interval) {
    unsigned b23 = pairs ? w.behind[is_behind_two(h)][0] : w.b23;
    unsigned b34 = pairs ? w.behind[is_behind_two(h)][1] : w.b34;
    unsigned units = 2u + (interval >= b23) + (interval >= b34);
    struct half_cells next = {h.bits << units | 1, h.over + units};
    return next;
}

/* A whole word, with the data half cell before it on top. */
static inline uint32_t whole_word(struct half_cells h) { return h.bits >> h.over; }

/* The data half cells behind which a clock is missing: it, the clock before it and the data before that are all 0. */
static inline uint32_t missing_clocks(uint32_t word) { return ~(word | word >> 1 | word >> 2) & DATA; }

static inline bool is_mark_word(uint32_t word) { return (word & 0xFFFF) == WORD_A1 || (word & 0xFFFF) == WORD_C2; }

static inline uint16_t item_of(uint32_t word) {
    uint32_t data = word & DATA;
    data = (data | data >> 1) & 0x3333;
    data = (data | data >> 2) & 0x0F0F;
    data = (data | data >> 4) & 0x00FF;
    return (uint16_t)(is_mark_word(word) ? data | ISM_MARK : data);
}

/* The interval over the first missing clock of a word that interval `at` has made whole. */
static size_t stray_place(struct half_cells h, size_t at) {
    unsigned top = 31 - (unsigned)__builtin_clz(missing_clocks(whole_word(h)));
    uint32_t behind = h.bits & ((1u << (top + 1 + h.over)) - 1);
    return at + 1 - (unsigned)__builtin_popcount(behind);
}

/* Whether the last interval is a gap that begins on the last bit. */
static inline bool ends_in_gap(struct half_cells h) { return h.over == CLOSED && h.bits % 16 == 1; }

#define NO_STRAY SIZE_MAX

/* What a pass over a strip has found besides narrow and wide intervals. */
struct strip {
    struct half_cells h;
    size_t bytes, stray;
};

/* The first pass stores nothing; the answer refuses narrow and wide intervals. */
ALWAYS_INLINE ism_answer check_cells(struct windows w, bool pairs, const uint16_t *intervals, size_t n,
                                     struct strip *strip) {
    struct half_cells h = lead;
    size_t bytes = 0, stray = NO_STRAY;
    for (size_t i = 0; i < n; i++) {
        if (is_outside(w, intervals[i])) return refused_outside(w, intervals[i], i);
        h = with_cell(h, w, pairs, intervals[i]);
        if (h.over < 0) continue;
        uint32_t word = whole_word(h);
        if (missing_clocks(word) != 0 && !is_mark_word(word) && stray == NO_STRAY) stray = stray_place(h, i);
        h.over -= WORD;
        bytes++;
    }
    if (stray == NO_STRAY && ends_in_gap(h)) stray = n - 1;
    struct strip checked = {h, bytes, stray};
    *strip = checked;
    return counted(0);
}

/* Alone it has registers enough. */
__attribute__((noinline)) static ism_answer check_strip(struct windows w, const uint16_t *intervals, size_t n,
                                                        struct strip *strip) {
    return w.pairs ? check_cells(w, true, intervals, n, strip) : check_cells(w, false, intervals, n, strip);
}

ALWAYS_INLINE void store_cells(struct windows w, bool pairs, const uint16_t *intervals, size_t n, uint16_t *out) {
    struct half_cells h = lead;
    for (size_t i = 0; i < n; i++) {
        h = with_cell(h, w, pairs, intervals[i]);
        if (h.over < 0) continue;
        *out++ = item_of(whole_word(h));
        h.over -= WORD;
    }
}

/* A strip of n bytes has 16 n + 4 half cells: the lead 0's data, the words, and closing clock, data and clock. */
ism_answer NAME(read)(ism_profile profile, const uint16_t *intervals, size_t n, uint16_t *out, size_t room) {
    struct strip strip;
    struct windows w = windows_of(&profile);
    ism_answer verdict = check_profile(&profile);
    if (verdict.number != ISM_ACCEPTED) return verdict;
    if (n > ISM_MAX_INTERVALS) return refused(ISM_OVERLONG, 0);
    verdict = check_strip(w, intervals, n, &strip);
    if (verdict.number != ISM_ACCEPTED) return verdict;
    if (strip.h.over != CLOSED) return refused(ISM_RAGGED, 0);
    if (strip.bytes > ISM_MAX_BYTES) return refused(ISM_OVERLONG, 0);
    if (strip.stray != NO_STRAY) return refused(ISM_STRAY, strip.stray);
    if (room < strip.bytes) return refused(ISM_FULL, 0);
    if (w.pairs)
        store_cells(w, true, intervals, n, out);
    else
        store_cells(w, false, intervals, n, out);
    return cleared(counted(strip.bytes), least_clearance(&profile, intervals, n));
}

/* The bytes of a field to a buffer; the answer counts the intervals, or refuses. */
ALWAYS_INLINE ism_answer read_bytes(struct windows w, bool pairs, const uint16_t *intervals, size_t n, size_t bytes,
                                    uint16_t *items) {
    struct half_cells h = lead;
    size_t i = 0, stray = NO_STRAY;
    for (size_t count = 0; count < bytes; count++) {
        while (h.over < 0) {
            if (i == n) return refused(ISM_SHORT, 0);
            if (is_outside(w, intervals[i])) return refused_outside(w, intervals[i], i);
            h = with_cell(h, w, pairs, intervals[i++]);
        }
        uint32_t word = whole_word(h);
        if (missing_clocks(word) != 0 && !is_mark_word(word) && stray == NO_STRAY) stray = stray_place(h, i - 1);
        items[count] = item_of(word);
        h.over -= WORD;
    }
    if (stray == NO_STRAY && ends_in_gap(h)) stray = i - 1;
    return stray == NO_STRAY ? counted(i) : refused(ISM_STRAY, stray);
}

static uint16_t register_after(const uint16_t *items, size_t n) {
    uint16_t crc = ALL_ONES;
    unsigned last = 0;
    for (size_t i = 0; i < n; i++) {
        crc = feed(reset(crc, last, items[i]), items[i]);
        last = items[i];
    }
    return crc;
}

ism_answer NAME(read_items)(const ism_profile *p, const uint16_t *intervals, size_t n, uint64_t bytes, uint16_t *out,
                            size_t room) {
    uint16_t items[ISM_MAX_FIELD_BYTES];
    if (bytes < 1 || bytes > ISM_MAX_FIELD_BYTES) return refused(ISM_MISCOUNT, 0);
    size_t count = (size_t)bytes;
    struct windows w = windows_of(p);
    ism_answer verdict =
        w.pairs ? read_bytes(w, true, intervals, n, count, items) : read_bytes(w, false, intervals, n, count, items);
    if (verdict.number != ISM_ACCEPTED) return verdict;
    if (room < count) return refused(ISM_FULL, 0);
    memcpy(out, items, count * sizeof *items);
    ism_answer answer = {ISM_ACCEPTED, 0, bytes, verdict.count, register_after(items, count) == 0, 0};
    return answer;
}

/* --------------------------------------------------------------------------------------------------- slow drives */

#define BLOCK 256u /* intervals corrected at once: an even number */

/* Every second of the 64 intervals before a lock. */
static uint32_t half_sum(const uint16_t *run) {
    uint32_t sum = 0;
    for (size_t i = 0; i < SYNC; i += 2) sum += run[i];
    return sum;
}

static inline uint16_t at_speed(uint32_t nominal, uint32_t sum, uint16_t interval) {
    uint32_t number = interval * nominal / sum;
    return (uint16_t)(number > UINT16_MAX ? UINT16_MAX : number);
}

static void correct(uint32_t nominal, const uint32_t sums[2], const uint16_t *intervals, size_t n, uint16_t *block) {
    uint32_t even = sums[0], odd = sums[1];
    size_t i = 0;
    for (; i + 1 < n; i += 2) {
        block[i] = at_speed(nominal, even, intervals[i]);
        block[i + 1] = at_speed(nominal, odd, intervals[i + 1]);
    }
    if (i < n) block[i] = at_speed(nominal, even, intervals[i]);
}

/* As read_bytes, block by block, with the nearest to the edges; the answer counts the intervals, or refuses. */
ALWAYS_INLINE ism_answer read_slowed(const ism_profile *p, struct windows w, bool pairs, const uint32_t sums[2],
                                     const uint16_t *intervals, size_t n, size_t bytes, uint16_t *items,
                                     struct nearest *near) {
    uint16_t block[BLOCK], kinds[BLOCK];
    const uint32_t nominal = 32u * p->t1;
    struct half_cells h = lead;
    size_t used = 0, stray = NO_STRAY, count = 0;
    bool two = true;
    while (count < bytes) {
        if (used == n) return refused(ISM_SHORT, 0);
        size_t i = 0, length = n - used < BLOCK ? n - used : BLOCK;
        correct(nominal, sums, intervals + used, length, block);
        while (i < length && count < bytes) {
            if (is_outside(w, block[i])) return refused_outside(w, block[i], used + i);
            h = with_cell(h, w, pairs, block[i++]);
            if (h.over < 0) continue;
            uint32_t word = whole_word(h);
            if (missing_clocks(word) != 0 && !is_mark_word(word) && stray == NO_STRAY)
                stray = stray_place(h, used + i - 1);
            items[count++] = item_of(word);
            h.over -= WORD;
        }
        if (pairs) two = kinds_before(p, two, block, i, kinds);
        add_nearest(near, p, block, pairs ? kinds : NULL, i);
        used += i;
    }
    if (stray == NO_STRAY && ends_in_gap(h)) stray = used - 1;
    return stray == NO_STRAY ? counted(used) : refused(ISM_STRAY, stray);
}

static ism_corrected turned_away(uint32_t number, uint32_t place) {
    ism_corrected answer = {.number = number, .place = place};
    return answer;
}

/* 16 x the difference of a sum, sign dropped, is above 32 x T1. */
static bool is_off_speed(uint32_t nominal, uint32_t sum) {
    return nominal < 16 * (sum < nominal ? nominal - sum : sum - nominal);
}

ism_corrected NAME(read_corrected)(ism_profile profile, const uint16_t *intervals, size_t n, uint64_t start,
                                   uint64_t bytes, uint16_t *out, size_t room) {
    uint16_t items[ISM_MAX_FIELD_BYTES];
    ism_answer verdict = check_profile(&profile);
    if (verdict.number != ISM_ACCEPTED) return turned_away(verdict.number, verdict.place);
    size_t lock = NAME(find_lock)(&profile, intervals, n, start);
    if (lock == NOWHERE) return turned_away(ISM_ADRIFT, 0);
    const uint32_t nominal = 32u * profile.t1;
    const uint32_t sums[2] = {half_sum(intervals + lock - SYNC), half_sum(intervals + lock - SYNC + 1)};
    if (is_off_speed(nominal, sums[0])) return turned_away(ISM_OFF_SPEED, 0);
    if (is_off_speed(nominal, sums[1])) return turned_away(ISM_OFF_SPEED, 1);
    if (bytes < 1 || bytes > ISM_MAX_FIELD_BYTES) return turned_away(ISM_MISCOUNT, 0);
    struct windows w = windows_of(&profile);
    struct nearest near = none_near;
    size_t count = (size_t)bytes;
    verdict = w.pairs ? read_slowed(&profile, w, true, sums, intervals + lock, n - lock, count, items, &near)
                      : read_slowed(&profile, w, false, sums, intervals + lock, n - lock, count, items, &near);
    if (verdict.number != ISM_ACCEPTED) return turned_away(verdict.number, verdict.place);
    if (room < count) return turned_away(ISM_FULL, 0);
    memcpy(out, items, count * sizeof *items);
    ism_corrected answer = {.lock = lock,
                            .count = bytes,
                            .used = verdict.count,
                            .holds = register_after(items, count) == 0,
                            .clearance = clearance_of(&profile, &near),
                            .even = (int32_t)(sums[0] - nominal),
                            .odd = (int32_t)(sums[1] - nominal)};
    return answer;
}

/* --------------------------------------------------------------------------------------------------------- finder */

static bool has_mark(const ism_profile *p, const uint16_t *intervals, size_t n) {
    return has_classes(p, intervals, n, "34343") || has_classes(p, intervals, n, "3234342343");
}

/*
 * `first` is where a run of class 2 begins. As far as it may be full, another interval only moves that place. What
 * stands behind a run stands behind class 2.
 */
ALWAYS_INLINE size_t find_run(const ism_profile *p, bool pairs, const uint16_t *intervals, size_t n, size_t start) {
    const uint16_t min = p->min, behind_two = (uint16_t)(p->b23_short - min),
                   behind_other = (uint16_t)(p->b23_long - min);
    uint16_t width = behind_two;
    for (size_t first = start, k = first; first + SYNC <= n;) {
        for (size_t full = first + SYNC; k < full; k++) {
            bool two = is_two(min, width, intervals[k]);
            first = two ? first : k + 1;
            if (pairs) width = two ? behind_two : behind_other;
        }
        if (k < first + SYNC) continue;
        while (k < n && is_two(min, behind_two, intervals[k])) k++;
        if (has_mark(p, intervals + k, n - k)) return k;
        first = k;
    }
    return NOWHERE;
}

size_t NAME(find_lock)(const ism_profile *p, const uint16_t *intervals, size_t n, uint64_t start) {
    if (start > n) return NOWHERE;
    return has_pairs(p) ? find_run(p, true, intervals, n, (size_t)start)
                        : find_run(p, false, intervals, n, (size_t)start);
}

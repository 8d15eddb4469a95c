/*
 * The contract of ism.h in plain C, as a baseline for the benchmark: no proof, no heap, no table that a call builds
 * beyond what depends on its profile.
 *
 * A stream is seen as half cells, a clock and a data half cell for each bit, sixteen to a byte. A transition is a one.
 * Half cell 0 is the first transition, the clock of the lead 0; half cell 1 is its data; byte k has the half cells from
 * 16 k + 2. A cell of class c is c half cells, the last of them a one.
 */
#include <limits.h>
#include <string.h>

#include "common.h"

/* -------------------------------------------------------------------------------------------------------- register */

/*
 * The CRC register after 64 bits, which begin with the register itself: the remainder of t x^16 by
 * x^16 + x^12 + x^5 + 1. The quotient satisfies q = t ^ q >> 4 ^ q >> 11 ^ q >> 16, so it is t times
 * 1 / (1 + s4 + s11 + s16), where s4 is the shift by 4 and so on. Over bits squaring only doubles the exponents, so
 * that is (1 + s4 + s11 + s16)(1 + s8 + s22 + s32)(1 + s16 + s44)(1 + s32); shifts by 64 or more give nothing.
 */
static inline uint16_t remainder_of(uint64_t t) {
    t ^= t >> 32;
    t ^= t >> 16 ^ t >> 44;
    t ^= t >> 8 ^ t >> 22 ^ t >> 32;
    t ^= t >> 4 ^ t >> 11 ^ t >> 16;
    return (uint16_t)(t ^ t << 5 ^ t << 12);
}

static inline uint64_t first_highest(const uint8_t *bytes) {
    return (uint64_t)bytes[0] << 56 | (uint64_t)bytes[1] << 48 | (uint64_t)bytes[2] << 40 | (uint64_t)bytes[3] << 32 |
           (uint64_t)bytes[4] << 24 | (uint64_t)bytes[5] << 16 | (uint64_t)bytes[6] << 8 | (uint64_t)bytes[7];
}

/* The register after the bytes of the items, eight at a time. */
static uint16_t crc_after(uint16_t crc, const uint16_t *items, size_t n) {
    uint8_t bytes[64];
    size_t i = 0;
    for (; n - i >= sizeof bytes; i += sizeof bytes) {
        for (size_t k = 0; k < sizeof bytes; k++) bytes[k] = (uint8_t)items[i + k];
        for (size_t k = 0; k < sizeof bytes; k += 8) crc = remainder_of(first_highest(bytes + k) ^ (uint64_t)crc << 48);
    }
    for (; n - i >= 8; i += 8) {
        for (size_t k = 0; k < 8; k++) bytes[k] = (uint8_t)items[i + k];
        crc = remainder_of(first_highest(bytes) ^ (uint64_t)crc << 48);
    }
    for (; i < n; i++) crc = (uint16_t)(crc << 8) ^ remainder_of((items[i] & 0xFF) ^ crc >> 8);
    return crc;
}

static inline unsigned any_bit_of_eight(const uint16_t *items) {
    return (unsigned)(items[0] | items[1] | items[2] | items[3] | items[4] | items[5] | items[6] | items[7]);
}

/*
 * The register after items `from` to `to` of a list, which hold no check order; `from` is the start of the list or
 * follows one. Only the last reset counts: it stands before the first of the last marks that follow each other.
 */
static uint16_t register_after(uint16_t crc, const uint16_t *items, size_t from, size_t to) {
    size_t start = to;
    while (start - from >= 8 && any_bit_of_eight(items + start - 8) < ISM_MARK) start -= 8;
    while (start > from && items[start - 1] < ISM_MARK) start--;
    if (start == from) return crc_after(crc, items + from, to - from);
    while (start > from && items[start - 1] >= ISM_MARK) start--;
    return crc_after(ALL_ONES, items + start, to - start);
}

/* --------------------------------------------------------------------------------------------------------- writer */

/*
 * Bits become cells by what stands around them. A bit has a transition unless it is a 0 behind a 1. The cell that ends
 * there depends on three bits before and one behind: bits that differ are what makes a cell longer than 2 units. So a
 * window of five bits has the cell that ends in its fourth, and a window of eight bits, three before, four and one
 * behind, the cells that end in its four middle bits.
 */
#define BIT(window, shift) ((window) >> (shift)&1)
#define CELL_ENDS(window, shift) (((window) >> (shift)&3) != 2)
#define ZEROS_BEFORE(w) (BIT(w, 2) ? !BIT(w, 3) : BIT(w, 4) ^ BIT(w, 3)) /* some or none, in the cell before */
#define ZEROS(w) (BIT(w, 2) ? 0 : BIT(w, 3) + BIT(w, 1))
#define LENGTH_INDEX(w) (6 * ZEROS_BEFORE(w) + 2 * ZEROS(w) + (BIT(w, 1) ^ BIT(w, 0)))
#define CELLS_IN(w) (CELL_ENDS(w, 4) + CELL_ENDS(w, 3) + CELL_ENDS(w, 2) + CELL_ENDS(w, 1))
#define FOR_4(of, w) of(w), of((w) + 1), of((w) + 2), of((w) + 3)
#define FOR_16(of, w) FOR_4(of, w), FOR_4(of, (w) + 4), FOR_4(of, (w) + 8), FOR_4(of, (w) + 12)
#define FOR_64(of, w) FOR_16(of, w), FOR_16(of, (w) + 16), FOR_16(of, (w) + 32), FOR_16(of, (w) + 48)

static const uint8_t length_index[32] = {FOR_16(LENGTH_INDEX, 0), FOR_16(LENGTH_INDEX, 16)};
static const uint8_t cells_in[256] = {FOR_64(CELLS_IN, 0), FOR_64(CELLS_IN, 64), FOR_64(CELLS_IN, 128),
                                      FOR_64(CELLS_IN, 192)};

#define LEAD 0x400u /* what stands before the first byte: a 0 that is no part of a byte */
#define FEW 128u    /* up to so many bytes the table of eight bits costs more than it saves */

struct cell_writer {
    uint16_t length[12];    /* 6 x zeros in the cell before, 2 x zeros, zeros in the cell behind; ends: none or some */
    uint16_t one[32];       /* by window of five bits: the length of its cell */
    uint16_t cells[256][4]; /* by window of eight bits: the lengths of its cells, the first cells_in of them */
    bool few;               /* without `cells` */
    uint16_t *out;
    unsigned last; /* the byte whose second half waits for the bit behind it */
};

static inline uint16_t length(const struct cell_writer *w, unsigned before, unsigned zeros, unsigned behind) {
    return w->length[6 * before + 2 * zeros + behind];
}

static void set_lengths(struct cell_writer *w, const ism_profile *p) {
    const int32_t point[2][2] = {{2 * p->normal, 2 * p->early}, {2 * p->late, 2 * p->normal}};
    uint16_t *at = w->length;
    for (int before = 0; before < 2; before++)
        for (int zeros = 0; zeros < 3; zeros++)
            for (int behind = 0; behind < 2; behind++)
                *at++ = (uint16_t)(p->t1 + zeros * p->t0 + point[zeros > 0][behind] - point[before][zeros > 0]);
    for (unsigned v = 0; v < 32; v++) w->one[v] = w->length[length_index[v]];
}

/* Cells of two bits and of four: the cells of the second half stand behind those of the first. */
static void set_cells(struct cell_writer *w) {
    uint16_t two[64][2];
    for (unsigned first = 0; first < 32; first++) {
        for (unsigned v = 2 * first; v < 2 * first + 2; v++) {
            two[v][0] = two[v][1] = w->one[first];
            two[v][CELL_ENDS(first, 1)] = w->one[v & 31];
        }
    }
    for (unsigned first = 0; first < 64; first++) {
        unsigned cells_in_first = CELL_ENDS(first, 2) + CELL_ENDS(first, 1);
        for (unsigned v = 4 * first; v < 4 * first + 4; v++) {
            memcpy(w->cells[v], two[first], sizeof two[0]);
            memcpy(w->cells[v] + cells_in_first, two[v & 63], sizeof two[0]);
        }
    }
}

/* The cells of a window; up to four places are filled. */
static inline uint16_t *put_window(const struct cell_writer *w, bool few, uint16_t *out, unsigned window) {
    if (!few) {
        memcpy(out, w->cells[window & 0xFF], sizeof w->cells[0]);
        return out + cells_in[window & 0xFF];
    }
    for (int shift = 3; shift >= 0; shift--) {
        *out = w->one[window >> shift & 31];
        out += CELL_ENDS(window, shift + 1);
    }
    return out;
}

/* The second half of a byte: of a mark, whose left out clock makes a cell of 4 units, or as its window says. */
static uint16_t *put_second_half(const struct cell_writer *w, uint16_t *out, unsigned byte, unsigned next) {
    if (byte < 256) return put_window(w, w->few, out, byte << 1 | next >> 7);
    if (byte == LEAD) return out;
    if (byte == ISM_MARK_A1) *out++ = length(w, 1, 1, 1);
    *out++ = length(w, 1, 2, 1);
    *out++ = length(w, 1, 1, byte == ISM_MARK_A1 ? next < 128 : 1);
    return out;
}

/* A byte that is a mark or follows one or the lead. In C2 the cell behind the first half is the one of 4 units. */
static uint16_t *put_beside_mark(const struct cell_writer *w, uint16_t *out, unsigned last, unsigned byte) {
    out = put_second_half(w, out, last, byte & 0xFF);
    out = put_window(w, w->few, out, (last << 8 | (byte & 0xFF)) >> 3);
    if (byte == ISM_MARK_C2) out[-1] = length(w, 0, 1, 1);
    return out;
}

/*
 * Bytes, data or marks. Four places are filled for every half byte. What goes beyond its cells is still of this
 * stream: at least two cells of the last half byte and the closing one are to come.
 */
static inline void put_bytes(struct cell_writer *w, bool few, const uint16_t *bytes, size_t n) {
    uint16_t *out = w->out;
    unsigned last = w->last;
    for (size_t i = 0; i < n; i++) {
        unsigned byte = bytes[i], bits = last << 8 | byte;
        if ((last | byte) > 0xFF) {
            out = put_beside_mark(w, out, last, byte);
        } else {
            out = put_window(w, few, out, bits >> 7);
            out = put_window(w, few, out, bits >> 3);
        }
        last = byte;
    }
    w->out = out;
    w->last = last;
}

/* The last half byte and the closing 0s, whose cells are exactly counted. */
static void close_cells(struct cell_writer *w) {
    uint16_t cells[8];
    uint16_t *end = put_second_half(w, cells, w->last, 0);
    put_window(w, w->few, end, w->last << 5);
    end += w->last & 1 ? 1 : 2;
    memcpy(w->out, cells, (size_t)(end - cells) * sizeof *cells);
    w->out += end - cells;
}

/* The written bytes of a list, in stretches: those up to the next check order, then its two bytes. */
struct stretches {
    const uint16_t *items;
    size_t n, at;
    size_t checks; /* check orders from `at` on */
    uint16_t crc;  /* register at `at` */
    uint16_t check[2];
};

static struct stretches stretches_of(const uint16_t *items, size_t n, size_t checks) {
    struct stretches s = {items, n, 0, checks, ALL_ONES, {0, 0}};
    return s;
}

/* The next stretch; it is empty at the end. After its own two bytes the register is 0. */
static size_t next_stretch(struct stretches *s, const uint16_t **bytes) {
    size_t from = s->at, to = s->n;
    if (from < to && s->items[from] == ISM_CHECK) {
        s->check[0] = s->crc >> 8;
        s->check[1] = s->crc & 0xFF;
        s->crc = 0;
        s->checks--;
        s->at++;
        *bytes = s->check;
        return 2;
    }
    if (s->checks > 0) {
        for (to = from; s->items[to] != ISM_CHECK;) to++;
        s->crc = register_after(s->crc, s->items, from, to);
    }
    *bytes = s->items + from;
    s->at = to;
    return to - from;
}

static inline uint16_t bits_without_cell_in(unsigned before, unsigned byte) {
    unsigned falls = (before << 7 | (byte & 0xFF) >> 1) & ~byte & 0xFF;
    falls = (falls & 0x55) + (falls >> 1 & 0x55);
    falls = (falls & 0x33) + (falls >> 2 & 0x33);
    return (uint16_t)((falls & 15) + (falls >> 4) + (byte >> 8));
}

/* Bits in which no cell ends: a 0 behind a 1, and the left out clock of a mark. */
static size_t bits_without_cell(unsigned last, const uint16_t *bytes, size_t n) {
    uint16_t total = bits_without_cell_in(last, bytes[0]);
    for (size_t i = 1; i < n; i++) total = (uint16_t)(total + bits_without_cell_in(bytes[i - 1], bytes[i]));
    return total;
}

static size_t count_cells(struct stretches s, size_t written) {
    size_t n, without = 0;
    const uint16_t *bytes;
    unsigned last = 0;
    while ((n = next_stretch(&s, &bytes)) > 0) {
        without += bits_without_cell(last, bytes, n);
        last = bytes[n - 1];
    }
    return 8 * written + 2 - without - (last & 1);
}

static size_t write_cells(const ism_profile *p, struct stretches s, size_t written, uint16_t *out) {
    struct cell_writer w;
    size_t n;
    const uint16_t *bytes;
    set_lengths(&w, p);
    w.few = written <= FEW;
    if (!w.few) set_cells(&w);
    w.out = out;
    w.last = LEAD;
    while ((n = next_stretch(&s, &bytes)) > 0) {
        if (w.few)
            put_bytes(&w, true, bytes, n);
        else
            put_bytes(&w, false, bytes, n);
    }
    close_cells(&w);
    return (size_t)(w.out - out);
}

ism_answer NAME(write)(ism_profile profile, const uint16_t *items, size_t n, uint16_t *out, size_t room) {
    ism_answer verdict = check_profile(&profile);
    if (verdict.number != ISM_ACCEPTED) return verdict;
    if (n > ISM_MAX_BYTES) return refused(ISM_OVERLONG, 0);
    uint16_t checks = 0, foreign = 0;
    for (size_t i = 0; i < n; i++) {
        checks = (uint16_t)(checks + (items[i] == ISM_CHECK));
        foreign |= !is_item(items[i]);
    }
    size_t written = n + checks;
    if (written > ISM_MAX_BYTES) return refused(ISM_OVERLONG, 0);
    if (foreign) return refused(ISM_FOREIGN, lowest_foreign(items));
    struct stretches s = stretches_of(items, n, checks);
    if (room < 8 * written + 2 && room < count_cells(s, written)) return refused(ISM_FULL, 0);
    return counted(write_cells(&profile, s, written, out));
}

/* -------------------------------------------------------------------------------------------------------- readers */

#define BLOCK 64u

/*
 * The zeros of the cells of a block, and whether all intervals are in the windows; where there are kinds, each behind
 * its own. The edges are below 32,768, and an interval that is not is in no window, so signed compares do.
 */
ALWAYS_INLINE bool zeros_of(const ism_profile *p, const uint16_t *intervals, const uint16_t *kinds, size_t n,
                            uint16_t *zeros) {
    const uint16_t b23_two = p->b23_short, b23_other = p->b23_long, b34_two = p->b34_short, b34_other = p->b34_long;
    uint16_t min = p->min, width = (uint16_t)(p->rpt - min), outside = 0;
    for (size_t i = 0; i < n; i++) {
        int16_t interval = (int16_t)intervals[i];
        int16_t b23 = (int16_t)(kinds ? of_kind(kinds[i], b23_two, b23_other) : b23_two);
        int16_t b34 = (int16_t)(kinds ? of_kind(kinds[i], b34_two, b34_other) : b34_two);
        zeros[i] = (uint16_t)((interval >= b23) + (interval >= b34));
        outside |= (uint16_t)(intervals[i] - min) >= width;
    }
    return !outside;
}

/* The same for a block behind class 2 or not, and in its place whether its last interval is of class 2. */
ALWAYS_INLINE bool zeros_in_turn(const ism_profile *p, bool *two, const uint16_t *intervals, size_t n,
                                 uint16_t *zeros) {
    uint16_t kinds[BLOCK];
    *two = kinds_before(p, *two, intervals, n, kinds);
    return zeros_of(p, intervals, kinds, n, zeros);
}

/* A full block's length is known to the compiler, and so is whether there are pairs. */
ALWAYS_INLINE bool zeros_of_block(const ism_profile *p, bool pairs, bool *two, const uint16_t *intervals, size_t n,
                                  uint16_t *zeros) {
    if (pairs)
        return n == BLOCK ? zeros_in_turn(p, two, intervals, BLOCK, zeros) : zeros_in_turn(p, two, intervals, n, zeros);
    return n == BLOCK ? zeros_of(p, intervals, NULL, BLOCK, zeros) : zeros_of(p, intervals, NULL, n, zeros);
}

/* The first interval of a block that is narrow or wide. */
static size_t lowest_outside(const ism_profile *p, const uint16_t *intervals) {
    size_t place = 0;
    while (intervals[place] >= p->min && intervals[place] < p->rpt) place++;
    return place;
}

static ism_answer refused_outside(const ism_profile *p, const uint16_t *intervals, size_t place) {
    return refused(intervals[place] < p->min ? ISM_NARROW : ISM_WIDE, place);
}

/* Four cells with a, b, c, d zeros: their half cells and how many these are. */
#define FOUR(a, b, c, d)                                                                                               \
    { 1 << (6 + (b) + (c) + (d)) | 1 << (4 + (c) + (d)) | 1 << (2 + (d)) | 1, 8 + (a) + (b) + (c) + (d) }
#define FOUR_3(a, b, c) FOUR(a, b, c, 0), FOUR(a, b, c, 1), FOUR(a, b, c, 2)
#define FOUR_9(a, b) FOUR_3(a, b, 0), FOUR_3(a, b, 1), FOUR_3(a, b, 2)
#define FOUR_27(a) FOUR_9(a, 0), FOUR_9(a, 1), FOUR_9(a, 2)

static const struct { uint16_t half_cells, count; } four_cells[81] = {FOUR_27(0), FOUR_27(1), FOUR_27(2)};

/*
 * Half cells as they become known, to words of sixteen. Word 0 ends with the lead 0, so that word k is the k-th byte's
 * from 1; up to two words beyond `whole` may be overwritten.
 */
struct word_reader {
    uint16_t *words;
    size_t whole;        /* words that are whole */
    uint64_t half_cells; /* the newest are the lowest */
    unsigned behind;     /* half cells behind the whole words */
};

static struct word_reader reader_into(uint16_t *words) {
    struct word_reader r = {words, 0, 1, 15};
    return r;
}

/* Half cells since the first transition. */
static inline size_t known(const struct word_reader *r) { return 16 * r->whole + r->behind - 15; }

/* The product has 27 a + 9 b + 3 c + d in its highest sixteen bits; nothing below carries. */
static inline void add_four(struct word_reader *r, const uint16_t *zeros) {
    uint64_t all = zeros[0] | (uint64_t)zeros[1] << 16 | (uint64_t)zeros[2] << 32 | (uint64_t)zeros[3] << 48;
    uint64_t index = all * 0x001B000900030001 >> 48;
    unsigned count = four_cells[index].count;
    r->half_cells = r->half_cells << count | four_cells[index].half_cells;
    r->behind += count;
}

/* Eight cells, 16 to 32 half cells, make one word whole or two. */
static inline void add_eight(struct word_reader *r, const uint16_t *zeros) {
    add_four(r, zeros);
    add_four(r, zeros + 4);
    uint64_t words = r->half_cells << (64 - r->behind);
    r->words[r->whole] = (uint16_t)(words >> 48);
    r->words[r->whole + 1] = (uint16_t)(words >> 32);
    r->whole += r->behind >> 4;
    r->behind &= 15;
}

static inline void add_one(struct word_reader *r, unsigned zeros) {
    r->half_cells = r->half_cells << (2 + zeros) | 1;
    r->behind += 2 + zeros;
    r->words[r->whole] = (uint16_t)(r->half_cells << 16 >> r->behind);
    r->whole += r->behind >> 4;
    r->behind &= 15;
}

static inline void add_block(struct word_reader *r, const uint16_t *zeros, size_t n) {
    size_t i = 0;
    for (; n - i >= 8; i += 8) add_eight(r, zeros + i);
    for (; i < n; i++) add_one(r, zeros[i]);
}

/*
 * The clocks that a word lacks: those beside which both bits are 0, the one before and its own. Where cells have two
 * units or more, no clock is there too much.
 */
static inline uint16_t missing_clocks(uint16_t before, uint16_t word) {
    return (uint16_t) ~((uint16_t)(word << 1) | word | word >> 1 | (uint16_t)(before << 15)) & CLOCKS;
}

static inline bool is_mark_word(uint16_t word) { return (word == WORD_A1) | (word == WORD_C2); }

/* Whether a word lacks a clock that is not its mark's. */
static bool any_stray(const uint16_t *words, size_t n) {
    uint16_t stray = 0;
    for (size_t k = 1; k <= n; k++) {
        uint16_t missing = missing_clocks(words[k - 1], words[k]);
        if (words[k] == WORD_A1) missing = 0;
        if (words[k] == WORD_C2) missing = 0;
        stray |= missing;
    }
    return stray != 0;
}

static inline unsigned ones_in(unsigned word) {
    word -= word >> 1 & 0x5555;
    word = (word & 0x3333) + (word >> 2 & 0x3333);
    word = (word + (word >> 4)) & 0x0F0F;
    return (word + (word >> 8)) & 0x1F;
}

/* The interval over the first clock that is missing without a mark: as many intervals as ones stand before it. */
static size_t lowest_stray(const uint16_t *words) {
    size_t k = 1, place = 0;
    while (is_mark_word(words[k]) || missing_clocks(words[k - 1], words[k]) == 0) k++;
    for (size_t i = 1; i < k; i++) place += ones_in(words[i]);
    unsigned missing = missing_clocks(words[k - 1], words[k]), shift = 16;
    while (missing < 1u << shift) shift--;
    return place + ones_in(words[k] >> shift);
}

static void items_of(const uint16_t *words, size_t n, uint16_t *out) {
    for (size_t k = 1; k <= n; k++) {
        uint16_t data = words[k] & DATA;
        data = (data | data >> 1) & 0x3333;
        data = (data | data >> 2) & 0x0F0F;
        data = (data | data >> 4) & 0x00FF;
        out[k - 1] = (uint16_t)(data | (is_mark_word(words[k]) ? ISM_MARK : 0));
    }
}

/* The words of a strip; a refusal if an interval is narrow or wide. Words over the limit are counted, not kept. */
ALWAYS_INLINE ism_answer strip_words(const ism_profile *p, bool pairs, const uint16_t *intervals, size_t n,
                                     struct word_reader *r) {
    size_t beyond = 0;
    bool two = true;
    for (size_t i = 0; i < n; i += BLOCK) {
        uint16_t zeros[BLOCK];
        size_t count = n - i < BLOCK ? n - i : BLOCK;
        bool inside = zeros_of_block(p, pairs, &two, intervals + i, count, zeros);
        if (!inside) return refused_outside(p, intervals, i + lowest_outside(p, intervals + i));
        add_block(r, zeros, count);
        if (r->whole > ISM_MAX_BYTES + 1) {
            beyond += r->whole - 1;
            r->whole = 1;
        }
    }
    r->whole += beyond;
    return counted(0);
}

/* A strip of n bytes has 16 n + 4 half cells: the lead 0's data, the words, and closing clock, data and clock. */
ism_answer NAME(read)(ism_profile profile, const uint16_t *intervals, size_t n, uint16_t *out, size_t room) {
    ism_answer verdict = check_profile(&profile);
    if (verdict.number != ISM_ACCEPTED) return verdict;
    if (n > ISM_MAX_INTERVALS) return refused(ISM_OVERLONG, 0);
    uint16_t words[ISM_MAX_BYTES + 2 + BLOCK / 4 + 2];
    struct word_reader r = reader_into(words);
    verdict = has_pairs(&profile) ? strip_words(&profile, true, intervals, n, &r)
                                  : strip_words(&profile, false, intervals, n, &r);
    if (verdict.number != ISM_ACCEPTED) return verdict;
    if (known(&r) % 16 != 4) return refused(ISM_RAGGED, 0);
    size_t bytes = known(&r) / 16;
    if (bytes > ISM_MAX_BYTES) return refused(ISM_OVERLONG, 0);
    words[bytes + 1] = (uint16_t)(r.half_cells << 13) | 0x0AAA; /* the closing 0s, then clocks as of 0s */
    if (any_stray(words, bytes + 1)) return refused(ISM_STRAY, lowest_stray(words));
    if (room < bytes) return refused(ISM_FULL, 0);
    items_of(words, bytes, out);
    return cleared(counted(bytes), least_clearance(&profile, intervals, n));
}

/* Cells until a field is known or the block ends; how many. Eight cells are less than two words and a half cell. */
static inline size_t add_until(struct word_reader *r, const uint16_t *zeros, size_t n, size_t bytes) {
    size_t i = 0;
    for (; n - i >= 8 && r->whole + 1 < bytes; i += 8) add_eight(r, zeros + i);
    for (; i < n && known(r) <= 16 * bytes; i++) add_one(r, zeros[i]);
    return i;
}

/* The words of a field, from as many intervals as it needs; the answer counts them, or refuses. */
ALWAYS_INLINE ism_answer field_words(const ism_profile *p, bool pairs, const uint16_t *intervals, size_t n,
                                     size_t bytes, struct word_reader *r) {
    size_t used = 0;
    bool two = true;
    while (known(r) <= 16 * bytes) {
        if (used == n) return refused(ISM_SHORT, 0);
        uint16_t zeros[BLOCK];
        const uint16_t *block = intervals + used;
        size_t count = n - used < BLOCK ? n - used : BLOCK;
        bool inside = zeros_of_block(p, pairs, &two, block, count, zeros);
        if (!inside) count = lowest_outside(p, block);
        used += add_until(r, zeros, count, bytes);
        if (!inside && known(r) <= 16 * bytes) return refused_outside(p, intervals, used);
    }
    return counted(used);
}

/*
 * A field of n bytes is known with 16 n + 1 half cells: the lead 0's data and the words. Only a gap that begins with
 * the last bit ends three later.
 */
ism_answer NAME(read_items)(const ism_profile *p, const uint16_t *intervals, size_t n, uint64_t bytes, uint16_t *out,
                            size_t room) {
    if (bytes < 1 || bytes > ISM_MAX_FIELD_BYTES) return refused(ISM_MISCOUNT, 0);
    uint16_t words[ISM_MAX_FIELD_BYTES + 4];
    struct word_reader r = reader_into(words);
    size_t count = (size_t)bytes;
    ism_answer verdict =
        has_pairs(p) ? field_words(p, true, intervals, n, count, &r) : field_words(p, false, intervals, n, count, &r);
    if (verdict.number != ISM_ACCEPTED) return verdict;
    size_t used = (size_t)verdict.count;
    if (any_stray(words, count)) return refused(ISM_STRAY, lowest_stray(words));
    if (known(&r) == 16 * count + 4) return refused(ISM_STRAY, used - 1);
    if (room < bytes) return refused(ISM_FULL, 0);
    items_of(words, count, out);
    ism_answer answer = {ISM_ACCEPTED, 0, bytes, used, register_after(ALL_ONES, out, 0, count) == 0, 0};
    return answer;
}

/* --------------------------------------------------------------------------------------------------------- finder */

#define MARK_CELLS 5u    /* of an A1 mark */
#define TWO_C2_CELLS 10u /* of two C2 marks */

/* Three intervals of a mark, behind class 2 or not. */
static inline bool is_3_4_3(const ism_profile *p, bool two, const uint16_t *intervals) {
    return classify(p, two, intervals[0]) == 3 && classify(p, false, intervals[1]) == 4 &&
           classify(p, false, intervals[2]) == 3;
}

/* Whether n intervals, at least MARK_CELLS, begin with an A1 mark, 3 4 3 4 3, or two C2 marks, 3 2 3 4 3 4 2 3 4 3. */
static bool is_mark_at(const ism_profile *p, const uint16_t *intervals, size_t n) {
    if (classify(p, true, intervals[0]) != 3) return false;
    unsigned second = classify(p, false, intervals[1]);
    if (second == 4) return is_3_4_3(p, false, intervals + 2);
    return second == 2 && n >= TWO_C2_CELLS && is_3_4_3(p, true, intervals + 2) &&
           classify(p, false, intervals[5]) == 4 && classify(p, false, intervals[6]) == 2 &&
           is_3_4_3(p, true, intervals + 7);
}

#define NEAR 8u
#define SPAN 16u

static inline bool all_two(uint16_t min, uint16_t width, const uint16_t *intervals) {
    uint16_t others = 0;
    for (size_t i = 0; i < SPAN; i++) others |= (uint16_t)(intervals[i] - min) >= width;
    return !others;
}

/* From where on the intervals below `at` are of class 2, not below `from`. In data that is near, else far. */
ALWAYS_INLINE size_t run_before(uint16_t min, uint16_t width, const uint16_t *intervals, size_t from, size_t at) {
    size_t near = at - from > NEAR ? at - NEAR : from;
    while (at > near && is_two(min, width, intervals[at - 1])) at--;
    if (at > near) return at;
    while (at - from >= SPAN && all_two(min, width, intervals + at - SPAN)) at -= SPAN;
    while (at > from && is_two(min, width, intervals[at - 1])) at--;
    return at;
}

/* To where the intervals from `at` on are of class 2, not beyond `to`. */
ALWAYS_INLINE size_t run_behind(uint16_t min, uint16_t width, const uint16_t *intervals, size_t at, size_t to) {
    while (to - at >= SPAN && all_two(min, width, intervals + at)) at += SPAN;
    while (at < to && is_two(min, width, intervals[at])) at++;
    return at;
}

/*
 * Equal pairs. The 64 intervals of a run that begins at `first` are looked at from the last one back. One of another
 * class rules out every run over it, and what was seen behind it is not looked at again, so no interval is seen twice.
 */
static size_t find_alike(const ism_profile *p, const uint16_t *intervals, size_t n, size_t start) {
    const uint16_t min = p->min, width = (uint16_t)(p->b23_short - min);
    size_t first = start, seen = first, last = n - MARK_CELLS;
    while (first + SYNC <= last) {
        if (!is_two(min, width, intervals[first + SYNC - 1])) {
            first = seen = first + SYNC;
            continue;
        }
        size_t at = run_before(min, width, intervals, seen, first + SYNC - 1);
        if (at > seen) {
            seen = first + SYNC;
            first = at;
            continue;
        }
        size_t end = run_behind(min, width, intervals, first + SYNC, last + 1);
        if (end <= last && is_mark_at(p, intervals + end, n - end)) return end;
        first = seen = end + 1;
    }
    return NOWHERE;
}

/* A search under pairs: the widths of class 2 behind class 2 and behind any other. */
struct search {
    const uint16_t *intervals;
    size_t start, n;
    uint16_t min, behind_two, behind_other;
};

/*
 * Whether an interval is of class 2. One that lies between the two B23 is of class 2 if the one before is, or if it is
 * not, by which of them is the greater; so it goes back to one that does not, or to the first, which begins as behind
 * class 2.
 */
static bool is_two_at(const struct search *s, size_t at) {
    const uint16_t *d = s->intervals;
    size_t sure = at;
    while (sure > s->start && is_two(s->min, s->behind_two, d[sure]) != is_two(s->min, s->behind_other, d[sure]))
        sure--;
    bool turns = s->behind_two < s->behind_other && (at - sure) % 2 == 1;
    return is_two(s->min, s->behind_two, d[sure]) != turns;
}

/* The first place from `at` on whose interval is of class 2, or the end: behind any other it stays so until one is. */
static size_t next_two(const struct search *s, size_t at) {
    if (is_two_at(s, at)) return at;
    const uint16_t *d = s->intervals, min = s->min, width = s->behind_other;
    for (at++; s->n - at >= SPAN; at += SPAN) {
        uint16_t some = 0;
        for (size_t i = 0; i < SPAN; i++) some |= (uint16_t)(d[at + i] - min) < width;
        if (some) break;
    }
    while (at < s->n && !is_two(min, width, d[at])) at++;
    return at;
}

static inline size_t later(size_t a, size_t b) { return a > b ? a : b; }

/*
 * Pairs. In a run all but the first stand behind class 2, so an interval that is not of class 2 there can only be the
 * first of a run: it rules out every run over it and the one before it. Where none is ruled out, it is left to find out
 * whether the first is of class 2.
 */
static size_t find_behind(const ism_profile *p, const uint16_t *intervals, size_t n, size_t start) {
    const uint16_t min = p->min, behind_two = (uint16_t)(p->b23_short - min),
                   behind_other = (uint16_t)(p->b23_long - min);
    const struct search s = {intervals, start, n, min, behind_two, behind_other};
    size_t first = start, seen = first + 1, last = n - MARK_CELLS;
    while (first + SYNC <= last) {
        size_t full = first + SYNC, at = run_before(min, behind_two, intervals, seen, full);
        if (at > seen) {
            first = is_two(min, behind_other, intervals[at - 1]) ? at - 1 : at;
            seen = later(full, first + 1);
            continue;
        }
        size_t begin = next_two(&s, first);
        if (begin > first) {
            first = begin;
            seen = later(full, first + 1);
            continue;
        }
        size_t end = run_behind(min, behind_two, intervals, full, last + 1);
        if (end <= last && is_mark_at(p, intervals + end, n - end)) return end;
        first = end + 1;
        seen = first + 1;
    }
    return NOWHERE;
}

size_t NAME(find_lock)(const ism_profile *p, const uint16_t *intervals, size_t n, uint64_t start) {
    if (n < SYNC + MARK_CELLS || start > n - SYNC - MARK_CELLS) return NOWHERE;
    return has_pairs(p) ? find_behind(p, intervals, n, (size_t)start) : find_alike(p, intervals, n, (size_t)start);
}

/* --------------------------------------------------------------------------------------------------- sector maker */

static uint16_t *repeat(uint16_t *out, size_t times, uint16_t item) {
    for (size_t i = 0; i < times; i++) out[i] = item;
    return out + times;
}

/* Sync field, three marks and the address mark. */
static uint16_t *start_field(uint16_t *out, uint16_t address_mark) {
    out = repeat(out, 12, 0x00);
    out = repeat(out, 3, ISM_MARK_A1);
    return repeat(out, 1, address_mark);
}

ism_answer NAME(make_sector)(uint8_t track, uint8_t side, uint8_t sector, uint8_t code, const uint8_t *data, size_t n,
                             uint16_t *out, size_t room) {
    if (code < 1 || code > 3 || n != (size_t)128 << code) return refused(ISM_MISFIT, 0);
    if (room < n + 114) return refused(ISM_FULL, 0);
    out = start_field(out, 0xFE);
    *out++ = track;
    *out++ = side;
    *out++ = sector;
    *out++ = code;
    *out++ = ISM_CHECK;
    out = repeat(out, 22, 0x4E);
    out = start_field(out, 0xFB);
    for (size_t i = 0; i < n; i++) out[i] = data[i];
    out[n] = ISM_CHECK;
    repeat(out + n + 1, 54, 0x4E);
    return counted(n + 114);
}

/* -------------------------------------------------------------------------------------------------- drive reports */

/* What of a list reaches an edge, and the greatest interval that does not. */
struct above {
    uint32_t count, sum, least, greatest_below;
};

/*
 * Numbers of sixteen bits with a sign. An interval less the edge is taken around the circle, so that those which reach
 * the edge come first, the least of them the lowest, and those below it last. No count or sum is too great for its
 * type.
 */
static struct above above(uint16_t edge, const uint16_t *intervals, size_t n) {
    int16_t top = (int16_t)(INT16_MAX - edge), least = INT16_MAX, greatest = INT16_MIN;
    uint16_t start = (uint16_t)(edge - INT16_MIN), count = 0;
    int32_t sum = 0;
    for (size_t i = 0; i < n; i++) {
        int16_t distance = (int16_t)(intervals[i] - start), reaches = distance <= top ? -1 : 0;
        count = (uint16_t)(count - reaches);
        sum -= distance * reaches;
        least = distance < least ? distance : least;
        greatest = distance > greatest ? distance : greatest;
    }
    struct above a = {count, (uint32_t)sum + (uint32_t)count * (edge - INT16_MIN), (uint16_t)(least + start),
                      (uint16_t)(greatest + start)};
    return a;
}

static void set_row(ism_report_row *row, struct above lower, struct above upper) {
    ism_report_row numbers = {lower.count - upper.count, lower.least, upper.greatest_below, lower.sum - upper.sum};
    if (numbers.count > 0) *row = numbers;
}

/*
 * Equal pairs. Classes ascend, so a row is the difference of what reaches its two edges; its least is the least that
 * reaches the lower one, and its greatest the greatest that does not reach the upper one. The sum of a list fits in 32
 * bits.
 */
static void fill_alike(ism_report_row *rows, const ism_profile *p, const uint16_t *intervals, size_t n) {
    const uint16_t edges[4] = {p->min, p->b23_short, p->b34_short, p->rpt};
    struct above all = above(0, intervals, n), none = {0, 0, 0, all.greatest_below}, lower = all;
    for (int i = 0; i < 5; i++) {
        struct above upper = i < 4 ? above(edges[i], intervals, n) : none;
        set_row(&rows[i], lower, upper);
        lower = upper;
    }
}

/* The edges of a class, behind class 2 and behind any other. */
struct window {
    uint16_t from_two, from_other, to_two, to_other;
};

/* A row with the intervals of a window among some. Those are below 4,096, and so none is 0 or has a sign. */
static inline void add_window(ism_report_row *row, struct window w, const uint16_t *intervals, const uint16_t *kinds,
                              size_t n) {
    int16_t least = INT16_MAX, greatest = 0;
    uint16_t count = 0;
    int32_t sum = 0;
    for (size_t i = 0; i < n; i++) {
        int16_t interval = (int16_t)intervals[i];
        int16_t from = (int16_t)of_kind(kinds[i], w.from_two, w.from_other);
        int16_t to = (int16_t)of_kind(kinds[i], w.to_two, w.to_other);
        int16_t inside = (interval >= from && interval < to) ? -1 : 0, least_of = (int16_t)(interval | ~inside);
        count = (uint16_t)(count - inside);
        sum -= interval * inside;
        least = lesser16(least, (int16_t)(least_of & INT16_MAX));
        greatest = greater16(greatest, (int16_t)(interval & inside));
    }
    if (count == 0) return;
    if (row->count == 0 || (uint64_t)least < row->least) row->least = (uint64_t)least;
    if ((uint64_t)greatest > row->greatest) row->greatest = (uint64_t)greatest;
    row->count += count;
    row->sum += (uint32_t)sum;
}

/* Pairs: narrow and wide as before, the windows between them by blocks, each interval behind its kind. */
static void fill_behind(ism_report_row *rows, const ism_profile *p, const uint16_t *intervals, size_t n) {
    const struct window windows[3] = {{p->min, p->min, p->b23_short, p->b23_long},
                                      {p->b23_short, p->b23_long, p->b34_short, p->b34_long},
                                      {p->b34_short, p->b34_long, p->rpt, p->rpt}};
    struct above all = above(0, intervals, n), none = {0, 0, 0, all.greatest_below};
    set_row(&rows[0], all, above(p->min, intervals, n));
    set_row(&rows[4], above(p->rpt, intervals, n), none);
    uint16_t kinds[KINDS];
    bool two = true;
    for (size_t i = 0; i < n; i += KINDS) {
        size_t count = n - i < KINDS ? n - i : KINDS;
        two = kinds_before(p, two, intervals + i, count, kinds);
        for (int k = 0; k < 3; k++) add_window(&rows[1 + k], windows[k], intervals + i, kinds, count);
    }
}

ism_report NAME(drive_report)(ism_profile profile, const uint16_t *intervals, size_t n) {
    ism_report report = {0};
    ism_answer verdict = check_profile(&profile);
    if (verdict.number == ISM_ACCEPTED && n > ISM_MAX_INTERVALS) verdict = refused(ISM_OVERLONG, 0);
    report.number = verdict.number;
    report.place = verdict.place;
    if (verdict.number != ISM_ACCEPTED) return report;
    if (has_pairs(&profile))
        fill_behind(report.rows, &profile, intervals, n);
    else
        fill_alike(report.rows, &profile, intervals, n);
    return report;
}

/* A row of count 0 is passed over whatever else it holds. False if a count or a sum does not fit. */
static bool add_rows(const ism_report_row *a, const ism_report_row *b, ism_report_row *sum) {
    const ism_report_row none = {0, 0, 0, 0};
    if (a->count == 0 || b->count == 0) {
        *sum = a->count > 0 ? *a : b->count > 0 ? *b : none;
        return true;
    }
    sum->count = a->count + b->count;
    sum->sum = a->sum + b->sum;
    sum->least = a->least < b->least ? a->least : b->least;
    sum->greatest = a->greatest > b->greatest ? a->greatest : b->greatest;
    return sum->count >= a->count && sum->sum >= a->sum;
}

ism_report NAME(add_reports)(ism_report a, ism_report b) {
    ism_report sum = {0};
    bool fits = true;
    for (int i = 0; i < 5; i++) fits &= add_rows(&a.rows[i], &b.rows[i], &sum.rows[i]);
    if (fits) return sum;
    ism_report overlong = {.number = ISM_OVERLONG};
    return overlong;
}

/* --------------------------------------------------------------------------------------------------------- images */

/* The code word of a data byte behind a bit: a clock is 1 between two 0s. */
static inline uint16_t data_word(unsigned before, unsigned byte) {
    unsigned data = byte & 0xFF;
    data = (data | data << 4) & 0x0F0F;
    data = (data | data << 2) & 0x3333;
    data = (data | data << 1) & DATA;
    return (uint16_t)(data | (~(data << 1 | data >> 1 | before << 15) & CLOCKS));
}

static inline uint16_t word_of(unsigned before, uint16_t item) {
    uint16_t a1 = (uint16_t)(0 - (item == ISM_MARK_A1)), c2 = (uint16_t)(0 - (item == ISM_MARK_C2));
    return (uint16_t)((data_word(before & 1, item) & ~a1 & ~c2) | (WORD_A1 & a1) | (WORD_C2 & c2));
}

/* The words of bytes behind another. */
static uint16_t *put_words(uint16_t *words, unsigned last, const uint16_t *bytes, size_t n) {
    words[0] = word_of(last, bytes[0]);
    for (size_t i = 1; i < n; i++) words[i] = word_of(bytes[i - 1], bytes[i]);
    return words + n;
}

ism_answer NAME(make_image)(const uint16_t *items, size_t n, uint16_t *words, size_t room) {
    if (n > ISM_MAX_BYTES) return refused(ISM_OVERLONG, 0);
    uint16_t checks = 0, foreign = 0;
    for (size_t i = 0; i < n; i++) {
        checks = (uint16_t)(checks + (items[i] == ISM_CHECK));
        foreign |= !is_item(items[i]);
    }
    size_t written = n + checks, count;
    if (written > ISM_MAX_BYTES) return refused(ISM_OVERLONG, 0);
    if (foreign) return refused(ISM_FOREIGN, lowest_foreign(items));
    if (room < written) return refused(ISM_FULL, 0);
    struct stretches s = stretches_of(items, n, checks);
    const uint16_t *bytes;
    unsigned last = 0;
    while ((count = next_stretch(&s, &bytes)) > 0) {
        words = put_words(words, last, bytes, count);
        last = bytes[count - 1];
    }
    return counted(written);
}

/* The clocks in which a word differs from its data's, unless it is a mark's. */
static inline uint16_t unruly_clocks(uint16_t before, uint16_t word) {
    uint16_t mark = (uint16_t)-is_mark_word(word), data = word & DATA;
    uint16_t clocks = (uint16_t)(~(data << 1 | data >> 1 | before << 15) & CLOCKS);
    return (uint16_t)(clocks ^ (word & CLOCKS)) & (uint16_t)~mark;
}

static inline uint16_t item_of(uint16_t word) {
    unsigned data = word & DATA;
    data = (data | data >> 1) & 0x3333;
    data = (data | data >> 2) & 0x0F0F;
    data = (data | data >> 4) & 0x00FF;
    return (uint16_t)(data | (is_mark_word(word) ? ISM_MARK : 0));
}

ism_answer NAME(read_image)(const uint16_t *words, size_t n, uint16_t *items, size_t room) {
    if (n > ISM_MAX_BYTES) return refused(ISM_OVERLONG, 0);
    if (n == 0) return counted(0);
    uint16_t unruly = unruly_clocks(0, words[0]);
    for (size_t i = 1; i < n; i++) unruly |= unruly_clocks(words[i - 1], words[i]);
    if (unruly) {
        size_t place = 0;
        while (unruly_clocks(place > 0 ? words[place - 1] : 0, words[place]) == 0) place++;
        return refused(ISM_UNRULY, place);
    }
    if (room < n) return refused(ISM_FULL, 0);
    for (size_t i = 0; i < n; i++) items[i] = item_of(words[i]);
    return counted(n);
}

/* ------------------------------------------------------------------------------------------------------ two passes */

#define SECTOR_HEAD 3u /* number, length code, whether the sum holds; the data follow */

/* A set of sectors, by number: a bit for those it has and for those it has twice, and where the first of each is. */
struct sector_set {
    const uint8_t *bytes;
    size_t sectors;
    uint64_t has[4], twice[4];
    size_t at[256]; /* only for numbers that it has */
};

static inline size_t sector_bytes(const uint8_t *sector) { return SECTOR_HEAD + ((size_t)128 << sector[1]); }

static inline bool has_bit(const uint64_t *bits, unsigned number) { return bits[number / 64] >> number % 64 & 1; }

/* False if the bytes are not sectors to their end. */
static bool parse_set(struct sector_set *set, const uint8_t *bytes, size_t n) {
    set->bytes = bytes;
    set->sectors = 0;
    memset(set->has, 0, sizeof set->has);
    memset(set->twice, 0, sizeof set->twice);
    for (size_t at = 0; at < n; at += sector_bytes(bytes + at)) {
        if (n - at < SECTOR_HEAD || bytes[at + 1] > 3 || n - at < sector_bytes(bytes + at)) return false;
        unsigned number = bytes[at];
        uint64_t bit = (uint64_t)1 << number % 64;
        set->twice[number / 64] |= set->has[number / 64] & bit;
        if (!has_bit(set->has, number)) set->at[number] = at;
        set->has[number / 64] |= bit;
        set->sectors++;
    }
    return true;
}

/* The copy of a number that is taken; null if both are good and differ. */
static const uint8_t *better_copy(const struct sector_set *a, const struct sector_set *b, unsigned number) {
    if (!has_bit(a->has, number)) return b->bytes + b->at[number];
    const uint8_t *first = a->bytes + a->at[number];
    if (!has_bit(b->has, number)) return first;
    const uint8_t *second = b->bytes + b->at[number];
    if (!second[2]) return first;
    if (!first[2]) return second;
    bool same = first[1] == second[1] &&
                memcmp(first + SECTOR_HEAD, second + SECTOR_HEAD, sector_bytes(first) - SECTOR_HEAD) == 0;
    return same ? first : NULL;
}

/* The copies taken, by number; the answer counts them and their bytes, or refuses. */
static ism_answer choose_copies(const struct sector_set *a, const struct sector_set *b, const uint8_t **taken) {
    size_t count = 0, bytes = 0;
    for (unsigned i = 0; i < 4; i++) {
        for (uint64_t rest = a->has[i] | b->has[i]; rest != 0; rest &= rest - 1) {
            unsigned number = 64 * i + (unsigned)__builtin_ctzll(rest);
            const uint8_t *copy = better_copy(a, b, number);
            if (!copy || has_bit(a->twice, number) || has_bit(b->twice, number)) return refused(ISM_AT_ODDS, number);
            taken[count++] = copy;
            bytes += sector_bytes(copy);
        }
    }
    ism_answer answer = {ISM_ACCEPTED, 0, count, bytes, 0, 0};
    return answer;
}

static unsigned different_numbers(const struct sector_set *a, const struct sector_set *b) {
    unsigned count = 0;
    for (unsigned i = 0; i < 4; i++)
        for (uint64_t rest = a->has[i] | b->has[i]; rest != 0; rest &= rest - 1) count++;
    return count;
}

ism_answer NAME(merge)(const uint8_t *first, size_t n, const uint8_t *second, size_t m, uint8_t *out, size_t room) {
    struct sector_set a, b;
    const uint8_t *taken[ISM_MAX_SECTORS];
    if (!parse_set(&a, first, n) || !parse_set(&b, second, m)) return refused(ISM_MISFIT, 0);
    if (a.sectors > ISM_MAX_SECTORS || b.sectors > ISM_MAX_SECTORS) return refused(ISM_CROWDED, 0);
    if (different_numbers(&a, &b) > ISM_MAX_SECTORS) return refused(ISM_CROWDED, 0);
    ism_answer answer = choose_copies(&a, &b, taken);
    if (answer.number != ISM_ACCEPTED) return answer;
    if (room < answer.used) return refused(ISM_FULL, 0);
    for (size_t i = 0; i < answer.count; i++) {
        memcpy(out, taken[i], sector_bytes(taken[i]));
        out[2] = taken[i][2] != 0;
        out += sector_bytes(taken[i]);
    }
    return answer;
}

/* ----------------------------------------------------------------------------------------------------------- FIFO */

static ism_fifo_answer given(uint16_t item, ism_fifo next) {
    ism_fifo_answer answer = {ISM_ACCEPTED, 0, item, next};
    return answer;
}

static void set_error(ism_fifo *fifo, uint16_t bit) {
    if (fifo->error == 0) fifo->error = bit;
}

static ism_fifo_answer put(ism_fifo fifo, uint16_t item, uint16_t fault) {
    if (!is_item(item)) {
        ism_fifo_answer answer = {ISM_FOREIGN, 0, 0, fifo};
        return answer;
    }
    if (fifo.held == 0) {
        fifo.first = item;
        fifo.held = 1;
    } else if (fifo.held == 1) {
        fifo.second = item;
        fifo.held = 2;
    } else {
        set_error(&fifo, fault);
    }
    return given(0, fifo);
}

static ism_fifo_answer take(ism_fifo fifo, uint16_t fault) {
    if (fifo.held == 0) {
        set_error(&fifo, fault);
        return given(0, fifo);
    }
    uint16_t item = fifo.first;
    fifo.held = fifo.held != 1;
    fifo.first = fifo.second;
    return given(item, fifo);
}

ism_fifo NAME(fifo_new)(uint16_t mode) {
    ism_fifo fifo = {mode, 0, 0, 0, 0};
    return fifo;
}

ism_fifo_answer NAME(fifo_put)(ism_fifo fifo, uint16_t item) {
    return fifo.mode == ISM_FIFO_WRITE ? put(fifo, item, ISM_ERROR_PROCESSOR) : given(0, fifo);
}

ism_fifo_answer NAME(fifo_chip_put)(ism_fifo fifo, uint16_t item) {
    return fifo.mode == ISM_FIFO_WRITE ? given(0, fifo) : put(fifo, item, ISM_ERROR_CHIP);
}

ism_fifo_answer NAME(fifo_take_data)(ism_fifo fifo) {
    if (fifo.mode == ISM_FIFO_WRITE) return given(0, fifo);
    ism_fifo_answer answer = take(fifo, ISM_ERROR_PROCESSOR);
    if (is_mark(answer.item)) set_error(&answer.next, ISM_ERROR_MARK_AS_DATA);
    return answer;
}

ism_fifo_answer NAME(fifo_take_mark)(ism_fifo fifo) {
    return fifo.mode == ISM_FIFO_WRITE ? given(0, fifo) : take(fifo, ISM_ERROR_PROCESSOR);
}

ism_fifo_answer NAME(fifo_chip_take)(ism_fifo fifo) {
    return fifo.mode == ISM_FIFO_WRITE ? take(fifo, ISM_ERROR_CHIP) : given(0, fifo);
}

ism_fifo_answer NAME(fifo_read_error)(ism_fifo fifo) {
    uint16_t error = fifo.error;
    fifo.error = 0;
    return given(error, fifo);
}

/* What the C versions of ism.h share: answers, the profile, items. PREFIX is what their functions have for ism_. */
#ifndef ISM_COMMON_H
#define ISM_COMMON_H

#include <stdbool.h>

#include "ism.h"

#define PASTE(a, b) a##b
#define PREFIXED(a, b) PASTE(a, b)
#define NAME(function) PREFIXED(PREFIX, function)
#define SHARED __attribute__((unused)) static                      /* not every version needs each */
#define ALWAYS_INLINE __attribute__((always_inline)) static inline /* for each value of a constant argument anew */

/* ------------------------------------------------------------------------------------------------------- answers */

SHARED ism_answer refused(uint32_t number, size_t place) {
    ism_answer answer = {number, (uint32_t)place, 0, 0, 0, 0};
    return answer;
}

SHARED ism_answer counted(uint64_t count) {
    ism_answer answer = {ISM_ACCEPTED, 0, count, 0, 0, 0};
    return answer;
}

/* ------------------------------------------------------------------------------------------------------- profile */

/* The first number out of range, 1 to 11, or 0. */
SHARED uint32_t out_of_range(const ism_profile *p) {
    const uint16_t edges[6] = {p->min, p->b23_short, p->b23_long, p->b34_short, p->b34_long, p->rpt};
    if (p->t1 < 1 || p->t1 > 1023) return 1;
    if (p->t0 < 1 || p->t0 > 1023) return 2;
    if (p->early > 15) return 3;
    if (p->normal > 15) return 4;
    if (p->late > 15) return 5;
    for (uint32_t i = 0; i < 6; i++)
        if (edges[i] < 1 || edges[i] > 4095) return 6 + i;
    return 0;
}

static inline int32_t lesser(int32_t a, int32_t b) { return a < b ? a : b; }

/*
 * The margin, below 0 if the windows miss the cell lengths. A longer cell is at its longest where it begins early and
 * ends late, one of 2 units at its shortest the other way round. Behind a cell of 2 units a longer one begins early and
 * one of 2 units normal; behind a longer cell they begin normal and late.
 */
SHARED int32_t least_distance(const ism_profile *p) {
    int32_t e = 2 * (p->normal - p->early), l = 2 * (p->late - p->normal);
    int32_t two = p->t1, three = two + p->t0, four = three + p->t0;
    int32_t outer = lesser(two - e - l - p->min, p->rpt - 1 - four - e - l);
    int32_t short_23 = lesser(p->b23_short - 1 - two, three + e - p->b23_short);
    int32_t short_34 = lesser(p->b34_short - 1 - three - e - l, four + e - p->b34_short);
    int32_t long_23 = lesser(p->b23_long - 1 - two + l, three - p->b23_long);
    int32_t long_34 = lesser(p->b34_long - 1 - three - l, four - p->b34_long);
    return lesser(outer, lesser(lesser(short_23, short_34), lesser(long_23, long_34)));
}

/* The refusal of a profile; number 0 if it is accepted. */
SHARED ism_answer check_profile(const ism_profile *p) {
    uint32_t which = out_of_range(p);
    if (which != 0) return refused(ISM_UNSET, which);
    if (p->early > p->normal || p->normal > p->late || least_distance(p) < 0) return refused(ISM_CROSSED, 0);
    return counted(0);
}

/* ------------------------------------------------------------------------------------------------ kinds of interval */

/* The bounds between the windows of classes 2, 3 and 4, behind an interval of class 2 or behind any other. */
static inline uint16_t b23_behind(const ism_profile *p, bool two) { return two ? p->b23_short : p->b23_long; }

static inline uint16_t b34_behind(const ism_profile *p, bool two) { return two ? p->b34_short : p->b34_long; }

/* Whether the kind of the interval before matters. */
static inline bool has_pairs(const ism_profile *p) {
    return p->b23_short != p->b23_long || p->b34_short != p->b34_long;
}

/* The edges of a true profile ascend, so the class is one more than the number of edges that the interval reaches. */
static inline unsigned classify(const ism_profile *p, bool two, uint16_t interval) {
    return ISM_CLASS_NARROW + (interval >= p->min) + (interval >= b23_behind(p, two)) +
           (interval >= b34_behind(p, two)) + (interval >= p->rpt);
}

/* Whether an interval is of class 2, as one compare: `width` is from Min to the B23 behind its kind. */
static inline bool is_two(uint16_t min, uint16_t width, uint16_t interval) {
    return (uint16_t)(interval - min) < width;
}

#define BEHIND_TWO 0xFFFFu

/* One of two numbers by the kind of the interval before, BEHIND_TWO or 0, without a jump. */
static inline uint16_t of_kind(uint16_t kind, uint16_t behind_two, uint16_t behind_other) {
    return behind_other ^ ((behind_two ^ behind_other) & kind);
}

/*
 * The kind of the interval before, for each of some intervals, the first of which stands behind class 2 or not; answers
 * whether the last is of class 2. Where none lies between the two B23, each says by itself whether it is of class 2.
 */
ALWAYS_INLINE bool kinds_before(const ism_profile *p, bool two, const uint16_t *intervals, size_t n, uint16_t *kinds) {
    const uint16_t min = p->min, behind_two = (uint16_t)(p->b23_short - min),
                   behind_other = (uint16_t)(p->b23_long - min);
    uint16_t low = behind_two < behind_other ? p->b23_short : p->b23_long, unsure = 0;
    uint16_t gap = (uint16_t)(behind_two < behind_other ? behind_other - behind_two : behind_two - behind_other);
    for (size_t i = 0; i < n; i++) unsure |= (uint16_t)(intervals[i] - low) < gap;
    if (!unsure) {
        kinds[0] = two ? BEHIND_TWO : 0;
        for (size_t i = 1; i < n; i++) kinds[i] = is_two(min, behind_two, intervals[i - 1]) ? BEHIND_TWO : 0;
        return is_two(min, behind_two, intervals[n - 1]);
    }
    for (size_t i = 0; i < n; i++) {
        kinds[i] = two ? BEHIND_TWO : 0;
        two = is_two(min, two ? behind_two : behind_other, intervals[i]);
    }
    return two;
}

/* ------------------------------------------------------------------------------------------------------ clearance */

static inline int16_t lesser16(int16_t a, int16_t b) { return a < b ? a : b; }

static inline int16_t greater16(int16_t a, int16_t b) { return a > b ? a : b; }

/*
 * The least clearance of some intervals, none of them narrow or wide: how near they come to an edge. At Min that is the
 * shortest, at Rpt the longest. At a bound between two windows the differences are seen such that those of intervals
 * below the bound come last: then the first is the nearest from the bound up, the last the nearest below.
 */
struct nearest {
    int16_t shortest, longest, from_b23, below_b23, from_b34, below_b34;
};

static const struct nearest none_near = {INT16_MAX, INT16_MIN, INT16_MAX, INT16_MIN, INT16_MAX, INT16_MIN};

/* With some intervals more, all behind class 2 or, where there are kinds, each behind its own. */
ALWAYS_INLINE void add_nearest(struct nearest *near, const ism_profile *p, const uint16_t *intervals,
                               const uint16_t *kinds, size_t n) {
    const uint16_t b23_two = (uint16_t)(p->b23_short + INT16_MIN), b23_other = (uint16_t)(p->b23_long + INT16_MIN);
    const uint16_t b34_two = (uint16_t)(p->b34_short + INT16_MIN), b34_other = (uint16_t)(p->b34_long + INT16_MIN);
    int16_t shortest = near->shortest, from_b23 = near->from_b23, from_b34 = near->from_b34;
    int16_t longest = near->longest, below_b23 = near->below_b23, below_b34 = near->below_b34;
    for (size_t i = 0; i < n; i++) {
        uint16_t b23 = kinds ? of_kind(kinds[i], b23_two, b23_other) : b23_two;
        uint16_t b34 = kinds ? of_kind(kinds[i], b34_two, b34_other) : b34_two;
        int16_t interval = (int16_t)intervals[i];
        int16_t to_b23 = (int16_t)(intervals[i] - b23), to_b34 = (int16_t)(intervals[i] - b34);
        shortest = lesser16(shortest, interval);
        longest = greater16(longest, interval);
        from_b23 = lesser16(from_b23, to_b23);
        below_b23 = greater16(below_b23, to_b23);
        from_b34 = lesser16(from_b34, to_b34);
        below_b34 = greater16(below_b34, to_b34);
    }
    struct nearest more = {shortest, longest, from_b23, below_b23, from_b34, below_b34};
    *near = more;
}

SHARED uint32_t clearance_of(const ism_profile *p, const struct nearest *near) {
    int32_t outer = lesser(near->shortest - p->min, p->rpt - 1 - near->longest);
    int32_t b23 = lesser(near->from_b23 - INT16_MIN, INT16_MAX - near->below_b23);
    int32_t b34 = lesser(near->from_b34 - INT16_MIN, INT16_MAX - near->below_b34);
    return (uint32_t)lesser(outer, lesser(b23, b34));
}

/* Of one interval, neither narrow nor wide, behind class 2 or any other. */
SHARED uint32_t clearance_behind(const ism_profile *p, bool two, uint16_t interval) {
    const uint16_t kind = two ? BEHIND_TWO : 0;
    struct nearest near = none_near;
    add_nearest(&near, p, &interval, &kind, 1);
    return clearance_of(p, &near);
}

#define KINDS 256u /* found at once */

/* Of a list. */
SHARED uint32_t least_clearance(const ism_profile *p, const uint16_t *intervals, size_t n) {
    struct nearest near = none_near;
    if (!has_pairs(p)) {
        add_nearest(&near, p, intervals, NULL, n);
        return clearance_of(p, &near);
    }
    uint16_t kinds[KINDS];
    bool two = true;
    for (size_t i = 0; i < n; i += KINDS) {
        size_t count = n - i < KINDS ? n - i : KINDS;
        two = kinds_before(p, two, intervals + i, count, kinds);
        add_nearest(&near, p, intervals + i, kinds, count);
    }
    return clearance_of(p, &near);
}

SHARED ism_answer cleared(ism_answer answer, uint32_t clearance) {
    answer.clearance = clearance;
    return answer;
}

/* ---------------------------------------------------------------------------------------------------------- items */

#define ALL_ONES 0xFFFFu /* the register at the start of a list */

static inline bool is_mark(uint16_t item) { return item == ISM_MARK_A1 || item == ISM_MARK_C2; }

static inline bool is_item(uint16_t item) { return (item < 256) | is_mark(item) | (item == ISM_CHECK); }

SHARED size_t lowest_foreign(const uint16_t *items) {
    size_t place = 0;
    while (is_item(items[place])) place++;
    return place;
}

/* ---------------------------------------------------------------------------------------------------------- locks */

#define SYNC 64u /* intervals of class 2 before a mark */
#define NOWHERE SIZE_MAX

/* Whether the intervals behind one of class 2 begin with these classes; each tells the kind of the one behind it. */
SHARED bool has_classes(const ism_profile *p, const uint16_t *intervals, size_t n, const char *classes) {
    bool two = true;
    size_t i = 0;
    for (; i < n && classes[i] != 0; i++) {
        if (classify(p, two, intervals[i]) != (unsigned)(classes[i] - '0')) return false;
        two = classes[i] == '2';
    }
    return classes[i] == 0;
}

/* The place of the first lock from a place on, under a true profile, or NOWHERE. */
size_t NAME(find_lock)(const ism_profile *p, const uint16_t *intervals, size_t n, uint64_t start);

/* --------------------------------------------------------------------------------------------------------- fields */

/* A field under a true profile, its clearance aside. */
ism_answer NAME(read_items)(const ism_profile *p, const uint16_t *intervals, size_t n, uint64_t bytes, uint16_t *out,
                            size_t room);

/* ----------------------------------------------------------------------------------------------------- half cells */

#define WORD_A1 0x4489u
#define WORD_C2 0x5224u
#define DATA 0x5555u
#define CLOCKS 0xAAAAu

#endif

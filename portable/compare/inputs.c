#include "inputs.h"

#include <string.h>

/* What the making of an input needs for itself. */
static uint16_t scratch_items[MOST_ITEMS];
static uint16_t scratch_intervals[MOST_INTERVALS];

uint64_t any(source *s) {
    uint64_t z = s->state += 0x9E3779B97F4A7C15u;
    z = (z ^ (z >> 30)) * 0xBF58476D1CE4E5B9u;
    z = (z ^ (z >> 27)) * 0x94D049BB133111EBu;
    return z ^ (z >> 31);
}

uint64_t between(source *s, uint64_t least, uint64_t most) { return least + any(s) % (most - least + 1); }

int one_in(source *s, uint64_t times) { return between(s, 1, times) == 1; }

static uint16_t number(source *s, uint32_t least, uint32_t most) { return (uint16_t)between(s, least, most); }

/* Each bound anywhere that the ten inequalities of ism.h leave to it. */
ism_profile true_profile(source *s) {
    static const ism_profile worked = {58, 29, 8, 10, 12, 36, 73, 73, 106, 106, 139};
    static const ism_profile pairs = {58, 29, 8, 10, 12, 36, 75, 71, 108, 104, 139};
    ism_profile p = worked;
    if (one_in(s, 3)) return p;
    if (one_in(s, 3)) return pairs;
    p.early = number(s, 0, 15);
    p.normal = number(s, p.early, 15);
    p.late = number(s, p.normal, 15);
    uint32_t e = 2u * (p.normal - p.early), l = 2u * (p.late - p.normal), d = e + l;
    p.t1 = number(s, d + 1, one_in(s, 2) ? 100 : 1023);
    p.t0 = number(s, l + 1, one_in(s, 2) ? 60 : 1023);
    p.min = number(s, 1, p.t1 - d);
    p.b23_short = number(s, p.t1 + 1u, p.t1 + p.t0 + e);
    p.b23_long = number(s, p.t1 - l + 1, (uint32_t)p.t1 + p.t0);
    p.b34_short = number(s, p.t1 + p.t0 + d + 1, p.t1 + 2u * p.t0 + e);
    p.b34_long = number(s, p.t1 + p.t0 + l + 1, p.t1 + 2u * p.t0);
    p.rpt = number(s, p.t1 + 2u * p.t0 + d + 1, 4095);
    return p;
}

ism_profile any_profile(source *s) {
    static const uint16_t limits[] = {0, 1, 15, 16, 1023, 1024, 4095, 4096, 65535};
    ism_profile p = true_profile(s);
    uint16_t *const numbers[] = {&p.t1,        &p.t0,       &p.early,     &p.normal,   &p.late, &p.min,
                                 &p.b23_short, &p.b23_long, &p.b34_short, &p.b34_long, &p.rpt};
    if (!one_in(s, 8)) return p;
    uint16_t *changed = numbers[between(s, 0, 10)];
    if (one_in(s, 2)) {
        *changed = limits[between(s, 0, 8)];
    } else {
        *changed = (uint16_t)(*changed + between(s, 0, 20) - 10);
    }
    return p;
}

size_t any_length(source *s, size_t most) {
    if (one_in(s, 200)) return (size_t)between(s, most - 2, most);
    if (one_in(s, 20)) return (size_t)between(s, 0, most < 400 ? most : 400);
    return (size_t)between(s, 0, most < 24 ? most : 24);
}

size_t any_room(source *s, size_t exact, size_t most) {
    size_t room = exact;
    switch (between(s, 0, 7)) {
    case 0:
        room = exact ? exact - 1 : 0;
        break;
    case 1:
        room = 0;
        break;
    case 2:
        room = exact + (size_t)between(s, 1, 9);
        break;
    case 3:
        room = (size_t)between(s, 0, exact);
        break;
    case 4:
        return most;
    default:
        break;
    }
    return room < most ? room : most;
}

static uint16_t any_item(source *s) {
    static const uint16_t marks[] = {ISM_MARK_A1, ISM_MARK_C2, ISM_CHECK};
    static const uint16_t common[] = {0x00, 0xFF, 0x4E, 0xA1, 0xC2, 0xAA, 0x55};
    if (one_in(s, 6)) return marks[between(s, 0, 2)];
    if (one_in(s, 3)) return common[between(s, 0, 6)];
    return (uint16_t)between(s, 0, 255);
}

void fill_items(source *s, uint16_t *items, size_t n) {
    /* check orders count two, so that a long list without them is accepted more often */
    int plain = one_in(s, 3);
    for (size_t k = 0; k < n; k++) items[k] = plain ? (uint16_t)between(s, 0, 255) : any_item(s);
    if (n && one_in(s, 10)) {
        size_t at = (size_t)between(s, 0, n - 1);
        items[at] = (uint16_t)between(s, 256, one_in(s, 2) ? 1024 : 65535);
    }
}

/* An interval of a class: 0 narrow, 1 to 3 for 2 to 4, 4 wide; by the edges after class 2 or by those after others. */
static uint16_t interval_of_class(source *s, const ism_profile *p, unsigned class_) {
    uint32_t edges[6] = {0, p->min, p->b23_short, p->b34_short, p->rpt, 65536};
    if (one_in(s, 2)) {
        edges[2] = p->b23_long;
        edges[3] = p->b34_long;
    }
    uint32_t least = edges[class_], most = edges[class_ + 1] - 1;
    if (most < least) return (uint16_t)least;
    if (one_in(s, 4)) return (uint16_t)(one_in(s, 2) ? least : most);
    return number(s, least, most);
}

/* Moves each by at most so many half clocks. */
static void move(source *s, uint16_t *intervals, size_t n, uint32_t most) {
    for (size_t k = 0; k < n; k++) {
        uint32_t moved = intervals[k] + (uint32_t)between(s, 0, 2 * most);
        intervals[k] = moved < most ? 0 : (uint16_t)(moved - most);
    }
}

/* Changes, takes out or doubles an interval. The length after that. */
static size_t damage(source *s, const ism_profile *p, uint16_t *intervals, size_t n, size_t most) {
    if (n == 0) return 0;
    size_t at = (size_t)between(s, 0, n - 1);
    switch (between(s, 0, 3)) {
    case 0:
        memmove(intervals + at, intervals + at + 1, (n - at - 1) * sizeof *intervals);
        return n - 1;
    case 1:
        if (n == most) return n;
        memmove(intervals + at + 1, intervals + at, (n - at) * sizeof *intervals);
        return n + 1;
    default:
        intervals[at] = interval_of_class(s, p, (unsigned)between(s, 0, 4));
        return n;
    }
}

static size_t written(source *s, const ism_profile *p, uint16_t *intervals, size_t most) {
    size_t n = any_length(s, ISM_MAX_BYTES / 2);
    for (size_t k = 0; k < n; k++) scratch_items[k] = any_item(s);
    size_t count = (size_t)ism_write(*p, scratch_items, n, intervals, most).count;
    if (one_in(s, 3)) move(s, intervals, count, (uint32_t)ism_margin(*p).count + (one_in(s, 4) ? 2 : 0));
    while (one_in(s, 3)) count = damage(s, p, intervals, count, most);
    return count;
}

/* A sync field, then perhaps a mark's classes and some more. */
static size_t run(source *s, const ism_profile *p, uint16_t *intervals, size_t most) {
    static const unsigned char a1[] = {3, 4, 3, 4, 3}, c2[] = {3, 2, 3, 4, 3, 4, 2, 3, 4, 3};
    size_t n = 0, length = (size_t)between(s, 60, 68);
    for (; n < length && n < most; n++) intervals[n] = interval_of_class(s, p, 1);
    int is_a1 = one_in(s, 2);
    for (size_t k = 0; k < (is_a1 ? 5u : 10u) && n < most; k++) {
        intervals[n++] = interval_of_class(s, p, (is_a1 ? a1 : c2)[k] - 1u);
    }
    return n;
}

size_t fill_intervals(source *s, ism_profile profile, uint16_t *intervals, size_t most) {
    ism_profile p = profile;
    size_t n = 0, count;
    switch (between(s, 0, 5)) {
    case 0:
        count = any_length(s, most);
        for (; n < count; n++) intervals[n] = interval_of_class(s, &p, (unsigned)between(s, one_in(s, 30) ? 0 : 1, 3));
        return n;
    case 1:
        for (count = (size_t)between(s, 1, 4); count; count--) n += run(s, &p, intervals + n, most - n);
        return n;
    case 2:
        count = any_length(s, most);
        for (; n < count; n++) intervals[n] = (uint16_t)any(s);
        return n;
    case 3:
        if (one_in(s, 60)) {
            for (; n < most; n++) intervals[n] = interval_of_class(s, &p, 1);
            return n;
        }
        return fill_track(s, p, (unsigned)between(s, 1, 2), intervals, most);
    default:
        return written(s, &p, intervals, most);
    }
}

/* The items of a sector, of any length code: ism_make_sector makes no more of code 0, and old disks have them. */
static size_t sector_items(source *s, unsigned sector, unsigned code, uint16_t *items) {
    const uint16_t id[] = {0xFE, 39, (uint16_t)between(s, 0, 1), (uint16_t)sector, (uint16_t)code, ISM_CHECK};
    size_t n = 0, size = (size_t)128 << code;
    for (int k = 0; k < 15; k++) items[n++] = k < 12 ? 0 : ISM_MARK_A1;
    for (int k = 0; k < 6; k++) items[n++] = id[k];
    for (int k = 0; k < 22; k++) items[n++] = 0x4E;
    for (int k = 0; k < 15; k++) items[n++] = k < 12 ? 0 : ISM_MARK_A1;
    items[n++] = 0xFB;
    for (size_t k = 0; k < size; k++) items[n++] = (uint16_t)(any(s) & 0xFF);
    items[n++] = ISM_CHECK;
    for (int k = 0; k < 54; k++) items[n++] = 0x4E;
    return n;
}

size_t fill_track(source *s, ism_profile profile, unsigned sectors, uint16_t *intervals, size_t most) {
    size_t n = 0;
    uint64_t whole = sectors > 4 ? 60 : 6;
    for (unsigned k = 0; k < sectors; k++) {
        unsigned code = sectors > 4 ? 0 : (unsigned)between(s, 0, 3);
        size_t items = sector_items(s, k, code, scratch_items);
        if (one_in(s, whole)) scratch_items[between(s, 12, items - 60)] ^= 1;
        size_t count = (size_t)ism_write(profile, scratch_items, items, scratch_intervals, MOST_INTERVALS).count;
        if (one_in(s, whole)) count = damage(s, &profile, scratch_intervals, count, MOST_INTERVALS);
        if (n + count > most) break;
        memcpy(intervals + n, scratch_intervals, count * sizeof *intervals);
        n += count;
    }
    return n;
}

size_t fill_words(source *s, uint16_t *words, size_t most) {
    size_t n = any_length(s, most);
    if (one_in(s, 4)) {
        for (size_t k = 0; k < n; k++) words[k] = (uint16_t)any(s);
        return n;
    }
    for (size_t k = 0; k < n; k++) scratch_items[k] = any_item(s);
    size_t count = (size_t)ism_make_image(scratch_items, n, words, most).count;
    if (count && one_in(s, 2)) {
        size_t at = (size_t)between(s, 0, count - 1);
        words[at] ^= (uint16_t)(1u << between(s, 0, 15));
    }
    /* a list that is too long gives no image; its words are as they were */
    return count ? count : n;
}

size_t fill_set(source *s, uint8_t *set, size_t most) {
    size_t n = 0;
    unsigned sectors = (unsigned)(one_in(s, 12) ? between(s, 30, 34) : between(s, 0, 6)), number_ = 0;
    int shuffled = one_in(s, 3);
    for (unsigned k = 0; k < sectors; k++) {
        number_ = shuffled ? (unsigned)between(s, 0, 255) : number_ + (unsigned)between(s, 1, 3);
        unsigned code = one_in(s, 200) ? 4 : one_in(s, 8) ? (unsigned)between(s, 0, 3) : 0;
        size_t size = code < 4 ? (size_t)128 << code : 7;
        if (n + 3 + size > most) break;
        set[n] = (uint8_t)number_;
        set[n + 1] = (uint8_t)code;
        set[n + 2] = (uint8_t)(one_in(s, 2) ? 0 : one_in(s, 2) ? 1 : any(s));
        /* the same data in every set for one number, so that two good copies mostly agree */
        memset(set + n + 3, (int)(number_ * 7 % 256), size);
        if (one_in(s, 12)) set[n + 3 + between(s, 0, size - 1)] ^= 1;
        n += 3 + size;
    }
    return n && one_in(s, 12) ? n - (size_t)between(s, 1, n < 130 ? n : 130) : n;
}

ism_report any_report(source *s) {
    ism_report report;
    memset(&report, 0, sizeof report);
    for (int k = 0; k < 5; k++) {
        ism_report_row *row = &report.rows[k];
        int shift = (int)between(s, 0, one_in(s, 4) ? 63 : 20);
        if (one_in(s, 4)) continue;
        row->count = one_in(s, 30) ? UINT64_MAX - between(s, 0, 3) : any(s) >> (63 - shift);
        row->sum = one_in(s, 30) ? UINT64_MAX - between(s, 0, 3) : any(s) >> (63 - shift);
        row->least = between(s, 0, 200);
        row->greatest = row->least + between(s, 0, 400);
    }
    report.number = (uint32_t)between(s, 0, 3);
    return report;
}

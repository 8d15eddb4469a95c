/* The calls of ism.h. An entry that the header gains gets a call and a row of the table at the end. */
#include "calls.h"

#include <string.h>

static uint16_t items[MOST_ITEMS], intervals[MOST_INTERVALS], out[MOST_INTERVALS + 8];
static uint8_t first_set[MOST_SET_BYTES], second_set[MOST_SET_BYTES], merged[2 * MOST_SET_BYTES], data[1100];

static uint32_t add_report(ism_report report) {
    add(report.number);
    add(report.place);
    for (int k = 0; k < 5; k++) {
        add(report.rows[k].count);
        add(report.rows[k].least);
        add(report.rows[k].greatest);
        add(report.rows[k].sum);
    }
    return report.number;
}

static uint32_t add_limits(const ism_limits *limits) {
    add(limits->number);
    add(limits->place);
    add(limits->count);
    for (unsigned k = 0; k < ISM_MAX_LIMITS; k++) {
        const ism_limit *limit = &limits->limits[k];
        add(limit->edge);
        add(limit->after);
        add(limit->above);
        add(limit->item);
        add(limit->interval);
        add(limit->moved);
    }
    return limits->number;
}

static uint32_t add_index(const ism_index *index) {
    add(index->number);
    add(index->place);
    add(index->count);
    for (unsigned k = 0; k < ISM_MAX_SECTORS; k++) {
        const ism_index_entry *entry = &index->entries[k];
        const uint8_t rest[] = {entry->track, entry->side, entry->sector, entry->code, entry->found, entry->holds};
        add(entry->id_place);
        add(entry->data_place);
        add_bytes(rest, sizeof rest);
    }
    return index->number;
}

static uint32_t add_best(const ism_best *best) {
    const ism_profile *p = &best->profile;
    const uint16_t numbers[] = {p->t1,        p->t0,       p->early,     p->normal,   p->late, p->min,
                                p->b23_short, p->b23_long, p->b34_short, p->b34_long, p->rpt};
    add(best->number);
    add(best->place);
    add(best->margin);
    add_numbers(numbers, 11);
    return best->number;
}

static void add_fifo(ism_fifo fifo) {
    const uint16_t numbers[] = {fifo.mode, fifo.held, fifo.first, fifo.second, fifo.error};
    add_numbers(numbers, 5);
}

static uint32_t add_fifo_answer(ism_fifo_answer answer) {
    add(answer.number);
    add(answer.place);
    add(answer.item);
    add_fifo(answer.next);
    return answer.number;
}

/* What stands in an output before a call, so that a store too many shows. */
static void spoil(uint16_t *numbers, size_t n) {
    for (size_t k = 0; k < n; k++) numbers[k] = (uint16_t)(0xE000 + k);
}

static size_t no_more(size_t n, size_t most) { return n < most ? n : most; }

/* One call of an entry each: arguments from the source, then the call; the answer's number is returned. */

static uint32_t call_version(source *s) {
    (void)s;
    add(ism_version());
    return 0;
}

static uint32_t call_interface(source *s) {
    (void)s;
    add(ism_interface_9());
    return 0;
}

static uint32_t call_margin(source *s) { return add_answer(ism_margin(any_profile(s))); }

static uint32_t call_margin_limits(source *s) {
    ism_limits limits = ism_margin_limits(any_profile(s));
    return add_limits(&limits);
}

static uint32_t call_best_windows(source *s) {
    ism_profile p = any_profile(s);
    ism_best best = ism_best_windows(p.t1, p.t0, p.early, p.normal, p.late);
    return add_best(&best);
}

static uint32_t call_class(source *s) {
    ism_profile p = any_profile(s);
    uint16_t interval = (uint16_t)(one_in(s, 4) ? any(s) : between(s, 0, 300));
    return add_answer(ism_class(p, interval, (uint32_t)(one_in(s, 8) ? any(s) : between(s, 0, 1))));
}

static uint32_t call_write(source *s) {
    ism_profile p = any_profile(s);
    size_t n = any_length(s, MOST_ITEMS), most = no_more(16 * n + 10, MOST_INTERVALS);
    fill_items(s, items, n);
    size_t exact = (size_t)ism_write(p, items, n, out, most).count, room = any_room(s, exact, most);
    spoil(out, room + 8);
    uint32_t answered = add_answer(ism_write(p, LIST(items, n), LIST(out, room)));
    add_numbers(items, n);
    add_numbers(out, room + 8);
    return answered;
}

static uint32_t call_read(source *s) {
    ism_profile p = any_profile(s);
    size_t n = fill_intervals(s, p, intervals, MOST_INTERVALS), most = n / 4 + 8;
    size_t exact = (size_t)ism_read(p, intervals, n, out, most).count, room = any_room(s, exact, most);
    spoil(out, room + 8);
    uint32_t answered = add_answer(ism_read(p, LIST(intervals, n), LIST(out, room)));
    add_numbers(intervals, n);
    add_numbers(out, room + 8);
    return answered;
}

static uint32_t call_find(source *s) {
    ism_profile p = any_profile(s);
    size_t n = fill_intervals(s, p, intervals, MOST_INTERVALS);
    uint64_t start = one_in(s, 3) ? between(s, 0, n + 2) : one_in(s, 20) ? any(s) : 0;
    uint32_t answered = add_answer(ism_find(p, LIST(intervals, n), start));
    add_numbers(intervals, n);
    return answered;
}

static uint32_t call_read_field(source *s) {
    ism_profile p = any_profile(s);
    size_t n = fill_intervals(s, p, intervals, MOST_INTERVALS);
    ism_answer lock = ism_find(p, intervals, n, 0);
    size_t from = lock.number == 0 && one_in(s, 2) ? (size_t)lock.count : 0;
    uint64_t bytes = between(s, 0, 1 + (n - from) / 5);
    if (one_in(s, 15)) bytes = one_in(s, 2) ? between(s, 1029, 1032) : any(s);
    size_t room = any_room(s, (size_t)(bytes < 1040 ? bytes : 1040), 1100);
    spoil(out, room + 8);
    uint32_t answered = add_answer(ism_read_field(p, LIST(intervals + from, n - from), bytes, LIST(out, room)));
    add_numbers(intervals, n);
    add_numbers(out, room + 8);
    return answered;
}

static uint32_t add_corrected(const ism_corrected *read) {
    add(read->number);
    add(read->place);
    add(read->lock);
    add(read->count);
    add(read->used);
    add(read->holds);
    add(read->clearance);
    add((uint32_t)read->even);
    add((uint32_t)read->odd);
    return read->number;
}

static uint32_t call_read_corrected(source *s) {
    ism_profile p = any_profile(s);
    size_t n = fill_intervals(s, p, intervals, MOST_INTERVALS);
    unsigned longer = (unsigned)between(s, 0, 16); /* of 100, so that some drives are off speed */
    for (size_t k = 0; k < n; k++) {
        uint32_t d = intervals[k] * (100u + longer) / 100u;
        intervals[k] = (uint16_t)(d < 65535 ? d : 65535);
    }
    uint64_t start = one_in(s, 4) ? between(s, 0, n + 1) : 0, bytes = between(s, 0, 1 + n / 5);
    if (one_in(s, 15)) bytes = one_in(s, 2) ? between(s, 1029, 1032) : any(s);
    size_t room = any_room(s, (size_t)(bytes < 1040 ? bytes : 1040), 1100);
    spoil(out, room + 8);
    ism_corrected read = ism_read_corrected(p, LIST(intervals, n), start, bytes, LIST(out, room));
    add_numbers(intervals, n);
    add_numbers(out, room + 8);
    return add_corrected(&read);
}

static uint32_t call_make_sector(source *s) {
    uint64_t id = any(s);
    uint8_t code = (uint8_t)(one_in(s, 12) ? between(s, 4, 255) : between(s, 0, 3));
    size_t n = one_in(s, 8) ? (size_t)between(s, 0, 1100) : (size_t)128 << (code & 3);
    size_t room = any_room(s, n + 114, 1300);
    for (size_t k = 0; k < n; k++) data[k] = (uint8_t)any(s);
    spoil(out, room + 8);
    uint32_t answered = add_answer(
        ism_make_sector((uint8_t)id, (uint8_t)(id >> 8), (uint8_t)(id >> 16), code, LIST(data, n), LIST(out, room)));
    add_bytes(data, n);
    add_numbers(out, room + 8);
    return answered;
}

/* Intervals under a profile, now and then of a track with more sectors than an index takes. */
static size_t fill_any_track(source *s, ism_profile *p) {
    static const ism_profile worked = {58, 29, 8, 10, 12, 36, 73, 73, 106, 106, 139};
    int is_full = one_in(s, 150);
    *p = is_full ? worked : any_profile(s);
    return is_full ? fill_track(s, *p, 36, intervals, MOST_INTERVALS)
                   : fill_intervals(s, *p, intervals, MOST_INTERVALS);
}

static uint32_t call_index_track(source *s) {
    ism_profile p;
    size_t n = fill_any_track(s, &p);
    ism_index index = ism_index_track(p, LIST(intervals, n));
    add_numbers(intervals, n);
    return add_index(&index);
}

static uint32_t call_make_image(source *s) {
    size_t n = any_length(s, MOST_ITEMS), room = any_room(s, n, 2 * MOST_ITEMS);
    fill_items(s, items, n);
    spoil(out, room + 8);
    uint32_t answered = add_answer(ism_make_image(LIST(items, n), LIST(out, room)));
    add_numbers(items, n);
    add_numbers(out, room + 8);
    return answered;
}

static uint32_t call_read_image(source *s) {
    size_t n = fill_words(s, items, MOST_ITEMS), room = any_room(s, n, MOST_ITEMS + 10);
    spoil(out, room + 8);
    uint32_t answered = add_answer(ism_read_image(LIST(items, n), LIST(out, room)));
    add_numbers(items, n);
    add_numbers(out, room + 8);
    return answered;
}

static uint32_t call_read_track(source *s) {
    ism_profile p;
    size_t n = fill_any_track(s, &p), most = MOST_SET_BYTES;
    size_t exact = (size_t)ism_read_track(p, intervals, n, first_set, most).used, room = any_room(s, exact, most - 8);
    memset(first_set, 0xE5, most);
    uint32_t answered = add_answer(ism_read_track(p, LIST(intervals, n), LIST(first_set, room)));
    add_numbers(intervals, n);
    add_bytes(first_set, room + 8);
    return answered;
}

static uint32_t call_merge(source *s) {
    size_t n = fill_set(s, first_set, MOST_SET_BYTES), m = fill_set(s, second_set, MOST_SET_BYTES);
    size_t most = n + m + 8, exact = (size_t)ism_merge(first_set, n, second_set, m, merged, most).used;
    size_t room = any_room(s, exact, most);
    memset(merged, 0xE5, most);
    uint32_t answered = add_answer(ism_merge(LIST(first_set, n), LIST(second_set, m), LIST(merged, room)));
    add_bytes(first_set, n);
    add_bytes(second_set, m);
    add_bytes(merged, most);
    return answered;
}

static uint32_t call_drive_report(source *s) {
    ism_profile p = any_profile(s);
    size_t n = fill_intervals(s, p, intervals, MOST_INTERVALS);
    if (one_in(s, 100)) n = MOST_INTERVALS;
    uint32_t answered = add_report(ism_drive_report(p, LIST(intervals, n)));
    add_numbers(intervals, n);
    return answered;
}

static uint32_t call_add_reports(source *s) {
    ism_report a = any_report(s), b = any_report(s);
    return add_report(ism_add_reports(a, b));
}

static ism_fifo any_fifo(source *s) {
    uint64_t numbers = any(s);
    uint16_t held = (uint16_t)(one_in(s, 16) ? any(s) : between(s, 0, 2));
    uint16_t first = (uint16_t)(one_in(s, 3) ? 0x1A1 : numbers >> 8 & 0x2FF), error = (uint16_t)between(s, 0, 4);
    return (ism_fifo){(uint16_t)(numbers & 1), held, first, (uint16_t)(numbers >> 24 & 0x2FF), error};
}

static uint32_t call_fifo_new(source *s) {
    add_fifo(ism_fifo_new((uint16_t)(one_in(s, 2) ? any(s) : between(s, 0, 1))));
    return 0;
}

static uint32_t call_fifo_put(source *s) {
    ism_fifo fifo = any_fifo(s);
    return add_fifo_answer(ism_fifo_put(fifo, (uint16_t)between(s, 0, 600)));
}

static uint32_t call_fifo_chip_put(source *s) {
    ism_fifo fifo = any_fifo(s);
    return add_fifo_answer(ism_fifo_chip_put(fifo, (uint16_t)between(s, 0, 600)));
}

static uint32_t call_fifo_take_data(source *s) { return add_fifo_answer(ism_fifo_take_data(any_fifo(s))); }
static uint32_t call_fifo_take_mark(source *s) { return add_fifo_answer(ism_fifo_take_mark(any_fifo(s))); }
static uint32_t call_fifo_chip_take(source *s) { return add_fifo_answer(ism_fifo_chip_take(any_fifo(s))); }
static uint32_t call_fifo_read_error(source *s) { return add_fifo_answer(ism_fifo_read_error(any_fifo(s))); }

#define PROFILE (BIT(0) | BIT(ISM_UNSET) | BIT(ISM_CROSSED))

const entry entries[] = {
    {"ism_version", call_version, BIT(0)},
    {"ism_interface_9", call_interface, BIT(0)},
    {"ism_margin", call_margin, PROFILE},
    {"ism_margin_limits", call_margin_limits, PROFILE},
    {"ism_best_windows", call_best_windows, PROFILE},
    {"ism_class", call_class, PROFILE},
    {"ism_write", call_write, PROFILE | BIT(ISM_OVERLONG) | BIT(ISM_FOREIGN) | BIT(ISM_FULL)},
    {"ism_read", call_read,
     PROFILE | BIT(ISM_OVERLONG) | BIT(ISM_NARROW) | BIT(ISM_WIDE) | BIT(ISM_RAGGED) | BIT(ISM_STRAY) | BIT(ISM_FULL)},
    {"ism_find", call_find, PROFILE | BIT(ISM_ADRIFT)},
    {"ism_read_field", call_read_field,
     PROFILE | BIT(ISM_MISCOUNT) | BIT(ISM_NARROW) | BIT(ISM_WIDE) | BIT(ISM_SHORT) | BIT(ISM_STRAY) | BIT(ISM_FULL)},
    {"ism_read_corrected", call_read_corrected,
     PROFILE | BIT(ISM_ADRIFT) | BIT(ISM_OFF_SPEED) | BIT(ISM_MISCOUNT) | BIT(ISM_NARROW) | BIT(ISM_WIDE) |
         BIT(ISM_SHORT) | BIT(ISM_STRAY) | BIT(ISM_FULL)},
    {"ism_make_sector", call_make_sector, BIT(0) | BIT(ISM_MISFIT) | BIT(ISM_FULL)},
    {"ism_index_track", call_index_track, PROFILE | BIT(ISM_CROWDED)},
    {"ism_make_image", call_make_image, BIT(0) | BIT(ISM_OVERLONG) | BIT(ISM_FOREIGN) | BIT(ISM_FULL)},
    {"ism_read_image", call_read_image, BIT(0) | BIT(ISM_OVERLONG) | BIT(ISM_UNRULY) | BIT(ISM_FULL)},
    {"ism_read_track", call_read_track, PROFILE | BIT(ISM_CROWDED) | BIT(ISM_FULL)},
    {"ism_merge", call_merge, BIT(0) | BIT(ISM_MISFIT) | BIT(ISM_CROWDED) | BIT(ISM_AT_ODDS) | BIT(ISM_FULL)},
    {"ism_drive_report", call_drive_report, PROFILE | BIT(ISM_OVERLONG)},
    {"ism_add_reports", call_add_reports, BIT(0) | BIT(ISM_OVERLONG)},
    {"ism_fifo_new", call_fifo_new, BIT(0)},
    {"ism_fifo_put", call_fifo_put, BIT(0) | BIT(ISM_FOREIGN)},
    {"ism_fifo_chip_put", call_fifo_chip_put, BIT(0) | BIT(ISM_FOREIGN)},
    {"ism_fifo_take_data", call_fifo_take_data, BIT(0)},
    {"ism_fifo_take_mark", call_fifo_take_mark, BIT(0)},
    {"ism_fifo_chip_take", call_fifo_chip_take, BIT(0)},
    {"ism_fifo_read_error", call_fifo_read_error, BIT(0)},
    {NULL, NULL, 0},
};

/*
 * Profile, finder, field reader, index and set of a track in C, over the search for a lock and the reading of items of the version
 * whose PREFIX it gets.
 */
#include "common.h"

ism_answer NAME(margin)(ism_profile profile) {
    ism_answer verdict = check_profile(&profile);
    if (verdict.number != ISM_ACCEPTED) return verdict;
    return counted((uint64_t)least_distance(&profile));
}

ism_answer NAME(class)(ism_profile profile, uint16_t interval, uint32_t after_short) {
    ism_answer verdict = check_profile(&profile);
    if (verdict.number != ISM_ACCEPTED) return verdict;
    bool two = after_short != 0, inside = interval >= profile.min && interval < profile.rpt;
    return cleared(counted(classify(&profile, two, interval)), inside ? clearance_behind(&profile, two, interval) : 0);
}

ism_answer NAME(find)(ism_profile profile, const uint16_t *intervals, size_t n, uint64_t start) {
    ism_answer verdict = check_profile(&profile);
    if (verdict.number != ISM_ACCEPTED) return verdict;
    size_t place = NAME(find_lock)(&profile, intervals, n, start);
    return place == NOWHERE ? refused(ISM_ADRIFT, 0) : counted(place);
}

ism_answer NAME(read_field)(ism_profile profile, const uint16_t *intervals, size_t n, uint64_t bytes, uint16_t *out,
                            size_t room) {
    ism_answer verdict = check_profile(&profile);
    if (verdict.number != ISM_ACCEPTED) return verdict;
    ism_answer answer = NAME(read_items)(&profile, intervals, n, bytes, out, room);
    if (answer.number != ISM_ACCEPTED) return answer;
    return cleared(answer, least_clearance(&profile, intervals, (size_t)answer.used));
}

#define ID_BYTES 10u

/* What does not begin as three A1 marks need not be read. */
static bool has_three_marks(const ism_profile *p, const uint16_t *intervals, size_t n) {
    return has_classes(p, intervals, n, "343432434324343");
}

/* The field at a lock, if it reads and has three marks A1 and this byte behind them; else `used` is 0. */
static ism_answer sector_field(const ism_profile *p, const uint16_t *intervals, size_t n, size_t bytes, uint16_t name,
                               uint16_t *items) {
    if (!has_three_marks(p, intervals, n)) return counted(0);
    ism_answer field = NAME(read_items)(p, intervals, n, bytes, items, bytes);
    return field.number == ISM_ACCEPTED && items[3] == name ? field : counted(0);
}

/* The intervals of the ID field at a place, 0 if there is none; the entry gets what it says. */
static size_t read_id(const ism_profile *p, const uint16_t *intervals, size_t n, size_t place, ism_index_entry *entry) {
    uint16_t items[ID_BYTES];
    ism_answer field = sector_field(p, intervals + place, n - place, ID_BYTES, 0xFE, items);
    if (!field.holds || (items[4] | items[5] | items[6]) > 0xFF || items[7] > 3) return 0;
    entry->id_place = place;
    entry->track = (uint8_t)items[4];
    entry->side = (uint8_t)items[5];
    entry->sector = (uint8_t)items[6];
    entry->code = (uint8_t)items[7];
    return (size_t)field.used;
}

/* The same for the data field of an entry. */
static size_t read_data(const ism_profile *p, const uint16_t *intervals, size_t n, size_t place,
                        ism_index_entry *entry) {
    uint16_t items[ISM_MAX_FIELD_BYTES];
    size_t bytes = ((size_t)128 << entry->code) + 6;
    ism_answer field = sector_field(p, intervals + place, n - place, bytes, 0xFB, items);
    if (field.used == 0) return 0;
    entry->data_place = place;
    entry->found = 1;
    entry->holds = (uint8_t)field.holds;
    return (size_t)field.used;
}

/* By sector number; an entry found later stands behind those of its number. */
static void put_in_order(ism_index *index, ism_index_entry entry) {
    size_t at = (size_t)index->count++;
    for (; at > 0 && index->entries[at - 1].sector > entry.sector; at--) index->entries[at] = index->entries[at - 1];
    index->entries[at] = entry;
}

/* A lock that is not the data's may be that of the next ID. */
ism_index NAME(index_track)(ism_profile profile, const uint16_t *intervals, size_t n) {
    ism_index index = {0};
    ism_answer verdict = check_profile(&profile);
    index.number = verdict.number;
    index.place = verdict.place;
    if (verdict.number != ISM_ACCEPTED) return index;
    size_t lock = NAME(find_lock)(&profile, intervals, n, 0), used;
    while (lock != NOWHERE) {
        ism_index_entry entry = {0};
        used = read_id(&profile, intervals, n, lock, &entry);
        if (used == 0) {
            lock = NAME(find_lock)(&profile, intervals, n, lock + 1);
            continue;
        }
        if (index.count == ISM_MAX_SECTORS) {
            ism_index crowded = {.number = ISM_CROWDED};
            return crowded;
        }
        lock = NAME(find_lock)(&profile, intervals, n, lock + used);
        used = lock == NOWHERE ? 0 : read_data(&profile, intervals, n, lock, &entry);
        if (used > 0) lock = NAME(find_lock)(&profile, intervals, n, lock + used);
        put_in_order(&index, entry);
    }
    return index;
}

/* As a caller of index and field reader makes a set: each data field is read once more. */
ism_answer NAME(read_track)(ism_profile profile, const uint16_t *intervals, size_t n, uint8_t *set, size_t room) {
    ism_index index = NAME(index_track)(profile, intervals, n);
    if (index.number != ISM_ACCEPTED) return refused(index.number, index.place);
    ism_answer answer = counted(0);
    for (size_t k = 0; k < index.count; k++) {
        if (!index.entries[k].found) continue;
        answer.count++;
        answer.used += 3 + ((size_t)128 << index.entries[k].code);
    }
    if (room < answer.used) return refused(ISM_FULL, 0);
    uint16_t items[ISM_MAX_FIELD_BYTES];
    for (size_t k = 0; k < index.count; k++) {
        const ism_index_entry *entry = &index.entries[k];
        if (!entry->found) continue;
        size_t size = (size_t)128 << entry->code, place = (size_t)entry->data_place;
        NAME(read_items)(&profile, intervals + place, n - place, size + 6, items, size + 6);
        *set++ = entry->sector;
        *set++ = entry->code;
        *set++ = entry->holds;
        for (size_t i = 0; i < size; i++) *set++ = (uint8_t)items[4 + i];
    }
    return answer;
}

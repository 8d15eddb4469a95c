/* Inputs for the calls that are compared: from a seed, the same on every processor. */
#ifndef INPUTS_H
#define INPUTS_H

#include "ism.h"

/* One more than the most that a call takes, so that it can be too long. */
#define MOST_INTERVALS (ISM_MAX_INTERVALS + 1)
#define MOST_ITEMS (ISM_MAX_BYTES + 1)
#define MOST_SET_BYTES (34 * 1027)

/* Random numbers (SplitMix64). */
typedef struct {
    uint64_t state;
} source;

uint64_t any(source *s);
/* From least to most, both included. */
uint64_t between(source *s, uint64_t least, uint64_t most);
int one_in(source *s, uint64_t times);

/* Mostly true profiles, of the kinds that occur and of all others; else some that are refused. */
ism_profile any_profile(source *s);
ism_profile true_profile(source *s);

/* A length: mostly short, at times up to the most. */
size_t any_length(source *s, size_t most);
/* A room for so many: exact, one short, none or more, at most `most`. */
size_t any_room(source *s, size_t exact, size_t most);

/* Items, at times with a number that is none. */
void fill_items(source *s, uint16_t *items, size_t n);
/* Intervals: as written, moved, damaged, or by random classes. How many there are, at most `most`. */
size_t fill_intervals(source *s, ism_profile profile, uint16_t *intervals, size_t most);
/* A track of so many sectors, some of them damaged. */
size_t fill_track(source *s, ism_profile profile, unsigned sectors, uint16_t *intervals, size_t most);
/* Code words: an image, at times damaged, or random words. */
size_t fill_words(source *s, uint16_t *words, size_t most);
/* A set of sectors for a merge, at times one that is refused. */
size_t fill_set(source *s, uint8_t *set, size_t most);
ism_report any_report(source *s);

#endif

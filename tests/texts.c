/*
 * The texts of ism_text.h: one for each refusal of ism.h, no two alike, and for a profile the one fault that it has,
 * which is there exactly where the library refuses it. Prints the number of refusals that have a text.
 */
#include <stdio.h>
#include <stdlib.h>
#include <string.h>

#include "ism.h"
#include "ism_text.h"

#define LENGTH(list) (sizeof(list) / sizeof *(list))

static const ism_profile worked = {58, 29, 8, 10, 12, 36, 75, 71, 108, 104, 139};

/* A number of the worked profile, by its place, changed so that one text and no other is true. */
static const struct {
    unsigned place, number;
    const char *text;
} faults[] = {
    {1, 0, "t1 is not 1 to 1,023"},
    {1, 1024, "t1 is not 1 to 1,023"},
    {2, 0, "t0 is not 1 to 1,023"},
    {2, 1024, "t0 is not 1 to 1,023"},
    {3, 16, "early is not 0 to 15"},
    {4, 16, "normal is not 0 to 15"},
    {5, 16, "late is not 0 to 15"},
    {6, 0, "min is not 1 to 4,095"},
    {6, 4096, "min is not 1 to 4,095"},
    {7, 0, "b23_short is not 1 to 4,095"},
    {7, 4096, "b23_short is not 1 to 4,095"},
    {8, 0, "b23_long is not 1 to 4,095"},
    {8, 4096, "b23_long is not 1 to 4,095"},
    {9, 0, "b34_short is not 1 to 4,095"},
    {9, 4096, "b34_short is not 1 to 4,095"},
    {10, 0, "b34_long is not 1 to 4,095"},
    {10, 4096, "b34_long is not 1 to 4,095"},
    {11, 0, "rpt is not 1 to 4,095"},
    {11, 4096, "rpt is not 1 to 4,095"},
    {3, 11, "early is above normal"},
    {5, 9, "normal is above late"},
    {6, 51, "min is above t1 - D, the shortest cell of 2 units"},
    {7, 58, "b23_short is not above t1, the longest cell of 2 units after a short one"},
    {7, 92, "b23_short is above t1 + t0 + e, the shortest cell of 3 units after a short one"},
    {8, 54, "b23_long is not above t1 - l, the longest cell of 2 units after a longer one"},
    {8, 88, "b23_long is above t1 + t0, the shortest cell of 3 units after a longer one"},
    {9, 95, "b34_short is not above t1 + t0 + D, the longest cell of 3 units after a short one"},
    {9, 121, "b34_short is above t1 + 2 x t0 + e, the shortest cell of 4 units after a short one"},
    {10, 91, "b34_long is not above t1 + t0 + l, the longest cell of 3 units after a longer one"},
    {10, 117, "b34_long is above t1 + 2 x t0, the shortest cell of 4 units after a longer one"},
    {11, 124, "rpt is not above t1 + 2 x t0 + D, the longest cell of 4 units"},
};

static void fail(const char *what, const char *text) {
    fprintf(stderr, "texts: %s: %s\n", what, text);
    exit(1);
}

static uint16_t *number_of(ism_profile *profile, unsigned place) {
    uint16_t *numbers[] = {&profile->t1,        &profile->t0,       &profile->early,     &profile->normal,
                           &profile->late,      &profile->min,      &profile->b23_short, &profile->b23_long,
                           &profile->b34_short, &profile->b34_long, &profile->rpt};
    return numbers[place - 1];
}

/* Every number below 1,000: those that have a text come first, each with its own; the others have the last one. */
static unsigned refusals(void) {
    const char *unknown = ism_refusal_text(UINT32_MAX);
    unsigned known = 0;
    while (strcmp(ism_refusal_text(known), unknown) != 0) known++;
    for (unsigned a = 0; a < 1000; a++) {
        const char *text = ism_refusal_text(a);
        if (a >= known && strcmp(text, unknown) != 0) fail("a number behind one without a text", text);
        if (strlen(text) < 5 || strlen(text) > 100 || strchr(text, '\n')) fail("no line of text", text);
        for (unsigned b = 0; b < a && a < known; b++)
            if (strcmp(text, ism_refusal_text(b)) == 0) fail("two refusals with one text", text);
    }
    return known - 1;
}

static void each_fault(void) {
    if (strcmp(ism_profile_text(worked), "accepted") != 0) fail("the worked profile", ism_profile_text(worked));
    for (size_t k = 0; k < LENGTH(faults); k++) {
        ism_profile profile = worked;
        *number_of(&profile, faults[k].place) = (uint16_t)faults[k].number;
        if (strcmp(ism_profile_text(profile), faults[k].text) != 0) fail(faults[k].text, ism_profile_text(profile));
    }
}

/* Whether a text is one of those of a refusal: of an unset number at its place, or of any fault that crosses. */
static int is_text_of(const char *text, ism_answer answer) {
    if (answer.number == ISM_ACCEPTED) return strcmp(text, "accepted") == 0;
    for (size_t k = 0; k < LENGTH(faults); k++) {
        int of_range = strstr(faults[k].text, " is not 0 to ") || strstr(faults[k].text, " is not 1 to ");
        int fits = answer.number == ISM_UNSET ? of_range && faults[k].place == answer.place : !of_range;
        if (fits && strcmp(text, faults[k].text) == 0) return 1;
    }
    return 0;
}

/* Profiles near the worked one, and near the ends of the ranges: the text agrees with the library. */
static void many_profiles(void) {
    static const uint16_t ends[] = {0, 1, 2, 15, 16, 1022, 1023, 1024, 4094, 4095, 4096, 65535};
    uint64_t state = 1;
    unsigned accepted = 0;
    for (unsigned turn = 0; turn < 500000; turn++) {
        ism_profile profile = worked;
        for (unsigned place = 1; place <= ISM_PROFILE_NUMBERS; place++) {
            uint16_t *number = number_of(&profile, place);
            state = state * 6364136223846793005u + 1442695040888963407u;
            unsigned dice = (unsigned)(state >> 33);
            if (dice % 40 == 0)
                *number = ends[dice / 40 % LENGTH(ends)];
            else
                *number = (uint16_t)(*number + dice / 40 % 9 - 4 + (dice % 3 == 0 ? dice / 400 % 31 - 15 : 0));
        }
        ism_answer answer = ism_margin(profile);
        accepted += answer.number == ISM_ACCEPTED;
        if (!is_text_of(ism_profile_text(profile), answer))
            fail("the library says otherwise", ism_profile_text(profile));
    }
    if (accepted < 1000) fail("hardly any profile was accepted", "");
}

int main(void) {
    each_fault();
    many_profiles();
    printf("%u\n", refusals());
    return 0;
}

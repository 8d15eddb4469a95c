/*
 * ism_text.h - refusals and profiles of ism.h in words, for programs that show them to people.
 *
 * Beside the library and no part of it: plain C99 or C++11 with nothing to link and nothing proved. Each function gives
 * a constant string in English, without a full stop, and never a null pointer.
 */
#ifndef ISM_TEXT_H
#define ISM_TEXT_H

/* for its numbers and its profile alone, so that a program that only shows texts does without libism.a */
#ifdef ISM_WITHOUT_LIBRARY
#include "ism.h"
#else
#define ISM_WITHOUT_LIBRARY
#include "ism.h"
#undef ISM_WITHOUT_LIBRARY
#endif

/*
 * Why a call was refused: `number` of its answer, in words. `place` then says which: ism.h says of what, and from where
 * it counts. A number that this header does not know is of another version.
 */
static inline const char *ism_refusal_text(uint32_t number) {
    /* a line for each number */
    /* clang-format off */
    switch (number) {
    case ISM_ACCEPTED: return "accepted";
    case ISM_UNSET: return "a number of the profile is out of range";
    case ISM_CROSSED: return "the windows of the profile miss its own cell lengths";
    case ISM_FOREIGN: return "a number of the list is no data byte, no mark A1 or C2 and no check order";
    case ISM_OVERLONG: return "more than 6,400 bytes or words, more than 51,202 intervals, or a report over 64 bits";
    case ISM_NARROW: return "an interval is too short: below Min";
    case ISM_WIDE: return "an interval is too long: Rpt or more";
    case ISM_RAGGED: return "the intervals do not end on a whole byte";
    case ISM_STRAY: return "an interval is a mark's gap outside a mark byte";
    case ISM_FULL: return "the output is shorter than the result";
    case ISM_ADRIFT: return "no lock: no sync field with the classes of a mark behind it";
    case ISM_SHORT: return "the intervals end before the bytes asked for";
    case ISM_MISCOUNT: return "the byte count is not 1 to 1,030, or the page count not 1 to 16";
    case ISM_MISFIT: return "a length code that is not taken here, data that is not that long, or no whole pages";
    case ISM_GARBLED: return "the input of the strip program is not as described";
    case ISM_CROWDED: return "more than 32 sectors";
    case ISM_UNRULY: return "a word of the image is that of no item after the bit before it";
    case ISM_AT_ODDS: return "a sector number is twice in one set, or its two good copies differ";
    case ISM_OFF_SPEED: return "the drive is more than a sixteenth off its speed";
    case ISM_LOST_PAGE: return "a page is lost: its sector is missing, not of length code 3, or its sum fails";
    case ISM_SOILED_FILL: return "the last 24 bytes of a page's sector are not all 00";
    default: return "a refusal that this header does not know";
    }
    /* clang-format on */
}

/*
 * What is wrong with a profile: the lowest number that is out of range (ISM_UNSET), else the first fault of its order
 * and of its ten inequalities, in the order of ism.h (ISM_CROSSED); "accepted" if there is none. e, l and D are 2 x
 * (normal - early), 2 x (late - normal) and their sum.
 */
static inline const char *ism_profile_text(ism_profile profile) {
    uint32_t t1 = profile.t1, t0 = profile.t0, e, l, d;
    if (t1 < 1 || t1 > ISM_MAX_TIME) return "t1 is not 1 to 1,023";
    if (t0 < 1 || t0 > ISM_MAX_TIME) return "t0 is not 1 to 1,023";
    if (profile.early > ISM_MAX_POINT) return "early is not 0 to 15";
    if (profile.normal > ISM_MAX_POINT) return "normal is not 0 to 15";
    if (profile.late > ISM_MAX_POINT) return "late is not 0 to 15";
    if (profile.min < 1 || profile.min > ISM_MAX_EDGE) return "min is not 1 to 4,095";
    if (profile.b23_short < 1 || profile.b23_short > ISM_MAX_EDGE) return "b23_short is not 1 to 4,095";
    if (profile.b23_long < 1 || profile.b23_long > ISM_MAX_EDGE) return "b23_long is not 1 to 4,095";
    if (profile.b34_short < 1 || profile.b34_short > ISM_MAX_EDGE) return "b34_short is not 1 to 4,095";
    if (profile.b34_long < 1 || profile.b34_long > ISM_MAX_EDGE) return "b34_long is not 1 to 4,095";
    if (profile.rpt < 1 || profile.rpt > ISM_MAX_EDGE) return "rpt is not 1 to 4,095";

    if (profile.early > profile.normal) return "early is above normal";
    if (profile.normal > profile.late) return "normal is above late";
    e = 2u * (uint32_t)(profile.normal - profile.early);
    l = 2u * (uint32_t)(profile.late - profile.normal);
    d = e + l;
    if (profile.min + d > t1) return "min is above t1 - D, the shortest cell of 2 units";
    if (profile.b23_short <= t1) return "b23_short is not above t1, the longest cell of 2 units after a short one";
    if (profile.b23_short > t1 + t0 + e)
        return "b23_short is above t1 + t0 + e, the shortest cell of 3 units after a short one";
    if (profile.b23_long + l <= t1)
        return "b23_long is not above t1 - l, the longest cell of 2 units after a longer one";
    if (profile.b23_long > t1 + t0) return "b23_long is above t1 + t0, the shortest cell of 3 units after a longer one";
    if (profile.b34_short <= t1 + t0 + d)
        return "b34_short is not above t1 + t0 + D, the longest cell of 3 units after a short one";
    if (profile.b34_short > t1 + 2 * t0 + e)
        return "b34_short is above t1 + 2 x t0 + e, the shortest cell of 4 units after a short one";
    if (profile.b34_long <= t1 + t0 + l)
        return "b34_long is not above t1 + t0 + l, the longest cell of 3 units after a longer one";
    if (profile.b34_long > t1 + 2 * t0)
        return "b34_long is above t1 + 2 x t0, the shortest cell of 4 units after a longer one";
    if (profile.rpt <= t1 + 2 * t0 + d) return "rpt is not above t1 + 2 x t0 + D, the longest cell of 4 units";
    return "accepted";
}

#endif

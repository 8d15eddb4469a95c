/*
 * The tables of docs/PROFILES.md: profiles for common clocks and densities. tools/profiles compiles and runs it.
 *
 * Times and compare points come from the clock by the rules of docs/FORMAT.md. Each edge stands half way between the
 * lengths on both sides, on the lower number of two; Min and Rpt are as far out as the margin needs, so that nothing
 * that is out of every window for sure is taken for a cell. Margins are the library's answers.
 */
#include <stdio.h>
#include <stdlib.h>

#include "ism.h"
#include "ism_text.h"

#define LENGTH(list) (sizeof(list) / sizeof *(list))
#define NORMAL 8u

static const double clocks[] = {7.16, 8, 15.67, 16};
static const double cells[] = {4, 2};   /* the shortest cell in microseconds: double density, high density */
static const double moves[] = {0, 125}; /* precompensation in nanoseconds */

static unsigned rounded(double number) { return (unsigned)(number + 0.5); }

/* The lower of the two numbers that are half way between the lengths below an edge and those above it. */
static uint16_t between(unsigned below, unsigned above) { return (uint16_t)((below + 1 + above) / 2); }

/* The profile of a clock, a shortest cell and a move of early and late transitions. */
static ism_profile profile_of(double mhz, double cell, double move) {
    unsigned t1 = rounded(2 * mhz * cell), t0 = rounded(mhz * cell), points = rounded(move * mhz / 1000);
    unsigned e = 2 * points, l = e, d = e + l, edge = t1 + 2 * t0 + d + 1;
    ism_profile drive = {.t1 = (uint16_t)t1,
                         .t0 = (uint16_t)t0,
                         .early = (uint16_t)(NORMAL - points),
                         .normal = NORMAL,
                         .late = (uint16_t)(NORMAL + points),
                         .min = 1,
                         .b23_short = between(t1, t1 + t0 + e),
                         .b23_long = between(t1 - l, t1 + t0),
                         .b34_short = between(t1 + t0 + d, t1 + 2 * t0 + e),
                         .b34_long = between(t1 + t0 + l, t1 + 2 * t0),
                         .rpt = ISM_MAX_EDGE};
    unsigned margin = (unsigned)ism_margin(drive).count;
    drive.min = (uint16_t)(t1 - d - margin);
    drive.rpt = (uint16_t)(edge + margin);
    return drive;
}

static void print_row(double mhz, double cell, ism_profile drive) {
    ism_answer margin = ism_margin(drive);
    double half = 500 / mhz;
    if (margin.number != ISM_ACCEPTED) {
        fprintf(stderr, "profiles: at %g MHz and %g us %s\n", mhz, cell, ism_profile_text(drive));
        exit(1);
    }
    printf("| %.2f | %.0f | %.2f | %.0f | %u %u %u %u %u %u %u %u %u %u %u | %u | %.0f | %.1f |\n", mhz, cell, half,
           2 * half * (drive.normal - drive.early), drive.t1, drive.t0, drive.early, drive.normal, drive.late,
           drive.min, drive.b23_short, drive.b23_long, drive.b34_short, drive.b34_long, drive.rpt,
           (unsigned)margin.count, half * (double)margin.count, 100.0 * (double)margin.count / drive.t1);
}

static void print_head(void) {
    printf("| MHz | cell, µs | half clock, ns | early and late by, ns | profile | margin | in ns | in %% of T1 |\n");
    printf("|---|---|---|---|---|---|---|---|\n");
}

int main(void) {
    static const ism_profile equal = {58, 29, 8, 10, 12, 36, 73, 73, 106, 106, 139};
    static const ism_profile pairs = {58, 29, 8, 10, 12, 36, 75, 71, 108, 104, 139};
    for (size_t move = 0; move < LENGTH(moves); move++) {
        puts(moves[move] == 0 ? "## Without precompensation\n" : "\n## With precompensation\n");
        print_head();
        for (size_t cell = 0; cell < LENGTH(cells); cell++)
            for (size_t clock = 0; clock < LENGTH(clocks); clock++)
                print_row(clocks[clock], cells[cell], profile_of(clocks[clock], cells[cell], moves[move]));
    }
    puts("\n## The worked drive, with equal pairs and with the best\n");
    print_head();
    print_row(7.16, 4, equal);
    print_row(7.16, 4, pairs);
    return 0;
}

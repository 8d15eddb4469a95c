/*
 * What holds the margin down? The card of a drive type, as text: its eleven numbers, the margin, each side of a window
 * edge that forbids one half clock more, with a byte that shows it, and which numbers to turn which way.
 *
 *   tools/build ism
 *   gcc -Iinclude examples/card.c target/staticlib/libism.a -o target/card && target/card
 */
#include <stdio.h>

#include "ism.h"
#include "ism_text.h"

/* T1, T0, Early, Normal, Late, Min, B23 and B34 after class 2 and after any other, Rpt */
static const ism_profile drives[] = {
    {58, 29, 8, 10, 12, 36, 73, 73, 106, 106, 139}, /* equal pairs */
    {58, 29, 8, 10, 12, 36, 75, 71, 108, 104, 139}, /* the same drive with the best pairs */
    {58, 28, 8, 10, 12, 36, 74, 70, 106, 103, 134}, /* another T0 */
    {20, 29, 0, 2, 5, 1, 36, 32, 71, 67, 110},      /* short cells, strong precompensation */
    {58, 29, 8, 10, 12, 36, 73, 73, 106, 106, 124}, /* not true: Rpt is within the lengths of class 4 */
};

static const char *const edges[] = {"", "Min", "B23", "B34", "Rpt"};
static const char *const kinds[] = {"", " after class 2", " after any other"};

/* The number of the profile that is the edge of a side. */
static uint16_t *number_of(ism_profile *drive, ism_limit side) {
    int is_short = side.after == ISM_AFTER_SHORT;
    switch (side.edge) {
    case ISM_EDGE_MIN:
        return &drive->min;
    case ISM_EDGE_B23:
        return is_short ? &drive->b23_short : &drive->b23_long;
    case ISM_EDGE_B34:
        return is_short ? &drive->b34_short : &drive->b34_long;
    default:
        return &drive->rpt;
    }
}

/* Whether the lengths on the other side of the edge hold the margin down. */
static int other_side_holds(ism_limits all, ism_limit side) {
    for (size_t k = 0; k < all.count; k++) {
        ism_limit other = all.limits[k];
        if (other.edge == side.edge && other.after == side.after && other.above != side.above) return 1;
    }
    return 0;
}

/* The side, and its evidence: a byte whose stream is lost with one interval moved. */
static void print_side(ism_profile drive, ism_limit side) {
    uint16_t stream[10], items[2];
    size_t n = (size_t)ism_write(drive, &side.item, 1, stream, 10).count;
    unsigned written = stream[side.interval];
    stream[side.interval] = side.moved;
    ism_answer read = ism_read(drive, stream, n, items, 2);
    printf("  the lengths %s %s%s: %s %02X, interval %u, moved from %u to %u, ", side.above ? "above" : "below",
           edges[side.edge], kinds[side.after], side.item < ISM_MARK ? "data" : "mark", side.item & 0xFFu,
           (unsigned)side.interval, written, (unsigned)side.moved);
    if (read.number == ISM_ACCEPTED)
        printf("reads as another list\n");
    else
        printf("is refused with %u\n", (unsigned)read.number);
}

/*
 * Which way to turn the number of a side, and whether that helps: not where the other side holds the margin down too,
 * or would if the number were turned by one.
 */
static int print_turn(ism_profile drive, ism_limits all, ism_limit side) {
    const char *edge = edges[side.edge], *kind = kinds[side.after];
    if (other_side_holds(all, side)) {
        if (!side.above) printf("  no turn of %s%s helps: both of its sides hold the margin down\n", edge, kind);
        return 0;
    }
    ism_profile turned = drive;
    uint16_t *number = number_of(&turned, side);
    *number = (uint16_t)(side.above ? *number - 1 : *number + 1);
    ism_limits then = ism_margin_limits(turned);
    if (then.number == ISM_UNSET) {
        printf("  no turn of %s%s helps: it is at the end of its range\n", edge, kind);
        return 0;
    }
    if (ism_margin(turned).count == ism_margin(drive).count && other_side_holds(then, side)) {
        printf("  no turn of %s%s helps: its other side is only one half clock further\n", edge, kind);
        return 0;
    }
    printf("  turn %s%s %s\n", edge, kind, side.above ? "down" : "up");
    return 1;
}

static void print_card(ism_profile drive) {
    printf("T1 %u, T0 %u, Early %u, Normal %u, Late %u, Min %u, B23 %u and %u, B34 %u and %u, Rpt %u\n", drive.t1,
           drive.t0, drive.early, drive.normal, drive.late, drive.min, drive.b23_short, drive.b23_long, drive.b34_short,
           drive.b34_long, drive.rpt);
    ism_limits all = ism_margin_limits(drive);
    if (all.number != ISM_ACCEPTED) {
        printf("refused with %u, place %u: %s\n", (unsigned)all.number, (unsigned)all.place, ism_profile_text(drive));
        return;
    }
    unsigned margin = (unsigned)ism_margin(drive).count;
    unsigned tenths = (1000 * margin + drive.t1 / 2) / drive.t1;
    printf("margin %u half clocks, %u.%u %% of T1, held down by\n", margin, tenths / 10, tenths % 10);
    for (size_t k = 0; k < all.count; k++) print_side(drive, all.limits[k]);
    printf("to raise it\n");
    int all_help = 1;
    for (size_t k = 0; k < all.count; k++) all_help &= print_turn(drive, all, all.limits[k]);
    if (!all_help) printf("  so no windows give this drive a larger margin\n");
}

int main(void) {
    for (size_t k = 0; k < sizeof drives / sizeof *drives; k++) {
        if (k > 0) printf("\n");
        print_card(drives[k]);
    }
    return 0;
}

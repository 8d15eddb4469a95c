/*
 * ism.h - MFM flux intervals after the ISM chip (ISM ASIC specification, revision 4.1, July 1987).
 *
 * The library turns data bytes, mark bytes and check orders into the intervals between flux transitions, with write
 * precompensation, and turns measured intervals back into bytes. It also finds locks, where the classes of a mark stand
 * behind a sync field, reads one field, makes the items of one sector, lists the sectors of a track and reads them as a
 * set, merges the sets of two passes, reports how worn a drive is, says what holds a drive type's margin down and which
 * windows have the largest, exchanges bit images with drive emulators and models the chip's two-item FIFO with its
 * error register.
 *
 * Common to all functions
 *
 *   The same proved functions come as libism.a, for x86-64 (System V calling convention), and as portable/ism.c, one
 *   file of strict C99 for any processor. Proved is the MIR of every function, its code on Rattle's abstract machine.
 *   Not proved are the kit's back end for the one, the translator and your compiler for the other. 3,000 seeded calls
 *   of each function were compared: portable/ism.c answers as libism.a does on x86-64, aarch64, 32-bit ARM, riscv64,
 *   big-endian PowerPC and a bare Cortex-M4, all but the first under emulation. No board was tried.
 *
 *   No state, no heap, no input or output. The library calls memcpy and memset and nothing else: firmware without a C
 *   library provides these two. Every function is a plain function of its arguments, so calls on buffers of
 *   their own may run at the same time. From an interrupt handler too, if the handler keeps what the code uses as any
 *   compiled code does: the SSE registers, and the 128 bytes below the stack pointer that the convention gives to the
 *   code that was interrupted (the red zone). docs/BENCHMARKS.md gives the stack of each function as rattle-kit-13f
 *   compiles it: 3,700 bytes at most, and 4,500 at most for ism_index_track with the index that it returns and for
 *   ism_read_track; portable/README.md that of portable/ism.c.
 *
 *   Every argument value is answered. A refusal comes back in `number` and `place`, changes no buffer, and leaves
 *   `count`, `used`, `holds`, `clearance`, `margin`, the rows of a report, every field of an index's entries, the
 *   limits of a margin and the numbers of a best profile 0. When several causes hold at once, the first in the order
 *   listed at the function is answered.
 *
 *   On acceptance `number` and `place` are 0, the result fills the front of the output, and the rest of the output
 *   keeps its contents. Fields of an answer that a function does not give are 0.
 *
 *   An interval is a number of half clocks, 0 to 65,535. Early, Normal and Late are whole clocks.
 *
 * What the caller must not do, since C cannot check it
 *
 *   Give a length that is not that of the buffer. Lengths count elements, not bytes. With a length of 0 the pointer is
 *   not followed and may be null.
 *   Let the output overlap the input, or change either of them during the call.
 *   Give a pointer that is not aligned for its type.
 */
#ifndef ISM_H
#define ISM_H

#include <stddef.h>
#include <stdint.h>

#ifdef __cplusplus
extern "C" {
#endif

/*
 * Version: major x 10,000 + minor x 100 + patch. ISM_VERSION is this header's, ism_version() the linked library's.
 *
 *   patch  raised where no declaration of this header and no answer changes
 *   minor  raised where something is added, or an answer changes; before 1.0.0 also for what raises the next
 *   major  raised where a struct, a function's arguments or the meaning of a number changes
 *
 * What is added breaks nothing: a program that was compiled before it links and runs as it did. What raises the major
 * number, or would from 1.0.0 on, also raises the interface's number, 9 today, and then a program that was compiled
 * against the old header does not link: each file that includes this header asks for the symbol ism_interface_9, which
 * a library of another interface does not have. Compile the program again. One that declares the functions by itself,
 * as another language may, compares ism_version() first.
 */
#define ISM_VERSION_MAJOR 0u
#define ISM_VERSION_MINOR 15u
#define ISM_VERSION_PATCH 1u
#define ISM_VERSION (ISM_VERSION_MAJOR * 10000u + ISM_VERSION_MINOR * 100u + ISM_VERSION_PATCH)

uint32_t ism_version(void);
uint32_t ism_interface_9(void); /* gives 9 */

/*
 * Why a call was refused. `place` counts from 0, except for ISM_UNSET, ISM_GARBLED and the two that count pages; where
 * no place is named it is 0.
 */
#define ISM_ACCEPTED 0u  /* not refused */
#define ISM_UNSET 1u     /* profile number out of range; place: which of the eleven, 1 to 11, the lowest */
#define ISM_CROSSED 2u   /* profile not true: its windows miss its own cell lengths */
#define ISM_FOREIGN 3u   /* not an item; place: the lowest such item */
#define ISM_OVERLONG 4u  /* over 6,400 items, written bytes, bytes read or words; over 51,202 intervals in a strip or in
                            the list of a report; a count or sum of added reports that does not fit in 64 bits */
#define ISM_NARROW 5u    /* interval below Min; place: the interval */
#define ISM_WIDE 6u      /* interval of Rpt or more; place: the interval */
#define ISM_RAGGED 7u    /* the bits are not 8n + 2, or the last of them is 1 */
#define ISM_STRAY 8u     /* a mark's gap out of place; place: the lowest such interval */
#define ISM_FULL 9u      /* output shorter than the result */
#define ISM_ADRIFT 10u   /* no lock */
#define ISM_SHORT 11u    /* the list ends before n bytes */
#define ISM_MISCOUNT 12u /* n outside 1 to 1,030; in ism_page.h the page count outside 1 to 16 */
#define ISM_MISFIT 13u   /* length code above 3, or data not that long; in the sector maker alone, code 0 too; in
                            ism_page.h also cells that are not 1,000 for each page */
#define ISM_GARBLED 14u  /* only from the strip program: garbled input; place: lowest faulty line, 0 if too long */
#define ISM_CROWDED 15u  /* more than 32 sectors in a set or entries on a track */
#define ISM_UNRULY 16u   /* a word that no item has after its previous bit; place: the lowest such word */
#define ISM_AT_ODDS 17u  /* a sector number twice in a set, or two good copies unlike; place: the lowest such number */
#define ISM_OFF_SPEED 18u /* the drive is a sixteenth off its speed; place: 0 by the even intervals, 1 by the odd */
/* Only from the functions of ism_page.h; their places count pages from 1. */
#define ISM_LOST_PAGE 19u   /* missing, not of length code 3, or its sum fails; place: the lowest such page */
#define ISM_SOILED_FILL 20u /* the last 24 bytes of a page's sector are not all 00; place: the lowest such page */

/*
 * Limits. ISM_MAX_INTERVALS intervals always hold the stream of ISM_MAX_BYTES written bytes, and ISM_MAX_SET_BYTES
 * bytes a set of ISM_MAX_SECTORS sectors.
 */
#define ISM_MAX_BYTES 6400u
#define ISM_MAX_INTERVALS 51202u
#define ISM_MAX_FIELD_BYTES 1030u
#define ISM_MAX_SECTORS 32u
#define ISM_MAX_SET_BYTES 32864u
#define ISM_MAX_LIMITS 10u

/* Numbers of the texts below. docs/FORMAT.md has the rules behind them. */
#define ISM_PROFILE_NUMBERS 11u                   /* numbers of a profile */
#define ISM_MAX_TIME 1023u                        /* t1 and t0, from 1 on */
#define ISM_MAX_POINT 15u                         /* early, normal and late, from 0 on */
#define ISM_MAX_EDGE 4095u                        /* min, b23, b34 and rpt, from 1 on */
#define ISM_WRITE_ROOM(bytes) (8u * (bytes) + 2u) /* intervals, always enough for so many written bytes */
#define ISM_CRC_POLYNOMIAL 0x1021u                /* x^12 + x^5 + 1; x^16 is the bit that leaves */
#define ISM_CRC_START 0xFFFFu                     /* all ones */
#define ISM_SYNC_INTERVALS 64u                    /* intervals of class 2 before a lock */
#define ISM_ID_ADDRESS 0xFEu                      /* the byte after the marks of an ID field */
#define ISM_DATA_ADDRESS 0xFBu                    /* the byte after the marks of a data field */
#define ISM_ID_BYTES 10u                          /* bytes of an ID field: marks, FE, four bytes, check bytes */
#define ISM_DATA_OVERHEAD 6u                      /* bytes of a data field besides the data: marks, FB, check bytes */
#define ISM_MAX_CODE 3u                           /* length codes, from 0 on; from 1 on in the sector maker */
#define ISM_SECTOR_BYTES(code) (128u << (code))   /* data bytes of a length code: 128, 256, 512, 1,024 */
#define ISM_SECTOR_OVERHEAD 114u                  /* items of a sector besides the data */
#define ISM_MIN_DATA_DISTANCE 278u                /* intervals from the ID's lock to the data's, in a made sector */
#define ISM_MAX_DATA_DISTANCE 295u
#define ISM_WORD_A1 0x4489u                       /* code words of the marks in a bit image */
#define ISM_WORD_C2 0x5224u
#define ISM_SET_HEADER 3u                         /* bytes of a sector in a set besides the data */
#define ISM_REPORT_ROWS 5u                        /* narrow, 2, 3, 4, wide */
#define ISM_FIFO_ITEMS 2u                         /* items that the FIFO holds */

/*
 * Items: 0 to 255 is a data byte, ISM_MARK_A1 and ISM_MARK_C2 are the two mark bytes, ISM_CHECK is a check order. No
 * other number is an item. A check order is written as two data bytes: the CRC register, high byte first.
 *
 * Written bytes are the data and mark bytes, each check order counting two. The CRC register has the polynomial
 * x^16 + x^12 + x^5 + 1, most significant bit first. It is all ones at the start of a list and again before a mark
 * byte that does not follow a mark byte. Every written byte passes through it, check bytes included.
 */
#define ISM_MARK 0x100u
#define ISM_MARK_A1 0x1A1u
#define ISM_MARK_C2 0x1C2u
#define ISM_CHECK 0x200u

/*
 * The timing of one drive type. Initialise it by field name, {.t1 = 58, .t0 = 29, ...}.
 *
 *   t1, t0               1 to 1,023   half clocks: a cell of 2 units; each further unit
 *   early, normal, late  0 to 15      whole clocks: compare points of write precompensation
 *   min                  1 to 4,095   half clocks: lower edge of class 2
 *   b23_short, b23_long  1 to 4,095   half clocks: lower edge of class 3 after an interval of class 2; after any other
 *   b34_short, b34_long  1 to 4,095   half clocks: lower edge of class 4 after an interval of class 2; after any other
 *   rpt                  1 to 4,095   half clocks: lower edge of wide
 *
 * The profile is true if early <= normal <= late and every length that can be written after each kind of cell is in
 * its window. With e = 2 x (normal - early), l = 2 x (late - normal) and D = e + l, that is ten inequalities:
 *
 *                   min <= t1 - D
 *            t1 < b23_short <= t1 + t0 + e               t1 - l < b23_long <= t1 + t0
 *   t1 + t0 + D < b34_short <= t1 + 2 x t0 + e      t1 + t0 + l < b34_long <= t1 + 2 x t0
 *                              t1 + 2 x t0 + D < rpt
 *
 * Precompensation makes a cell after one of 2 units longer than the same cell after a longer one: edges for each kind
 * can give a larger margin. Where both of each pair are equal, the cell before does not matter.
 */
typedef struct {
    uint16_t t1, t0, early, normal, late, min, b23_short, b23_long, b34_short, b34_long, rpt;
} ism_profile;

/* What a call answers. `number` is ISM_ACCEPTED or a refusal. */
typedef struct {
    uint32_t number, place;
    uint64_t count, used;
    uint32_t holds, clearance;
} ism_answer;

/*
 * The margin: the largest number of half clocks by which every interval of every accepted list may be longer or
 * shorter and still keep its class, whichever kind of cell it comes after. It is the least room of the ten inequalities
 * above.
 *
 *   count     the margin
 *   refusals  ISM_UNSET, ISM_CROSSED
 */
ism_answer ism_margin(ism_profile profile);

/*
 * What holds the margin down: each side of a window edge that forbids margin + 1, so that a bench sees which number to
 * turn. The lengths below an edge are one side of it, and those above it, the edge itself among them, the other. b23
 * and b34 have two sides after a cell of 2 units and two after any other. min and rpt count once, over both kinds;
 * since no length is written below min or above rpt, they have one side each. A side is named when, and only when, some
 * length written on that side, by some accepted list, crosses the edge if moved by margin + 1.
 *
 *   edge      ISM_EDGE_MIN, ISM_EDGE_B23, ISM_EDGE_B34 or ISM_EDGE_RPT
 *   after     ISM_AFTER_BOTH (min and rpt), ISM_AFTER_SHORT or ISM_AFTER_LONG
 *   above     1 for the lengths above the edge, 0 for those below
 *   item      the lowest item, of data and mark bytes, whose list of one byte has such a length
 *   interval  the first such interval in that list's stream, from 0
 *   moved     its length, moved by exactly margin + 1
 *
 * The last three are evidence: write the item, put `moved` in place of the interval, and ism_read refuses the stream or
 * reads it as another list.
 *
 * To raise the margin, turn each number that is named: down if the lengths above it are named, up if those below. No
 * turn of a number helps where both of its sides are named, where its other side is only one half clock further, or
 * where it is at the end of its range. examples/card.c tells these apart.
 */
#define ISM_EDGE_MIN 1u
#define ISM_EDGE_B23 2u
#define ISM_EDGE_B34 3u
#define ISM_EDGE_RPT 4u

#define ISM_AFTER_BOTH 0u
#define ISM_AFTER_SHORT 1u /* after a cell of 2 units: b23_short, b34_short */
#define ISM_AFTER_LONG 2u  /* after any other: b23_long, b34_long */

typedef struct {
    uint16_t edge, after, above, item, interval, moved;
} ism_limit;

typedef struct {
    uint32_t number, place;
    uint64_t count;
    ism_limit limits[ISM_MAX_LIMITS];
} ism_limits;

/*
 * The sides in the order min, b23, b34, rpt, after-short before after-long, the lengths below the edge before those
 * above.
 *
 *   count     sides, 1 to ISM_MAX_LIMITS; the limits beyond the count are all 0
 *   refusals  ISM_UNSET, ISM_CROSSED
 */
ism_limits ism_margin_limits(ism_profile profile);

/*
 * The best windows: given the five numbers that a drive writes with, the profile with the largest margin that any
 * choice of the other six has. With D = 2 x (late - early) and l = 2 x (late - normal) that margin is
 *
 *   the lesser of t1 - D - 1 and (t0 - l - 1) / 2, rounded down
 *
 * and no choice makes a profile true where early, normal and late are out of order, t1 <= D or t0 <= l. With both of
 * each pair equal, D stands for l: pairs are worth up to normal - early half clocks, and where l < t0 <= D only unequal
 * ones are true.
 *
 * Of several profiles with that margin this one is given: each of both b23 and both b34 in the middle between the
 * longest length below it and the shortest above, the lower number on a tie, so that each has the most room that it can
 * have; min and rpt where the margin just fits, and no further out, so that ism_read still tells a stray transition
 * and a dropout as ISM_NARROW and ISM_WIDE.
 *
 *   margin    the margin, which ism_margin gives for the profile too
 *   profile   the eleven numbers, the first five as they were given; all 0 on a refusal
 *   refusals  ISM_UNSET (place 1 to 5), ISM_CROSSED where no choice of the six is true
 */
typedef struct {
    uint32_t number, place;
    uint64_t margin;
    ism_profile profile;
} ism_best;

ism_best ism_best_windows(uint16_t t1, uint16_t t0, uint16_t early, uint16_t normal, uint16_t late);

/*
 * Classes of an interval, as ism_class counts them. The edges b23 and b34 are b23_short and b34_short after an interval
 * of class 2, and b23_long and b34_long after one of any other class, narrow and wide too. What counts is the class as
 * read, not as written. The first interval of a strip, of a field, of a report's list and of a search (the one at its
 * start) counts as coming after class 2. An interval that equals an edge belongs above it.
 */
#define ISM_CLASS_NARROW 1u /* below min */
#define ISM_CLASS_2 2u      /* min to b23 - 1 */
#define ISM_CLASS_3 3u      /* b23 to b34 - 1 */
#define ISM_CLASS_4 4u      /* b34 to rpt - 1 */
#define ISM_CLASS_WIDE 5u   /* rpt or more */

/*
 * Clearance: how far an interval is inside the window of its class, in half clocks. It is the most by which the
 * interval could move either way and keep its class, the interval before it as it was read: the smaller of the way down
 * to the lower edge and the way up to the last number below the upper edge. Narrow and wide intervals have 0. The
 * readers give the least over the intervals they used, so that a close call shows: a strip as written has the margin at
 * least, and one whose intervals were each changed by at most c, where c is at most the margin, has margin - c at
 * least.
 *
 * A bench reads a master and compares its clearance with the margin on the drive's card (ism_margin). By as much as it
 * is below the margin, an interval of the master has come nearer to an edge than any is written. With 0 an interval
 * stands at the edge of its window: half a clock further it is of another class.
 */

/*
 * The class of one interval.
 *
 *   after_short  whether the interval before it was of class 2: 0 no, any other number yes; yes for the first of a list
 *   count        ISM_CLASS_NARROW, ISM_CLASS_2, ISM_CLASS_3, ISM_CLASS_4 or ISM_CLASS_WIDE
 *   clearance    of this interval
 *   refusals     ISM_UNSET, ISM_CROSSED; a narrow or wide interval is not refused here
 *
 * To class a list, begin with 1, and give for each next interval whether `count` was ISM_CLASS_2.
 */
ism_answer ism_class(ism_profile profile, uint16_t interval, uint32_t after_short);

/*
 * Writer: the intervals of a list of items, early and late points included. The bits are a lead 0, the written bytes
 * most significant bit first, and two closing 0s.
 *
 *   items, n   the items; a mark may stand anywhere
 *   out, room  the intervals; ISM_WRITE_ROOM(written bytes), 8 for each and 2, is always room enough
 *   count      intervals written
 *   refusals   ISM_UNSET, ISM_CROSSED, ISM_OVERLONG (over 6,400 items or written bytes), ISM_FOREIGN, ISM_FULL
 *
 * In counting written bytes, 512 counts two and every other number one, an item or not. A list of no items gives two
 * intervals.
 */
ism_answer ism_write(ism_profile profile, const uint16_t *items, size_t n, uint16_t *out, size_t room);

/*
 * Strip reader: the items of a whole stream, such as ism_write gives.
 *
 *   intervals, n  the whole stream
 *   out, room     the items: a data byte, or ISM_MARK plus the byte for a mark; n / 4 is always room enough
 *   count         items
 *   clearance     the least over all intervals
 *   refusals      ISM_UNSET, ISM_CROSSED, ISM_OVERLONG (over 51,202 intervals), the first of ISM_NARROW or ISM_WIDE,
 *                 ISM_RAGGED, ISM_OVERLONG (over 6,400 bytes), ISM_STRAY, ISM_FULL
 *
 * Check bytes come back as the two data bytes they are. No intervals at all are ISM_RAGGED.
 */
ism_answer ism_read(ism_profile profile, const uint16_t *intervals, size_t n, uint16_t *out, size_t room);

/*
 * Finder: the first lock. A lock stands at place k if the 64 intervals before k are of class 2 and those from k are of
 * classes 3 4 3 4 3, as one A1 mark has them, or 3 2 3 4 3 4 2 3 4 3, as two C2 marks have them. In a stream that was
 * written from data bytes and check orders alone no lock stands anywhere, nor where every interval of it is moved by at
 * most the margin. In one with marks a lock may also stand where no such mark was written: that of nine FF, mark C2,
 * 80, 00 has one at 74, and no A1.
 *
 *   intervals, n  any number of intervals; narrow and wide ones break a run and are not refused
 *   start         the search begins here: all 64 must be at or after this place; any number
 *   count         the smallest such place k, at most n - 5
 *   refusals      ISM_UNSET, ISM_CROSSED, ISM_ADRIFT
 *
 * The interval at the start counts as coming after class 2, whatever stands before it: the place found is that in the
 * list from the start on, and the start added. Where pairs differ, a later start may so find an earlier lock.
 *
 * To read the field at the lock, its marks included, give ism_read_field the list from place k. To find the next
 * lock, take this k as the new start. Both class the list as this search did, since k comes after class 2.
 */
ism_answer ism_find(ism_profile profile, const uint16_t *intervals, size_t n, uint64_t start);

/*
 * Field reader: so many bytes from the first interval of a list. It uses intervals until 1 + 8 x bytes bits are known:
 * the lead 0 and the bytes. What follows the used intervals has no influence.
 *
 *   intervals, n  a list beginning with the first interval of the field, such as the place of a lock
 *   bytes         bytes to read, 1 to 1,030, check bytes included
 *   out, room     the items: a data byte, or ISM_MARK plus the byte for a mark; `bytes` of them
 *   count         items, equal to `bytes`
 *   used          intervals used; the rest of the list begins there
 *   holds         1 if the CRC register is zero after the items, else 0
 *   clearance     the least over the used intervals
 *   refusals      ISM_UNSET, ISM_CROSSED, ISM_MISCOUNT, then ISM_NARROW, ISM_WIDE or ISM_SHORT as first met,
 *                 ISM_STRAY (any gap out of place in the used intervals; one on the lead 0 or one that runs past the
 *                 bytes is out of place), ISM_FULL
 */
ism_answer ism_read_field(ism_profile profile, const uint16_t *intervals, size_t n, uint64_t bytes, uint16_t *out,
                          size_t room);

/*
 * Corrected reader: so many bytes at the first lock from a start, at the drive's own speed. Of the 64 intervals before
 * the lock, S0 is the sum of those at even places, counted from the first of them, and S1 that of those at odd places.
 * At nominal speed each is 32 x t1. The intervals from the lock on are counted on alike, the one at the lock being
 * even: an interval d becomes d x 32 x t1 divided by its S and rounded down. These numbers are classed, the first as
 * coming after class 2, and read as ism_read_field reads.
 *
 *   intervals, n  any number of intervals, such as a track
 *   start         the search begins here, as in ism_find, in the intervals as they are
 *   bytes         bytes to read, 1 to 1,030, check bytes included
 *   out, room     the items, as ism_read_field gives them; `bytes` of them
 *   lock          the lock's place in the list
 *   count         items, equal to `bytes`
 *   used          intervals used, counted from the lock
 *   holds         1 if the CRC register is zero after the items, else 0
 *   clearance     the least over the corrected numbers of the used intervals
 *   even, odd     S0 - 32 x t1 and S1 - 32 x t1
 *   refusals      ISM_UNSET, ISM_CROSSED, ISM_ADRIFT, ISM_OFF_SPEED (16 x a difference, sign dropped, is above
 *                 32 x t1), ISM_MISCOUNT, then ISM_NARROW, ISM_WIDE or ISM_SHORT as first met, ISM_STRAY, ISM_FULL; the
 *                 places of ISM_NARROW, ISM_WIDE and ISM_STRAY count from the lock
 *
 * What a bench does with the differences: 100 x (even + odd) / (64 x t1) is by how many percent the intervals are too
 * long, so that the drive runs slow, or too short where it is below 0; (even - odd) / 32 is by how many half clocks the
 * two halves of a pair differ. A drive is taken up to 6.25 percent either way, by each half. Where both differences are
 * 0 the answer is that of ism_read_field from the lock on. Two lists of which one is the other slowed or hastened by an
 * exact ratio give the same but for the differences, where both have the lock at one place.
 *
 * The last of the 64 ends Early as written, so that S1 is not nominal where early < normal: there a field that
 * ism_read_field reads may be refused here.
 */
typedef struct {
    uint32_t number, place;
    uint64_t lock, count, used;
    uint32_t holds, clearance;
    int32_t even, odd;
} ism_corrected;

ism_corrected ism_read_corrected(ism_profile profile, const uint16_t *intervals, size_t n, uint64_t start,
                                 uint64_t bytes, uint16_t *out, size_t room);

/*
 * Sector maker: the items of an ID field and a data field, for ism_write.
 *
 *   12 of 00, three marks A1, FE, track, side, sector, code, check, 22 of 4E,
 *   12 of 00, three marks A1, FB, the data, check, 54 of 4E
 *
 *   code       length code: 1, 2, 3 for 256, 512, 1,024 data bytes
 *   data, n    the data bytes, exactly as many as the code says
 *   out, room  the items; n + ISM_SECTOR_OVERHEAD of them
 *   count      items
 *   refusals   ISM_MISFIT (code 0 or above 3, or data not that long), ISM_FULL
 *
 * Code 0, 128 data bytes, is not made any more. Old disks still read: ism_read_field, ism_index_track and ism_merge
 * take such sectors as they take the others.
 */
ism_answer ism_make_sector(uint8_t track, uint8_t side, uint8_t sector, uint8_t code, const uint8_t *data, size_t n,
                           uint16_t *out, size_t room);

/*
 * Index: what is on a track. An entry begins at a lock whose field of ten bytes reads, with three A1 marks, FE, four
 * data bytes, the last of them a length code of 0 to 3, and a sum that holds. Its data is the next lock, all 64 of its
 * intervals after those that the ID used, if its field reads at the code's size + 6 bytes with three A1 marks and FB.
 * The search goes on after the data field, after the ID where no data was found, and where no entry begins at a lock,
 * at the place after it. Each search is one of ism_find from there.
 *
 *   id_place                   the place of the ID's lock
 *   data_place                 the place of the data's lock; 0 where no data was found
 *   track, side, sector, code  the four bytes after FE
 *   found                      1 if the data was found, else 0
 *   holds                      1 if the data was found and its sum holds, else 0
 */
typedef struct {
    uint64_t id_place, data_place;
    uint8_t track, side, sector, code, found, holds;
} ism_index_entry;

typedef struct {
    uint32_t number, place;
    uint64_t count;
    ism_index_entry entries[ISM_MAX_SECTORS];
} ism_index;

/*
 * The entries of a track, by sector number, those of one number by the place of their ID.
 *
 *   intervals, n  any number of intervals, narrow and wide ones too
 *   count         entries; every field of those beyond the count is 0 (the two bytes of padding behind the fields of
 *                 an entry may hold anything)
 *   refusals      ISM_UNSET, ISM_CROSSED, ISM_CROWDED (a 33rd entry would be needed, whatever follows and
 *                 whatever its number)
 *
 * To read a field, give ism_read_field the list from its place. An ID whose own data lock is lost takes the data behind
 * the next lock, if that reads as the data of its code. The distance of the two places tells: in a sector that
 * ism_make_sector made, data_place is 278 to 295 more than id_place, whatever the ID.
 */
ism_index ism_index_track(ism_profile profile, const uint16_t *intervals, size_t n);

/*
 * Bit images, as drive emulators exchange them: a 16-bit code word for each written byte, a clock bit before each data
 * bit, most significant first. A clock bit is 1 between two 0 data bits; the image starts after data bit 0. Mark A1 is
 * the word 0x4489 and mark C2 is 0x5224, after either bit. A one is a transition.
 */

/*
 * The image of a list of items.
 *
 *   items, n     the items; a mark may stand anywhere
 *   words, room  the code words; one for each written byte
 *   count        words
 *   refusals     ISM_OVERLONG (over 6,400 items or written bytes), ISM_FOREIGN, ISM_FULL
 */
ism_answer ism_make_image(const uint16_t *items, size_t n, uint16_t *words, size_t room);

/*
 * The items of an image.
 *
 *   words, n     the code words
 *   items, room  the items: a data byte, or ISM_MARK plus the byte for a mark; one for each word
 *   count        items
 *   refusals     ISM_OVERLONG (over 6,400 words), ISM_UNRULY, ISM_FULL
 *
 * Check bytes come back as the two data bytes they are.
 */
ism_answer ism_read_image(const uint16_t *words, size_t n, uint16_t *items, size_t room);

/*
 * Merge: the sectors that two passes over one track read. A set of sectors is one list of bytes, its sectors one after
 * the other with nothing between them:
 *
 *     +--------+------+------+- - - - - - - -+--------+------+------+- - - - - - - -+
 *     | number | code | good |     data      | number | code | good |     data      |  ...
 *     +--------+------+------+- - - - - - - -+--------+------+------+- - - - - - - -+
 *       byte 0     1      2    3 to 2 + size
 *
 *   number  the sector number
 *   code    length code: 0, 1, 2, 3 for a size of 128, 256, 512, 1,024 data bytes
 *   good    0 if the sector's sum fails, any other number if it holds; the result has 0 or 1
 *
 * A number in one set only is taken from it. In both, the copy whose sum holds is taken; if neither holds, the first
 * set's; if both hold they must agree. The result is a set by ascending sector number.
 *
 *   first, n   the set that the first pass read; 0 bytes are the empty set
 *   second, m  the second pass's
 *   out, room  the merged set; ISM_MAX_SET_BYTES is always room enough, and so is n + m
 *   count      sectors in the merged set
 *   used       its bytes
 *   refusals   ISM_MISFIT (a code above 3, or a list that ends within a sector, in either set, looked for to its end),
 *              ISM_CROWDED (more than 32 sectors in a set, or different numbers in both together), ISM_AT_ODDS (a
 *              number twice in one set, or in both with both sums good and another code or other data), ISM_FULL
 */
ism_answer ism_merge(const uint8_t *first, size_t n, const uint8_t *second, size_t m, uint8_t *out, size_t room);

/*
 * The set of a track: one pass, as ism_merge takes it. It has the sectors of ism_index_track whose data was found, in
 * the index's order, each with the number and the code of its ID, whether the sum of its data holds, and the data; a
 * mark byte among the data gives the byte. What ism_read_field gives at data_place is the same.
 *
 *   intervals, n  any number of intervals, narrow and wide ones too
 *   set, room     the set; ISM_MAX_SET_BYTES is always room enough
 *   count         sectors in the set
 *   used          its bytes
 *   refusals      ISM_UNSET, ISM_CROSSED, ISM_CROWDED (a 33rd entry of the index would be needed), ISM_FULL
 *
 * A number that stands on the track twice is in the set twice: ism_merge judges that.
 */
ism_answer ism_read_track(ism_profile profile, const uint16_t *intervals, size_t n, uint8_t *set, size_t room);

/*
 * Reports: how worn a drive is. A report has a row for each class of interval, in the order narrow, 2, 3, 4, wide: how
 * many intervals of the list are of that class, the least and the greatest of them, and their sum, in half clocks. An
 * empty class has four zeros.
 */
typedef struct {
    uint64_t count, least, greatest, sum;
} ism_report_row;

typedef struct {
    uint32_t number, place;
    ism_report_row rows[5];
} ism_report;

/*
 * The report of one list of intervals, such as a whole track gives.
 *
 *   intervals, n  at most 51,202 intervals, narrow and wide ones too
 *   refusals      ISM_UNSET, ISM_CROSSED, ISM_OVERLONG
 */
ism_report ism_drive_report(ism_profile profile, const uint16_t *intervals, size_t n);

/*
 * Two reports added, row by row: counts and sums added, the lesser least, the greater greatest. A row whose count is 0
 * is passed over, whatever else it holds; two such give four zeros. Only the rows are looked at, not `number` and
 * `place`. Any number of reports gives one sum, in any order and grouping: the figures of their lists, each of them
 * classed from its own beginning.
 *
 * That is also the report of the lists joined, however long, where the first list is empty or ends in class 2 (of
 * several, each but the last), or where both of each pair are equal. Elsewhere it need not be: the first interval of
 * the second list counts as after class 2 in its own report, and comes after another class in the joined list.
 *
 *   refusals  ISM_OVERLONG if a count or a sum does not fit in 64 bits
 */
ism_report ism_add_reports(ism_report a, ism_report b);

/*
 * The FIFO of two items and the error register, first in first out. Each operation takes a state and hands back the
 * next one; keep `next` and give it to the following operation.
 *
 *   mode           0 is write mode, any other number is read mode
 *   held           0 empty, 1 one item, any other number two items
 *   first, second  the items in the order in which they leave; a place that `held` does not count means nothing
 *   error          the error register: ISM_ERROR_ bits
 *
 * In write mode the processor puts and the chip takes; in read mode the chip puts and the processor takes. An
 * operation that the mode does not give to that side changes nothing and gives 0, before any other test.
 *
 * Once a bit of the error register is set, no other is set until the register is read, which clears it.
 */
typedef struct {
    uint16_t mode, held, first, second, error;
} ism_fifo;

#define ISM_FIFO_WRITE 0u
#define ISM_FIFO_READ 1u

#define ISM_ERROR_CHIP 1u         /* bit 0: the chip put when full or took when empty */
#define ISM_ERROR_MARK_AS_DATA 2u /* bit 1: the processor took a mark at the data location */
#define ISM_ERROR_PROCESSOR 4u    /* bit 2: the processor put when full or took when empty */

/* What a FIFO operation answers: a refusal or 0, the item given, and the next state. */
typedef struct {
    uint32_t number, place;
    uint16_t item;
    ism_fifo next;
} ism_fifo_answer;

/* An empty FIFO with register 0. */
ism_fifo ism_fifo_new(uint16_t mode);

/*
 * A put: the processor in write mode, the chip in read mode. `item` of the answer is always 0.
 *
 *   refusals  ISM_FOREIGN, place 0, state unchanged, if the number is no item; tested before full
 *   fault     put when full: the item is dropped, ISM_ERROR_PROCESSOR or ISM_ERROR_CHIP
 */
ism_fifo_answer ism_fifo_put(ism_fifo fifo, uint16_t item);
ism_fifo_answer ism_fifo_chip_put(ism_fifo fifo, uint16_t item);

/*
 * A take: the chip in write mode, the processor in read mode, at the data or the mark location. Never refused.
 *
 *   item   the item that leaves the FIFO
 *   fault  take when empty: item 0, ISM_ERROR_PROCESSOR or ISM_ERROR_CHIP
 *          mark taken by the processor at the data location: handed over, ISM_ERROR_MARK_AS_DATA
 */
ism_fifo_answer ism_fifo_take_data(ism_fifo fifo);
ism_fifo_answer ism_fifo_take_mark(ism_fifo fifo);
ism_fifo_answer ism_fifo_chip_take(ism_fifo fifo);

/* The error register, in either mode: `item` is its value, and it is 0 in the next state. Never refused. */
ism_fifo_answer ism_fifo_read_error(ism_fifo fifo);

#ifdef __cplusplus
}
#endif

#endif

/*
 * Asks the linker for the interface, once in each file, also where sections that nothing uses are dropped. The header
 * of another library that includes this one defines ISM_WITHOUT_LIBRARY meanwhile, so that a program can do without
 * libism.a; a file that then includes this header itself asks.
 */
#if !defined(ISM_WITHOUT_LIBRARY) && !defined(ISM_INTERFACE_ASKED) && defined(__GNUC__)
#define ISM_INTERFACE_ASKED
#if defined(__has_attribute) && defined(__linux__) /* elsewhere gcc knows `retain` and warns that it is ignored */
#if __has_attribute(retain)
__attribute__((retain))
#endif
#endif
__attribute__((used)) static uint32_t (*const ism_interface_asked)(void) = ism_interface_9;
#endif

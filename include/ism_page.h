/*
 * ism_page.h - page masters for the desk embosser: braille pages kept in the sectors of a floppy disk.
 *
 * A library of its own, libism_page.a, for one product. Its types and numbers are ism.h's, and what ism.h says of all
 * its functions holds of these too: no state, no heap, every argument value answered, a refusal in `number` and `place`
 * that changes no buffer and leaves all else 0. They take less than 1 KB of stack. A program that uses these functions
 * alone links with libism_page.a and needs no libism.a; one that reads tracks as well links with both, in any order.
 *
 * The same proved functions come as portable/ism_page.c, strict C99 for any processor. Proved is the MIR of every
 * function; not proved are the kit's back end for the one, the translator and your compiler for the other. 3,000 seeded
 * calls of each were compared, on the processors that ism.h names, all but x86-64 under emulation. No board was tried.
 *
 * A page is the data of a sector of length code 3, 1,024 bytes: 25 lines of 40 cells, line after line, one byte a cell,
 * and then 24 bytes of 00. In a cell bit 0 is dot 1, and so on up to bit 7 for dot 8; a one is a raised dot. Page n
 * stands in the sector of number n, from 1 on.
 *
 *     bit   0  3        dot   1  4
 *           1  4              2  5
 *           2  5              3  6
 *           6  7              7  8
 *
 * Sectors come and go as a set, in the form that ism_merge takes and gives.
 */
#ifndef ISM_PAGE_H
#define ISM_PAGE_H

/* Without libism.a: a file that includes ism.h itself asks for it. */
#ifdef ISM_WITHOUT_LIBRARY
#include "ism.h"
#else
#define ISM_WITHOUT_LIBRARY
#include "ism.h"
#undef ISM_WITHOUT_LIBRARY
#endif

#ifdef __cplusplus
extern "C" {
#endif

/*
 * Limits. A page takes ISM_PAGE_CELLS bytes as cells and ISM_PAGE_SET_BYTES in a set: number, code, whether the sum
 * holds, and 1,024 bytes of data.
 */
#define ISM_MAX_PAGES 16u
#define ISM_PAGE_LINES 25u
#define ISM_PAGE_LINE_CELLS 40u
#define ISM_PAGE_CELLS 1000u
#define ISM_PAGE_SET_BYTES 1027u

/* What ism_read_pages answers: dots[i] is the number of raised dots on page i + 1, 0 beyond the pages read. */
typedef struct {
    uint32_t number, place;
    uint64_t count, used;
    uint32_t dots[ISM_MAX_PAGES];
} ism_pages;

/*
 * Pages 1 to `pages` of a set of sectors, from the sectors so numbered.
 *
 *   set, n       a set that ism_merge would take with the empty set; its order does not matter, and sectors that are
 *                not asked for may be in it, of any length code, good or not
 *   pages        how many pages, 1 to ISM_MAX_PAGES
 *   cells, room  the pages, ISM_PAGE_CELLS bytes each
 *   count        pages read, equal to `pages`
 *   used         cells stored, ISM_PAGE_CELLS for each page
 *   dots         raised dots
 *   refusals     ISM_MISCOUNT (`pages` out of range), ISM_MISFIT, ISM_CROWDED and ISM_AT_ODDS as ism_merge of the set
 *                with the empty set gives them, for the whole of it, ISM_LOST_PAGE (place: the lowest page whose sector
 *                is missing, not of length code 3, or whose sum fails), ISM_SOILED_FILL (place: the lowest page whose
 *                last 24 bytes are not all 00), ISM_FULL
 *
 * Only pages 1 to `pages` are looked at for ISM_LOST_PAGE and ISM_SOILED_FILL, and a lost page is answered before any
 * soiled one.
 */
ism_pages ism_read_pages(const uint8_t *set, size_t n, uint64_t pages, uint8_t *cells, size_t room);

/*
 * Pages into sectors 1 to `pages` of length code 3, in order, each with 24 bytes of 00 behind its page and marked as
 * one whose sum holds. ism_read_pages gives the same pages back. To write them, give the data of each to
 * ism_make_sector.
 *
 *   cells, n   the pages, exactly ISM_PAGE_CELLS bytes each
 *   pages      how many pages, 1 to ISM_MAX_PAGES
 *   set, room  the set, ISM_PAGE_SET_BYTES bytes for each page
 *   count      sectors made, equal to `pages`
 *   used       bytes stored
 *   refusals   ISM_MISCOUNT (`pages` out of range), ISM_MISFIT (cells of another length), ISM_FULL
 */
ism_answer ism_make_pages(const uint8_t *cells, size_t n, uint64_t pages, uint8_t *set, size_t room);

/*
 * The interface's number is that of ism.h, whose types cross here: what raises it there raises it here, and then a
 * program that was compiled against the old headers does not link.
 */
uint32_t ism_page_interface_9(void); /* gives 9 */

#ifdef __cplusplus
}
#endif

#endif

/*
 * Asks the linker for the interface, once in each file, as ism.h does. Where only the types are wanted, define
 * ISM_PAGE_WITHOUT_LIBRARY meanwhile.
 */
#if !defined(ISM_PAGE_WITHOUT_LIBRARY) && !defined(ISM_PAGE_INTERFACE_ASKED) && defined(__GNUC__)
#define ISM_PAGE_INTERFACE_ASKED
#if defined(__has_attribute) && defined(__linux__)
#if __has_attribute(retain)
__attribute__((retain))
#endif
#endif
__attribute__((used)) static uint32_t (*const ism_page_interface_asked)(void) = ism_page_interface_9;
#endif

/*
 * The library ism_page as one C file, for any processor.
 *
 * Made by portable/from_mir from the libraries that rattle-kit-13f logic dac8208d650f15bf has proved and built: from
 * the MIR of every function, for which the proofs hold on Rattle's abstract machine. The translator and the C compiler
 * are not proved; portable/README.md says how they are tested. Not to be edited: change the Rattle source, prove it,
 * and make this file again.
 *
 * Strict C99 without undefined behaviour; no heap, no library function, no state. Needs ism_page.h beside it or on the
 * include path: cc -std=c99 -O2 -Iinclude -c portable/ism_page.c
 *
 * Each function is named by its path in the Rattle source, with _ for ::, and carries the comment that it has there. A
 * number of n bits is a uintn_t, usize is uint64_t, a slice is a pointer and a length, an array is a struct of one so
 * that it can be assigned, and an enum is a tag and a union. Sums, differences and products are proved to stay within
 * their widths. Temporaries that MIR has and the source does not are named t and a number.
 */
#include "ism_page.h"

#include <stdbool.h>
#include <stddef.h>
#include <stdint.h>

/* The structs of the header lie as those that were proved: sizes and places in bytes. */
#define SIZE(type, size) typedef char size_of_##type[sizeof(type) == (size) ? 1 : -1]
#define FIELD(type, field, place, size) \
    typedef char place_of_##type##_##field[ \
            offsetof(type, field) == (place) && sizeof(((type *)0)->field) == (size) ? 1 : -1]

SIZE(ism_answer, 32);
FIELD(ism_answer, number, 0, 4);
FIELD(ism_answer, place, 4, 4);
FIELD(ism_answer, count, 8, 8);
FIELD(ism_answer, used, 16, 8);
FIELD(ism_answer, holds, 24, 4);
FIELD(ism_answer, clearance, 28, 4);

SIZE(ism_pages, 88);
FIELD(ism_pages, number, 0, 4);
FIELD(ism_pages, place, 4, 4);
FIELD(ism_pages, count, 8, 8);
FIELD(ism_pages, used, 16, 8);
FIELD(ism_pages, dots, 24, 64);

/* core::result::Result<u8, AllocError>, of the kit's library */
enum { Result_u8_AllocError_Ok, Result_u8_AllocError_Err };
struct Result_u8_AllocError {
    uint8_t tag;
    union {
        uint8_t Ok;
    } u;
};

struct slice_u8_mut {
    uint8_t *at;
    uint64_t len;
};

/* refusal::Refusal, crates/refusal/src/lib.rt */
enum { refusal_Refusal_ProfileOutOfRange, refusal_Refusal_ProfileInconsistent, refusal_Refusal_NotAnItem,
        refusal_Refusal_TooLong, refusal_Refusal_IntervalTooShort, refusal_Refusal_IntervalTooLong,
        refusal_Refusal_NotWholeBytes, refusal_Refusal_MisplacedMark, refusal_Refusal_OutputTooShort,
        refusal_Refusal_NoLock, refusal_Refusal_EndsEarly, refusal_Refusal_CountOutOfRange,
        refusal_Refusal_SectorSizeMismatch, refusal_Refusal_MalformedInput, refusal_Refusal_TooManySectors,
        refusal_Refusal_UnrulyWord, refusal_Refusal_SectorsAtOdds, refusal_Refusal_OffSpeed, refusal_Refusal_PageLost,
        refusal_Refusal_FillSoiled };
struct refusal_Refusal {
    uint8_t tag;
    union {
        uint32_t ProfileOutOfRange;
        uint32_t NotAnItem;
        uint32_t IntervalTooShort;
        uint32_t IntervalTooLong;
        uint32_t MisplacedMark;
        uint32_t MalformedInput;
        uint32_t UnrulyWord;
        uint32_t SectorsAtOdds;
        uint32_t OffSpeed;
        uint32_t PageLost;
        uint32_t FillSoiled;
    } u;
};

/* core::result::ErrResidual<Refusal>, of the kit's library */
struct ErrResidual_Refusal {
    struct refusal_Refusal f0;
};

/* core::ops::ControlFlow<ErrResidual_Refusal, u64>, of the kit's library */
enum { ControlFlow_ErrResidual_Refusal_u64_Continue, ControlFlow_ErrResidual_Refusal_u64_Break };
struct ControlFlow_ErrResidual_Refusal_u64 {
    uint8_t tag;
    union {
        uint64_t Continue;
        struct ErrResidual_Refusal Break;
    } u;
};

/* core::result::Result<u64, Refusal>, of the kit's library */
enum { Result_u64_Refusal_Ok, Result_u64_Refusal_Err };
struct Result_u64_Refusal {
    uint8_t tag;
    union {
        uint64_t Ok;
        struct refusal_Refusal Err;
    } u;
};

/* refusal::Told, crates/refusal/src/lib.rt */
struct refusal_Told {
    uint32_t number;
    uint32_t place;
    uint64_t count;
};

struct slice_u8 {
    const uint8_t *at;
    uint64_t len;
};

/* sets::span::Span, crates/sets/src/span.rt */
struct sets_span_Span {
    uint64_t low;
    uint64_t high;
};

struct array_u16_256 {
    uint16_t a[256];
};

/* core::option::Option<u64>, of the kit's library */
enum { Option_u64_None, Option_u64_Some };
struct Option_u64 {
    uint8_t tag;
    union {
        uint64_t Some;
    } u;
};

struct array_u8_32 {
    uint8_t a[32];
};

struct array_u32_16 {
    uint32_t a[16];
};

/* sets::SetSize, crates/sets/src/lib.rt */
struct sets_SetSize {
    uint64_t count;
    uint64_t bytes;
};

/* core::result::Result<SetSize, Refusal>, of the kit's library */
enum { Result_SetSize_Refusal_Ok, Result_SetSize_Refusal_Err };
struct Result_SetSize_Refusal {
    uint8_t tag;
    union {
        struct sets_SetSize Ok;
        struct refusal_Refusal Err;
    } u;
};

static struct slice_u8_mut slice_u8_mut(uint8_t *at, uint64_t len) {
    return (struct slice_u8_mut){.at = at, .len = len};
}

static struct slice_u8 slice_u8(const uint8_t *at, uint64_t len) {
    return (struct slice_u8){.at = at, .len = len};
}

/* The ones of each two bits, of each four, of each eight, and of all. */
static uint32_t count_ones(uint32_t bits) {
    bits = bits - ((bits >> 1) & 0x55555555);
    bits = (bits & 0x33333333) + ((bits >> 2) & 0x33333333);
    bits = (bits + (bits >> 4)) & 0x0F0F0F0F;
    return (uint32_t)(bits * 0x01010101) >> 24;
}

/* The crate core */

/* core::int::usize::min, of the kit's library */
static uint64_t core_int_usize_min(uint64_t p1, uint64_t p2) {
    if (p2 < p1) return p2;
    return p1;
}

/* core::int::usize::max, of the kit's library */
static uint64_t core_int_usize_max(uint64_t p1, uint64_t p2) {
    if (p2 < p1) return p1;
    return p2;
}

/* core::clone::U8Clone::clone, of the kit's library */
static struct Result_u8_AllocError core_clone_U8Clone_clone(const uint8_t *p1) {
    return (struct Result_u8_AllocError){.tag = Result_u8_AllocError_Ok, .u.Ok = *p1};
}

/* core::clone::surely<u8>, of the kit's library */
static uint8_t core_clone_surely_u8(const uint8_t *p1) {
    return core_clone_U8Clone_clone(p1).u.Ok;
}

/* core::slice::edits::slice+T::fill<u8>, of the kit's library */
static void core_slice_edits_slice_T_fill_u8(struct slice_u8_mut p1, uint8_t p2) {
    uint64_t t4 = p1.len;
    if (t4 == 0) return;
    uint64_t t5 = 0;
    while (t5 < t4 - 1) {
        p1.at[t5] = core_clone_surely_u8(&p2);
        t5++;
    }
    p1.at[t4 - 1] = p2;
}

/* The crate refusal */

/* core::result::ResultTry::branch<u64, Refusal>, of the kit's library */
static struct ControlFlow_ErrResidual_Refusal_u64
        core_result_ResultTry_branch_u64_Refusal(struct Result_u64_Refusal p1) {
    if (p1.tag == Result_u64_Refusal_Ok) {
        return (struct ControlFlow_ErrResidual_Refusal_u64){.tag = ControlFlow_ErrResidual_Refusal_u64_Continue,
                .u.Continue = p1.u.Ok};
    }
    return (struct ControlFlow_ErrResidual_Refusal_u64){.tag = ControlFlow_ErrResidual_Refusal_u64_Break,
            .u.Break = {.f0 = p1.u.Err}};
}

/* core::convert::AnyFrom::from<Refusal>, of the kit's library */
static struct refusal_Refusal core_convert_AnyFrom_from_Refusal(struct refusal_Refusal p1) {
    return p1;
}

/* core::result::ResultFromResidualErrResidual::from_residual<u64, Refusal, Refusal>, of the kit's library */
static struct Result_u64_Refusal
        core_result_ResultFromResidualErrResidual_from_residual_u64_Refusal_Refusal(struct ErrResidual_Refusal p1) {
    return (struct Result_u64_Refusal){.tag = Result_u64_Refusal_Err,
            .u.Err = core_convert_AnyFrom_from_Refusal(p1.f0)};
}

/* refusal::Refusal::number, crates/refusal/src/lib.rt: The number in document 01's table. */
static uint32_t refusal_Refusal_number(struct refusal_Refusal self) {
    switch (self.tag) {
    case refusal_Refusal_ProfileOutOfRange: return 1;
    case refusal_Refusal_ProfileInconsistent: return 2;
    case refusal_Refusal_NotAnItem: return 3;
    case refusal_Refusal_TooLong: return 4;
    case refusal_Refusal_IntervalTooShort: return 5;
    case refusal_Refusal_IntervalTooLong: return 6;
    case refusal_Refusal_NotWholeBytes: return 7;
    case refusal_Refusal_MisplacedMark: return 8;
    case refusal_Refusal_OutputTooShort: return 9;
    case refusal_Refusal_NoLock: return 10;
    case refusal_Refusal_EndsEarly: return 11;
    case refusal_Refusal_CountOutOfRange: return 12;
    case refusal_Refusal_SectorSizeMismatch: return 13;
    case refusal_Refusal_MalformedInput: return 14;
    case refusal_Refusal_TooManySectors: return 15;
    case refusal_Refusal_UnrulyWord: return 16;
    case refusal_Refusal_SectorsAtOdds: return 17;
    case refusal_Refusal_OffSpeed: return 18;
    case refusal_Refusal_PageLost: return 19;
    default: return 20; /* refusal_Refusal_FillSoiled */
    }
}

/*
 * refusal::Refusal::place, crates/refusal/src/lib.rt
 * The place in document 01's table; 0 where the table gives none.
 */
static uint32_t refusal_Refusal_place(struct refusal_Refusal self) {
    switch (self.tag) {
    case refusal_Refusal_ProfileOutOfRange: return self.u.ProfileOutOfRange;
    case refusal_Refusal_ProfileInconsistent: return 0;
    case refusal_Refusal_NotAnItem: return self.u.NotAnItem;
    case refusal_Refusal_TooLong: return 0;
    case refusal_Refusal_IntervalTooShort: return self.u.IntervalTooShort;
    case refusal_Refusal_IntervalTooLong: return self.u.IntervalTooLong;
    case refusal_Refusal_NotWholeBytes: return 0;
    case refusal_Refusal_MisplacedMark: return self.u.MisplacedMark;
    case refusal_Refusal_OutputTooShort: return 0;
    case refusal_Refusal_NoLock: return 0;
    case refusal_Refusal_EndsEarly: return 0;
    case refusal_Refusal_CountOutOfRange: return 0;
    case refusal_Refusal_SectorSizeMismatch: return 0;
    case refusal_Refusal_MalformedInput: return self.u.MalformedInput;
    case refusal_Refusal_TooManySectors: return 0;
    case refusal_Refusal_UnrulyWord: return self.u.UnrulyWord;
    case refusal_Refusal_SectorsAtOdds: return self.u.SectorsAtOdds;
    case refusal_Refusal_OffSpeed: return self.u.OffSpeed;
    case refusal_Refusal_PageLost: return self.u.PageLost;
    default: return self.u.FillSoiled; /* refusal_Refusal_FillSoiled */
    }
}

/* refusal::ToldFromResultUsizeRefusal::from, crates/refusal/src/lib.rt */
static struct refusal_Told refusal_ToldFromResultUsizeRefusal_from(struct Result_u64_Refusal counted) {
    if (counted.tag == Result_u64_Refusal_Ok) {
        return (struct refusal_Told){.number = 0, .place = 0, .count = counted.u.Ok};
    }
    struct refusal_Refusal refusal = counted.u.Err;
    uint32_t t5 = refusal_Refusal_number(refusal);
    return (struct refusal_Told){.number = t5, .place = refusal_Refusal_place(refusal), .count = 0};
}

/* The crate sectors */

/* sectors::sector_size, crates/sectors/src/lib.rt: The bytes of data in a sector of a length code, 0 to 3. */
static uint64_t sectors_sector_size(uint8_t code) {
    switch (code) {
    case 0: return 128;
    case 1: return 256;
    case 2: return 512;
    default: return 1024;
    }
}

/* The crate sets */

/* sets::index::sector_end, crates/sets/src/index.rt: The place after the sector that begins at a place. */
static struct Result_u64_Refusal sets_index_sector_end(struct slice_u8 set, uint64_t start) {
    uint64_t left = set.len - start;
    if (left < 3) {
        return (struct Result_u64_Refusal){.tag = Result_u64_Refusal_Err,
                .u.Err = {.tag = refusal_Refusal_SectorSizeMismatch}};
    }
    uint8_t code = set.at[start + 1];
    if (3 < code) {
        return (struct Result_u64_Refusal){.tag = Result_u64_Refusal_Err,
                .u.Err = {.tag = refusal_Refusal_SectorSizeMismatch}};
    }
    uint64_t size = sectors_sector_size(code);
    if (left - 3 < size) {
        return (struct Result_u64_Refusal){.tag = Result_u64_Refusal_Err,
                .u.Err = {.tag = refusal_Refusal_SectorSizeMismatch}};
    }
    return (struct Result_u64_Refusal){.tag = Result_u64_Refusal_Ok, .u.Ok = start + 3 + size};
}

/*
 * sets::index::count_sectors, crates/sets/src/index.rt
 * 13, looked for to the end of the set, or how many sectors it has.
 */
static struct Result_u64_Refusal sets_index_count_sectors(struct slice_u8 set) {
    uint64_t count = 0;
    uint64_t start = 0;
    while (start < set.len) {
        struct ControlFlow_ErrResidual_Refusal_u64 t9 =
                core_result_ResultTry_branch_u64_Refusal(sets_index_sector_end(set, start));
        uint64_t end;
        if (t9.tag == ControlFlow_ErrResidual_Refusal_u64_Continue) {
            end = t9.u.Continue;
        } else {
            return core_result_ResultFromResidualErrResidual_from_residual_u64_Refusal_Refusal(t9.u.Break);
        }
        count++;
        start = end;
    }
    return (struct Result_u64_Refusal){.tag = Result_u64_Refusal_Ok, .u.Ok = count};
}

/* sets::index::entry, crates/sets/src/index.rt */
static uint16_t sets_index_entry(uint16_t old, uint16_t place) {
    if (old == 0) return place;
    return 65535;
}

/* sets::span::join, crates/sets/src/span.rt: The span of the numbers of either. */
static struct sets_span_Span sets_span_join(struct sets_span_Span a, struct sets_span_Span b) {
    uint64_t t3 = core_int_usize_min(a.low, b.low);
    return (struct sets_span_Span){.low = t3, .high = core_int_usize_max(a.high, b.high)};
}

/*
 * sets::index::index_set, crates/sets/src/index.rt
 * Answers the span of the numbers. 32 sectors have at most 32,864 bytes, so a place fits 16 bits and is not 65,535.
 */
static struct sets_span_Span sets_index_index_set(struct slice_u8 set, struct array_u16_256 *index) {
    struct sets_span_Span span = {.low = 256, .high = 0};
    uint64_t start = 0;
    while (start < set.len) {
        uint64_t code = start + 1;
        uint64_t number = (uint64_t)set.at[start];
        index->a[number] = sets_index_entry(index->a[number], (uint16_t)code);
        struct sets_span_Span here = {.low = number, .high = number + 1};
        span = sets_span_join(span, here);
        start = code + 2 + sectors_sector_size(set.at[code]);
    }
    return span;
}

/* sets::alone::lowest_twice, crates/sets/src/alone.rt: The lowest number that an index shows twice. */
static struct Option_u64 sets_alone_lowest_twice(const struct array_u16_256 *index, struct sets_span_Span span) {
    uint64_t n = span.low;
    uint64_t t4 = span.high;
    while (n < t4) {
        if (index->a[n] == 65535) return (struct Option_u64){.tag = Option_u64_Some, .u.Some = n};
        n++;
    }
    return (struct Option_u64){.tag = Option_u64_None};
}

/*
 * sets::alone::index_alone, crates/sets/src/alone.rt
 * 13, 15, 17; else how many sectors there are, and their index.
 */
static struct Result_u64_Refusal sets_alone_index_alone(struct slice_u8 set, struct array_u16_256 *index) {
    struct ControlFlow_ErrResidual_Refusal_u64 t8 =
            core_result_ResultTry_branch_u64_Refusal(sets_index_count_sectors(set));
    uint64_t count;
    if (t8.tag == ControlFlow_ErrResidual_Refusal_u64_Continue) {
        count = t8.u.Continue;
    } else {
        return core_result_ResultFromResidualErrResidual_from_residual_u64_Refusal_Refusal(t8.u.Break);
    }
    if (32 < count) {
        return (struct Result_u64_Refusal){.tag = Result_u64_Refusal_Err,
                .u.Err = {.tag = refusal_Refusal_TooManySectors}};
    }
    struct sets_span_Span span = sets_index_index_set(set, index);
    struct Option_u64 t14 = sets_alone_lowest_twice(index, span);
    if (t14.tag == Option_u64_Some) {
        uint64_t number = t14.u.Some;
        return (struct Result_u64_Refusal){.tag = Result_u64_Refusal_Err,
                .u.Err = {.tag = refusal_Refusal_SectorsAtOdds, .u.SectorsAtOdds = (uint32_t)number}};
    }
    return (struct Result_u64_Refusal){.tag = Result_u64_Refusal_Ok, .u.Ok = count};
}

/* The crate page */

/*
 * page::search::is_lost, crates/page/src/search.rt
 * An entry of the index is 0, or the place of the sector's length code; whether its sum holds stands behind it.
 */
static bool page_search_is_lost(struct slice_u8 set, uint16_t entry) {
    if (entry == 0) return true;
    uint64_t code = (uint64_t)entry;
    if (set.at[code] != 3) return true;
    return set.at[code + 1] == 0;
}

/* page::search::lowest_lost, crates/page/src/search.rt */
static struct Option_u64 page_search_lowest_lost(struct slice_u8 set, const struct array_u16_256 *index,
        uint64_t pages) {
    uint64_t k = 0;
    while (k < pages) {
        if (page_search_is_lost(set, index->a[k + 1])) {
            return (struct Option_u64){.tag = Option_u64_Some, .u.Some = k};
        }
        k++;
    }
    return (struct Option_u64){.tag = Option_u64_None};
}

/*
 * page::search::is_soiled, crates/page/src/search.rt
 * Looks at every byte: a loop that could end early would go byte by byte.
 */
static bool page_search_is_soiled(struct slice_u8 fill) {
    bool soiled = false;
    uint64_t byte_index = 0;
    uint64_t t5 = fill.len;
    while (byte_index < t5) {
        soiled = soiled | (fill.at[byte_index] != 0);
        byte_index++;
    }
    return soiled;
}

/*
 * page::search::lowest_soiled, crates/page/src/search.rt
 * None of the pages is lost, so that the index has the place of each.
 */
static struct Option_u64 page_search_lowest_soiled(struct slice_u8 set, const struct array_u16_256 *index,
        uint64_t pages) {
    uint64_t k = 0;
    while (k < pages) {
        uint64_t fill = (uint64_t)index->a[k + 1] + 1002;
        uint64_t end = fill + 24;
        if (page_search_is_soiled(slice_u8(set.at + fill, end - fill))) {
            return (struct Option_u64){.tag = Option_u64_Some, .u.Some = k};
        }
        k++;
    }
    return (struct Option_u64){.tag = Option_u64_None};
}

/*
 * page::copying::copy, crates/page/src/copying.rt
 * Bytes from a place on. Not `lists::store`: that all have room the compiler knows here, and copies a page in half the
 * instructions, 143 for 288 a page made.
 */
static void page_copying_copy(struct slice_u8 bytes, uint64_t at, struct slice_u8_mut out) {
    uint64_t k = 0;
    uint64_t t6 = bytes.len;
    while (k < t6) {
        out.at[at + k] = bytes.at[k];
        k++;
    }
}

/* page::dots::halves, crates/page/src/dots.rt: Ones of pairs of bits, then of four. */
static uint8_t page_dots_halves(uint8_t cell) {
    uint8_t pairs = cell - ((cell >> 1) & 0x55);
    return (pairs & 0x33) + ((pairs >> 2) & 0x33);
}

/*
 * page::dots::grow, crates/page/src/dots.rt
 * Each half of the sum of three is at most 12, so that none runs over into the other.
 */
static uint8_t page_dots_grow(uint8_t column, uint8_t a, uint8_t b, uint8_t c) {
    uint8_t t6 = page_dots_halves(a);
    uint8_t t8 = t6 + page_dots_halves(b);
    uint8_t three = t8 + page_dots_halves(c);
    return column + three % 16 + three / 16;
}

/* page::dots::add_rows, crates/page/src/dots.rt: Three rows of 32 cells. */
static void page_dots_add_rows(struct slice_u8 rows, struct array_u8_32 *columns) {
    uint64_t k = 0;
    while (k < 32) {
        uint8_t *column = columns->a + k;
        *column = page_dots_grow(*column, rows.at[k], rows.at[32 + k], rows.at[64 + k]);
        k++;
    }
}

/* page::dots::sum_columns, crates/page/src/dots.rt */
static uint32_t page_dots_sum_columns(const struct array_u8_32 *columns) {
    uint32_t sum = 0;
    uint64_t column_index = 0;
    while (column_index < 32) {
        sum += (uint32_t)columns->a[column_index];
        column_index++;
    }
    return sum;
}

/* page::dots::count_line, crates/page/src/dots.rt: The last line by itself. */
static uint32_t page_dots_count_line(struct slice_u8 line) {
    uint32_t dots = 0;
    uint64_t cell_index = 0;
    uint64_t t5 = line.len;
    while (cell_index < t5) {
        dots += count_ones(line.at[cell_index]);
        cell_index++;
    }
    return dots;
}

/* page::dots::count_dots, crates/page/src/dots.rt */
static uint32_t page_dots_count_dots(struct slice_u8 page) {
    struct array_u8_32 columns = {0};
    uint64_t turn = 0;
    while (turn < 10) {
        uint64_t start = 96 * turn;
        uint64_t end = start + 96;
        page_dots_add_rows(slice_u8(page.at + start, end - start), &columns);
        turn++;
    }
    uint32_t t13 = page_dots_sum_columns(&columns);
    return t13 + page_dots_count_line(slice_u8(page.at + 960, (uint64_t)1000 - 960));
}

/*
 * page::reading::put_pages, crates/page/src/reading.rt
 * The pages, none of which is lost, where there is room for them.
 */
static void page_reading_put_pages(struct slice_u8 set, const struct array_u16_256 *index, uint64_t pages,
        struct slice_u8_mut cells, struct array_u32_16 *dots) {
    uint64_t k = 0;
    while (k < pages) {
        uint64_t start = (uint64_t)index->a[k + 1] + 2;
        uint64_t end = start + 1000;
        page_copying_copy(slice_u8(set.at + start, end - start), 1000 * k, cells);
        dots->a[k] = page_dots_count_dots(slice_u8(set.at + start, end - start));
        k++;
    }
}

/* page::reading::deliver, crates/page/src/reading.rt: 19, 20, 9. */
static struct Result_u64_Refusal page_reading_deliver(struct slice_u8 set, const struct array_u16_256 *index,
        uint64_t pages, struct slice_u8_mut cells, struct array_u32_16 *dots) {
    struct Option_u64 t8 = page_search_lowest_lost(set, index, pages);
    if (t8.tag == Option_u64_Some) {
        uint64_t lost = t8.u.Some;
        return (struct Result_u64_Refusal){.tag = Result_u64_Refusal_Err,
                .u.Err = {.tag = refusal_Refusal_PageLost, .u.PageLost = (uint32_t)lost + 1}};
    }
    struct Option_u64 t12 = page_search_lowest_soiled(set, index, pages);
    if (t12.tag == Option_u64_Some) {
        uint64_t soiled = t12.u.Some;
        return (struct Result_u64_Refusal){.tag = Result_u64_Refusal_Err,
                .u.Err = {.tag = refusal_Refusal_FillSoiled, .u.FillSoiled = (uint32_t)soiled + 1}};
    }
    if (cells.len < 1000 * pages) {
        return (struct Result_u64_Refusal){.tag = Result_u64_Refusal_Err,
                .u.Err = {.tag = refusal_Refusal_OutputTooShort}};
    }
    page_reading_put_pages(set, index, pages, cells, dots);
    return (struct Result_u64_Refusal){.tag = Result_u64_Refusal_Ok, .u.Ok = pages};
}

/* page::reading::gather, crates/page/src/reading.rt: 12, then 13, 15 and 17, then the others. */
static struct Result_u64_Refusal page_reading_gather(struct slice_u8 set, uint64_t pages, struct slice_u8_mut cells,
        struct array_u32_16 *dots) {
    if (pages < 1) {
        return (struct Result_u64_Refusal){.tag = Result_u64_Refusal_Err,
                .u.Err = {.tag = refusal_Refusal_CountOutOfRange}};
    }
    if (16 < pages) {
        return (struct Result_u64_Refusal){.tag = Result_u64_Refusal_Err,
                .u.Err = {.tag = refusal_Refusal_CountOutOfRange}};
    }
    struct array_u16_256 index = {0};
    struct ControlFlow_ErrResidual_Refusal_u64 t11 =
            core_result_ResultTry_branch_u64_Refusal(sets_alone_index_alone(set, &index));
    if (t11.tag != ControlFlow_ErrResidual_Refusal_u64_Continue) {
        return core_result_ResultFromResidualErrResidual_from_residual_u64_Refusal_Refusal(t11.u.Break);
    }
    return page_reading_deliver(set, &index, pages, cells, dots);
}

/*
 * page::reading::read_pages, crates/page/src/reading.rt
 * 12, 13, 15, 17, 19, 20, 9. On acceptance pages 1 to p fill the front of the output, 1,000 cells each.
 */
static ism_pages page_reading_read_pages(struct slice_u8 set, uint64_t pages, struct slice_u8_mut cells) {
    struct array_u32_16 dots = {0};
    struct refusal_Told read = refusal_ToldFromResultUsizeRefusal_from(page_reading_gather(set, pages, cells, &dots));
    ism_pages result;
    result.number = read.number;
    result.place = read.place;
    result.count = read.count;
    result.used = 1000 * read.count;
    for (uint64_t each = 0; each < 16; each++) {
        result.dots[each] = dots.a[each];
    }
    return result;
}

/* page::making::put_sector, crates/page/src/making.rt */
static void page_making_put_sector(uint8_t number, struct slice_u8 page, struct slice_u8_mut set, uint64_t start) {
    set.at[start] = number;
    set.at[start + 1] = 3;
    set.at[start + 2] = 1;
    page_copying_copy(page, start + 3, set);
    uint64_t behind = start + 1003;
    uint64_t end = behind + 24;
    core_slice_edits_slice_T_fill_u8(slice_u8_mut(set.at + behind, end - behind), 0);
}

/* page::making::put_sectors, crates/page/src/making.rt */
static void page_making_put_sectors(struct slice_u8 cells, uint64_t pages, struct slice_u8_mut set) {
    uint64_t k = 0;
    while (k < pages) {
        uint64_t start = 1000 * k;
        uint64_t end = start + 1000;
        page_making_put_sector((uint8_t)k + 1, slice_u8(cells.at + start, end - start), set, 1027 * k);
        k++;
    }
}

/*
 * page::making::make_pages, crates/page/src/making.rt
 * 12, 13, 9; else the size of the set. On acceptance sectors 1 to p of code 3 fill the front of the output, 1,027
 * bytes each.
 */
static struct Result_SetSize_Refusal page_making_make_pages(struct slice_u8 cells, uint64_t pages,
        struct slice_u8_mut set) {
    if (pages < 1) {
        return (struct Result_SetSize_Refusal){.tag = Result_SetSize_Refusal_Err,
                .u.Err = {.tag = refusal_Refusal_CountOutOfRange}};
    }
    if (16 < pages) {
        return (struct Result_SetSize_Refusal){.tag = Result_SetSize_Refusal_Err,
                .u.Err = {.tag = refusal_Refusal_CountOutOfRange}};
    }
    if (cells.len != 1000 * pages) {
        return (struct Result_SetSize_Refusal){.tag = Result_SetSize_Refusal_Err,
                .u.Err = {.tag = refusal_Refusal_SectorSizeMismatch}};
    }
    uint64_t bytes = 1027 * pages;
    if (set.len < bytes) {
        return (struct Result_SetSize_Refusal){.tag = Result_SetSize_Refusal_Err,
                .u.Err = {.tag = refusal_Refusal_OutputTooShort}};
    }
    page_making_put_sectors(cells, pages, set);
    return (struct Result_SetSize_Refusal){.tag = Result_SetSize_Refusal_Ok, .u.Ok = {.count = pages, .bytes = bytes}};
}

/* The crate ism_page */

/* ism_page::ism_read_pages, crates/ism_page/src/lib.rt */
static ism_pages ism_page_ism_read_pages(struct slice_u8 set, uint64_t pages, struct slice_u8_mut cells) {
    return page_reading_read_pages(set, pages, cells);
}

/* ism_page::IsmAnswerFromResultSetSizeRefusal::from, crates/ism_page/src/lib.rt */
static ism_answer ism_page_IsmAnswerFromResultSetSizeRefusal_from(struct Result_SetSize_Refusal made) {
    if (made.tag == Result_SetSize_Refusal_Ok) {
        return (ism_answer){.number = 0, .place = 0, .count = made.u.Ok.count, .used = made.u.Ok.bytes, .holds = 0,
                .clearance = 0};
    }
    struct refusal_Refusal refusal = made.u.Err;
    uint32_t t8 = refusal_Refusal_number(refusal);
    return (ism_answer){.number = t8, .place = refusal_Refusal_place(refusal), .count = 0, .used = 0, .holds = 0,
            .clearance = 0};
}

/* ism_page::ism_make_pages, crates/ism_page/src/lib.rt */
static ism_answer ism_page_ism_make_pages(struct slice_u8 cells, uint64_t pages, struct slice_u8_mut set) {
    struct Result_SetSize_Refusal made = page_making_make_pages(cells, pages, set);
    return ism_page_IsmAnswerFromResultSetSizeRefusal_from(made);
}

/*
 * ism_page::ism_page_interface_9, crates/ism_page/src/lib.rt
 * Its name is what counts: a program asks the linker for the interface that it was compiled against.
 */
static uint32_t ism_page_ism_page_interface_9(void) {
    return 9;
}

/* The entries that ism_page.h declares. A slice of no elements points to something, as the caller's may be null. */

ism_pages ism_read_pages(const uint8_t *set, size_t n, uint64_t pages, uint8_t *cells, size_t room) {
    uint8_t none_u8 = 0;
    return ism_page_ism_read_pages(slice_u8(n == 0 ? &none_u8 : set, n), pages,
            slice_u8_mut(room == 0 ? &none_u8 : cells, room));
}

ism_answer ism_make_pages(const uint8_t *cells, size_t n, uint64_t pages, uint8_t *set, size_t room) {
    uint8_t none_u8 = 0;
    return ism_page_ism_make_pages(slice_u8(n == 0 ? &none_u8 : cells, n), pages,
            slice_u8_mut(room == 0 ? &none_u8 : set, room));
}

uint32_t ism_page_interface_9(void) {
    return ism_page_ism_page_interface_9();
}

/*
 * The library ism as one C file, for any processor.
 *
 * Made by portable/from_mir from the libraries that rattle-kit-13f logic dac8208d650f15bf has proved and built: from
 * the MIR of every function, for which the proofs hold on Rattle's abstract machine. The translator and the C compiler
 * are not proved; portable/README.md says how they are tested. Not to be edited: change the Rattle source, prove it,
 * and make this file again.
 *
 * Strict C99 without undefined behaviour; no heap, no library function, no state. Needs ism.h beside it or on the
 * include path: cc -std=c99 -O2 -Iinclude -c portable/ism.c
 *
 * Each function is named by its path in the Rattle source, with _ for ::, and carries the comment that it has there. A
 * number of n bits is a uintn_t, usize is uint64_t, a slice is a pointer and a length, an array is a struct of one so
 * that it can be assigned, and an enum is a tag and a union. Sums, differences and products are proved to stay within
 * their widths. Temporaries that MIR has and the source does not are named t and a number.
 */
#include "ism.h"

#include <stdbool.h>
#include <stddef.h>
#include <stdint.h>

/* The structs of the header lie as those that were proved: sizes and places in bytes. */
#define SIZE(type, size) typedef char size_of_##type[sizeof(type) == (size) ? 1 : -1]
#define FIELD(type, field, place, size) \
    typedef char place_of_##type##_##field[ \
            offsetof(type, field) == (place) && sizeof(((type *)0)->field) == (size) ? 1 : -1]

SIZE(ism_answer, 32);
FIELD(ism_answer, number, 0, 4);
FIELD(ism_answer, place, 4, 4);
FIELD(ism_answer, count, 8, 8);
FIELD(ism_answer, used, 16, 8);
FIELD(ism_answer, holds, 24, 4);
FIELD(ism_answer, clearance, 28, 4);

SIZE(ism_best, 40);
FIELD(ism_best, number, 0, 4);
FIELD(ism_best, place, 4, 4);
FIELD(ism_best, margin, 8, 8);
FIELD(ism_best, profile, 16, 22);

SIZE(ism_corrected, 48);
FIELD(ism_corrected, number, 0, 4);
FIELD(ism_corrected, place, 4, 4);
FIELD(ism_corrected, lock, 8, 8);
FIELD(ism_corrected, count, 16, 8);
FIELD(ism_corrected, used, 24, 8);
FIELD(ism_corrected, holds, 32, 4);
FIELD(ism_corrected, clearance, 36, 4);
FIELD(ism_corrected, even, 40, 4);
FIELD(ism_corrected, odd, 44, 4);

SIZE(ism_fifo, 10);
FIELD(ism_fifo, mode, 0, 2);
FIELD(ism_fifo, held, 2, 2);
FIELD(ism_fifo, first, 4, 2);
FIELD(ism_fifo, second, 6, 2);
FIELD(ism_fifo, error, 8, 2);

SIZE(ism_fifo_answer, 20);
FIELD(ism_fifo_answer, number, 0, 4);
FIELD(ism_fifo_answer, place, 4, 4);
FIELD(ism_fifo_answer, item, 8, 2);
FIELD(ism_fifo_answer, next, 10, 10);

SIZE(ism_index, 784);
FIELD(ism_index, number, 0, 4);
FIELD(ism_index, place, 4, 4);
FIELD(ism_index, count, 8, 8);
FIELD(ism_index, entries, 16, 768);

SIZE(ism_index_entry, 24);
FIELD(ism_index_entry, id_place, 0, 8);
FIELD(ism_index_entry, data_place, 8, 8);
FIELD(ism_index_entry, track, 16, 1);
FIELD(ism_index_entry, side, 17, 1);
FIELD(ism_index_entry, sector, 18, 1);
FIELD(ism_index_entry, code, 19, 1);
FIELD(ism_index_entry, found, 20, 1);
FIELD(ism_index_entry, holds, 21, 1);

SIZE(ism_limit, 12);
FIELD(ism_limit, edge, 0, 2);
FIELD(ism_limit, after, 2, 2);
FIELD(ism_limit, above, 4, 2);
FIELD(ism_limit, item, 6, 2);
FIELD(ism_limit, interval, 8, 2);
FIELD(ism_limit, moved, 10, 2);

SIZE(ism_limits, 136);
FIELD(ism_limits, number, 0, 4);
FIELD(ism_limits, place, 4, 4);
FIELD(ism_limits, count, 8, 8);
FIELD(ism_limits, limits, 16, 120);

SIZE(ism_profile, 22);
FIELD(ism_profile, t1, 0, 2);
FIELD(ism_profile, t0, 2, 2);
FIELD(ism_profile, early, 4, 2);
FIELD(ism_profile, normal, 6, 2);
FIELD(ism_profile, late, 8, 2);
FIELD(ism_profile, min, 10, 2);
FIELD(ism_profile, b23_short, 12, 2);
FIELD(ism_profile, b23_long, 14, 2);
FIELD(ism_profile, b34_short, 16, 2);
FIELD(ism_profile, b34_long, 18, 2);
FIELD(ism_profile, rpt, 20, 2);

SIZE(ism_report, 168);
FIELD(ism_report, number, 0, 4);
FIELD(ism_report, place, 4, 4);
FIELD(ism_report, rows, 8, 160);

SIZE(ism_report_row, 32);
FIELD(ism_report_row, count, 0, 8);
FIELD(ism_report_row, least, 8, 8);
FIELD(ism_report_row, greatest, 16, 8);
FIELD(ism_report_row, sum, 24, 8);

/* core::result::Result<u16, AllocError>, of the kit's library */
enum { Result_u16_AllocError_Ok, Result_u16_AllocError_Err };
struct Result_u16_AllocError {
    uint8_t tag;
    union {
        uint16_t Ok;
    } u;
};

struct slice_u16_mut {
    uint16_t *at;
    uint64_t len;
};

/* core::option::Option<u64>, of the kit's library */
enum { Option_u64_None, Option_u64_Some };
struct Option_u64 {
    uint8_t tag;
    union {
        uint64_t Some;
    } u;
};

struct slice_u16 {
    const uint16_t *at;
    uint64_t len;
};

/* refusal::Refusal, crates/refusal/src/lib.rt */
enum { refusal_Refusal_ProfileOutOfRange, refusal_Refusal_ProfileInconsistent, refusal_Refusal_NotAnItem,
        refusal_Refusal_TooLong, refusal_Refusal_IntervalTooShort, refusal_Refusal_IntervalTooLong,
        refusal_Refusal_NotWholeBytes, refusal_Refusal_MisplacedMark, refusal_Refusal_OutputTooShort,
        refusal_Refusal_NoLock, refusal_Refusal_EndsEarly, refusal_Refusal_CountOutOfRange,
        refusal_Refusal_SectorSizeMismatch, refusal_Refusal_MalformedInput, refusal_Refusal_TooManySectors,
        refusal_Refusal_UnrulyWord, refusal_Refusal_SectorsAtOdds, refusal_Refusal_OffSpeed, refusal_Refusal_PageLost,
        refusal_Refusal_FillSoiled };
struct refusal_Refusal {
    uint8_t tag;
    union {
        uint32_t ProfileOutOfRange;
        uint32_t NotAnItem;
        uint32_t IntervalTooShort;
        uint32_t IntervalTooLong;
        uint32_t MisplacedMark;
        uint32_t MalformedInput;
        uint32_t UnrulyWord;
        uint32_t SectorsAtOdds;
        uint32_t OffSpeed;
        uint32_t PageLost;
        uint32_t FillSoiled;
    } u;
};

/* core::result::ErrResidual<Refusal>, of the kit's library */
struct ErrResidual_Refusal {
    struct refusal_Refusal f0;
};

/* core::ops::ControlFlow<ErrResidual_Refusal, unit>, of the kit's library */
enum { ControlFlow_ErrResidual_Refusal_unit_Continue, ControlFlow_ErrResidual_Refusal_unit_Break };
struct ControlFlow_ErrResidual_Refusal_unit {
    uint8_t tag;
    union {
        struct ErrResidual_Refusal Break;
    } u;
};

/* core::result::Result<unit, Refusal>, of the kit's library */
enum { Result_unit_Refusal_Ok, Result_unit_Refusal_Err };
struct Result_unit_Refusal {
    uint8_t tag;
    union {
        struct refusal_Refusal Err;
    } u;
};

/* core::result::Result<u64, Refusal>, of the kit's library */
enum { Result_u64_Refusal_Ok, Result_u64_Refusal_Err };
struct Result_u64_Refusal {
    uint8_t tag;
    union {
        uint64_t Ok;
        struct refusal_Refusal Err;
    } u;
};

/* core::ops::ControlFlow<ErrResidual_Refusal, u64>, of the kit's library */
enum { ControlFlow_ErrResidual_Refusal_u64_Continue, ControlFlow_ErrResidual_Refusal_u64_Break };
struct ControlFlow_ErrResidual_Refusal_u64 {
    uint8_t tag;
    union {
        uint64_t Continue;
        struct ErrResidual_Refusal Break;
    } u;
};

/* refusal::Told, crates/refusal/src/lib.rt */
struct refusal_Told {
    uint32_t number;
    uint32_t place;
    uint64_t count;
};

/* timing::HalfClocks, crates/timing/src/lib.rt */
struct timing_HalfClocks {
    uint16_t f0;
};

/* timing::Clocks, crates/timing/src/lib.rt */
struct timing_Clocks {
    uint16_t f0;
};

/* timing::Bounds, crates/timing/src/lib.rt */
struct timing_Bounds {
    struct timing_HalfClocks b23;
    struct timing_HalfClocks b34;
};

/* timing::Profile, crates/timing/src/lib.rt */
struct timing_Profile {
    struct timing_HalfClocks t1;
    struct timing_HalfClocks t0;
    struct timing_Clocks early;
    struct timing_Clocks normal;
    struct timing_Clocks late;
    struct timing_HalfClocks min;
    struct timing_Bounds short_;
    struct timing_Bounds long_;
    struct timing_HalfClocks rpt;
};

struct array_u16_11 {
    uint16_t a[11];
};

/* core::option::Option<u32>, of the kit's library */
enum { Option_u32_None, Option_u32_Some };
struct Option_u32 {
    uint8_t tag;
    union {
        uint32_t Some;
    } u;
};

/* timing::Range, crates/timing/src/lib.rt */
struct timing_Range {
    uint16_t low;
    uint16_t high;
};

struct array_timing_Range_11 {
    struct timing_Range a[11];
};

/* timing::cursor::Cursor, crates/timing/src/cursor.rt */
struct timing_cursor_Cursor {
    struct timing_HalfClocks min;
    struct timing_Bounds bounds;
    struct timing_HalfClocks rpt;
    struct timing_Bounds short_;
    struct timing_Bounds long_;
};

/* timing::Class, crates/timing/src/lib.rt */
enum { timing_Class_Narrow, timing_Class_Two, timing_Class_Three, timing_Class_Four, timing_Class_Wide };
struct timing_Class {
    uint8_t tag;
};

/* timing::cursor::Classed, crates/timing/src/cursor.rt */
struct timing_cursor_Classed {
    struct timing_Class class;
    struct timing_cursor_Cursor next;
};

/* items::Check, crates/items/src/lib.rt */
struct items_Check {
    uint16_t register_;
    bool marked;
};

/* items::bytes::Stored, crates/items/src/bytes.rt */
struct items_bytes_Stored {
    struct items_Check check;
    uint64_t count;
};

struct array_u16_2 {
    uint16_t a[2];
};

/* fifo::steps::Fault, crates/fifo/src/steps.rt */
enum { fifo_steps_Fault_Chip, fifo_steps_Fault_Mark, fifo_steps_Fault_Processor };
struct fifo_steps_Fault {
    uint8_t tag;
};

/* symbols::Reading, crates/symbols/src/lib.rt */
struct symbols_Reading {
    uint32_t bits;
    uint32_t held;
    uint32_t words;
    uint32_t place;
    bool stray;
};

struct array_u16_512 {
    uint16_t a[512];
};

/* images::count::Tally, crates/images/src/count.rt */
struct images_count_Tally {
    uint16_t cells;
    uint16_t previous;
};

struct array_u16_128 {
    uint16_t a[128];
};

struct array_u16_10 {
    uint16_t a[10];
};

struct slice_u8_mut {
    uint8_t *at;
    uint64_t len;
};

struct array_u16_129 {
    uint16_t a[129];
};

/* shifts::top::Top, crates/shifts/src/top.rt */
struct shifts_top_Top {
    uint64_t cells;
    uint32_t free;
};

struct slice_u8 {
    const uint8_t *at;
    uint64_t len;
};

/* shifts::fours::Fours, crates/shifts/src/fours.rt */
struct shifts_fours_Fours {
    struct symbols_Reading reading;
    uint64_t count;
};

struct slice_u32_mut {
    uint32_t *at;
    uint64_t len;
};

struct slice_u32 {
    const uint32_t *at;
    uint64_t len;
};

/* shifts::Pass, crates/shifts/src/lib.rt */
struct shifts_Pass {
    struct symbols_Reading reading;
    uint64_t used;
};

struct array_u32_32 {
    uint32_t a[32];
};

struct array_u16_0 {
    uint16_t a[1];
};

/* passes::scan::Tally, crates/passes/src/scan.rt */
struct passes_scan_Tally {
    uint32_t sum;
    bool gap;
};

/* passes::look::Seen, crates/passes/src/look.rt */
struct passes_look_Seen {
    struct symbols_Reading reading;
    bool clear;
};

/* passes::look::Look, crates/passes/src/look.rt */
struct passes_look_Look {
    struct passes_look_Seen seen;
    uint64_t used;
    struct timing_cursor_Cursor cursor;
};

struct array_u8_128 {
    uint8_t a[128];
};

/* passes::block::Progress, crates/passes/src/block.rt */
struct passes_block_Progress {
    struct shifts_Pass pass;
    struct timing_cursor_Cursor cursor;
};

/* codec::pen::Pen, crates/codec/src/pen.rt */
struct codec_pen_Pen {
    uint64_t previous;
    uint64_t cells;
};

/* codec::writer::Part, crates/codec/src/writer.rt */
struct codec_writer_Part {
    struct codec_pen_Pen pen;
    struct items_Check check;
};

struct slice_timing_Class {
    const struct timing_Class *at;
    uint64_t len;
};

struct array_timing_Class_5 {
    struct timing_Class a[5];
};

struct array_timing_Class_10 {
    struct timing_Class a[10];
};

struct array_timing_Class_15 {
    struct timing_Class a[15];
};

/* fields::reader::Field, crates/fields/src/reader.rt */
struct fields_reader_Field {
    uint64_t count;
    uint64_t used;
    bool holds;
};

/* core::result::Result<Field, Refusal>, of the kit's library */
enum { Result_Field_Refusal_Ok, Result_Field_Refusal_Err };
struct Result_Field_Refusal {
    uint8_t tag;
    union {
        struct fields_reader_Field Ok;
        struct refusal_Refusal Err;
    } u;
};

/* fields::gather::Summed, crates/fields/src/gather.rt */
struct fields_gather_Summed {
    struct shifts_Pass pass;
    struct items_Check check;
};

struct array_u16_65 {
    uint16_t a[65];
};

/* fields::gather::Gathered, crates/fields/src/gather.rt */
struct fields_gather_Gathered {
    struct Result_u64_Refusal end;
    bool holds;
};

struct array_u16_16 {
    uint16_t a[16];
};

struct array_u16_1030 {
    uint16_t a[1030];
};

/* core::ops::ControlFlow<ErrResidual_Refusal, Field>, of the kit's library */
enum { ControlFlow_ErrResidual_Refusal_Field_Continue, ControlFlow_ErrResidual_Refusal_Field_Break };
struct ControlFlow_ErrResidual_Refusal_Field {
    uint8_t tag;
    union {
        struct fields_reader_Field Continue;
        struct ErrResidual_Refusal Break;
    } u;
};

/* sets::SetSize, crates/sets/src/lib.rt */
struct sets_SetSize {
    uint64_t count;
    uint64_t bytes;
};

/* core::result::Result<SetSize, Refusal>, of the kit's library */
enum { Result_SetSize_Refusal_Ok, Result_SetSize_Refusal_Err };
struct Result_SetSize_Refusal {
    uint8_t tag;
    union {
        struct sets_SetSize Ok;
        struct refusal_Refusal Err;
    } u;
};

/* sets::span::Span, crates/sets/src/span.rt */
struct sets_span_Span {
    uint64_t low;
    uint64_t high;
};

struct array_u16_256 {
    uint16_t a[256];
};

struct array_u64_4 {
    uint64_t a[4];
};

struct array_u64_4_5 {
    struct array_u64_4 a[5];
};

/* entries::opening::Opened, crates/entries/src/opening.rt */
struct entries_opening_Opened {
    uint64_t used;
    bool holds;
};

/* core::option::Option<Opened>, of the kit's library */
enum { Option_Opened_None, Option_Opened_Some };
struct Option_Opened {
    uint8_t tag;
    union {
        struct entries_opening_Opened Some;
    } u;
};

/* core::ops::ControlFlow<NoValue, Opened>, of the kit's library */
enum { ControlFlow_NoValue_Opened_Continue, ControlFlow_NoValue_Opened_Break };
struct ControlFlow_NoValue_Opened {
    uint8_t tag;
    union {
        struct entries_opening_Opened Continue;
    } u;
};

/* entries::id::Id, crates/entries/src/id.rt */
struct entries_id_Id {
    uint8_t track;
    uint8_t side;
    uint8_t sector;
    uint8_t code;
    uint64_t used;
};

/* core::option::Option<Id>, of the kit's library */
enum { Option_Id_None, Option_Id_Some };
struct Option_Id {
    uint8_t tag;
    union {
        struct entries_id_Id Some;
    } u;
};

struct array_u16_4 {
    uint16_t a[4];
};

/* entries::DataField, crates/entries/src/lib.rt */
struct entries_DataField {
    uint64_t place;
    bool holds;
};

/* core::option::Option<DataField>, of the kit's library */
enum { Option_DataField_None, Option_DataField_Some };
struct Option_DataField {
    uint8_t tag;
    union {
        struct entries_DataField Some;
    } u;
};

/* entries::content::Sought, crates/entries/src/content.rt */
struct entries_content_Sought {
    struct Option_DataField field;
    uint64_t end;
};

/* entries::Entry, crates/entries/src/lib.rt */
struct entries_Entry {
    uint8_t track;
    uint8_t side;
    uint8_t sector;
    uint8_t code;
    uint64_t place;
    struct Option_DataField field;
};

/* entries::Step, crates/entries/src/lib.rt */
enum { entries_Step_End, entries_Step_Other, entries_Step_Begins };
struct entries_Step {
    uint8_t tag;
    union {
        struct {
            uint64_t next;
        } Other;
        struct {
            struct entries_Entry entry;
            uint64_t next;
        } Begins;
    } u;
};

struct array_track_index_IndexEntry_32 {
    ism_index_entry a[32];
};

struct slice_track_index_IndexEntry {
    const ism_index_entry *at;
    uint64_t len;
};

/* clearance::Clear<u64>, crates/clearance/src/lib.rt */
struct clearance_Clear_u64 {
    uint64_t read;
    uint16_t clearance;
};

/* core::result::Result<Clear_u64, Refusal>, of the kit's library */
enum { Result_Clear_u64_Refusal_Ok, Result_Clear_u64_Refusal_Err };
struct Result_Clear_u64_Refusal {
    uint8_t tag;
    union {
        struct clearance_Clear_u64 Ok;
        struct refusal_Refusal Err;
    } u;
};

/* clearance::extremes::Extremes, crates/clearance/src/extremes.rt */
struct clearance_extremes_Extremes {
    uint16_t shortest;
    uint16_t longest;
    uint16_t from;
    uint16_t below;
};

/* clearance::seen::Seen, crates/clearance/src/seen.rt */
struct clearance_seen_Seen {
    struct clearance_extremes_Extremes extremes;
    struct timing_cursor_Cursor cursor;
};

struct array_u16_1 {
    uint16_t a[1];
};

/* clearance::Clear<Field>, crates/clearance/src/lib.rt */
struct clearance_Clear_Field {
    struct fields_reader_Field read;
    uint16_t clearance;
};

/* core::result::Result<Clear_Field, Refusal>, of the kit's library */
enum { Result_Clear_Field_Refusal_Ok, Result_Clear_Field_Refusal_Err };
struct Result_Clear_Field_Refusal {
    uint8_t tag;
    union {
        struct clearance_Clear_Field Ok;
        struct refusal_Refusal Err;
    } u;
};

/* core::ops::ControlFlow<ErrResidual_Refusal, Clear_Field>, of the kit's library */
enum { ControlFlow_ErrResidual_Refusal_Clear_Field_Continue, ControlFlow_ErrResidual_Refusal_Clear_Field_Break };
struct ControlFlow_ErrResidual_Refusal_Clear_Field {
    uint8_t tag;
    union {
        struct clearance_Clear_Field Continue;
        struct ErrResidual_Refusal Break;
    } u;
};

/* pace::Pace, crates/pace/src/lib.rt */
struct pace_Pace {
    uint32_t nominal;
    uint32_t even;
    uint32_t odd;
};

/* speed::reader::Corrected, crates/speed/src/reader.rt */
struct speed_reader_Corrected {
    struct clearance_Clear_Field field;
    uint64_t lock;
    uint32_t even;
    uint32_t odd;
};

/* core::result::Result<Corrected, Refusal>, of the kit's library */
enum { Result_Corrected_Refusal_Ok, Result_Corrected_Refusal_Err };
struct Result_Corrected_Refusal {
    uint8_t tag;
    union {
        struct speed_reader_Corrected Ok;
        struct refusal_Refusal Err;
    } u;
};

/* speed::gather::Along, crates/speed/src/gather.rt */
struct speed_gather_Along {
    struct passes_block_Progress at;
    struct items_Check check;
    struct Result_unit_Refusal edges;
    struct clearance_seen_Seen seen;
};

/* speed::gather::BlockRead, crates/speed/src/gather.rt */
struct speed_gather_BlockRead {
    struct passes_block_Progress at;
    struct items_Check check;
};

struct array_u8_64 {
    uint8_t a[64];
};

struct array_u16_17 {
    uint16_t a[17];
};

struct array_u16_64 {
    uint16_t a[64];
};

/* speed::gather::Gathered, crates/speed/src/gather.rt */
struct speed_gather_Gathered {
    struct Result_u64_Refusal end;
    bool holds;
    uint16_t clearance;
};

/* limits::side::Edge, crates/limits/src/side.rt */
enum { limits_side_Edge_Min, limits_side_Edge_B23, limits_side_Edge_B34, limits_side_Edge_Rpt };
struct limits_side_Edge {
    uint8_t tag;
};

/* limits::side::Kind, crates/limits/src/side.rt */
enum { limits_side_Kind_Both, limits_side_Kind_Short, limits_side_Kind_Long };
struct limits_side_Kind {
    uint8_t tag;
};

/* limits::side::Side, crates/limits/src/side.rt */
struct limits_side_Side {
    struct limits_side_Edge edge;
    struct limits_side_Kind after;
    bool above;
};

/* limits::Limit, crates/limits/src/lib.rt */
struct limits_Limit {
    struct limits_side_Side side;
    uint16_t item;
    uint16_t interval;
    uint16_t moved;
};

struct array_limits_Limit_10 {
    struct limits_Limit a[10];
};

/* limits::Limits, crates/limits/src/lib.rt */
struct limits_Limits {
    uint64_t count;
    struct array_limits_Limit_10 limits;
};

/* core::result::Result<Limits, Refusal>, of the kit's library */
enum { Result_Limits_Refusal_Ok, Result_Limits_Refusal_Err };
struct Result_Limits_Refusal {
    uint8_t tag;
    union {
        struct limits_Limits Ok;
        struct refusal_Refusal Err;
    } u;
};

/* limits::search::Evidence, crates/limits/src/search.rt */
struct limits_search_Evidence {
    uint16_t item;
    uint16_t interval;
};

/* core::option::Option<Evidence>, of the kit's library */
enum { Option_Evidence_None, Option_Evidence_Some };
struct Option_Evidence {
    uint8_t tag;
    union {
        struct limits_search_Evidence Some;
    } u;
};

/* best::Writing, crates/best/src/lib.rt */
struct best_Writing {
    struct timing_HalfClocks t1;
    struct timing_HalfClocks t0;
    struct timing_Clocks early;
    struct timing_Clocks normal;
    struct timing_Clocks late;
};

/* best::windows::Shifts, crates/best/src/windows.rt */
struct best_windows_Shifts {
    uint16_t d;
    uint16_t e;
    uint16_t l;
};

/* best::Best, crates/best/src/lib.rt */
struct best_Best {
    uint16_t margin;
    struct timing_Profile profile;
};

/* core::result::Result<Best, Refusal>, of the kit's library */
enum { Result_Best_Refusal_Ok, Result_Best_Refusal_Err };
struct Result_Best_Refusal {
    uint8_t tag;
    union {
        struct best_Best Ok;
        struct refusal_Refusal Err;
    } u;
};

struct array_answers_card_IsmLimit_10 {
    ism_limit a[10];
};

struct array_answers_drive_IsmReportRow_5 {
    ism_report_row a[5];
};

static struct slice_u16_mut slice_u16_mut(uint16_t *at, uint64_t len) {
    return (struct slice_u16_mut){.at = at, .len = len};
}

static struct slice_u16 slice_u16(const uint16_t *at, uint64_t len) {
    return (struct slice_u16){.at = at, .len = len};
}

static struct slice_u8_mut slice_u8_mut(uint8_t *at, uint64_t len) {
    return (struct slice_u8_mut){.at = at, .len = len};
}

static struct slice_u8 slice_u8(const uint8_t *at, uint64_t len) {
    return (struct slice_u8){.at = at, .len = len};
}

static struct slice_u32_mut slice_u32_mut(uint32_t *at, uint64_t len) {
    return (struct slice_u32_mut){.at = at, .len = len};
}

static struct slice_u32 slice_u32(const uint32_t *at, uint64_t len) {
    return (struct slice_u32){.at = at, .len = len};
}

static struct slice_timing_Class slice_timing_Class(const struct timing_Class *at, uint64_t len) {
    return (struct slice_timing_Class){.at = at, .len = len};
}

static struct slice_track_index_IndexEntry slice_track_index_IndexEntry(const ism_index_entry *at, uint64_t len) {
    return (struct slice_track_index_IndexEntry){.at = at, .len = len};
}

static const struct timing_Class limits_side_is_two_constant = {.tag = timing_Class_Two};

/* The zeros above the highest one; 32 where there is none. */
static uint32_t leading_zeros(uint32_t bits) {
#if defined(__GNUC__) && __SIZEOF_INT__ == 4
    return bits == 0 ? 32 : (uint32_t)__builtin_clz(bits);
#else
    uint32_t zeros = 32;
    for (; bits != 0; bits >>= 1) zeros--;
    return zeros;
#endif
}

/* The ones of each two bits, of each four, of each eight, and of all. */
static uint32_t count_ones(uint32_t bits) {
    bits = bits - ((bits >> 1) & 0x55555555);
    bits = (bits & 0x33333333) + ((bits >> 2) & 0x33333333);
    bits = (bits + (bits >> 4)) & 0x0F0F0F0F;
    return (uint32_t)(bits * 0x01010101) >> 24;
}

/* The signed number whose bits these are, in two's complement. */
static int32_t as_int32(uint32_t bits) {
    return bits < 0x80000000 ? (int32_t)bits : -(int32_t)(0xFFFFFFFF - bits) - 1;
}

/* The crate core */

/* core::int::u16::saturating_sub, of the kit's library */
static uint16_t core_int_u16_saturating_sub(uint16_t p1, uint16_t p2) {
    if (p2 <= p1) return p1 - p2;
    return 0;
}

/* core::int::u16::min, of the kit's library */
static uint16_t core_int_u16_min(uint16_t p1, uint16_t p2) {
    if (p2 < p1) return p2;
    return p1;
}

/* core::int::usize::min, of the kit's library */
static uint64_t core_int_usize_min(uint64_t p1, uint64_t p2) {
    if (p2 < p1) return p2;
    return p1;
}

/* core::convert::others::U16FromBool::from, of the kit's library */
static uint16_t core_convert_others_U16FromBool_from(bool p1) {
    return (uint16_t)p1;
}

/* core::convert::U64FromU16::from, of the kit's library */
static uint64_t core_convert_U64FromU16_from(uint16_t p1) {
    return (uint64_t)p1;
}

/* core::cmp::numbers::U16PartialEq::eq, of the kit's library */
static bool core_cmp_numbers_U16PartialEq_eq(const uint16_t *p1, const uint16_t *p2) {
    return *p1 == *p2;
}

/* core::int::u16::max, of the kit's library */
static uint16_t core_int_u16_max(uint16_t p1, uint16_t p2) {
    if (p2 < p1) return p1;
    return p2;
}

/* core::convert::U32FromU16::from, of the kit's library */
static uint32_t core_convert_U32FromU16_from(uint16_t p1) {
    return (uint32_t)p1;
}

/* core::int::usize::saturating_sub, of the kit's library */
static uint64_t core_int_usize_saturating_sub(uint64_t p1, uint64_t p2) {
    if (p2 <= p1) return p1 - p2;
    return 0;
}

/* core::int::usize::max, of the kit's library */
static uint64_t core_int_usize_max(uint64_t p1, uint64_t p2) {
    if (p2 < p1) return p1;
    return p2;
}

/* core::convert::others::U32FromBool::from, of the kit's library */
static uint32_t core_convert_others_U32FromBool_from(bool p1) {
    return (uint32_t)p1;
}

/* core::int::u32::abs_diff, of the kit's library */
static uint32_t core_int_u32_abs_diff(uint32_t p1, uint32_t p2) {
    if (p1 < p2) return p2 - p1;
    return p1 - p2;
}

/* core::int::u32::min, of the kit's library */
static uint32_t core_int_u32_min(uint32_t p1, uint32_t p2) {
    if (p2 < p1) return p2;
    return p1;
}

/* core::clone::U16Clone::clone, of the kit's library */
static struct Result_u16_AllocError core_clone_U16Clone_clone(const uint16_t *p1) {
    return (struct Result_u16_AllocError){.tag = Result_u16_AllocError_Ok, .u.Ok = *p1};
}

/* core::clone::surely<u16>, of the kit's library */
static uint16_t core_clone_surely_u16(const uint16_t *p1) {
    return core_clone_U16Clone_clone(p1).u.Ok;
}

/* core::slice::edits::slice+T::fill<u16>, of the kit's library */
static void core_slice_edits_slice_T_fill_u16(struct slice_u16_mut p1, uint16_t p2) {
    uint64_t t4 = p1.len;
    if (t4 == 0) return;
    uint64_t t5 = 0;
    while (t5 < t4 - 1) {
        p1.at[t5] = core_clone_surely_u16(&p2);
        t5++;
    }
    p1.at[t4 - 1] = p2;
}

/* core::option::Option::unwrap_or<u64>, of the kit's library */
static uint64_t core_option_Option_unwrap_or_u64(struct Option_u64 p1, uint64_t p2) {
    if (p1.tag == Option_u64_Some) return p1.u.Some;
    return p2;
}

/* core::convert::others::U8FromBool::from, of the kit's library */
static uint8_t core_convert_others_U8FromBool_from(bool p1) {
    return (uint8_t)p1;
}

/* core::int::u64::min, of the kit's library */
static uint64_t core_int_u64_min(uint64_t p1, uint64_t p2) {
    if (p2 < p1) return p2;
    return p1;
}

/* core::int::u64::max, of the kit's library */
static uint64_t core_int_u64_max(uint64_t p1, uint64_t p2) {
    if (p2 < p1) return p1;
    return p2;
}

/* The crate lists */

/* lists::store<u16>, crates/lists/src/lib.rt: Values from a place on, as many as there is room for. */
static void lists_store_u16(struct slice_u16 values, uint64_t at, struct slice_u16_mut out) {
    if (out.len <= at) return;
    uint64_t count = core_int_usize_min(values.len, out.len - at);
    struct slice_u16 value_items = slice_u16(values.at, count);
    uint64_t k = 0;
    uint64_t t14 = value_items.len;
    while (k < t14) {
        out.at[at + k] = value_items.at[k];
        k++;
    }
}

/* lists::put, crates/lists/src/lib.rt: Past the end nothing is stored. */
static void lists_put(struct slice_u16_mut out, uint64_t at, uint16_t number) {
    if (at < out.len) out.at[at] = number;
}

/* The crate refusal */

/* core::result::ResultTry::branch<unit, Refusal>, of the kit's library */
static struct ControlFlow_ErrResidual_Refusal_unit
        core_result_ResultTry_branch_unit_Refusal(struct Result_unit_Refusal p1) {
    if (p1.tag == Result_unit_Refusal_Ok) {
        return (struct ControlFlow_ErrResidual_Refusal_unit){.tag = ControlFlow_ErrResidual_Refusal_unit_Continue};
    }
    return (struct ControlFlow_ErrResidual_Refusal_unit){.tag = ControlFlow_ErrResidual_Refusal_unit_Break,
            .u.Break = {.f0 = p1.u.Err}};
}

/* core::convert::AnyFrom::from<Refusal>, of the kit's library */
static struct refusal_Refusal core_convert_AnyFrom_from_Refusal(struct refusal_Refusal p1) {
    return p1;
}

/* core::result::ResultFromResidualErrResidual::from_residual<u64, Refusal, Refusal>, of the kit's library */
static struct Result_u64_Refusal
        core_result_ResultFromResidualErrResidual_from_residual_u64_Refusal_Refusal(struct ErrResidual_Refusal p1) {
    return (struct Result_u64_Refusal){.tag = Result_u64_Refusal_Err,
            .u.Err = core_convert_AnyFrom_from_Refusal(p1.f0)};
}

/* refusal::Refusal::number, crates/refusal/src/lib.rt: The number in document 01's table. */
static uint32_t refusal_Refusal_number(struct refusal_Refusal self) {
    switch (self.tag) {
    case refusal_Refusal_ProfileOutOfRange: return 1;
    case refusal_Refusal_ProfileInconsistent: return 2;
    case refusal_Refusal_NotAnItem: return 3;
    case refusal_Refusal_TooLong: return 4;
    case refusal_Refusal_IntervalTooShort: return 5;
    case refusal_Refusal_IntervalTooLong: return 6;
    case refusal_Refusal_NotWholeBytes: return 7;
    case refusal_Refusal_MisplacedMark: return 8;
    case refusal_Refusal_OutputTooShort: return 9;
    case refusal_Refusal_NoLock: return 10;
    case refusal_Refusal_EndsEarly: return 11;
    case refusal_Refusal_CountOutOfRange: return 12;
    case refusal_Refusal_SectorSizeMismatch: return 13;
    case refusal_Refusal_MalformedInput: return 14;
    case refusal_Refusal_TooManySectors: return 15;
    case refusal_Refusal_UnrulyWord: return 16;
    case refusal_Refusal_SectorsAtOdds: return 17;
    case refusal_Refusal_OffSpeed: return 18;
    case refusal_Refusal_PageLost: return 19;
    default: return 20; /* refusal_Refusal_FillSoiled */
    }
}

/*
 * refusal::Refusal::place, crates/refusal/src/lib.rt
 * The place in document 01's table; 0 where the table gives none.
 */
static uint32_t refusal_Refusal_place(struct refusal_Refusal self) {
    switch (self.tag) {
    case refusal_Refusal_ProfileOutOfRange: return self.u.ProfileOutOfRange;
    case refusal_Refusal_ProfileInconsistent: return 0;
    case refusal_Refusal_NotAnItem: return self.u.NotAnItem;
    case refusal_Refusal_TooLong: return 0;
    case refusal_Refusal_IntervalTooShort: return self.u.IntervalTooShort;
    case refusal_Refusal_IntervalTooLong: return self.u.IntervalTooLong;
    case refusal_Refusal_NotWholeBytes: return 0;
    case refusal_Refusal_MisplacedMark: return self.u.MisplacedMark;
    case refusal_Refusal_OutputTooShort: return 0;
    case refusal_Refusal_NoLock: return 0;
    case refusal_Refusal_EndsEarly: return 0;
    case refusal_Refusal_CountOutOfRange: return 0;
    case refusal_Refusal_SectorSizeMismatch: return 0;
    case refusal_Refusal_MalformedInput: return self.u.MalformedInput;
    case refusal_Refusal_TooManySectors: return 0;
    case refusal_Refusal_UnrulyWord: return self.u.UnrulyWord;
    case refusal_Refusal_SectorsAtOdds: return self.u.SectorsAtOdds;
    case refusal_Refusal_OffSpeed: return self.u.OffSpeed;
    case refusal_Refusal_PageLost: return self.u.PageLost;
    default: return self.u.FillSoiled; /* refusal_Refusal_FillSoiled */
    }
}

/* core::result::ResultTry::branch<u64, Refusal>, of the kit's library */
static struct ControlFlow_ErrResidual_Refusal_u64
        core_result_ResultTry_branch_u64_Refusal(struct Result_u64_Refusal p1) {
    if (p1.tag == Result_u64_Refusal_Ok) {
        return (struct ControlFlow_ErrResidual_Refusal_u64){.tag = ControlFlow_ErrResidual_Refusal_u64_Continue,
                .u.Continue = p1.u.Ok};
    }
    return (struct ControlFlow_ErrResidual_Refusal_u64){.tag = ControlFlow_ErrResidual_Refusal_u64_Break,
            .u.Break = {.f0 = p1.u.Err}};
}

/* core::result::ResultFromResidualErrResidual::from_residual<unit, Refusal, Refusal>, of the kit's library */
static struct Result_unit_Refusal
        core_result_ResultFromResidualErrResidual_from_residual_unit_Refusal_Refusal(struct ErrResidual_Refusal p1) {
    return (struct Result_unit_Refusal){.tag = Result_unit_Refusal_Err,
            .u.Err = core_convert_AnyFrom_from_Refusal(p1.f0)};
}

/* refusal::ToldFromResultUsizeRefusal::from, crates/refusal/src/lib.rt */
static struct refusal_Told refusal_ToldFromResultUsizeRefusal_from(struct Result_u64_Refusal counted) {
    if (counted.tag == Result_u64_Refusal_Ok) {
        return (struct refusal_Told){.number = 0, .place = 0, .count = counted.u.Ok};
    }
    struct refusal_Refusal refusal = counted.u.Err;
    uint32_t t5 = refusal_Refusal_number(refusal);
    return (struct refusal_Told){.number = t5, .place = refusal_Refusal_place(refusal), .count = 0};
}

/* The crate timing */

/* timing::ProfileFromRefArrayU16PROFILENUMBERS::from, crates/timing/src/lib.rt */
static struct timing_Profile timing_ProfileFromRefArrayU16PROFILENUMBERS_from(const struct array_u16_11 *numbers) {
    struct timing_Bounds t43 = {.b23 = {.f0 = numbers->a[7]}, .b34 = {.f0 = numbers->a[9]}};
    struct timing_HalfClocks t47 = {.f0 = numbers->a[10]};
    return (struct timing_Profile){.t1 = {.f0 = numbers->a[0]}, .t0 = {.f0 = numbers->a[1]},
            .early = {.f0 = numbers->a[2]}, .normal = {.f0 = numbers->a[3]}, .late = {.f0 = numbers->a[4]},
            .min = {.f0 = numbers->a[5]}, .short_ = {.b23 = {.f0 = numbers->a[6]}, .b34 = {.f0 = numbers->a[8]}},
            .long_ = t43, .rpt = t47};
}

/* timing::ArrayU16PROFILENUMBERSFromProfile::from, crates/timing/src/lib.rt */
static struct array_u16_11 timing_ArrayU16PROFILENUMBERSFromProfile_from(struct timing_Profile p) {
    return (struct array_u16_11){{p.t1.f0, p.t0.f0, p.early.f0, p.normal.f0, p.late.f0, p.min.f0, p.short_.b23.f0,
            p.long_.b23.f0, p.short_.b34.f0, p.long_.b34.f0, p.rpt.f0}};
}

/* core::convert::AnyInto::into<Profile, u16_11>, of the kit's library */
static struct array_u16_11 core_convert_AnyInto_into_Profile_u16_11(struct timing_Profile p1) {
    return timing_ArrayU16PROFILENUMBERSFromProfile_from(p1);
}

/* timing::Profile::numbers, crates/timing/src/lib.rt */
static struct array_u16_11 timing_Profile_numbers(struct timing_Profile self) {
    return core_convert_AnyInto_into_Profile_u16_11(self);
}

/*
 * timing::rule::lowest_unset, crates/timing/src/rule.rt
 * Which of the numbers is the first out of range, from 1.
 */
static struct Option_u32 timing_rule_lowest_unset(struct timing_Profile p) {
    struct array_u16_11 numbers = timing_Profile_numbers(p);
    struct array_timing_Range_11 ranges = {{{.low = 1, .high = 1023}, {.low = 1, .high = 1023}, {.low = 0, .high = 15},
            {.low = 0, .high = 15}, {.low = 0, .high = 15}, {.low = 1, .high = 4095}, {.low = 1, .high = 4095},
            {.low = 1, .high = 4095}, {.low = 1, .high = 4095}, {.low = 1, .high = 4095}, {.low = 1, .high = 4095}}};
    const struct array_timing_Range_11 *range_items = &ranges;
    uint64_t k = 0;
    while (k < 11) {
        const struct timing_Range *range = range_items->a + k;
        uint16_t x = numbers.a[k];
        if ((x < range->low) | (range->high < x)) {
            return (struct Option_u32){.tag = Option_u32_Some, .u.Some = (uint32_t)k + 1};
        }
        k++;
    }
    return (struct Option_u32){.tag = Option_u32_None};
}

/*
 * timing::Clocks::in_half_clocks, crates/timing/src/lib.rt
 * The only way from clocks to half clocks, so that a compare point is never added to a length as it is. No `From`,
 * which could not ask that the product fits.
 */
static struct timing_HalfClocks timing_Clocks_in_half_clocks(struct timing_Clocks self) {
    return (struct timing_HalfClocks){.f0 = 2 * self.f0};
}

/*
 * timing::rule::apart, crates/timing/src/rule.rt
 * The distance from a point to a later one, in half clocks; 0 where they are out of order.
 */
static struct timing_HalfClocks timing_rule_apart(struct timing_Clocks from, struct timing_Clocks to) {
    struct timing_Clocks t4 = {.f0 = core_int_u16_saturating_sub(to.f0, from.f0)};
    return timing_Clocks_in_half_clocks(t4);
}

/*
 * timing::rule::swing, crates/timing/src/rule.rt
 * The distance between the latest and the earliest point (document 01's D).
 */
static struct timing_HalfClocks timing_rule_swing(struct timing_Profile p) {
    return timing_rule_apart(p.early, p.late);
}

/* timing::rule::advance, crates/timing/src/rule.rt: The parts of it before and after Normal. */
static struct timing_HalfClocks timing_rule_advance(struct timing_Profile p) {
    return timing_rule_apart(p.early, p.normal);
}

/*
 * timing::rule::is_true_short, crates/timing/src/rule.rt
 * Whether the lengths that can be written after a cell of class 2 are in their windows.
 */
static bool timing_rule_is_true_short(struct timing_Profile p) {
    uint16_t d = timing_rule_swing(p).f0;
    uint16_t e = timing_rule_advance(p).f0;
    uint16_t three = p.t1.f0 + p.t0.f0;
    uint16_t four = p.t1.f0 + 2 * p.t0.f0;
    bool t15 = p.short_.b34.f0 <= four + e;
    return (p.t1.f0 < p.short_.b23.f0) & (p.short_.b23.f0 <= three + e) & (three + d < p.short_.b34.f0) & t15;
}

/* timing::rule::delay, crates/timing/src/rule.rt */
static struct timing_HalfClocks timing_rule_delay(struct timing_Profile p) {
    return timing_rule_apart(p.normal, p.late);
}

/* timing::rule::is_true_long, crates/timing/src/rule.rt: And those after any other. */
static bool timing_rule_is_true_long(struct timing_Profile p) {
    uint16_t l = timing_rule_delay(p).f0;
    uint16_t three = p.t1.f0 + p.t0.f0;
    uint16_t four = p.t1.f0 + 2 * p.t0.f0;
    bool t13 = p.long_.b34.f0 <= four;
    return (p.t1.f0 < p.long_.b23.f0 + l) & (p.long_.b23.f0 <= three) & (three + l < p.long_.b34.f0) & t13;
}

/* timing::rule::is_true, crates/timing/src/rule.rt: Whether a profile whose numbers are in range is true. */
static bool timing_rule_is_true(struct timing_Profile p) {
    uint16_t d = timing_rule_swing(p).f0;
    uint16_t four = p.t1.f0 + 2 * p.t0.f0;
    bool t11 = timing_rule_is_true_short(p);
    bool t13 = timing_rule_is_true_long(p);
    bool t14 = (p.early.f0 <= p.normal.f0) & (p.normal.f0 <= p.late.f0) & (p.min.f0 + d <= p.t1.f0) & t11 & t13;
    return t14 & (four + d < p.rpt.f0);
}

/* timing::rule::check, crates/timing/src/rule.rt: Whether the profile may be used: 1, then 2. */
static struct Result_unit_Refusal timing_rule_check(struct timing_Profile p) {
    struct Option_u32 t3 = timing_rule_lowest_unset(p);
    if (t3.tag == Option_u32_Some) {
        uint32_t which = t3.u.Some;
        return (struct Result_unit_Refusal){.tag = Result_unit_Refusal_Err,
                .u.Err = {.tag = refusal_Refusal_ProfileOutOfRange, .u.ProfileOutOfRange = which}};
    }
    if (timing_rule_is_true(p)) return (struct Result_unit_Refusal){.tag = Result_unit_Refusal_Ok};
    return (struct Result_unit_Refusal){.tag = Result_unit_Refusal_Err,
            .u.Err = {.tag = refusal_Refusal_ProfileInconsistent}};
}

/*
 * timing::cursor::Cursor::after, crates/timing/src/cursor.rt
 * Behind an interval of class 2, or of any other, under a profile that the caller has checked, or does not care to.
 */
static struct timing_cursor_Cursor timing_cursor_Cursor_after(struct timing_Profile p, bool two) {
    struct timing_HalfClocks min = p.min;
    struct timing_Bounds short_ = p.short_;
    struct timing_Bounds long_ = p.long_;
    struct timing_HalfClocks rpt = p.rpt;
    struct timing_Bounds t10;
    if (two) {
        t10 = short_;
    } else {
        t10 = long_;
    }
    return (struct timing_cursor_Cursor){.min = min, .bounds = t10, .rpt = rpt, .short_ = short_, .long_ = long_};
}

/* timing::cursor::Cursor::class_of, crates/timing/src/cursor.rt: The class of the next interval. */
static struct timing_Class timing_cursor_Cursor_class_of(struct timing_cursor_Cursor self, uint16_t interval) {
    if (interval < self.min.f0) return (struct timing_Class){.tag = timing_Class_Narrow};
    if (interval < self.bounds.b23.f0) return (struct timing_Class){.tag = timing_Class_Two};
    if (interval < self.bounds.b34.f0) return (struct timing_Class){.tag = timing_Class_Three};
    if (interval < self.rpt.f0) return (struct timing_Class){.tag = timing_Class_Four};
    return (struct timing_Class){.tag = timing_Class_Wide};
}

/*
 * timing::cursor::Cursor::behind, crates/timing/src/cursor.rt
 * Where the classing stands behind an interval that is of class 2, or is not.
 */
static struct timing_cursor_Cursor timing_cursor_Cursor_behind(struct timing_cursor_Cursor self, bool two) {
    struct timing_Bounds short_ = self.short_;
    struct timing_Bounds long_ = self.long_;
    struct timing_cursor_Cursor next = self;
    if (two) {
        next.bounds = short_;
    } else {
        next.bounds = long_;
    }
    return next;
}

/* timing::cursor::Cursor::past, crates/timing/src/cursor.rt: Where it stands after the next interval. */
static struct timing_cursor_Cursor timing_cursor_Cursor_past(struct timing_cursor_Cursor self, uint16_t interval) {
    return timing_cursor_Cursor_behind(self, (self.min.f0 <= interval) & (interval < self.bounds.b23.f0));
}

/* timing::cursor::Cursor::step, crates/timing/src/cursor.rt: The next interval of the list. */
static struct timing_cursor_Classed timing_cursor_Cursor_step(struct timing_cursor_Cursor self, uint16_t interval) {
    struct timing_Class t3 = timing_cursor_Cursor_class_of(self, interval);
    return (struct timing_cursor_Classed){.class = t3, .next = timing_cursor_Cursor_past(self, interval)};
}

/* timing::ClassPartialEq::eq, which is derived */
static bool timing_ClassPartialEq_eq(const struct timing_Class *p1, const struct timing_Class *p2) {
    if (p1->tag != p2->tag) return false;
    return true;
}

/*
 * timing::Class::number, crates/timing/src/lib.rt
 * 2, 3 and 4 as the paper has them; 1 for narrow and 5 for wide.
 */
static uint64_t timing_Class_number(struct timing_Class self) {
    switch (self.tag) {
    case timing_Class_Narrow: return 1;
    case timing_Class_Two: return 2;
    case timing_Class_Three: return 3;
    case timing_Class_Four: return 4;
    default: return 5; /* timing_Class_Wide */
    }
}

/*
 * timing::class_number, crates/timing/src/lib.rt
 * The class operation, told whether the interval before was of class 2: the class's number, after 1 and 2.
 */
static struct Result_u64_Refusal timing_class_number(struct timing_Profile p, uint16_t interval, bool two) {
    struct ControlFlow_ErrResidual_Refusal_unit t7 = core_result_ResultTry_branch_unit_Refusal(timing_rule_check(p));
    if (t7.tag != ControlFlow_ErrResidual_Refusal_unit_Continue) {
        return core_result_ResultFromResidualErrResidual_from_residual_u64_Refusal_Refusal(t7.u.Break);
    }
    struct timing_Class class = timing_cursor_Cursor_step(timing_cursor_Cursor_after(p, two), interval).class;
    return (struct Result_u64_Refusal){.tag = Result_u64_Refusal_Ok, .u.Ok = timing_Class_number(class)};
}

/* timing::HalfClocksPartialEq::eq, which is derived */
static bool timing_HalfClocksPartialEq_eq(const struct timing_HalfClocks *p1, const struct timing_HalfClocks *p2) {
    return core_cmp_numbers_U16PartialEq_eq(&p1->f0, &p2->f0);
}

/* core::cmp::Ordering::and_eq<HalfClocks>, of the kit's library */
static bool core_cmp_Ordering_and_eq_HalfClocks(bool p1, const struct timing_HalfClocks *p2,
        const struct timing_HalfClocks *p3) {
    if (p1) return timing_HalfClocksPartialEq_eq(p2, p3);
    return false;
}

/* timing::BoundsPartialEq::eq, which is derived */
static bool timing_BoundsPartialEq_eq(const struct timing_Bounds *p1, const struct timing_Bounds *p2) {
    bool t7 = timing_HalfClocksPartialEq_eq(&p1->b23, &p2->b23);
    return core_cmp_Ordering_and_eq_HalfClocks(t7, &p1->b34, &p2->b34);
}

/*
 * timing::cursor::Cursor::is_steady, crates/timing/src/cursor.rt
 * Whether it stands so behind every interval: the bounds are the same after either kind.
 */
static bool timing_cursor_Cursor_is_steady(struct timing_cursor_Cursor self) {
    bool t3 = timing_BoundsPartialEq_eq(&self.bounds, &self.short_);
    return t3 & timing_BoundsPartialEq_eq(&self.bounds, &self.long_);
}

/*
 * timing::cursor::Cursor::meets_two, crates/timing/src/cursor.rt
 * Whether the next interval is of class 2, by one compare: below Min the difference wraps to above all others.
 */
static bool timing_cursor_Cursor_meets_two(struct timing_cursor_Cursor self, uint16_t interval) {
    return (uint16_t)(interval - self.min.f0) < self.bounds.b23.f0 - self.min.f0;
}

/*
 * timing::cursor::Cursor::start, crates/timing/src/cursor.rt
 * Before the first interval of a list, where the one before counts as class 2.
 */
static struct timing_cursor_Cursor timing_cursor_Cursor_start(struct timing_Profile p) {
    return timing_cursor_Cursor_after(p, true);
}

/*
 * timing::cursor::Cursor::units, crates/timing/src/cursor.rt
 * The units of its cell, where it is one: one more for each bound between the windows that it reaches.
 */
static uint8_t timing_cursor_Cursor_units(struct timing_cursor_Cursor self, uint16_t interval) {
    return 2 + (uint8_t)(self.bounds.b23.f0 <= interval) + (uint8_t)(self.bounds.b34.f0 <= interval);
}

/* The crate register */

/*
 * register::feed, crates/register/src/lib.rt
 * The byte and the register's high byte, added, leave at the top, and each of their bits adds the polynomial's terms,
 * x^12, x^5 and 1. Of what x^12 adds, four bits leave at the top in their turn.
 */
static uint16_t register_feed(uint16_t register_, uint16_t byte) {
    uint16_t top = (register_ >> 8) ^ (byte & 0xFF);
    uint16_t x = top ^ (top >> 4);
    uint16_t t9 = (uint16_t)((uint32_t)x << 12) ^ (uint16_t)((uint32_t)x << 5) ^ x;
    return (uint16_t)((uint32_t)register_ << 8) ^ t9;
}

/*
 * register::feed_eight, crates/register/src/lib.rt
 * Eight bytes at once, the first at the top. With z for a shift to the right by one, what leaves at the top is their
 * product with the inverse of 1 + z^4 + z^11 + z^16, which below z^64 has four factors.
 */
static uint16_t register_feed_eight(uint16_t register_, uint64_t eight) {
    uint64_t a = eight ^ (uint64_t)((uint64_t)register_ << 48);
    uint64_t b = a ^ (a >> 4) ^ (a >> 11) ^ (a >> 16);
    uint64_t c = b ^ (b >> 8) ^ (b >> 22) ^ (b >> 32);
    uint64_t d = c ^ (c >> 16) ^ (c >> 44);
    uint16_t x = (uint16_t)((d ^ (d >> 32)) % 65536);
    return (uint16_t)((uint32_t)x << 12) ^ (uint16_t)((uint32_t)x << 5) ^ x;
}

/*
 * register::feed_two, crates/register/src/lib.rt
 * Two data bytes at once: all 16 bits leave at the top, and of what they add, x^12 brings bits to the top three times
 * more and x^5 once.
 */
static uint16_t register_feed_two(uint16_t register_, uint16_t high, uint16_t low) {
    uint16_t top = register_ ^ (uint16_t)((uint32_t)high << 8) ^ low;
    uint16_t y = top ^ (top >> 4);
    uint16_t x = y ^ (y >> 8) ^ (top >> 11);
    return (uint16_t)((uint32_t)x << 12) ^ (uint16_t)((uint32_t)x << 5) ^ x;
}

/* The crate items */

/* items::is_check, crates/items/src/lib.rt */
static bool items_is_check(uint16_t n) {
    return n == 512;
}

/*
 * items::list::count_checks, crates/items/src/list.rt
 * How many check orders a list has, so few that 16 bits count them: added with no jump for any, eight at a time.
 */
static uint16_t items_list_count_checks(struct slice_u16 items) {
    uint16_t count = 0;
    uint64_t item_index = 0;
    uint64_t t5 = items.len;
    while (item_index < t5) {
        count += (uint16_t)items_is_check(items.at[item_index]);
        item_index++;
    }
    return count;
}

/* items::list::written_bytes, crates/items/src/list.rt: How many bytes a list writes. */
static uint64_t items_list_written_bytes(struct slice_u16 items) {
    uint64_t count = 0;
    uint64_t k = 0;
    while (32768 <= items.len - k) {
        uint64_t end = k + 32768;
        count += 32768 + (uint64_t)items_list_count_checks(slice_u16(items.at + k, end - k));
        k = end;
    }
    struct slice_u16 rest = slice_u16(items.at + k, items.len - k);
    return count + rest.len + (uint64_t)items_list_count_checks(rest);
}

/* items::is_mark, crates/items/src/lib.rt */
static bool items_is_mark(uint16_t n) {
    return n == 417 || n == 450;
}

/* items::is_item, crates/items/src/lib.rt */
static bool items_is_item(uint16_t n) {
    if (n < 256) return true;
    if (items_is_mark(n)) return true;
    return items_is_check(n);
}

/* items::list::all_items, crates/items/src/list.rt: Whether all numbers are items, told with no jump for any. */
static bool items_list_all_items(struct slice_u16 items) {
    bool all = true;
    uint64_t item_index = 0;
    uint64_t t5 = items.len;
    while (item_index < t5) {
        all = all & items_is_item(items.at[item_index]);
        item_index++;
    }
    return all;
}

/*
 * items::list::find_foreign, crates/items/src/list.rt
 * The place of the lowest number that is no item; the length where there is none.
 */
static uint64_t items_list_find_foreign(struct slice_u16 items) {
    uint64_t k = 0;
    uint64_t t4 = items.len;
    while (k < t4) {
        if (!items_is_item(items.at[k])) return k;
        k++;
    }
    return items.len;
}

/* items::list::check_list, crates/items/src/list.rt: Whether the list may be written: 4, then 3. */
static struct Result_unit_Refusal items_list_check_list(struct slice_u16 items) {
    if (6400 < items.len) {
        return (struct Result_unit_Refusal){.tag = Result_unit_Refusal_Err, .u.Err = {.tag = refusal_Refusal_TooLong}};
    }
    if (6400 < items_list_written_bytes(items)) {
        return (struct Result_unit_Refusal){.tag = Result_unit_Refusal_Err, .u.Err = {.tag = refusal_Refusal_TooLong}};
    }
    if (items_list_all_items(items)) return (struct Result_unit_Refusal){.tag = Result_unit_Refusal_Ok};
    return (struct Result_unit_Refusal){.tag = Result_unit_Refusal_Err,
            .u.Err = {.tag = refusal_Refusal_NotAnItem, .u.NotAnItem = (uint32_t)items_list_find_foreign(items)}};
}

/* items::Check::fresh, crates/items/src/lib.rt */
static struct items_Check items_Check_fresh(void) {
    return (struct items_Check){.register_ = 65535, .marked = false};
}

/* items::lanes::four_at, crates/items/src/lanes.rt */
static uint64_t items_lanes_four_at(struct slice_u16 numbers, uint64_t k) {
    uint64_t t19 = (uint64_t)((uint64_t)numbers.at[k + 2] << 32);
    uint64_t t26 = (uint64_t)((uint64_t)numbers.at[k + 3] << 48);
    return (uint64_t)numbers.at[k] | (uint64_t)((uint64_t)numbers.at[k + 1] << 16) | t19 | t26;
}

/*
 * items::lanes::clear_at, crates/items/src/lanes.rt
 * Whether eight numbers have none of some bits, given for four lanes.
 */
static bool items_lanes_clear_at(struct slice_u16 numbers, uint64_t k, uint64_t bits) {
    uint64_t t4 = items_lanes_four_at(numbers, k);
    return ((t4 | items_lanes_four_at(numbers, k + 4)) & bits) == 0;
}

/* items::list::pass_eights, crates/items/src/list.rt: Passes over numbers below a check order, eight at a time. */
static uint64_t items_list_pass_eights(struct slice_u16 items) {
    uint64_t k = 0;
    while (8 <= items.len - k) {
        if (items_lanes_clear_at(items, k, 18302908165848628736ull)) {
            k += 8;
        } else {
            return k;
        }
    }
    return k;
}

/*
 * items::list::find_check, crates/items/src/list.rt
 * The place of the lowest check order; the length where there is none.
 */
static uint64_t items_list_find_check(struct slice_u16 items) {
    uint64_t start = items_list_pass_eights(items);
    struct slice_u16 rest = slice_u16(items.at + start, items.len - start);
    uint64_t k = 0;
    uint64_t t10 = rest.len;
    while (k < t10) {
        if (items_is_check(rest.at[k])) return start + k;
        k++;
    }
    return items.len;
}

/* items::Check::before_mark, crates/items/src/lib.rt: The register that a mark byte passes through. */
static uint16_t items_Check_before_mark(struct items_Check self) {
    if (self.marked) return self.register_;
    return 65535;
}

/* items::Check::after_byte, crates/items/src/lib.rt */
static struct items_Check items_Check_after_byte(struct items_Check self, uint16_t byte) {
    if (items_is_mark(byte)) {
        return (struct items_Check){.register_ = register_feed(items_Check_before_mark(self), byte), .marked = true};
    }
    return (struct items_Check){.register_ = register_feed(self.register_, byte), .marked = false};
}

/*
 * items::lanes::joined_four, crates/items/src/lanes.rt
 * Four data bytes as one number, the first at the top: those side by side move together first.
 */
static uint64_t items_lanes_joined_four(struct slice_u16 bytes, uint64_t k) {
    uint64_t lanes = items_lanes_four_at(bytes, k);
    uint64_t pairs = (uint64_t)(lanes << 8) | (lanes >> 16);
    return (uint64_t)((pairs % 65536) << 16) | ((pairs >> 32) % 65536);
}

/* items::lanes::joined_eight, crates/items/src/lanes.rt: Eight data bytes as one number, the first at the top. */
static uint64_t items_lanes_joined_eight(struct slice_u16 bytes, uint64_t k) {
    uint64_t t4 = (uint64_t)(items_lanes_joined_four(bytes, k) << 32);
    return t4 | items_lanes_joined_four(bytes, k + 4);
}

/*
 * items::lanes::after_eights, crates/items/src/lanes.rt
 * Data bytes from a place on, eight at a time. Answers the state and the place after them.
 */
static struct items_bytes_Stored items_lanes_after_eights(struct items_Check start, struct slice_u16 bytes,
        uint64_t from) {
    struct items_Check check = start;
    uint64_t k = from;
    while (8 <= bytes.len - k) {
        if (items_lanes_clear_at(bytes, k, 18374966859414961920ull)) {
            check = (struct items_Check){.register_ = register_feed_eight(check.register_,
                    items_lanes_joined_eight(bytes, k)), .marked = false};
            k += 8;
        } else {
            return (struct items_bytes_Stored){.check = check, .count = k};
        }
    }
    return (struct items_bytes_Stored){.check = check, .count = k};
}

/*
 * items::Check::after_run, crates/items/src/lib.rt
 * A run of bytes from a place on: the number there, and then data bytes, eight and two at a time. Answers the state
 * and the place after the run.
 */
static struct items_bytes_Stored items_Check_after_run(struct items_Check self, struct slice_u16 bytes, uint64_t from) {
    uint64_t last = bytes.len - 1;
    struct items_Check first = items_Check_after_byte(self, bytes.at[from]);
    struct items_bytes_Stored eights = items_lanes_after_eights(first, bytes, from + 1);
    struct items_Check check = eights.check;
    uint64_t k = eights.count;
    while (k < last) {
        uint16_t high = bytes.at[k];
        uint16_t low = bytes.at[k + 1];
        if (255 < (high | low)) return (struct items_bytes_Stored){.check = check, .count = k};
        check = (struct items_Check){.register_ = register_feed_two(check.register_, high, low), .marked = false};
        k += 2;
    }
    return (struct items_bytes_Stored){.check = check, .count = k};
}

/* items::marks::three_marks, crates/items/src/marks.rt */
static bool items_marks_three_marks(struct slice_u16 bytes, uint64_t k) {
    if (bytes.at[k] == 417) {
        if (bytes.at[k + 1] == 417) {
            if (bytes.at[k + 2] == 417) return true;
        }
    }
    return false;
}

/*
 * items::marks::after_part, crates/items/src/marks.rt
 * A run of bytes from a place on. Three marks A1 after another byte leave a register that is known.
 */
static struct items_bytes_Stored items_marks_after_part(struct items_Check start, struct slice_u16 bytes,
        uint64_t from) {
    if (start.marked) return items_Check_after_run(start, bytes, from);
    if (bytes.len - from < 3) return items_Check_after_run(start, bytes, from);
    if (items_marks_three_marks(bytes, from)) {
        return (struct items_bytes_Stored){.check = {.register_ = 52660, .marked = true}, .count = from + 3};
    }
    return items_Check_after_run(start, bytes, from);
}

/* items::Check::after_bytes, crates/items/src/lib.rt: The state after written bytes have passed through. */
static struct items_Check items_Check_after_bytes(struct items_Check self, struct slice_u16 bytes) {
    struct items_Check check = self;
    uint64_t k = 0;
    while (k < bytes.len) {
        struct items_bytes_Stored next = items_marks_after_part(check, bytes, k);
        check = next.check;
        k = next.count;
    }
    return check;
}

/* items::Check::high, crates/items/src/lib.rt: The two bytes that a check order writes. */
static uint16_t items_Check_high(struct items_Check self) {
    return self.register_ / 256;
}

/* items::Check::low, crates/items/src/lib.rt */
static uint16_t items_Check_low(struct items_Check self) {
    return self.register_ % 256;
}

/*
 * items::Check::after_check, crates/items/src/lib.rt
 * The state after a check order's two bytes: whatever the register was, they leave 0.
 */
static struct items_Check items_Check_after_check(struct items_Check self) {
    (void)self;
    return (struct items_Check){.register_ = 0, .marked = false};
}

/* items::bytes::write_run, crates/items/src/bytes.rt: A run of bytes, and the two of the check order behind it. */
static struct items_Check items_bytes_write_run(struct items_Check start, struct slice_u16 run, uint64_t at,
        struct slice_u16_mut out) {
    struct items_Check check = items_Check_after_bytes(start, run);
    uint16_t high = items_Check_high(check);
    uint16_t low = items_Check_low(check);
    struct array_u16_2 bytes = {{high, low}};
    lists_store_u16(run, at, out);
    lists_store_u16(slice_u16(bytes.a, 2), at + run.len, out);
    return items_Check_after_check(check);
}

/*
 * items::bytes::write_bytes, crates/items/src/bytes.rt
 * Stores a list's bytes, from a state of the register on, from the front of `out` on, as far as it reaches.
 */
static struct items_bytes_Stored items_bytes_write_bytes(struct items_Check start, struct slice_u16 items,
        struct slice_u16_mut out) {
    struct items_Check check = start;
    uint64_t at = 0;
    uint64_t from = 0;
    uint64_t run = items_list_find_check(items);
    while (run < items.len - from) {
        uint64_t end = from + run;
        check = items_bytes_write_run(check, slice_u16(items.at + from, end - from), at, out);
        at += run + 2;
        from = end + 1;
        run = items_list_find_check(slice_u16(items.at + from, items.len - from));
    }
    struct slice_u16 last = slice_u16(items.at + from, items.len - from);
    lists_store_u16(last, at, out);
    return (struct items_bytes_Stored){.check = items_Check_after_bytes(check, last), .count = at + last.len};
}

/* The crate fifo */

/* fifo::Fifo::new, crates/fifo/src/lib.rt: Empty, with register 0, in the mode that `mode` says. */
static ism_fifo fifo_Fifo_new(uint16_t mode) {
    return (ism_fifo){.mode = mode, .held = 0, .first = 0, .second = 0, .error = 0};
}

/* fifo::steps::U16FromFault::from, crates/fifo/src/steps.rt */
static uint16_t fifo_steps_U16FromFault_from(struct fifo_steps_Fault fault) {
    switch (fault.tag) {
    case fifo_steps_Fault_Chip: return 1;
    case fifo_steps_Fault_Mark: return 2;
    default: return 4; /* fifo_steps_Fault_Processor */
    }
}

/* fifo::steps::with_items, crates/fifo/src/steps.rt */
static ism_fifo fifo_steps_with_items(ism_fifo fifo, uint16_t held, uint16_t first, uint16_t second) {
    return (ism_fifo){.mode = fifo.mode, .held = held, .first = first, .second = second, .error = fifo.error};
}

/* fifo::steps::given, crates/fifo/src/steps.rt */
static ism_fifo_answer fifo_steps_given(uint16_t item, ism_fifo next) {
    return (ism_fifo_answer){.number = 0, .place = 0, .item = item, .next = next};
}

/* fifo::steps::with_fault, crates/fifo/src/steps.rt: A bit is set only while none is; a bit of 0 is no fault. */
static ism_fifo fifo_steps_with_fault(ism_fifo fifo, uint16_t bit) {
    uint16_t t10;
    if (fifo.error == 0) {
        t10 = bit;
    } else {
        t10 = fifo.error;
    }
    return (ism_fifo){.mode = fifo.mode, .held = fifo.held, .first = fifo.first, .second = fifo.second, .error = t10};
}

/* fifo::steps::not_an_item, crates/fifo/src/steps.rt */
static ism_fifo_answer fifo_steps_not_an_item(ism_fifo next) {
    struct refusal_Refusal why = {.tag = refusal_Refusal_NotAnItem, .u.NotAnItem = 0};
    uint32_t t3 = refusal_Refusal_number(why);
    return (ism_fifo_answer){.number = t3, .place = refusal_Refusal_place(why), .item = 0, .next = next};
}

/*
 * fifo::steps::append, crates/fifo/src/steps.rt
 * An item comes last; where there is no room, `fault` is the bit. Here and in `shift` the bit is handed over and not
 * the `Fault`: with `Option<Fault>` for the mark's, `ism_fifo_take_data` in C took 1,638 bytes of code for 176 on a
 * Cortex-M4, and 136 of stack for 80.
 */
static ism_fifo_answer fifo_steps_append(ism_fifo fifo, uint16_t item, uint16_t fault) {
    if (items_is_item(item)) {
        if (fifo.held == 0) return fifo_steps_given(0, fifo_steps_with_items(fifo, 1, item, 0));
        if (fifo.held == 1) return fifo_steps_given(0, fifo_steps_with_items(fifo, 2, fifo.first, item));
        return fifo_steps_given(0, fifo_steps_with_fault(fifo, fault));
    }
    return fifo_steps_not_an_item(fifo);
}

/* fifo::Fifo::put, crates/fifo/src/lib.rt: The processor puts an item. */
static ism_fifo_answer fifo_Fifo_put(ism_fifo self, uint16_t item) {
    if (self.mode == 0) {
        uint16_t t5 = fifo_steps_U16FromFault_from((struct fifo_steps_Fault){.tag = fifo_steps_Fault_Processor});
        return fifo_steps_append(self, item, t5);
    }
    return fifo_steps_given(0, self);
}

/* fifo::Fifo::chip_put, crates/fifo/src/lib.rt: The chip puts an item. */
static ism_fifo_answer fifo_Fifo_chip_put(ism_fifo self, uint16_t item) {
    if (self.mode == 0) return fifo_steps_given(0, self);
    uint16_t t5 = fifo_steps_U16FromFault_from((struct fifo_steps_Fault){.tag = fifo_steps_Fault_Chip});
    return fifo_steps_append(self, item, t5);
}

/* fifo::steps::without_first, crates/fifo/src/steps.rt: The first item leaves. */
static ism_fifo fifo_steps_without_first(ism_fifo fifo) {
    if (fifo.held < 2) return fifo_steps_with_items(fifo, 0, 0, 0);
    return fifo_steps_with_items(fifo, 1, fifo.second, 0);
}

/*
 * fifo::steps::shift, crates/fifo/src/steps.rt
 * The first item leaves; where there is none, `fault` is the bit; where it is a mark, `mark`.
 */
static ism_fifo_answer fifo_steps_shift(ism_fifo fifo, uint16_t fault, uint16_t mark) {
    if (fifo.held == 0) return fifo_steps_given(0, fifo_steps_with_fault(fifo, fault));
    if (items_is_mark(fifo.first)) {
        return fifo_steps_given(fifo.first, fifo_steps_with_fault(fifo_steps_without_first(fifo), mark));
    }
    return fifo_steps_given(fifo.first, fifo_steps_without_first(fifo));
}

/*
 * fifo::Fifo::take_data, crates/fifo/src/lib.rt
 * The processor takes an item at the data location, where a mark is a fault.
 */
static ism_fifo_answer fifo_Fifo_take_data(ism_fifo self) {
    if (self.mode == 0) return fifo_steps_given(0, self);
    uint16_t t4 = fifo_steps_U16FromFault_from((struct fifo_steps_Fault){.tag = fifo_steps_Fault_Processor});
    uint16_t t6 = fifo_steps_U16FromFault_from((struct fifo_steps_Fault){.tag = fifo_steps_Fault_Mark});
    return fifo_steps_shift(self, t4, t6);
}

/* fifo::Fifo::take_mark, crates/fifo/src/lib.rt: The processor takes an item at the mark location. */
static ism_fifo_answer fifo_Fifo_take_mark(ism_fifo self) {
    if (self.mode == 0) return fifo_steps_given(0, self);
    uint16_t t4 = fifo_steps_U16FromFault_from((struct fifo_steps_Fault){.tag = fifo_steps_Fault_Processor});
    return fifo_steps_shift(self, t4, 0);
}

/* fifo::Fifo::chip_take, crates/fifo/src/lib.rt: The chip takes an item. */
static ism_fifo_answer fifo_Fifo_chip_take(ism_fifo self) {
    if (self.mode == 0) {
        uint16_t t4 = fifo_steps_U16FromFault_from((struct fifo_steps_Fault){.tag = fifo_steps_Fault_Chip});
        return fifo_steps_shift(self, t4, 0);
    }
    return fifo_steps_given(0, self);
}

/* fifo::Fifo::read_error, crates/fifo/src/lib.rt: The processor reads the error register, in either mode. */
static ism_fifo_answer fifo_Fifo_read_error(ism_fifo self) {
    ism_fifo t2 = {.mode = self.mode, .held = self.held, .first = self.first, .second = self.second, .error = 0};
    return fifo_steps_given(self.error, t2);
}

/* The crate half_cells */

/*
 * half_cells::missing, crates/half_cells/src/lib.rt
 * The clock bits that a gap leaves out, each at the place above its own: it is 0 between two data bits 0.
 */
static uint32_t half_cells_missing(uint32_t x) {
    return (uint32_t)~(x | (uint32_t)(x << 1) | (uint32_t)(x << 2)) & 0x15554;
}

/* half_cells::is_mark, crates/half_cells/src/lib.rt */
static bool half_cells_is_mark(uint32_t x) {
    uint16_t word = (uint16_t)(x % 65536);
    return (word == 17545) | (word == 21028);
}

/* half_cells::fits, crates/half_cells/src/lib.rt: Whether no gap of a byte is out of place. */
static bool half_cells_fits(uint32_t x) {
    bool t3 = half_cells_missing(x) == 0;
    return t3 | half_cells_is_mark(x);
}

/*
 * half_cells::cells_since, crates/half_cells/src/lib.rt
 * With its half cells in the low places of these bits, but for a surplus: the cells that end after the first missing
 * clock, one for each 1.
 */
static uint32_t half_cells_cells_since(uint32_t bits, uint32_t surplus, uint32_t gaps) {
    uint32_t below = (surplus + 32 - leading_zeros(gaps)) % 32;
    return count_ones(bits & ((uint32_t)((uint32_t)1 << below) - 1));
}

/*
 * half_cells::first_of_cells, crates/half_cells/src/lib.rt
 * The place of the first of so many cells, the last of which stands at this place.
 */
static uint32_t half_cells_first_of_cells(uint32_t at, uint32_t cells) {
    return (uint32_t)((uint32_t)(at + 1) - cells);
}

/* half_cells::data_bits, crates/half_cells/src/lib.rt: Every second bit of a word, moved together. */
static uint16_t half_cells_data_bits(uint16_t word) {
    uint16_t alone = word & 0x5555;
    uint16_t pairs = (alone | (alone >> 1)) & 0x3333;
    uint16_t fours = (pairs | (pairs >> 2)) & 0xF0F;
    return (fours | (fours >> 4)) & 0xFF;
}

/*
 * half_cells::byte_of, crates/half_cells/src/lib.rt
 * The one byte that can have a word of 16 half cells: whether it has it depends on the data bit before.
 */
static uint16_t half_cells_byte_of(uint16_t word) {
    if (word == 17545) return 417;
    if (word == 21028) return 450;
    return half_cells_data_bits(word);
}

/* half_cells::words_to_bytes, crates/half_cells/src/lib.rt: Each word of a list replaced by its byte. */
static void half_cells_words_to_bytes(struct slice_u16_mut words) {
    struct slice_u16_mut word_items = words;
    uint64_t word_index = 0;
    uint64_t t5 = word_items.len;
    while (word_index < t5) {
        uint16_t *word = word_items.at + word_index;
        *word = half_cells_byte_of(*word);
        word_index++;
    }
}

/* The crate symbols */

/*
 * symbols::Reading::new, crates/symbols/src/lib.rt
 * The transition before the first cell is the lead's clock bit.
 */
static struct symbols_Reading symbols_Reading_new(void) {
    return (struct symbols_Reading){.bits = 1, .held = 0, .words = 0, .place = 0, .stray = false};
}

/*
 * symbols::Reading::empty, crates/symbols/src/lib.rt
 * No half cell: after sixteen cells a register is the same whatever it held.
 */
static struct symbols_Reading symbols_Reading_empty(void) {
    return (struct symbols_Reading){.bits = 0, .held = 0, .words = 0, .place = 0, .stray = false};
}

/*
 * symbols::Reading::shift, crates/symbols/src/lib.rt
 * One cell more, of so many units: 0s, then the 1 that ends it.
 */
static struct symbols_Reading symbols_Reading_shift(struct symbols_Reading self, uint8_t units) {
    uint32_t more = (uint32_t)units;
    self.bits = (uint32_t)(self.bits << (more % 32)) | 0x1;
    self.held = (uint32_t)(self.held + more);
    return self;
}

/*
 * symbols::Reading::is_whole, crates/symbols/src/lib.rt
 * A byte is whole with its 16 half cells and the data bit before it.
 */
static bool symbols_Reading_is_whole(struct symbols_Reading self) {
    return 17 <= self.held;
}

/* symbols::Reading::word, crates/symbols/src/lib.rt: The code word of a byte that is whole. */
static uint16_t symbols_Reading_word(struct symbols_Reading self) {
    uint32_t surplus = (self.held - 17) % 32;
    uint32_t x = (self.bits >> surplus) % 131072;
    return (uint16_t)(x % 65536);
}

/*
 * symbols::Reading::close, crates/symbols/src/lib.rt
 * On to the next byte after the cell at this place made one whole. Of the gaps out of place the lowest is kept.
 */
static struct symbols_Reading symbols_Reading_close(struct symbols_Reading self, uint32_t at) {
    uint32_t surplus = (self.held - 17) % 32;
    uint32_t x = (self.bits >> surplus) % 131072;
    uint32_t gaps = half_cells_missing(x);
    self.held -= 16;
    self.words = (uint32_t)(self.words + 1);
    if (gaps == 0) return self;
    if (half_cells_is_mark(x)) return self;
    if (self.stray) return self;
    self.stray = true;
    self.place = half_cells_first_of_cells(at, half_cells_cells_since(self.bits, surplus, gaps));
    return self;
}

/*
 * symbols::Reading::is_stray, crates/symbols/src/lib.rt
 * A gap was out of place, also one on the last bit, which no later byte has shown.
 */
static bool symbols_Reading_is_stray(struct symbols_Reading self) {
    return self.stray | ((self.held == 4) & (self.bits % 16 == 1));
}

/*
 * symbols::Reading::stray_place, crates/symbols/src/lib.rt
 * The place of the lowest such gap's cell, given that of the last cell.
 */
static uint32_t symbols_Reading_stray_place(struct symbols_Reading self, uint32_t last) {
    if (self.stray) return self.place;
    return last;
}

/* The crate words */

/*
 * words::spread_word, crates/words/src/lib.rt
 * The bits of a data byte at every second place, and a clock bit between each two that are 0.
 */
static uint16_t words_spread_word(uint16_t previous, uint16_t byte) {
    uint16_t fours = (byte | (uint16_t)((uint32_t)byte << 4)) & 0xF0F;
    uint16_t pairs = (fours | (uint16_t)((uint32_t)fours << 2)) & 0x3333;
    uint16_t data = (pairs | (uint16_t)((uint32_t)pairs << 1)) & 0x5555;
    uint16_t clocks = ((data | (data >> 2) | (uint16_t)((uint32_t)previous << 14)) & 0x5555) ^ 0x5555;
    return data | (uint16_t)((uint32_t)clocks << 1);
}

/*
 * words::made_word, crates/words/src/lib.rt
 * The same without the table, which is slow to copy where few words are asked for and large where all are. A mark's
 * word is chosen after the other is made: with no jump, so that the words of many bytes are made in vector
 * instructions; and in two steps, as one `if` of three ends makes each C compiler slower, on marks or on few bytes.
 */
static uint16_t words_made_word(uint16_t previous, uint16_t w) {
    uint16_t data = words_spread_word(previous % 2, w % 256);
    uint16_t word;
    if (w == 450) {
        word = 21028;
    } else {
        word = data;
    }
    if (w == 417) return 17545;
    return word;
}

/*
 * words::table::code_words, crates/words/src/table.rt
 * The constant would be copied wherever it is named: a loop binds it before its first turn, and lends it.
 */
static struct array_u16_512 words_table_code_words(void) {
    return (struct array_u16_512){{43690, 43689, 43684, 43685, 43666, 43665, 43668, 43669, 43594, 43593, 43588, 43589,
            43602, 43601, 43604, 43605, 43306, 43305, 43300, 43301, 43282, 43281, 43284, 43285, 43338, 43337, 43332,
            43333, 43346, 43345, 43348, 43349, 42154, 42153, 42148, 42149, 42130, 42129, 42132, 42133, 42058, 42057,
            42052, 42053, 42066, 42065, 42068, 42069, 42282, 42281, 42276, 42277, 42258, 42257, 42260, 42261, 42314,
            42313, 42308, 42309, 42322, 42321, 42324, 42325, 37546, 37545, 37540, 37541, 37522, 37521, 37524, 37525,
            37450, 37449, 37444, 37445, 37458, 37457, 37460, 37461, 37162, 37161, 37156, 37157, 37138, 37137, 37140,
            37141, 37194, 37193, 37188, 37189, 37202, 37201, 37204, 37205, 38058, 38057, 38052, 38053, 38034, 38033,
            38036, 38037, 37962, 37961, 37956, 37957, 37970, 37969, 37972, 37973, 38186, 38185, 38180, 38181, 38162,
            38161, 38164, 38165, 38218, 38217, 38212, 38213, 38226, 38225, 38228, 38229, 19114, 19113, 19108, 19109,
            19090, 19089, 19092, 19093, 19018, 19017, 19012, 19013, 19026, 19025, 19028, 19029, 18730, 18729, 18724,
            18725, 18706, 18705, 18708, 18709, 18762, 18761, 18756, 18757, 18770, 18769, 18772, 18773, 17578, 17577,
            17572, 17573, 17554, 17553, 17556, 17557, 17482, 17481, 17476, 17477, 17490, 17489, 17492, 17493, 17706,
            17705, 17700, 17701, 17682, 17681, 17684, 17685, 17738, 17737, 17732, 17733, 17746, 17745, 17748, 17749,
            21162, 21161, 21156, 21157, 21138, 21137, 21140, 21141, 21066, 21065, 21060, 21061, 21074, 21073, 21076,
            21077, 20778, 20777, 20772, 20773, 20754, 20753, 20756, 20757, 20810, 20809, 20804, 20805, 20818, 20817,
            20820, 20821, 21674, 21673, 21668, 21669, 21650, 21649, 21652, 21653, 21578, 21577, 21572, 21573, 21586,
            21585, 21588, 21589, 21802, 21801, 21796, 21797, 21778, 21777, 21780, 21781, 21834, 21833, 21828, 21829,
            21842, 21841, 21844, 21845, 10922, 10921, 10916, 10917, 10898, 10897, 10900, 10901, 10826, 10825, 10820,
            10821, 10834, 10833, 10836, 10837, 10538, 10537, 10532, 10533, 10514, 10513, 10516, 10517, 10570, 10569,
            10564, 10565, 10578, 10577, 10580, 10581, 9386, 9385, 9380, 9381, 9362, 9361, 9364, 9365, 9290, 9289, 9284,
            9285, 9298, 9297, 9300, 9301, 9514, 9513, 9508, 9509, 9490, 9489, 9492, 9493, 9546, 9545, 9540, 9541, 9554,
            9553, 9556, 9557, 4778, 4777, 4772, 4773, 4754, 4753, 4756, 4757, 4682, 4681, 4676, 4677, 4690, 4689, 4692,
            4693, 4394, 4393, 4388, 4389, 4370, 4369, 4372, 4373, 4426, 4425, 4420, 4421, 4434, 4433, 4436, 4437, 5290,
            5289, 5284, 5285, 5266, 5265, 5268, 5269, 5194, 5193, 5188, 5189, 5202, 5201, 5204, 5205, 5418, 5417, 5412,
            5413, 5394, 5393, 5396, 5397, 5450, 5449, 5444, 5445, 5458, 5457, 5460, 5461, 19114, 19113, 19108, 19109,
            19090, 19089, 19092, 19093, 19018, 19017, 19012, 19013, 19026, 19025, 19028, 19029, 18730, 18729, 18724,
            18725, 18706, 18705, 18708, 18709, 18762, 18761, 18756, 18757, 18770, 18769, 18772, 18773, 17578, 17577,
            17572, 17573, 17554, 17553, 17556, 17557, 17482, 17481, 17476, 17477, 17490, 17489, 17492, 17493, 17706,
            17705, 17700, 17701, 17682, 17681, 17684, 17685, 17738, 17737, 17732, 17733, 17746, 17745, 17748, 17749,
            21162, 21161, 21156, 21157, 21138, 21137, 21140, 21141, 21066, 21065, 21060, 21061, 21074, 21073, 21076,
            21077, 20778, 20777, 20772, 20773, 20754, 20753, 20756, 20757, 20810, 20809, 20804, 20805, 20818, 20817,
            20820, 20821, 21674, 21673, 21668, 21669, 21650, 21649, 21652, 21653, 21578, 21577, 21572, 21573, 21586,
            21585, 21588, 21589, 21802, 21801, 21796, 21797, 21778, 21777, 21780, 21781, 21834, 21833, 21828, 21829,
            21842, 21841, 21844, 21845}};
}

/*
 * words::word_of, crates/words/src/lib.rt
 * The word of a written byte after the byte before, whose last bit is the previous bit.
 */
static uint16_t words_word_of(const struct array_u16_512 *table, uint16_t previous, uint16_t byte) {
    if (byte == 417) return 17545;
    if (byte == 450) return 21028;
    return table->a[(uint64_t)((previous % 2) * 256 + byte % 256)];
}

/* The crate images */

/* images::count::count_byte, crates/images/src/count.rt */
static struct images_count_Tally images_count_count_byte(struct images_count_Tally tally, uint16_t byte) {
    uint16_t ones = (uint16_t)count_ones(words_made_word(tally.previous, byte));
    return (struct images_count_Tally){.cells = tally.cells + ones, .previous = byte};
}

/* images::count::count_bytes, crates/images/src/count.rt */
static struct images_count_Tally images_count_count_bytes(struct images_count_Tally start, struct slice_u16 bytes) {
    struct images_count_Tally tally = start;
    uint64_t byte_index = 0;
    uint64_t t6 = bytes.len;
    while (byte_index < t6) {
        tally = images_count_count_byte(tally, bytes.at[byte_index]);
        byte_index++;
    }
    return tally;
}

/*
 * images::count::count_blocks, crates/images/src/count.rt
 * Block by block, as the bytes that they write: one loop then counts the bytes of many runs.
 */
static struct images_count_Tally images_count_count_blocks(struct slice_u16 items) {
    struct images_count_Tally tally = {.cells = 0, .previous = 0};
    struct items_Check check = items_Check_fresh();
    struct array_u16_128 bytes = {0};
    uint64_t from = 0;
    while (from < items.len) {
        uint64_t end = from + core_int_usize_min(64, items.len - from);
        struct items_bytes_Stored stored =
                items_bytes_write_bytes(check, slice_u16(items.at + from, end - from), slice_u16_mut(bytes.a, 128));
        uint64_t count = stored.count;
        tally = images_count_count_bytes(tally, slice_u16(bytes.a, count));
        check = stored.check;
        from = end;
    }
    return tally;
}

/*
 * images::count::count_items, crates/images/src/count.rt
 * A list with no check order is its own bytes, and needs no register.
 */
static struct images_count_Tally images_count_count_items(struct slice_u16 items, uint64_t bytes) {
    if (bytes == items.len) {
        struct images_count_Tally none = {.cells = 0, .previous = 0};
        return images_count_count_bytes(none, items);
    }
    return images_count_count_blocks(items);
}

/*
 * images::count::count_cells, crates/images/src/count.rt
 * The cells of an accepted list that writes so many bytes. The two closing 0s end two cells after a 0, and one after a
 * 1.
 */
static uint64_t images_count_count_cells(struct slice_u16 items, uint64_t bytes) {
    struct images_count_Tally tally = images_count_count_items(items, bytes);
    uint64_t cells = (uint64_t)tally.cells;
    if (tally.previous % 2 == 1) return cells + 1;
    return cells + 2;
}

/*
 * images::make::store_written, crates/images/src/make.rt
 * A list with no check order is its own bytes, and needs no register.
 */
static void images_make_store_written(struct slice_u16 items, uint64_t bytes, struct slice_u16_mut out) {
    if (bytes == items.len) {
        lists_store_u16(items, 0, out);
        return;
    }
    items_bytes_write_bytes(items_Check_fresh(), items, out);
}

/*
 * images::make::turn_few, crates/images/src/make.rt
 * Written bytes become their words where they stand, by the rule.
 */
static void images_make_turn_few(struct slice_u16_mut bytes) {
    uint16_t previous = 0;
    uint64_t place_index = 0;
    uint64_t t6 = bytes.len;
    while (place_index < t6) {
        uint16_t *place = bytes.at + place_index;
        uint16_t byte = *place;
        *place = words_made_word(previous, byte);
        previous = byte;
        place_index++;
    }
}

/* images::make::turn_many, crates/images/src/make.rt: The same by the table. */
static void images_make_turn_many(struct slice_u16_mut bytes) {
    struct array_u16_512 table = words_table_code_words();
    uint16_t previous = 0;
    uint64_t place_index = 0;
    uint64_t t8 = bytes.len;
    while (place_index < t8) {
        uint16_t *place = bytes.at + place_index;
        uint16_t byte = *place;
        *place = words_word_of(&table, previous, byte);
        previous = byte;
        place_index++;
    }
}

/* images::make::turn_into_words, crates/images/src/make.rt */
static void images_make_turn_into_words(struct slice_u16_mut bytes) {
    if (bytes.len < 12) {
        images_make_turn_few(bytes);
        return;
    }
    images_make_turn_many(bytes);
}

/* images::make::make_words, crates/images/src/make.rt: An accepted list: 9, or its image. */
static struct Result_u64_Refusal images_make_make_words(struct slice_u16 items, struct slice_u16_mut out) {
    uint64_t n = items_list_written_bytes(items);
    if (out.len < n) {
        return (struct Result_u64_Refusal){.tag = Result_u64_Refusal_Err,
                .u.Err = {.tag = refusal_Refusal_OutputTooShort}};
    }
    images_make_store_written(items, n, out);
    images_make_turn_into_words(slice_u16_mut(out.at, n));
    return (struct Result_u64_Refusal){.tag = Result_u64_Refusal_Ok, .u.Ok = n};
}

/*
 * images::make::make_image, crates/images/src/make.rt
 * A list of items as an image: 4, 3, 9, or the number of words stored.
 */
static struct Result_u64_Refusal images_make_make_image(struct slice_u16 items, struct slice_u16_mut out) {
    struct ControlFlow_ErrResidual_Refusal_unit t5 =
            core_result_ResultTry_branch_unit_Refusal(items_list_check_list(items));
    if (t5.tag != ControlFlow_ErrResidual_Refusal_unit_Continue) {
        return core_result_ResultFromResidualErrResidual_from_residual_u64_Refusal_Refusal(t5.u.Break);
    }
    return images_make_make_words(items, out);
}

/*
 * images::read::is_ruly, crates/images/src/read.rt
 * Whether its candidate has a word: a mark's is told first, so that no test of a mark is left for the others.
 */
static bool images_read_is_ruly(uint16_t previous, uint16_t word) {
    if (word == 17545) return true;
    if (word == 21028) return true;
    return words_made_word(previous, half_cells_byte_of(word)) == word;
}

/*
 * images::read::all_ruly, crates/images/src/read.rt
 * Whether no word is unruly; a word's last bit is its byte's. Looks at every word: a loop that could end early would
 * go word by word.
 */
static bool images_read_all_ruly(struct slice_u16 words) {
    bool all = true;
    uint16_t previous = 0;
    uint64_t word_index = 0;
    uint64_t t6 = words.len;
    while (word_index < t6) {
        uint16_t word = words.at[word_index];
        all = all & images_read_is_ruly(previous, word);
        previous = word;
        word_index++;
    }
    return all;
}

/*
 * images::read::find_unruly, crates/images/src/read.rt
 * The place of the lowest word that its candidate does not have after the byte before.
 */
static struct Option_u64 images_read_find_unruly(struct slice_u16 words) {
    struct array_u16_512 table = words_table_code_words();
    uint16_t previous = 0;
    uint64_t k = 0;
    uint64_t t8 = words.len;
    while (k < t8) {
        uint16_t word = words.at[k];
        uint16_t byte = half_cells_byte_of(word);
        if (words_word_of(&table, previous, byte) != word) {
            return (struct Option_u64){.tag = Option_u64_Some, .u.Some = k};
        }
        previous = byte;
        k++;
    }
    return (struct Option_u64){.tag = Option_u64_None};
}

/* images::read::check_words, crates/images/src/read.rt: Whether the words are an image: 4, then 16. */
static struct Result_unit_Refusal images_read_check_words(struct slice_u16 words) {
    if (6400 < words.len) {
        return (struct Result_unit_Refusal){.tag = Result_unit_Refusal_Err, .u.Err = {.tag = refusal_Refusal_TooLong}};
    }
    if (images_read_all_ruly(words)) return (struct Result_unit_Refusal){.tag = Result_unit_Refusal_Ok};
    uint64_t k = core_option_Option_unwrap_or_u64(images_read_find_unruly(words), words.len);
    return (struct Result_unit_Refusal){.tag = Result_unit_Refusal_Err,
            .u.Err = {.tag = refusal_Refusal_UnrulyWord, .u.UnrulyWord = (uint32_t)k}};
}

/*
 * images::read::store_bytes, crates/images/src/read.rt
 * The candidates of words, from the front of the output on.
 */
static void images_read_store_bytes(struct slice_u16 words, struct slice_u16_mut out) {
    lists_store_u16(words, 0, out);
    uint64_t n = words.len;
    half_cells_words_to_bytes(slice_u16_mut(out.at, n));
}

/* images::read::read_words, crates/images/src/read.rt: An image: 9, or its items. */
static struct Result_u64_Refusal images_read_read_words(struct slice_u16 words, struct slice_u16_mut out) {
    if (out.len < words.len) {
        return (struct Result_u64_Refusal){.tag = Result_u64_Refusal_Err,
                .u.Err = {.tag = refusal_Refusal_OutputTooShort}};
    }
    images_read_store_bytes(words, out);
    return (struct Result_u64_Refusal){.tag = Result_u64_Refusal_Ok, .u.Ok = words.len};
}

/*
 * images::read::read_image, crates/images/src/read.rt
 * An image as items: 4, 16, 9, or the number of items stored.
 */
static struct Result_u64_Refusal images_read_read_image(struct slice_u16 words, struct slice_u16_mut out) {
    struct ControlFlow_ErrResidual_Refusal_unit t5 =
            core_result_ResultTry_branch_unit_Refusal(images_read_check_words(words));
    if (t5.tag != ControlFlow_ErrResidual_Refusal_unit_Continue) {
        return core_result_ResultFromResidualErrResidual_from_residual_u64_Refusal_Refusal(t5.u.Break);
    }
    return images_read_read_words(words, out);
}

/* The crate lengths */

/*
 * lengths::room_below, crates/lengths/src/lib.rt
 * How far lengths of at most the one given are below an edge, which they must not reach.
 */
static uint16_t lengths_room_below(uint16_t longest, uint16_t edge) {
    return core_int_u16_saturating_sub(core_int_u16_saturating_sub(edge, 1), longest);
}

/*
 * lengths::rooms, crates/lengths/src/lib.rt
 * How far the lengths on each side of an edge are from crossing it: Min; B23 after-short, below and above, after-long
 * alike; B34; Rpt.
 */
static struct array_u16_10 lengths_rooms(struct timing_Profile p) {
    uint16_t d = timing_rule_swing(p).f0;
    uint16_t e = timing_rule_advance(p).f0;
    uint16_t l = timing_rule_delay(p).f0;
    uint16_t three = p.t1.f0 + p.t0.f0;
    uint16_t four = p.t1.f0 + 2 * p.t0.f0;
    uint16_t t8 = core_int_u16_saturating_sub(core_int_u16_saturating_sub(p.t1.f0, d), p.min.f0);
    uint16_t t10 = lengths_room_below(p.t1.f0, p.short_.b23.f0);
    uint16_t t11 = core_int_u16_saturating_sub(three + e, p.short_.b23.f0);
    uint16_t t13 = lengths_room_below(core_int_u16_saturating_sub(p.t1.f0, l), p.long_.b23.f0);
    uint16_t t15 = core_int_u16_saturating_sub(three, p.long_.b23.f0);
    uint16_t t16 = lengths_room_below(three + d, p.short_.b34.f0);
    uint16_t t18 = core_int_u16_saturating_sub(four + e, p.short_.b34.f0);
    uint16_t t20 = lengths_room_below(three + l, p.long_.b34.f0);
    uint16_t t22 = core_int_u16_saturating_sub(four, p.long_.b34.f0);
    return (struct array_u16_10){{t8, t10, t11, t13, t15, t16, t18, t20, t22, lengths_room_below(four + d, p.rpt.f0)}};
}

/* lengths::least_room, crates/lengths/src/lib.rt: The least room of a true profile. */
static uint16_t lengths_least_room(struct timing_Profile p) {
    struct array_u16_10 rooms = lengths_rooms(p);
    uint16_t least = rooms.a[0];
    struct slice_u16 room_items = slice_u16(rooms.a + 1, (uint64_t)10 - 1);
    uint64_t room_index = 0;
    uint64_t t16 = room_items.len;
    while (room_index < t16) {
        least = core_int_u16_min(least, room_items.at[room_index]);
        room_index++;
    }
    return least;
}

/*
 * lengths::margin, crates/lengths/src/lib.rt
 * The margin operation: 1, 2, then the largest number of half clocks by which every interval may be off and keep its
 * class.
 */
static struct Result_u64_Refusal lengths_margin(struct timing_Profile p) {
    struct ControlFlow_ErrResidual_Refusal_unit t4 = core_result_ResultTry_branch_unit_Refusal(timing_rule_check(p));
    if (t4.tag != ControlFlow_ErrResidual_Refusal_unit_Continue) {
        return core_result_ResultFromResidualErrResidual_from_residual_u64_Refusal_Refusal(t4.u.Break);
    }
    return (struct Result_u64_Refusal){.tag = Result_u64_Refusal_Ok, .u.Ok = (uint64_t)lengths_least_room(p)};
}

/* lengths::table::point, crates/lengths/src/table.rt: The compare point of a transition between two symbols. */
static struct timing_Clocks lengths_table_point(struct timing_Profile p, bool before, bool after) {
    if (before == after) return p.normal;
    if (before) return p.early;
    return p.late;
}

/*
 * lengths::table::shifted, crates/lengths/src/table.rt
 * A nominal length with the shift at its two ends, which can be below zero.
 */
static struct timing_HalfClocks lengths_table_shifted(struct timing_HalfClocks nominal, struct timing_HalfClocks start,
        struct timing_HalfClocks end) {
    uint32_t shift = (uint32_t)((uint32_t)end.f0 - (uint32_t)start.f0);
    return (struct timing_HalfClocks){.f0 = (uint16_t)(uint32_t)((uint32_t)nominal.f0 + shift)};
}

/*
 * lengths::table::length_between, crates/lengths/src/table.rt
 * The length of a cell between two, each given by its zeros.
 */
static struct timing_HalfClocks lengths_table_length_between(struct timing_Profile p, uint16_t before, uint16_t zeros,
        uint16_t after) {
    struct timing_HalfClocks nominal = {.f0 = p.t1.f0 + zeros * p.t0.f0};
    struct timing_Clocks start = lengths_table_point(p, before == 0, zeros == 0);
    struct timing_Clocks end = lengths_table_point(p, zeros == 0, after == 0);
    struct timing_HalfClocks t12 = timing_Clocks_in_half_clocks(start);
    return lengths_table_shifted(nominal, t12, timing_Clocks_in_half_clocks(end));
}

/* The crate intervals */

/*
 * intervals::units::is_clear, crates/intervals/src/units.rt
 * Whether an interval does not lie between two bounds. One compare for it: between them it is less past the lower than
 * the upper is; below both the difference wraps, and is no less.
 */
static bool intervals_units_is_clear(uint16_t low, uint16_t high, uint16_t interval) {
    return high - low <= (uint16_t)(interval - low);
}

/*
 * intervals::units::all_sure, crates/intervals/src/units.rt
 * Whether each interval is of class 2 after either kind, or after none: it does not lie between the two B23. The
 * clearance asks it, since the one before an interval then tells its bounds.
 */
static bool intervals_units_all_sure(struct timing_Bounds short_, struct timing_Bounds long_,
        struct slice_u16 intervals) {
    uint16_t low = core_int_u16_min(short_.b23.f0, long_.b23.f0);
    uint16_t high = core_int_u16_max(short_.b23.f0, long_.b23.f0);
    bool all = true;
    uint64_t interval_index = 0;
    uint64_t t9 = intervals.len;
    while (interval_index < t9) {
        all = all & intervals_units_is_clear(low, high, intervals.at[interval_index]);
        interval_index++;
    }
    return all;
}

/*
 * intervals::edges::all_inside, crates/intervals/src/edges.rt
 * Whether all lie between the two edges, where there is room between them: none is further past the lower than the
 * upper is, and one below it wraps to above all others. With no jump for any, so that vector instructions tell it.
 */
static bool intervals_edges_all_inside(uint16_t min, uint16_t rpt, struct slice_u16 intervals) {
    uint16_t most = 0;
    uint64_t interval_index = 0;
    uint64_t t7 = intervals.len;
    while (interval_index < t7) {
        most = core_int_u16_max(most, (uint16_t)(intervals.at[interval_index] - min));
        interval_index++;
    }
    return most < rpt - min;
}

/*
 * intervals::edges::find_outside, crates/intervals/src/edges.rt
 * The first that is none, the first of all having place `from`.
 */
static struct Result_unit_Refusal intervals_edges_find_outside(uint16_t min, uint16_t rpt, uint64_t from,
        struct slice_u16 intervals) {
    uint64_t k = 0;
    uint64_t t7 = intervals.len;
    while (k < t7) {
        uint16_t interval = intervals.at[k];
        if (interval < min) {
            return (struct Result_unit_Refusal){.tag = Result_unit_Refusal_Err,
                    .u.Err = {.tag = refusal_Refusal_IntervalTooShort, .u.IntervalTooShort = (uint32_t)(from + k)}};
        }
        if (rpt <= interval) {
            return (struct Result_unit_Refusal){.tag = Result_unit_Refusal_Err,
                    .u.Err = {.tag = refusal_Refusal_IntervalTooLong, .u.IntervalTooLong = (uint32_t)(from + k)}};
        }
        k++;
    }
    return (struct Result_unit_Refusal){.tag = Result_unit_Refusal_Ok};
}

/*
 * intervals::edges::check_edges_from, crates/intervals/src/edges.rt
 * It is looked for only where there is one among some.
 */
static struct Result_unit_Refusal intervals_edges_check_edges_from(struct timing_cursor_Cursor start, uint64_t from,
        struct slice_u16 intervals) {
    uint16_t min = start.min.f0;
    uint16_t rpt = start.rpt.f0;
    uint64_t k = 0;
    while (k < intervals.len) {
        uint64_t next = k + core_int_usize_min(128, intervals.len - k);
        if (intervals_edges_all_inside(min, rpt, slice_u16(intervals.at + k, next - k))) {
            k = next;
        } else {
            return intervals_edges_find_outside(min, rpt, from + k, slice_u16(intervals.at + k, intervals.len - k));
        }
    }
    return (struct Result_unit_Refusal){.tag = Result_unit_Refusal_Ok};
}

/* intervals::edges::check_edges, crates/intervals/src/edges.rt: Of a whole list. */
static struct Result_unit_Refusal intervals_edges_check_edges(struct timing_Profile p, struct slice_u16 intervals) {
    return intervals_edges_check_edges_from(timing_cursor_Cursor_start(p), 0, intervals);
}

/* intervals::units::units_by, crates/intervals/src/units.rt: By given bounds. */
static uint8_t intervals_units_units_by(struct timing_Bounds bounds, uint16_t interval) {
    return 2 + (uint8_t)(bounds.b23.f0 <= interval) + (uint8_t)(bounds.b34.f0 <= interval);
}

/* intervals::units::fill_units, crates/intervals/src/units.rt: At once, all by the same bounds. */
static void intervals_units_fill_units(struct timing_Bounds bounds, struct slice_u16 intervals,
        struct slice_u8_mut units) {
    uint64_t k = 0;
    uint64_t t6 = intervals.len;
    while (k < t6) {
        units.at[k] = intervals_units_units_by(bounds, intervals.at[k]);
        k++;
    }
}

/* intervals::units::units_in_turn, crates/intervals/src/units.rt: One after the other. */
static struct timing_cursor_Cursor intervals_units_units_in_turn(struct timing_cursor_Cursor start,
        struct slice_u16 intervals, struct slice_u8_mut units) {
    struct timing_cursor_Cursor cursor = start;
    uint64_t k = 0;
    uint64_t t7 = intervals.len;
    while (k < t7) {
        uint16_t interval = intervals.at[k];
        units.at[k] = timing_cursor_Cursor_units(cursor, interval);
        cursor = timing_cursor_Cursor_past(cursor, interval);
        k++;
    }
    return cursor;
}

/*
 * intervals::units::is_two, crates/intervals/src/units.rt
 * Whether an interval is of class 2, where that is told by itself.
 */
static bool intervals_units_is_two(struct timing_cursor_Cursor c, uint16_t interval) {
    return (c.min.f0 <= interval) & (interval < c.short_.b23.f0);
}

/*
 * intervals::units::mask_of, crates/intervals/src/units.rt
 * All ones or none, by which to choose without a jump.
 */
static uint16_t intervals_units_mask_of(bool two) {
    if (two) return 65535;
    return 0;
}

/*
 * intervals::units::mark_kinds, crates/intervals/src/units.rt
 * The kind of each at the place behind it; the first is as behind another than class 2.
 */
static void intervals_units_mark_kinds(struct timing_cursor_Cursor c, struct slice_u16 intervals,
        struct slice_u16_mut kinds) {
    kinds.at[0] = 0;
    uint64_t k = 0;
    uint64_t t7 = intervals.len;
    while (k < t7) {
        kinds.at[k + 1] = intervals_units_mask_of(intervals_units_is_two(c, intervals.at[k]));
        k++;
    }
}

/* intervals::units::choose, crates/intervals/src/units.rt */
static uint16_t intervals_units_choose(uint16_t mask, uint16_t short_, uint16_t long_) {
    uint16_t gap = (uint16_t)(short_ - long_);
    return (uint16_t)(long_ + (gap & mask));
}

/*
 * intervals::units::fill_behind, crates/intervals/src/units.rt
 * Each by the kind of the one before it, the first as behind another than class 2. All stand on the same side of both
 * B23, so that B34 alone is chosen.
 */
static void intervals_units_fill_behind(struct timing_cursor_Cursor c, struct slice_u16 intervals,
        struct slice_u16 kinds, struct slice_u8_mut units) {
    uint64_t k = 0;
    uint64_t t9 = intervals.len;
    while (k < t9) {
        uint16_t interval = intervals.at[k];
        uint16_t b34 = intervals_units_choose(kinds.at[k], c.short_.b34.f0, c.long_.b34.f0);
        struct timing_Bounds bounds = {.b23 = {.f0 = c.short_.b23.f0}, .b34 = {.f0 = b34}};
        units.at[k] = intervals_units_units_by(bounds, interval);
        k++;
    }
}

/* intervals::units::last_of, crates/intervals/src/units.rt */
static uint16_t intervals_units_last_of(struct slice_u16 intervals) {
    return intervals.at[intervals.len - 1];
}

/*
 * intervals::units::units_of_sure, crates/intervals/src/units.rt
 * Where none lies between the two B23. The first two go by where the classing stands.
 */
static struct timing_cursor_Cursor intervals_units_units_of_sure(struct timing_cursor_Cursor start,
        struct slice_u16 intervals, struct slice_u16_mut kinds, struct slice_u8_mut units) {
    intervals_units_mark_kinds(start, intervals, kinds);
    intervals_units_fill_behind(start, intervals, slice_u16(kinds.at, kinds.len), units);
    units.at[0] = timing_cursor_Cursor_units(start, intervals.at[0]);
    struct timing_cursor_Cursor next = timing_cursor_Cursor_past(start, intervals.at[0]);
    units.at[1] = timing_cursor_Cursor_units(next, intervals.at[1]);
    struct timing_cursor_Cursor t20 = timing_cursor_Cursor_behind(start, true);
    return timing_cursor_Cursor_past(t20, intervals_units_last_of(intervals));
}

/*
 * intervals::units::units_of, crates/intervals/src/units.rt
 * The units of intervals, each as a cell, from where the classing stands on.
 */
static struct timing_cursor_Cursor intervals_units_units_of(struct timing_cursor_Cursor start,
        struct slice_u16 intervals, struct slice_u8_mut units) {
    if (timing_cursor_Cursor_is_steady(start)) {
        intervals_units_fill_units(start.bounds, intervals, units);
        return start;
    }
    if (intervals.len < 2) return intervals_units_units_in_turn(start, intervals, units);
    if (intervals_units_all_sure(start.short_, start.long_, intervals)) {
        uint64_t n = intervals.len + 1;
        struct array_u16_129 kinds = {0};
        return intervals_units_units_of_sure(start, intervals, slice_u16_mut(kinds.a, n), units);
    }
    return intervals_units_units_in_turn(start, intervals, units);
}

/* intervals::edges::all_cells, crates/intervals/src/edges.rt: Whether all are cells. */
static bool intervals_edges_all_cells(struct timing_Profile p, struct slice_u16 intervals) {
    return intervals_edges_all_inside(p.min.f0, p.rpt.f0, intervals);
}

/* The crate shifts */

/*
 * shifts::shift::goes_by_eights, crates/shifts/src/shift.rt
 * Whether cells that make so many words at most go by eights: not a few, nor those behind no half cell, as at first,
 * nor the end of a field.
 */
static bool shifts_shift_goes_by_eights(struct symbols_Reading m, uint64_t room, uint32_t most) {
    return (4 <= room) & (1 <= m.held) & (room < (uint64_t)(most - m.words));
}

/* shifts::top::top_of, crates/shifts/src/top.rt */
static struct shifts_top_Top shifts_top_top_of(struct symbols_Reading m) {
    uint32_t free = 64 - m.held;
    return (struct shifts_top_Top){.cells = (uint64_t)((uint64_t)((uint64_t)m.bits << (uint64_t)(free - 1)) << 1),
            .free = free};
}

/* shifts::top::add_cell, crates/shifts/src/top.rt */
static struct shifts_top_Top shifts_top_add_cell(struct shifts_top_Top t, uint8_t units) {
    uint32_t free = (uint32_t)(t.free - (uint32_t)units);
    return (struct shifts_top_Top){.cells = t.cells | (uint64_t)((uint64_t)1 << (uint64_t)(free % 64)), .free = free};
}

/* shifts::top::add_four, crates/shifts/src/top.rt: The four cells from a place on. */
static struct shifts_top_Top shifts_top_add_four(struct shifts_top_Top t, struct slice_u8 units, uint64_t k) {
    struct shifts_top_Top t5 = shifts_top_add_cell(t, units.at[k]);
    struct shifts_top_Top two = shifts_top_add_cell(t5, units.at[k + 1]);
    t5 = shifts_top_add_cell(two, units.at[k + 2]);
    return shifts_top_add_cell(t5, units.at[k + 3]);
}

/*
 * shifts::top::top_word, crates/shifts/src/top.rt
 * The half cells of the byte that is whole, with the data bit before it; where none is whole, other half cells.
 */
static uint32_t shifts_top_top_word(struct shifts_top_Top t) {
    return (uint32_t)(t.cells >> 47);
}

/* shifts::top::past_word, crates/shifts/src/top.rt: On to the next byte. */
static struct shifts_top_Top shifts_top_past_word(struct shifts_top_Top t) {
    return (struct shifts_top_Top){.cells = (uint64_t)(t.cells << 16), .free = (uint32_t)(t.free + 16)};
}

/* shifts::top::is_whole, crates/shifts/src/top.rt */
static bool shifts_top_is_whole(struct shifts_top_Top t) {
    return t.free < 48;
}

/* shifts::top::ease, crates/shifts/src/top.rt: On to the next byte where one is whole, without a jump. */
static struct shifts_top_Top shifts_top_ease(struct shifts_top_Top t) {
    uint32_t more = 16 * (uint32_t)shifts_top_is_whole(t);
    return (struct shifts_top_Top){.cells = (uint64_t)(t.cells << (uint64_t)more), .free = (uint32_t)(t.free + more)};
}

/* shifts::fours::shift_four, crates/shifts/src/fours.rt */
static struct symbols_Reading shifts_fours_shift_four(struct symbols_Reading m, struct slice_u8 units, uint64_t k) {
    struct symbols_Reading t5 = symbols_Reading_shift(m, units.at[k]);
    struct symbols_Reading two = symbols_Reading_shift(t5, units.at[k + 1]);
    t5 = symbols_Reading_shift(two, units.at[k + 2]);
    return symbols_Reading_shift(t5, units.at[k + 3]);
}

/*
 * shifts::fours::last_bits, crates/shifts/src/fours.rt
 * The register after sixteen cells, which have all its half cells.
 */
static uint32_t shifts_fours_last_bits(struct slice_u8 units, uint64_t k) {
    struct symbols_Reading half =
            shifts_fours_shift_four(shifts_fours_shift_four(symbols_Reading_empty(), units, k), units, k + 4);
    return shifts_fours_shift_four(shifts_fours_shift_four(half, units, k + 8), units, k + 12).bits;
}

/*
 * shifts::fours::shift_eights, crates/shifts/src/fours.rt
 * So many eights, two at least. The first word of each is whole; the second is stored, and where it is not whole the
 * next eight's first in the same place.
 */
static struct shifts_fours_Fours shifts_fours_shift_eights(struct symbols_Reading start, struct slice_u8 units,
        uint64_t eights, struct slice_u32_mut words) {
    struct shifts_top_Top t = shifts_top_top_of(start);
    uint64_t count = 0;
    uint64_t i = 0;
    while (i < eights) {
        struct shifts_top_Top eight = shifts_top_add_four(shifts_top_add_four(t, units, 8 * i), units, 8 * i + 4);
        words.at[count] = shifts_top_top_word(eight);
        struct shifts_top_Top next = shifts_top_past_word(eight);
        words.at[count + 1] = shifts_top_top_word(next);
        count += 1 + (uint64_t)shifts_top_is_whole(next);
        t = shifts_top_ease(next);
        i++;
    }
    struct symbols_Reading reading = start;
    reading.bits = shifts_fours_last_bits(units, units.len - 16);
    reading.held = 64 - t.free;
    reading.words = (uint32_t)(start.words + (uint32_t)(count % 4294967296ull));
    return (struct shifts_fours_Fours){.reading = reading, .count = count};
}

/*
 * shifts::fours::all_fit, crates/shifts/src/fours.rt
 * Whether no gap is out of place, with no jump for any word, so that it is told in vector instructions.
 */
static bool shifts_fours_all_fit(struct slice_u32 words) {
    bool all = true;
    uint64_t word_index = 0;
    uint64_t t5 = words.len;
    while (word_index < t5) {
        all = all & half_cells_fits(words.at[word_index]);
        word_index++;
    }
    return all;
}

/*
 * shifts::fours::store, crates/shifts/src/fours.rt
 * The words without the data bit before each, from a place on, as many as there is room for. A strip is first read
 * without room.
 */
static void shifts_fours_store(struct slice_u32 words, uint64_t at, struct slice_u16_mut out) {
    if (out.len <= at) return;
    uint64_t count = core_int_usize_min(words.len, out.len - at);
    uint64_t k = 0;
    while (k < count) {
        out.at[at + k] = (uint16_t)(words.at[k] % 65536);
        k++;
    }
}

/*
 * shifts::shift::shift_in, crates/shifts/src/shift.rt
 * Cells of so many units, the first at place `from`, until so many bytes are whole or no cell is left. Bytes are
 * counted only where one is closed, which keeps the loop short. Code words are stored from place `to` on, where there
 * is room.
 */
static struct shifts_Pass shifts_shift_shift_in(struct symbols_Reading start, struct slice_u8 units, uint64_t from,
        uint32_t most, uint64_t to, struct slice_u16_mut out) {
    struct symbols_Reading m = start;
    uint64_t store_at = to;
    uint64_t k = 0;
    uint64_t t13 = units.len;
    while (k < t13) {
        struct symbols_Reading next = symbols_Reading_shift(m, units.at[k]);
        uint64_t place = from + k;
        if (symbols_Reading_is_whole(next)) {
            lists_put(out, store_at, symbols_Reading_word(next));
            store_at++;
            m = symbols_Reading_close(next, (uint32_t)(place % 4294967296ull));
            if (most <= m.words) return (struct shifts_Pass){.reading = m, .used = place + 1};
        } else {
            m = next;
        }
        k++;
    }
    return (struct shifts_Pass){.reading = m, .used = from + units.len};
}

/*
 * shifts::shift::shift_block, crates/shifts/src/shift.rt
 * Cells that leave bytes to read: by so many eights, for whose words there is room, and cell by cell what is over and,
 * for its place, where a gap is out of place.
 */
static struct shifts_Pass shifts_shift_shift_block(struct symbols_Reading m, struct slice_u8 units, uint64_t eights,
        struct slice_u32_mut words, uint64_t from, uint32_t most, uint64_t to, struct slice_u16_mut out) {
    uint64_t cells = 8 * eights;
    struct shifts_fours_Fours fours = shifts_fours_shift_eights(m, slice_u8(units.at, cells), eights, words);
    uint64_t count = fours.count;
    if (shifts_fours_all_fit(slice_u32(words.at, count))) {
        shifts_fours_store(slice_u32(words.at, count), to, out);
        struct symbols_Reading reading = fours.reading;
        uint64_t t29 = from + cells;
        uint64_t t30 = to + count;
        return shifts_shift_shift_in(reading, slice_u8(units.at + cells, units.len - cells), t29, most, t30, out);
    }
    return shifts_shift_shift_in(m, units, from, most, to, out);
}

/* shifts::shift::shift_units, crates/shifts/src/shift.rt: By eights, or cell by cell. */
static struct shifts_Pass shifts_shift_shift_units(struct symbols_Reading m, struct slice_u8 units, uint64_t from,
        uint32_t most, uint64_t to, struct slice_u16_mut out) {
    uint64_t eights = units.len / 8;
    uint64_t room = 2 * eights;
    if (shifts_shift_goes_by_eights(m, room, most)) {
        struct array_u32_32 words = {0};
        return shifts_shift_shift_block(m, units, eights, slice_u32_mut(words.a, room), from, most, to, out);
    }
    return shifts_shift_shift_in(m, units, from, most, to, out);
}

/* The crate passes */

/* passes::look::shift_on, crates/passes/src/look.rt: Cells through the register. */
static struct symbols_Reading passes_look_shift_on(struct symbols_Reading m, struct slice_u8 units, uint64_t from,
        uint32_t most) {
    struct array_u16_0 none = {0};
    struct shifts_Pass pass = shifts_shift_shift_units(m, units, from, most, 0, slice_u16_mut(none.a, 0));
    return pass.reading;
}

/* passes::scan::wide, crates/passes/src/scan.rt */
static uint64_t passes_scan_wide(uint8_t units) {
    return (uint64_t)units;
}

/* passes::scan::two_at, crates/passes/src/scan.rt: Cells from a place on, the first in the lowest byte. */
static uint64_t passes_scan_two_at(struct slice_u8 units, uint64_t k) {
    uint64_t t3 = passes_scan_wide(units.at[k]);
    return t3 + passes_scan_wide(units.at[k + 1]) * 256;
}

/* passes::scan::four_at, crates/passes/src/scan.rt */
static uint64_t passes_scan_four_at(struct slice_u8 units, uint64_t k) {
    uint64_t t3 = passes_scan_two_at(units, k);
    return t3 + passes_scan_two_at(units, k + 2) * 65536;
}

/* passes::scan::eight_at, crates/passes/src/scan.rt */
static uint64_t passes_scan_eight_at(struct slice_u8 units, uint64_t k) {
    uint64_t t3 = passes_scan_four_at(units, k);
    return t3 + passes_scan_four_at(units, k + 4) * 4294967296ull;
}

/* passes::scan::sums_of, crates/passes/src/scan.rt: In each byte the sum of it and those below. */
static uint64_t passes_scan_sums_of(uint64_t x) {
    uint64_t two = (uint64_t)(x + (uint64_t)(x << 8));
    uint64_t four = (uint64_t)(two + (uint64_t)(two << 16));
    return (uint64_t)(four + (uint64_t)(four << 32));
}

/*
 * passes::scan::scan_eight, crates/passes/src/scan.rt
 * Eight cells more. That a cell begins at a clock bit is told by the sum of all up to its end, since four is even: the
 * bit of that sum which stands over LONG's is set where it and one more is odd.
 */
static struct passes_scan_Tally passes_scan_scan_eight(struct passes_scan_Tally at, uint64_t x) {
    uint64_t sums = passes_scan_sums_of(x);
    uint64_t t8 = (uint64_t)((uint64_t)289360691352306692ull << (uint64_t)(at.sum % 2));
    uint64_t even = (uint64_t)((uint64_t)(sums << 2) + t8);
    return (struct passes_scan_Tally){.sum = (uint32_t)(at.sum + (uint32_t)(sums >> 56)),
            .gap = at.gap | ((x & even) != 0)};
}

/* passes::scan::scan, crates/passes/src/scan.rt: A block of 128 cells, after so many half cells. */
static struct passes_scan_Tally passes_scan_scan(uint32_t start, struct slice_u8 units) {
    struct passes_scan_Tally at = {.sum = start, .gap = false};
    uint64_t i = 0;
    while (i < 16) {
        at = passes_scan_scan_eight(at, passes_scan_eight_at(units, 8 * i));
        i++;
    }
    return at;
}

/*
 * passes::look::move_on, crates/passes/src/look.rt
 * The register after cells without a gap, where none is open: they have so many half cells with those that it holds.
 */
static struct symbols_Reading passes_look_move_on(struct symbols_Reading m, struct slice_u8 units, uint32_t sum) {
    uint32_t last = sum - 1;
    struct symbols_Reading reading = m;
    reading.bits = shifts_fours_last_bits(units, units.len - 16);
    reading.held = last % 16 + 1;
    reading.words = (uint32_t)(m.words + last / 16);
    return reading;
}

/*
 * passes::look::look_units, crates/passes/src/look.rt
 * The cells of a block. Eight of them have more letters than are open after them, so that none is where they have no
 * gap.
 */
static struct passes_look_Seen passes_look_look_units(struct passes_look_Seen seen, struct slice_u8 units,
        uint64_t from, uint32_t most) {
    struct symbols_Reading m = seen.reading;
    if (units.len < 128) {
        return (struct passes_look_Seen){.reading = passes_look_shift_on(m, units, from, most), .clear = false};
    }
    struct passes_scan_Tally tally = passes_scan_scan(m.held, units);
    if (tally.gap) {
        return (struct passes_look_Seen){.reading = passes_look_shift_on(m, units, from, most), .clear = false};
    }
    if (seen.clear) {
        return (struct passes_look_Seen){.reading = passes_look_move_on(m, units, tally.sum), .clear = true};
    }
    return (struct passes_look_Seen){.reading = passes_look_shift_on(m, units, from, most), .clear = true};
}

/*
 * passes::look::look_block, crates/passes/src/look.rt
 * The intervals of a block, whose units have as many places.
 */
static struct passes_look_Look passes_look_look_block(struct passes_look_Look at, struct slice_u16 intervals,
        struct slice_u8_mut units, uint32_t most) {
    struct timing_cursor_Cursor cursor = intervals_units_units_of(at.cursor, intervals, units);
    struct passes_look_Seen seen = passes_look_look_units(at.seen, slice_u8(units.at, units.len), at.used, most);
    return (struct passes_look_Look){.seen = seen, .used = at.used + intervals.len, .cursor = cursor};
}

/* passes::look::look_on, crates/passes/src/look.rt: One block more. */
static struct passes_look_Look passes_look_look_on(struct passes_look_Look at, struct slice_u16 intervals,
        uint32_t most) {
    uint64_t from = at.used;
    uint64_t n = core_int_usize_min(128, intervals.len - from);
    struct array_u8_128 units = {0};
    struct slice_u8_mut t14 = slice_u8_mut(units.a, n);
    return passes_look_look_block(at, slice_u16(intervals.at + from, from + n - from), t14, most);
}

/*
 * passes::look_over, crates/passes/src/lib.rt
 * Where a pass over all intervals comes to, which are no more than bytes are wanted; no word is made.
 */
static struct shifts_Pass passes_look_over(struct timing_Profile p, struct slice_u16 intervals, uint32_t most) {
    struct passes_look_Seen t7 = {.reading = symbols_Reading_new(), .clear = true};
    struct passes_look_Look at = {.seen = t7, .used = 0, .cursor = timing_cursor_Cursor_start(p)};
    while (at.used < intervals.len) {
        at = passes_look_look_on(at, intervals, most);
    }
    struct symbols_Reading reading = at.seen.reading;
    return (struct shifts_Pass){.reading = reading, .used = at.used};
}

/*
 * passes::last_place, crates/passes/src/lib.rt
 * The place of the last of so many intervals; 0 where there is none.
 */
static uint32_t passes_last_place(uint64_t used) {
    return (uint32_t)core_int_usize_saturating_sub(used, 1);
}

/* passes::block::Progress::start, crates/passes/src/block.rt: Before the first interval. */
static struct passes_block_Progress passes_block_Progress_start(struct timing_Profile p) {
    struct shifts_Pass t3 = {.reading = symbols_Reading_new(), .used = 0};
    return (struct passes_block_Progress){.pass = t3, .cursor = timing_cursor_Cursor_start(p)};
}

/*
 * passes::block::Progress::goes_on, crates/passes/src/block.rt
 * Whether bytes are wanted, and intervals are left to read them from.
 */
static bool passes_block_Progress_goes_on(struct passes_block_Progress self, uint32_t most, uint64_t length) {
    return (self.pass.used < length) & (self.pass.reading.words < most);
}

/*
 * passes::block::pass_block, crates/passes/src/block.rt
 * The intervals of a block, whose units have as many places.
 */
static struct passes_block_Progress passes_block_pass_block(struct passes_block_Progress at, struct slice_u16 intervals,
        struct slice_u8_mut units, uint32_t most, uint64_t to, struct slice_u16_mut out) {
    struct timing_cursor_Cursor cursor = intervals_units_units_of(at.cursor, intervals, units);
    return (struct passes_block_Progress){.pass = shifts_shift_shift_units(at.pass.reading,
            slice_u8(units.at, units.len), at.pass.used, most, to, out), .cursor = cursor};
}

/*
 * passes::block::Progress::next_block, crates/passes/src/block.rt
 * One block more, whose code words are stored from place `to` on.
 */
static struct passes_block_Progress passes_block_Progress_next_block(struct passes_block_Progress self,
        struct slice_u16 intervals, uint32_t most, uint64_t to, struct slice_u16_mut out) {
    uint64_t from = self.pass.used;
    uint64_t n = core_int_usize_min(128, intervals.len - from);
    struct array_u8_128 units = {0};
    struct slice_u8_mut t16 = slice_u8_mut(units.a, n);
    return passes_block_pass_block(self, slice_u16(intervals.at + from, from + n - from), t16, most, to, out);
}

/*
 * passes::block::Progress::pass_on, crates/passes/src/block.rt
 * Until so many bytes are whole, so many intervals more are used, or none is left. The code words are stored from the
 * front on, where there is room.
 */
static struct passes_block_Progress passes_block_Progress_pass_on(struct passes_block_Progress self,
        struct slice_u16 intervals, uint64_t count, uint32_t most, struct slice_u16_mut out) {
    uint32_t first = self.pass.reading.words;
    uint64_t end = self.pass.used + core_int_usize_min(count, intervals.len - self.pass.used);
    struct passes_block_Progress at = self;
    while (passes_block_Progress_goes_on(at, most, end)) {
        uint32_t done = at.pass.reading.words - first;
        at = passes_block_Progress_next_block(at, slice_u16(intervals.at, end), most, (uint64_t)done, out);
    }
    return at;
}

/*
 * passes::pass_over, crates/passes/src/lib.rt
 * One pass, until so many bytes are whole or no interval is left, each interval taken as a cell. The code words that
 * have room are stored from the front on.
 */
static struct shifts_Pass passes_pass_over(struct timing_Profile p, struct slice_u16 intervals, uint32_t most,
        struct slice_u16_mut out) {
    struct passes_block_Progress at =
            passes_block_Progress_pass_on(passes_block_Progress_start(p), intervals, intervals.len, most, out);
    return at.pass;
}

/* The crate codec */

/*
 * codec::writer::has_room, crates/codec/src/writer.rt
 * Whether an accepted list's stream has room in an output of so many places. A byte ends eight cells at most and the
 * closing 0s two: only where there is less room they are counted.
 */
static bool codec_writer_has_room(struct slice_u16 items, uint64_t bytes, uint64_t room) {
    if (8 * bytes + 2 <= room) return true;
    return images_count_count_cells(items, bytes) <= room;
}

/*
 * codec::windows::window_table, crates/codec/src/windows.rt
 * At 2 × the window the first length, and behind it the last. A name tells whether the cell before is short or longer,
 * the units of the cell, and whether the cell after is short or longer.
 */
static struct array_u16_128 codec_windows_window_table(struct timing_Profile p) {
    uint16_t s2s = lengths_table_length_between(p, 0, 0, 0).f0;
    uint16_t s2l = lengths_table_length_between(p, 0, 0, 1).f0;
    uint16_t s3s = lengths_table_length_between(p, 0, 1, 0).f0;
    uint16_t s3l = lengths_table_length_between(p, 0, 1, 1).f0;
    uint16_t s4s = lengths_table_length_between(p, 0, 2, 0).f0;
    uint16_t s4l = lengths_table_length_between(p, 0, 2, 1).f0;
    uint16_t l2s = lengths_table_length_between(p, 1, 0, 0).f0;
    uint16_t l2l = lengths_table_length_between(p, 1, 0, 1).f0;
    uint16_t l3s = lengths_table_length_between(p, 1, 1, 0).f0;
    uint16_t l3l = lengths_table_length_between(p, 1, 1, 1).f0;
    uint16_t l4s = lengths_table_length_between(p, 1, 2, 0).f0;
    uint16_t l4l = lengths_table_length_between(p, 1, 2, 1).f0;
    struct array_u16_128 result = {{s2s, s2s, s2s, s2l, s2l, s3l, s2l, s3s, s3l, s3l, s3l, s3l, s3s, l2l, s3s, l2s, l3s,
            l3s, l3l, l3l, l4l, l4l, l4s, l4s, l2l, l2l, l2l, l2l, l2s, s2l, l2s, s2s, l3s, l2s, l3s, l2l, l3l, l3l,
            l3l, l3s, l4l, l4l, l4l, l4l, l4s, l2l, l4s, l2s, s3s, s3s, s3l, s3l, s4l, s4l, s4s, s4s, s2l, s2l, s2l,
            s2l, s2s, s2l, s2s, s2s, l2s, s2s, l2s, s2l, l2l, s3l, l2l, s3s, l3l, l3l, l3l, l3l, l3s, l2l, l3s, l2s,
            l3s, l3s, l3l, l3l, l4l, l4l, l4s, l4s, l2l, l2l, l2l, l2l, l2s, s2l, l2s, s2s, s3s, l2s, s3s, l2l, s3l,
            l3l, s3l, l3s, s4l, s4l, s4l, s4l, s4s, l2l, s4s, l2s, s3s, s3s, s3l, s3l, s4l, s4l, s4s, s4s, s2l, s2l,
            s2l, s2l, s2s, s2l, s2s, s2s}};
    return result;
}

/* codec::pen::cells_in, crates/codec/src/pen.rt */
static uint64_t codec_pen_cells_in(uint64_t window) {
    return 1 + (13893535373986873551ull >> window) % 2;
}

/*
 * codec::pen::lay, crates/codec/src/pen.rt
 * Stores two lengths. Where one cell ends, the next window's are stored over the second.
 */
static uint64_t codec_pen_lay(const struct array_u16_128 *table, uint64_t window, uint64_t at,
        struct slice_u16_mut out) {
    uint16_t first = table->a[2 * window];
    uint16_t last = table->a[2 * window + 1];
    out.at[at] = first;
    out.at[at + 1] = last;
    return at + codec_pen_cells_in(window);
}

/*
 * codec::pen::enter, crates/codec/src/pen.rt
 * At the front of a list the lead 0 ends no cell, but the bit behind it does.
 */
static uint64_t codec_pen_enter(const struct array_u16_128 *table, uint64_t window, uint64_t at,
        struct slice_u16_mut out) {
    if (at == 0) {
        out.at[0] = table->a[2 * window + 1];
        return 1;
    }
    return codec_pen_lay(table, window, at, out);
}

/* codec::pen::begin, crates/codec/src/pen.rt: The last bit of the byte before, and a byte's first three. */
static uint64_t codec_pen_begin(const struct array_u16_128 *table, struct codec_pen_Pen start, uint64_t byte,
        struct slice_u16_mut out) {
    uint64_t previous = start.previous;
    uint64_t at = codec_pen_enter(table, (previous % 16) * 4 + byte / 64, start.cells, out);
    return codec_pen_lay(table, (previous % 4) * 16 + byte / 16, at, out);
}

/*
 * codec::pen::finish_mark, crates/codec/src/pen.rt
 * What is left of a mark: behind the missing clock bit the cells are those of other data, and mark A1 leaves the next
 * byte's as 1001 would.
 */
static struct codec_pen_Pen codec_pen_finish_mark(const struct array_u16_128 *table, uint64_t mark, uint64_t at,
        struct slice_u16_mut out) {
    if (mark == (uint64_t)417) {
        uint64_t fifth = codec_pen_lay(table, 41, at, out);
        return (struct codec_pen_Pen){.previous = 9, .cells = codec_pen_lay(table, 20, fifth, out)};
    }
    uint64_t fourth = codec_pen_lay(table, 57, at, out);
    uint64_t fifth_2 = codec_pen_lay(table, 20, fourth, out);
    return (struct codec_pen_Pen){.previous = mark, .cells = codec_pen_lay(table, 41, fifth_2, out)};
}

/* codec::pen::finish, crates/codec/src/pen.rt: What is left of a byte. */
static struct codec_pen_Pen codec_pen_finish(const struct array_u16_128 *table, uint64_t byte, uint64_t at,
        struct slice_u16_mut out) {
    if (255 < byte) return codec_pen_finish_mark(table, byte, at, out);
    uint64_t third = codec_pen_lay(table, byte / 4, at, out);
    return (struct codec_pen_Pen){.previous = byte, .cells = codec_pen_lay(table, byte % 64, third, out)};
}

/* codec::pen::draw_byte, crates/codec/src/pen.rt */
static struct codec_pen_Pen codec_pen_draw_byte(const struct array_u16_128 *table, struct codec_pen_Pen start,
        uint16_t byte, struct slice_u16_mut out) {
    uint64_t w = (uint64_t)byte;
    uint64_t at = codec_pen_begin(table, start, w % 256, out);
    return codec_pen_finish(table, w, at, out);
}

/* codec::pen::draw_bytes, crates/codec/src/pen.rt */
static struct codec_pen_Pen codec_pen_draw_bytes(const struct array_u16_128 *table, struct codec_pen_Pen start,
        struct slice_u16 bytes, struct slice_u16_mut out) {
    struct codec_pen_Pen pen = start;
    uint64_t byte_index = 0;
    uint64_t t8 = bytes.len;
    while (byte_index < t8) {
        pen = codec_pen_draw_byte(table, pen, bytes.at[byte_index], out);
        byte_index++;
    }
    return pen;
}

/* codec::writer::write_run, crates/codec/src/writer.rt: A run of bytes, and the check order behind it. */
static struct codec_writer_Part codec_writer_write_run(const struct array_u16_128 *table,
        struct codec_writer_Part start, struct slice_u16 run, struct slice_u16_mut out) {
    struct items_Check check = items_Check_after_bytes(start.check, run);
    struct codec_pen_Pen pen = codec_pen_draw_bytes(table, start.pen, run, out);
    uint16_t t12 = items_Check_high(check);
    struct array_u16_2 bytes = {{t12, items_Check_low(check)}};
    struct codec_pen_Pen t14 = codec_pen_draw_bytes(table, pen, slice_u16(bytes.a, 2), out);
    return (struct codec_writer_Part){.pen = t14, .check = items_Check_after_check(check)};
}

/*
 * codec::writer::write_items, crates/codec/src/writer.rt
 * Run by run, so that a check order finds the register as it is then. Behind the last no register is asked for. A
 * `while`, since a run's length comes out of the list.
 */
static struct codec_pen_Pen codec_writer_write_items(const struct array_u16_128 *table, struct slice_u16 items,
        struct slice_u16_mut out) {
    struct codec_writer_Part part = {.pen = {.previous = 0, .cells = 0}, .check = items_Check_fresh()};
    uint64_t from = 0;
    uint64_t run = items_list_find_check(items);
    while (run < items.len - from) {
        uint64_t end = from + run;
        part = codec_writer_write_run(table, part, slice_u16(items.at + from, end - from), out);
        from = end + 1;
        run = items_list_find_check(slice_u16(items.at + from, items.len - from));
    }
    return codec_pen_draw_bytes(table, part.pen, slice_u16(items.at + from, items.len - from), out);
}

/*
 * codec::pen::draw_closing, crates/codec/src/pen.rt
 * The two closing 0s behind the last bit. Answers the number of cells.
 */
static uint64_t codec_pen_draw_closing(const struct array_u16_128 *table, struct codec_pen_Pen pen,
        struct slice_u16_mut out) {
    uint64_t at = codec_pen_enter(table, (pen.previous % 16) * 4, pen.cells, out);
    out.at[at] = table->a[(pen.previous % 4) * 32];
    return at + 1;
}

/*
 * codec::writer::write_stream, crates/codec/src/writer.rt
 * The stream of a list, where it has room. Answers its length.
 */
static uint64_t codec_writer_write_stream(struct timing_Profile p, struct slice_u16 items, struct slice_u16_mut out) {
    struct array_u16_128 table = codec_windows_window_table(p);
    struct codec_pen_Pen pen = codec_writer_write_items(&table, items, out);
    return codec_pen_draw_closing(&table, pen, out);
}

/*
 * codec::writer::write_list, crates/codec/src/writer.rt
 * An accepted list under an accepted profile: 9, or its stream.
 */
static struct Result_u64_Refusal codec_writer_write_list(struct timing_Profile p, struct slice_u16 items,
        struct slice_u16_mut out) {
    uint64_t bytes = items_list_written_bytes(items);
    if (codec_writer_has_room(items, bytes, out.len)) {
        uint64_t count = codec_writer_write_stream(p, items, out);
        return (struct Result_u64_Refusal){.tag = Result_u64_Refusal_Ok, .u.Ok = count};
    }
    return (struct Result_u64_Refusal){.tag = Result_u64_Refusal_Err, .u.Err = {.tag = refusal_Refusal_OutputTooShort}};
}

/*
 * codec::writer::write, crates/codec/src/writer.rt
 * A list of items as intervals: 1, 2, 4, 3, 9, or the number of intervals stored.
 */
static struct Result_u64_Refusal codec_writer_write(struct timing_Profile p, struct slice_u16 items,
        struct slice_u16_mut out) {
    struct ControlFlow_ErrResidual_Refusal_unit t8 = core_result_ResultTry_branch_unit_Refusal(timing_rule_check(p));
    if (t8.tag != ControlFlow_ErrResidual_Refusal_unit_Continue) {
        return core_result_ResultFromResidualErrResidual_from_residual_u64_Refusal_Refusal(t8.u.Break);
    }
    struct ControlFlow_ErrResidual_Refusal_unit t10 =
            core_result_ResultTry_branch_unit_Refusal(items_list_check_list(items));
    if (t10.tag != ControlFlow_ErrResidual_Refusal_unit_Continue) {
        return core_result_ResultFromResidualErrResidual_from_residual_u64_Refusal_Refusal(t10.u.Break);
    }
    return codec_writer_write_list(p, items, out);
}

/*
 * codec::reader::conclude, crates/codec/src/reader.rt
 * What the whole strip reads as, given the place of its last interval: 7, 4, 8, or the number of items. A strip of 8n
 * + 2 bits ends one bit into a byte, and that bit is 0: with the data bit before it, four half cells.
 */
static struct Result_u64_Refusal codec_reader_conclude(struct symbols_Reading m, uint32_t last) {
    if (m.held != 4) {
        return (struct Result_u64_Refusal){.tag = Result_u64_Refusal_Err,
                .u.Err = {.tag = refusal_Refusal_NotWholeBytes}};
    }
    if (6400 < m.words) {
        return (struct Result_u64_Refusal){.tag = Result_u64_Refusal_Err, .u.Err = {.tag = refusal_Refusal_TooLong}};
    }
    if (symbols_Reading_is_stray(m)) {
        return (struct Result_u64_Refusal){.tag = Result_u64_Refusal_Err,
                .u.Err = {.tag = refusal_Refusal_MisplacedMark,
                .u.MisplacedMark = symbols_Reading_stray_place(m, last)}};
    }
    return (struct Result_u64_Refusal){.tag = Result_u64_Refusal_Ok, .u.Ok = (uint64_t)m.words};
}

/*
 * codec::reader::read_cells, crates/codec/src/reader.rt
 * A strip in which every interval is a cell: 7, 4, 8, 9, or all of its items. Code words are stored first, and turned
 * into items where they stand.
 */
static struct Result_u64_Refusal codec_reader_read_cells(struct timing_Profile p, struct slice_u16 intervals,
        struct slice_u16_mut out) {
    struct shifts_Pass pass = passes_look_over(p, intervals, (uint32_t)51202);
    struct symbols_Reading reading = pass.reading;
    struct ControlFlow_ErrResidual_Refusal_u64 t10 =
            core_result_ResultTry_branch_u64_Refusal(codec_reader_conclude(reading, passes_last_place(pass.used)));
    uint64_t n;
    if (t10.tag == ControlFlow_ErrResidual_Refusal_u64_Continue) {
        n = t10.u.Continue;
    } else {
        return core_result_ResultFromResidualErrResidual_from_residual_u64_Refusal_Refusal(t10.u.Break);
    }
    if (out.len < n) {
        return (struct Result_u64_Refusal){.tag = Result_u64_Refusal_Err,
                .u.Err = {.tag = refusal_Refusal_OutputTooShort}};
    }
    passes_pass_over(p, intervals, (uint32_t)51202, out);
    half_cells_words_to_bytes(slice_u16_mut(out.at, n));
    return (struct Result_u64_Refusal){.tag = Result_u64_Refusal_Ok, .u.Ok = n};
}

/*
 * codec::reader::read_strip, crates/codec/src/reader.rt
 * A strip of at most 51,202 intervals under an accepted profile: the first of 5 or 6, 7, 4, 8, 9, or all of its items.
 */
static struct Result_u64_Refusal codec_reader_read_strip(struct timing_Profile p, struct slice_u16 intervals,
        struct slice_u16_mut out) {
    struct ControlFlow_ErrResidual_Refusal_unit t6 =
            core_result_ResultTry_branch_unit_Refusal(intervals_edges_check_edges(p, intervals));
    if (t6.tag != ControlFlow_ErrResidual_Refusal_unit_Continue) {
        return core_result_ResultFromResidualErrResidual_from_residual_u64_Refusal_Refusal(t6.u.Break);
    }
    return codec_reader_read_cells(p, intervals, out);
}

/*
 * codec::reader::read, crates/codec/src/reader.rt
 * A strip of intervals as items: 1, 2, 4, the first of 5 or 6, 7, 4, 8, 9, or the number of items stored.
 */
static struct Result_u64_Refusal codec_reader_read(struct timing_Profile p, struct slice_u16 intervals,
        struct slice_u16_mut out) {
    struct ControlFlow_ErrResidual_Refusal_unit t6 = core_result_ResultTry_branch_unit_Refusal(timing_rule_check(p));
    if (t6.tag != ControlFlow_ErrResidual_Refusal_unit_Continue) {
        return core_result_ResultFromResidualErrResidual_from_residual_u64_Refusal_Refusal(t6.u.Break);
    }
    if (51202 < intervals.len) {
        return (struct Result_u64_Refusal){.tag = Result_u64_Refusal_Err, .u.Err = {.tag = refusal_Refusal_TooLong}};
    }
    return codec_reader_read_strip(p, intervals, out);
}

/* The crate runs */

/*
 * runs::last_sure, crates/runs/src/lib.rt
 * The last place up to `from` whose interval is of class 2, or is not, after either kind; 0 if there is none.
 */
static uint64_t runs_last_sure(struct timing_cursor_Cursor short_, struct timing_cursor_Cursor long_,
        struct slice_u16 intervals, uint64_t from) {
    uint64_t i = from + 1;
    while (1 < i) {
        i--;
        uint16_t interval = intervals.at[i];
        bool t7 = timing_cursor_Cursor_meets_two(short_, interval);
        if (t7 == timing_cursor_Cursor_meets_two(long_, interval)) return i;
    }
    return 0;
}

/*
 * runs::cursor_at, crates/runs/src/lib.rt
 * Where the classing stands at a place: it goes from the last sure place on, and so from the start of the list only
 * where no place before is sure.
 */
static struct timing_cursor_Cursor runs_cursor_at(struct timing_Profile p, struct slice_u16 intervals, uint64_t from) {
    struct timing_cursor_Cursor short_ = timing_cursor_Cursor_after(p, true);
    struct timing_cursor_Cursor long_ = timing_cursor_Cursor_after(p, false);
    struct timing_cursor_Cursor cursor = short_;
    uint64_t sure = runs_last_sure(short_, long_, intervals, from);
    uint64_t i = sure;
    while (i < from) {
        cursor = timing_cursor_Cursor_past(cursor, intervals.at[i]);
        i++;
    }
    return cursor;
}

/*
 * runs::next_two, crates/runs/src/lib.rt
 * The first place from `from` on whose interval is of class 2; the length of the list where there is none.
 */
static uint64_t runs_next_two(struct timing_Profile p, struct slice_u16 intervals, uint64_t from) {
    struct timing_cursor_Cursor cursor = runs_cursor_at(p, intervals, from);
    if (timing_cursor_Cursor_meets_two(cursor, intervals.at[from])) return from;
    struct timing_cursor_Cursor long_ = timing_cursor_Cursor_after(p, false);
    uint64_t i = from + 1;
    uint64_t t11 = intervals.len;
    while (i < t11) {
        if (timing_cursor_Cursor_meets_two(long_, intervals.at[i])) return i;
        i++;
    }
    return intervals.len;
}

/*
 * runs::all_follow, crates/runs/src/lib.rt
 * Whether each interval of a stretch is of class 2 if the one before it is: with no jump for any, so that it is told
 * in vector instructions.
 */
static bool runs_all_follow(struct timing_cursor_Cursor short_, struct slice_u16 intervals, uint64_t from) {
    bool all = true;
    struct slice_u16 interval_items = slice_u16(intervals.at + from, from + 32 - from);
    uint64_t interval_index = 0;
    uint64_t t14 = interval_items.len;
    while (interval_index < t14) {
        all = all & timing_cursor_Cursor_meets_two(short_, interval_items.at[interval_index]);
        interval_index++;
    }
    return all;
}

/* runs::pass_stretches, crates/runs/src/lib.rt: Passes over whole stretches of a run. */
static uint64_t runs_pass_stretches(struct timing_cursor_Cursor short_, struct slice_u16 intervals, uint64_t from) {
    uint64_t k = from;
    while (32 <= intervals.len - k) {
        if (runs_all_follow(short_, intervals, k)) {
            k += 32;
        } else {
            return k;
        }
    }
    return k;
}

/* runs::pass_run, crates/runs/src/lib.rt: Passes over a run up to its end. */
static uint64_t runs_pass_run(struct timing_cursor_Cursor short_, struct slice_u16 intervals, uint64_t from) {
    uint64_t passed = runs_pass_stretches(short_, intervals, from);
    uint64_t k = passed;
    uint64_t t6 = intervals.len;
    while (k < t6) {
        if (!timing_cursor_Cursor_meets_two(short_, intervals.at[k])) return k;
        k++;
    }
    return intervals.len;
}

/* The crate locks */

/*
 * locks::finder::begins_with, crates/locks/src/finder.rt
 * Whether the intervals from a place on have the classes of a pattern at their front.
 */
static bool locks_finder_begins_with(struct timing_cursor_Cursor start, struct slice_u16 intervals, uint64_t at,
        struct slice_timing_Class pattern) {
    if (intervals.len - at < pattern.len) return false;
    struct timing_cursor_Cursor cursor = start;
    uint64_t i = 0;
    uint64_t t13 = pattern.len;
    while (i < t13) {
        struct timing_Class class = pattern.at[i];
        struct timing_cursor_Classed classed = timing_cursor_Cursor_step(cursor, intervals.at[at + i]);
        if (timing_ClassPartialEq_eq(&classed.class, &class)) {
            cursor = classed.next;
        } else {
            return false;
        }
        i++;
    }
    return true;
}

/* locks::finder::mark_ahead, crates/locks/src/finder.rt: Whether a lock's mark stands at a place. */
static bool locks_finder_mark_ahead(struct timing_cursor_Cursor cursor, struct slice_u16 intervals, uint64_t at) {
    struct array_timing_Class_5 a1 = {{{.tag = timing_Class_Three}, {.tag = timing_Class_Four},
            {.tag = timing_Class_Three}, {.tag = timing_Class_Four}, {.tag = timing_Class_Three}}};
    if (locks_finder_begins_with(cursor, intervals, at, slice_timing_Class(a1.a, 5))) return true;
    struct array_timing_Class_10 c2 = {{{.tag = timing_Class_Three}, {.tag = timing_Class_Two},
            {.tag = timing_Class_Three}, {.tag = timing_Class_Four}, {.tag = timing_Class_Three},
            {.tag = timing_Class_Four}, {.tag = timing_Class_Two}, {.tag = timing_Class_Three},
            {.tag = timing_Class_Four}, {.tag = timing_Class_Three}}};
    return locks_finder_begins_with(cursor, intervals, at, slice_timing_Class(c2.a, 10));
}

/*
 * locks::finder::scan, crates/locks/src/finder.rt
 * Invariant: no lock stands before k, and those after `first` up to `seen` are of class 2 if the one before them is.
 * The 64 before k are looked at from the last one back, but for the first of them; `seen` only grows, so that none is
 * looked at twice. One that is not of class 2 after class 2 can only be the first of a run, and rules out every place
 * that has it and the one before it among its 64. Where none is ruled out, the 64 are a run if their first is of class
 * 2. Then the mark is looked for at the run's end, since no mark begins with class 2.
 */
static struct Result_u64_Refusal locks_finder_scan(struct timing_Profile p, struct slice_u16 intervals) {
    struct timing_cursor_Cursor short_ = timing_cursor_Cursor_after(p, true);
    uint64_t first = 0;
    uint64_t seen = 1;
    struct Result_u64_Refusal place;
    for (;;) {
        uint64_t k = first + 64;
        if (intervals.len <= k) {
            place = (struct Result_u64_Refusal){.tag = Result_u64_Refusal_Err,
                    .u.Err = {.tag = refusal_Refusal_NoLock}};
            break;
        }
        uint64_t t15 = seen;
        uint64_t i = k;
        while (t15 < i) {
            i--;
            if (!timing_cursor_Cursor_meets_two(short_, intervals.at[i])) {
                first = i;
                seen = k;
                goto next_1;
            }
        }
        uint64_t begin = runs_next_two(p, intervals, first);
        if (first < begin) {
            first = begin;
            seen = core_int_usize_max(k, begin + 1);
            continue;
        }
        uint64_t end = runs_pass_run(short_, intervals, k);
        if (locks_finder_mark_ahead(short_, intervals, end)) {
            place = (struct Result_u64_Refusal){.tag = Result_u64_Refusal_Ok, .u.Ok = end};
            break;
        }
        first = end + 1;
        seen = end + 2;
        next_1:;
    }
    return place;
}

/*
 * locks::finder::search, crates/locks/src/finder.rt
 * Under an accepted profile. The intervals from `start` on are searched, and the place is counted from there.
 */
static struct Result_u64_Refusal locks_finder_search(struct timing_Profile p, struct slice_u16 intervals,
        uint64_t start) {
    if (intervals.len <= start) {
        return (struct Result_u64_Refusal){.tag = Result_u64_Refusal_Err, .u.Err = {.tag = refusal_Refusal_NoLock}};
    }
    struct Result_u64_Refusal t11 = locks_finder_scan(p, slice_u16(intervals.at + start, intervals.len - start));
    struct ControlFlow_ErrResidual_Refusal_u64 t10 = core_result_ResultTry_branch_u64_Refusal(t11);
    uint64_t k;
    if (t10.tag == ControlFlow_ErrResidual_Refusal_u64_Continue) {
        k = t10.u.Continue;
    } else {
        return core_result_ResultFromResidualErrResidual_from_residual_u64_Refusal_Refusal(t10.u.Break);
    }
    return (struct Result_u64_Refusal){.tag = Result_u64_Refusal_Ok, .u.Ok = start + k};
}

/*
 * locks::finder::find_lock, crates/locks/src/finder.rt
 * 1, 2, 10; else the smallest place at which a lock stands with all 64 at or after `start`.
 */
static struct Result_u64_Refusal locks_finder_find_lock(struct timing_Profile p, struct slice_u16 intervals,
        uint64_t start) {
    struct ControlFlow_ErrResidual_Refusal_unit t6 = core_result_ResultTry_branch_unit_Refusal(timing_rule_check(p));
    if (t6.tag != ControlFlow_ErrResidual_Refusal_unit_Continue) {
        return core_result_ResultFromResidualErrResidual_from_residual_u64_Refusal_Refusal(t6.u.Break);
    }
    return locks_finder_search(p, intervals, start);
}

/*
 * locks::finder::three_marks_ahead, crates/locks/src/finder.rt
 * Whether the intervals begin as those of three A1 marks at a lock do. A field that does not is none of a sector, and
 * need not be read.
 */
static bool locks_finder_three_marks_ahead(struct timing_Profile p, struct slice_u16 intervals) {
    struct timing_Class t13 = {.tag = timing_Class_Three};
    struct timing_Class t14 = {.tag = timing_Class_Two};
    struct timing_Class t15 = {.tag = timing_Class_Four};
    struct timing_Class t16 = {.tag = timing_Class_Three};
    struct timing_Class t17 = {.tag = timing_Class_Four};
    struct timing_Class t18 = {.tag = timing_Class_Three};
    struct array_timing_Class_15 marks = {{{.tag = timing_Class_Three}, {.tag = timing_Class_Four},
            {.tag = timing_Class_Three}, {.tag = timing_Class_Four}, {.tag = timing_Class_Three},
            {.tag = timing_Class_Two}, {.tag = timing_Class_Four}, {.tag = timing_Class_Three},
            {.tag = timing_Class_Four}, t13, t14, t15, t16, t17, t18}};
    return locks_finder_begins_with(timing_cursor_Cursor_start(p), intervals, 0, slice_timing_Class(marks.a, 15));
}

/* The crate fields */

/* core::result::ResultFromResidualErrResidual::from_residual<Field, Refusal, Refusal>, of the kit's library */
static struct Result_Field_Refusal
        core_result_ResultFromResidualErrResidual_from_residual_Field_Refusal_Refusal(struct ErrResidual_Refusal p1) {
    return (struct Result_Field_Refusal){.tag = Result_Field_Refusal_Err,
            .u.Err = core_convert_AnyFrom_from_Refusal(p1.f0)};
}

/*
 * fields::gather::sum_up, crates/fields/src/gather.rt
 * The code words of a part, turned into items: through the register, and to their places.
 */
static struct items_Check fields_gather_sum_up(struct items_Check check, struct slice_u16_mut words, uint64_t at,
        struct slice_u16_mut out) {
    half_cells_words_to_bytes(words);
    lists_store_u16(slice_u16(words.at, words.len), at, out);
    return items_Check_after_bytes(check, slice_u16(words.at, words.len));
}

/*
 * fields::gather::pass_items, crates/fields/src/gather.rt
 * One pass over the intervals of n bytes, each taken as a cell.
 */
static struct fields_gather_Summed fields_gather_pass_items(struct timing_Profile p, struct slice_u16 intervals,
        uint32_t n, struct slice_u16_mut out) {
    struct array_u16_65 words = {0};
    struct passes_block_Progress at = passes_block_Progress_start(p);
    struct items_Check check = items_Check_fresh();
    while (passes_block_Progress_goes_on(at, n, intervals.len)) {
        uint32_t done = at.pass.reading.words;
        at = passes_block_Progress_pass_on(at, intervals, 256, n, slice_u16_mut(words.a, 65));
        uint64_t count = (uint64_t)(at.pass.reading.words - done);
        check = fields_gather_sum_up(check, slice_u16_mut(words.a, count), (uint64_t)done, out);
    }
    struct shifts_Pass pass = at.pass;
    return (struct fields_gather_Summed){.pass = pass, .check = check};
}

/*
 * fields::gather::conclude, crates/fields/src/gather.rt
 * How the pass over a field ends, with so many intervals used: 11, 8, or how many they are.
 */
static struct Result_u64_Refusal fields_gather_conclude(struct symbols_Reading m, uint64_t used, uint32_t n) {
    if (m.words < n) {
        return (struct Result_u64_Refusal){.tag = Result_u64_Refusal_Err, .u.Err = {.tag = refusal_Refusal_EndsEarly}};
    }
    if (symbols_Reading_is_stray(m)) {
        return (struct Result_u64_Refusal){.tag = Result_u64_Refusal_Err,
                .u.Err = {.tag = refusal_Refusal_MisplacedMark,
                .u.MisplacedMark = symbols_Reading_stray_place(m, passes_last_place(used))}};
    }
    return (struct Result_u64_Refusal){.tag = Result_u64_Refusal_Ok, .u.Ok = used};
}

/*
 * fields::gather::gather, crates/fields/src/gather.rt
 * A field of n bytes. An interval among the used ones that is no cell comes before all else.
 */
static struct fields_gather_Gathered fields_gather_gather(struct timing_Profile p, struct slice_u16 intervals,
        uint32_t n, struct slice_u16_mut out) {
    struct fields_gather_Summed read = fields_gather_pass_items(p, intervals, n, out);
    struct shifts_Pass pass = read.pass;
    uint64_t used = pass.used;
    bool holds = read.check.register_ == 0;
    struct Result_unit_Refusal t12 = intervals_edges_check_edges(p, slice_u16(intervals.at, used));
    if (t12.tag == Result_unit_Refusal_Err) {
        return (struct fields_gather_Gathered){.end = {.tag = Result_u64_Refusal_Err, .u.Err = t12.u.Err},
                .holds = holds};
    }
    return (struct fields_gather_Gathered){.end = fields_gather_conclude(pass.reading, used, n), .holds = holds};
}

/*
 * fields::reader::deliver, crates/fields/src/reader.rt
 * What was gathered, handed over where the output has room for it.
 */
static struct Result_Field_Refusal fields_reader_deliver(struct slice_u16 items, uint64_t used, bool holds,
        struct slice_u16_mut out) {
    if (out.len < items.len) {
        return (struct Result_Field_Refusal){.tag = Result_Field_Refusal_Err,
                .u.Err = {.tag = refusal_Refusal_OutputTooShort}};
    }
    lists_store_u16(items, 0, out);
    uint64_t count = items.len;
    return (struct Result_Field_Refusal){.tag = Result_Field_Refusal_Ok,
            .u.Ok = {.count = count, .used = used, .holds = holds}};
}

/*
 * fields::reader::read_into, crates/fields/src/reader.rt
 * The items wait in a buffer, as a refusal changes nothing that was lent.
 */
static struct Result_Field_Refusal fields_reader_read_into(struct timing_Profile p, struct slice_u16 intervals,
        uint64_t n, struct slice_u16_mut buffer, struct slice_u16_mut out) {
    struct fields_gather_Gathered gathered = fields_gather_gather(p, intervals, (uint32_t)n, buffer);
    struct ControlFlow_ErrResidual_Refusal_u64 t13 = core_result_ResultTry_branch_u64_Refusal(gathered.end);
    uint64_t used;
    if (t13.tag == ControlFlow_ErrResidual_Refusal_u64_Continue) {
        used = t13.u.Continue;
    } else {
        return core_result_ResultFromResidualErrResidual_from_residual_Field_Refusal_Refusal(t13.u.Break);
    }
    return fields_reader_deliver(slice_u16(buffer.at, n), used, gathered.holds, out);
}

/*
 * fields::reader::read_checked, crates/fields/src/reader.rt
 * A short field has a short buffer: to clear the long one costs more than to read ten bytes.
 */
static struct Result_Field_Refusal fields_reader_read_checked(struct timing_Profile p, struct slice_u16 intervals,
        uint64_t n, struct slice_u16_mut out) {
    if (n <= 16) {
        struct array_u16_16 buffer = {0};
        return fields_reader_read_into(p, intervals, n, slice_u16_mut(buffer.a, 16), out);
    }
    struct array_u16_1030 buffer_2 = {0};
    return fields_reader_read_into(p, intervals, n, slice_u16_mut(buffer_2.a, 1030), out);
}

/*
 * fields::reader::read_field, crates/fields/src/reader.rt
 * 1, 2, 12, then 5, 6 or 11 as first met, 8, 9. On acceptance the items fill the front of the output.
 */
static struct Result_Field_Refusal fields_reader_read_field(struct timing_Profile p, struct slice_u16 intervals,
        uint64_t n, struct slice_u16_mut out) {
    struct ControlFlow_ErrResidual_Refusal_unit t7 = core_result_ResultTry_branch_unit_Refusal(timing_rule_check(p));
    if (t7.tag != ControlFlow_ErrResidual_Refusal_unit_Continue) {
        return core_result_ResultFromResidualErrResidual_from_residual_Field_Refusal_Refusal(t7.u.Break);
    }
    if ((n < 1) | (1030 < n)) {
        return (struct Result_Field_Refusal){.tag = Result_Field_Refusal_Err,
                .u.Err = {.tag = refusal_Refusal_CountOutOfRange}};
    }
    return fields_reader_read_checked(p, intervals, n, out);
}

/* core::result::ResultTry::branch<Field, Refusal>, of the kit's library */
static struct ControlFlow_ErrResidual_Refusal_Field
        core_result_ResultTry_branch_Field_Refusal(struct Result_Field_Refusal p1) {
    if (p1.tag == Result_Field_Refusal_Ok) {
        return (struct ControlFlow_ErrResidual_Refusal_Field){.tag = ControlFlow_ErrResidual_Refusal_Field_Continue,
                .u.Continue = p1.u.Ok};
    }
    return (struct ControlFlow_ErrResidual_Refusal_Field){.tag = ControlFlow_ErrResidual_Refusal_Field_Break,
            .u.Break = {.f0 = p1.u.Err}};
}

/*
 * fields::reader::read_in_place, crates/fields/src/reader.rt
 * Reads alike, and stores as many items as there is room for, without a buffer between: after a refusal other numbers
 * may stand there. Who reads field after field has checked the profile once.
 */
static struct Result_Field_Refusal fields_reader_read_in_place(struct timing_Profile p, struct slice_u16 intervals,
        uint64_t n, struct slice_u16_mut items) {
    struct fields_gather_Gathered gathered = fields_gather_gather(p, intervals, (uint32_t)n, items);
    struct ControlFlow_ErrResidual_Refusal_u64 t12 = core_result_ResultTry_branch_u64_Refusal(gathered.end);
    uint64_t used;
    if (t12.tag == ControlFlow_ErrResidual_Refusal_u64_Continue) {
        used = t12.u.Continue;
    } else {
        return core_result_ResultFromResidualErrResidual_from_residual_Field_Refusal_Refusal(t12.u.Break);
    }
    return (struct Result_Field_Refusal){.tag = Result_Field_Refusal_Ok,
            .u.Ok = {.count = n, .used = used, .holds = gathered.holds}};
}

/*
 * fields::data::store_bytes, crates/fields/src/data.rt
 * Items from a place on as bytes, as many as there is room for.
 */
static void fields_data_store_bytes(struct slice_u16 items, uint64_t at, struct slice_u8_mut out) {
    if (out.len <= at) return;
    uint64_t count = core_int_usize_min(out.len - at, items.len);
    struct slice_u16 item_items = slice_u16(items.at, count);
    uint64_t k = 0;
    uint64_t t14 = item_items.len;
    while (k < t14) {
        out.at[at + k] = (uint8_t)(item_items.at[k] % 256);
        k++;
    }
}

/*
 * fields::data::put_part, crates/fields/src/data.rt
 * The code words of a part, the first of them the item of this number: the items before `skip` are passed over, the
 * others go to their places.
 */
static void fields_data_put_part(struct slice_u16_mut words, uint64_t number, uint64_t skip, struct slice_u8_mut out) {
    half_cells_words_to_bytes(words);
    if (skip <= number) {
        fields_data_store_bytes(slice_u16(words.at, words.len), number - skip, out);
        return;
    }
    uint64_t first = core_int_usize_min(skip - number, words.len);
    fields_data_store_bytes(slice_u16(words.at + first, words.len - first), 0, out);
}

/*
 * fields::data::pass_bytes, crates/fields/src/data.rt
 * One pass over the intervals of n bytes, each taken as a cell.
 */
static void fields_data_pass_bytes(struct timing_Profile p, struct slice_u16 intervals, uint32_t n, uint64_t skip,
        struct slice_u8_mut out) {
    struct array_u16_65 words = {0};
    struct passes_block_Progress at = passes_block_Progress_start(p);
    while (passes_block_Progress_goes_on(at, n, intervals.len)) {
        uint32_t done = at.pass.reading.words;
        at = passes_block_Progress_pass_on(at, intervals, 256, n, slice_u16_mut(words.a, 65));
        uint64_t count = (uint64_t)(at.pass.reading.words - done);
        fields_data_put_part(slice_u16_mut(words.a, count), (uint64_t)done, skip, out);
    }
}

/*
 * fields::data::read_bytes, crates/fields/src/data.rt
 * From the item numbered `skip` on, as many as there is room for.
 */
static void fields_data_read_bytes(struct timing_Profile p, struct slice_u16 intervals, uint64_t n, uint64_t skip,
        struct slice_u8_mut out) {
    fields_data_pass_bytes(p, intervals, (uint32_t)n, skip, out);
}

/* The crate sectors */

/* sectors::sector_size, crates/sectors/src/lib.rt: The bytes of data in a sector of a length code, 0 to 3. */
static uint64_t sectors_sector_size(uint8_t code) {
    switch (code) {
    case 0: return 128;
    case 1: return 256;
    case 2: return 512;
    default: return 1024;
    }
}

/* sectors::repeat, crates/sectors/src/lib.rt */
static uint64_t sectors_repeat(struct slice_u16_mut out, uint64_t at, uint64_t count, uint16_t item) {
    uint64_t end = at + count;
    core_slice_edits_slice_T_fill_u16(slice_u16_mut(out.at + at, end - at), item);
    return end;
}

/*
 * sectors::open_field, crates/sectors/src/lib.rt
 * 12 of 00, three marks A1, and the byte that tells an ID field from a data field.
 */
static uint64_t sectors_open_field(struct slice_u16_mut out, uint64_t at, uint16_t kind) {
    uint64_t marks = sectors_repeat(out, at, 12, 0);
    uint64_t end = sectors_repeat(out, marks, 3, 417);
    out.at[end] = kind;
    return end + 1;
}

/* sectors::put_identity, crates/sectors/src/lib.rt */
static uint64_t sectors_put_identity(struct slice_u16_mut out, uint64_t at, uint8_t track, uint8_t side, uint8_t sector,
        uint8_t code) {
    out.at[at] = (uint16_t)track;
    out.at[at + 1] = (uint16_t)side;
    out.at[at + 2] = (uint16_t)sector;
    out.at[at + 3] = (uint16_t)code;
    out.at[at + 4] = 512;
    return at + 5;
}

/* sectors::put_data, crates/sectors/src/lib.rt */
static uint64_t sectors_put_data(struct slice_u16_mut out, uint64_t at, struct slice_u8 bytes) {
    uint64_t k = 0;
    uint64_t t7 = bytes.len;
    while (k < t7) {
        out.at[at + k] = (uint16_t)bytes.at[k];
        k++;
    }
    uint64_t end = at + bytes.len;
    out.at[end] = 512;
    return end + 1;
}

/* sectors::put_sector, crates/sectors/src/lib.rt: The whole sector at the front of the output. */
static void sectors_put_sector(struct slice_u16_mut out, uint8_t track, uint8_t side, uint8_t sector, uint8_t code,
        struct slice_u8 bytes) {
    uint64_t id = sectors_open_field(out, 0, 254);
    uint64_t gap = sectors_put_identity(out, id, track, side, sector, code);
    uint64_t second = sectors_repeat(out, gap, 22, 78);
    uint64_t first = sectors_open_field(out, second, 251);
    uint64_t end = sectors_put_data(out, first, bytes);
    sectors_repeat(out, end, 54, 78);
}

/*
 * sectors::make_sector, crates/sectors/src/lib.rt
 * 13, for length code 0 too, then 9; on acceptance the items fill the front of the output and their number is
 * answered.
 */
static struct Result_u64_Refusal sectors_make_sector(uint8_t track, uint8_t side, uint8_t sector, uint8_t code,
        struct slice_u8 bytes, struct slice_u16_mut out) {
    if (code < 1) {
        return (struct Result_u64_Refusal){.tag = Result_u64_Refusal_Err,
                .u.Err = {.tag = refusal_Refusal_SectorSizeMismatch}};
    }
    if (3 < code) {
        return (struct Result_u64_Refusal){.tag = Result_u64_Refusal_Err,
                .u.Err = {.tag = refusal_Refusal_SectorSizeMismatch}};
    }
    if (bytes.len != sectors_sector_size(code)) {
        return (struct Result_u64_Refusal){.tag = Result_u64_Refusal_Err,
                .u.Err = {.tag = refusal_Refusal_SectorSizeMismatch}};
    }
    uint64_t count = bytes.len + 114;
    if (out.len < count) {
        return (struct Result_u64_Refusal){.tag = Result_u64_Refusal_Err,
                .u.Err = {.tag = refusal_Refusal_OutputTooShort}};
    }
    sectors_put_sector(out, track, side, sector, code, bytes);
    return (struct Result_u64_Refusal){.tag = Result_u64_Refusal_Ok, .u.Ok = count};
}

/* The crate sets */

/* sets::index::sector_end, crates/sets/src/index.rt: The place after the sector that begins at a place. */
static struct Result_u64_Refusal sets_index_sector_end(struct slice_u8 set, uint64_t start) {
    uint64_t left = set.len - start;
    if (left < 3) {
        return (struct Result_u64_Refusal){.tag = Result_u64_Refusal_Err,
                .u.Err = {.tag = refusal_Refusal_SectorSizeMismatch}};
    }
    uint8_t code = set.at[start + 1];
    if (3 < code) {
        return (struct Result_u64_Refusal){.tag = Result_u64_Refusal_Err,
                .u.Err = {.tag = refusal_Refusal_SectorSizeMismatch}};
    }
    uint64_t size = sectors_sector_size(code);
    if (left - 3 < size) {
        return (struct Result_u64_Refusal){.tag = Result_u64_Refusal_Err,
                .u.Err = {.tag = refusal_Refusal_SectorSizeMismatch}};
    }
    return (struct Result_u64_Refusal){.tag = Result_u64_Refusal_Ok, .u.Ok = start + 3 + size};
}

/*
 * sets::index::count_sectors, crates/sets/src/index.rt
 * 13, looked for to the end of the set, or how many sectors it has.
 */
static struct Result_u64_Refusal sets_index_count_sectors(struct slice_u8 set) {
    uint64_t count = 0;
    uint64_t start = 0;
    while (start < set.len) {
        struct ControlFlow_ErrResidual_Refusal_u64 t9 =
                core_result_ResultTry_branch_u64_Refusal(sets_index_sector_end(set, start));
        uint64_t end;
        if (t9.tag == ControlFlow_ErrResidual_Refusal_u64_Continue) {
            end = t9.u.Continue;
        } else {
            return core_result_ResultFromResidualErrResidual_from_residual_u64_Refusal_Refusal(t9.u.Break);
        }
        count++;
        start = end;
    }
    return (struct Result_u64_Refusal){.tag = Result_u64_Refusal_Ok, .u.Ok = count};
}

/* core::result::ResultFromResidualErrResidual::from_residual<SetSize, Refusal, Refusal>, of the kit's library */
static struct Result_SetSize_Refusal
        core_result_ResultFromResidualErrResidual_from_residual_SetSize_Refusal_Refusal(struct ErrResidual_Refusal p1) {
    return (struct Result_SetSize_Refusal){.tag = Result_SetSize_Refusal_Err,
            .u.Err = core_convert_AnyFrom_from_Refusal(p1.f0)};
}

/* sets::index::entry, crates/sets/src/index.rt */
static uint16_t sets_index_entry(uint16_t old, uint16_t place) {
    if (old == 0) return place;
    return 65535;
}

/* sets::span::join, crates/sets/src/span.rt: The span of the numbers of either. */
static struct sets_span_Span sets_span_join(struct sets_span_Span a, struct sets_span_Span b) {
    uint64_t t3 = core_int_usize_min(a.low, b.low);
    return (struct sets_span_Span){.low = t3, .high = core_int_usize_max(a.high, b.high)};
}

/*
 * sets::index::index_set, crates/sets/src/index.rt
 * Answers the span of the numbers. 32 sectors have at most 32,864 bytes, so a place fits 16 bits and is not 65,535.
 */
static struct sets_span_Span sets_index_index_set(struct slice_u8 set, struct array_u16_256 *index) {
    struct sets_span_Span span = {.low = 256, .high = 0};
    uint64_t start = 0;
    while (start < set.len) {
        uint64_t code = start + 1;
        uint64_t number = (uint64_t)set.at[start];
        index->a[number] = sets_index_entry(index->a[number], (uint16_t)code);
        struct sets_span_Span here = {.low = number, .high = number + 1};
        span = sets_span_join(span, here);
        start = code + 2 + sectors_sector_size(set.at[code]);
    }
    return span;
}

/* The crate merge */

/* merge::check_counts, crates/merge/src/lib.rt */
static struct Result_unit_Refusal merge_check_counts(uint64_t first, uint64_t second) {
    if (32 < first) {
        return (struct Result_unit_Refusal){.tag = Result_unit_Refusal_Err,
                .u.Err = {.tag = refusal_Refusal_TooManySectors}};
    }
    if (32 < second) {
        return (struct Result_unit_Refusal){.tag = Result_unit_Refusal_Err,
                .u.Err = {.tag = refusal_Refusal_TooManySectors}};
    }
    return (struct Result_unit_Refusal){.tag = Result_unit_Refusal_Ok};
}

/* merge::check_sets, crates/merge/src/lib.rt: 13, then 15 for a set of more than 32 sectors. */
static struct Result_unit_Refusal merge_check_sets(struct slice_u8 first, struct slice_u8 second) {
    struct ControlFlow_ErrResidual_Refusal_u64 t9 =
            core_result_ResultTry_branch_u64_Refusal(sets_index_count_sectors(first));
    uint64_t a;
    if (t9.tag == ControlFlow_ErrResidual_Refusal_u64_Continue) {
        a = t9.u.Continue;
    } else {
        return core_result_ResultFromResidualErrResidual_from_residual_unit_Refusal_Refusal(t9.u.Break);
    }
    struct ControlFlow_ErrResidual_Refusal_u64 t12 =
            core_result_ResultTry_branch_u64_Refusal(sets_index_count_sectors(second));
    uint64_t b;
    if (t12.tag == ControlFlow_ErrResidual_Refusal_u64_Continue) {
        b = t12.u.Continue;
    } else {
        return core_result_ResultFromResidualErrResidual_from_residual_unit_Refusal_Refusal(t12.u.Break);
    }
    return merge_check_counts(a, b);
}

/* merge::numbers::in_either, crates/merge/src/numbers.rt */
static bool merge_numbers_in_either(uint16_t a, uint16_t b) {
    if (a != 0) return true;
    return b != 0;
}

/* merge::numbers::count_numbers, crates/merge/src/numbers.rt: How many different numbers two sets have. */
static uint64_t merge_numbers_count_numbers(const struct array_u16_256 *a, const struct array_u16_256 *b,
        struct sets_span_Span span) {
    uint64_t count = 0;
    uint64_t n = span.low;
    uint64_t t6 = span.high;
    while (n < t6) {
        if (merge_numbers_in_either(a->a[n], b->a[n])) count++;
        n++;
    }
    return count;
}

/*
 * merge::choice::same_bytes, crates/merge/src/choice.rt
 * Looks at every byte: a loop that could end early would go byte by byte.
 */
static bool merge_choice_same_bytes(struct slice_u8 a, struct slice_u8 b) {
    if (a.len != b.len) return false;
    bool same = true;
    uint64_t k = 0;
    uint64_t t9 = a.len;
    while (k < t9) {
        same = same & (a.at[k] == b.at[k]);
        k++;
    }
    return same;
}

/* merge::choice::copies_disagree, crates/merge/src/choice.rt: Both sums good and unlike bytes. */
static bool merge_choice_copies_disagree(struct slice_u8 first, uint64_t a, struct slice_u8 second, uint64_t b) {
    if (first.at[a + 1] == 0) return false;
    if (second.at[b + 1] == 0) return false;
    uint8_t code = first.at[a];
    if (code != second.at[b]) return true;
    uint64_t size = sectors_sector_size(code);
    uint64_t a_data = a + 2;
    uint64_t a_end = a_data + size;
    uint64_t b_data = b + 2;
    uint64_t b_end = b_data + size;
    struct slice_u8 t24 = slice_u8(second.at + b_data, b_end - b_data);
    return !merge_choice_same_bytes(slice_u8(first.at + a_data, a_end - a_data), t24);
}

/* merge::choice::at_odds, crates/merge/src/choice.rt */
static bool merge_choice_at_odds(struct slice_u8 first, uint16_t a, struct slice_u8 second, uint16_t b) {
    if (a == 65535) return true;
    if (b == 65535) return true;
    if (a == 0) return false;
    if (b == 0) return false;
    return merge_choice_copies_disagree(first, (uint64_t)a, second, (uint64_t)b);
}

/* merge::choice::lowest_at_odds, crates/merge/src/choice.rt: The lowest number at which the sets are at odds. */
static struct Option_u64 merge_choice_lowest_at_odds(struct slice_u8 first, const struct array_u16_256 *a,
        struct slice_u8 second, const struct array_u16_256 *b, struct sets_span_Span span) {
    uint64_t n = span.low;
    uint64_t t7 = span.high;
    while (n < t7) {
        if (merge_choice_at_odds(first, a->a[n], second, b->a[n])) {
            return (struct Option_u64){.tag = Option_u64_Some, .u.Some = n};
        }
        n++;
    }
    return (struct Option_u64){.tag = Option_u64_None};
}

/*
 * merge::check_numbers, crates/merge/src/lib.rt
 * 15 for more than 32 different numbers, then 17; else how many there are.
 */
static struct Result_u64_Refusal merge_check_numbers(struct slice_u8 first, const struct array_u16_256 *a,
        struct slice_u8 second, const struct array_u16_256 *b, struct sets_span_Span span) {
    uint64_t count = merge_numbers_count_numbers(a, b, span);
    if (32 < count) {
        return (struct Result_u64_Refusal){.tag = Result_u64_Refusal_Err,
                .u.Err = {.tag = refusal_Refusal_TooManySectors}};
    }
    struct Option_u64 t10 = merge_choice_lowest_at_odds(first, a, second, b, span);
    if (t10.tag == Option_u64_Some) {
        uint64_t number = t10.u.Some;
        return (struct Result_u64_Refusal){.tag = Result_u64_Refusal_Err,
                .u.Err = {.tag = refusal_Refusal_SectorsAtOdds, .u.SectorsAtOdds = (uint32_t)number}};
    }
    return (struct Result_u64_Refusal){.tag = Result_u64_Refusal_Ok, .u.Ok = count};
}

/* merge::choice::takes_second, crates/merge/src/choice.rt: Whether it is the second set's copy that is taken. */
static bool merge_choice_takes_second(struct slice_u8 first, uint16_t a, struct slice_u8 second, uint16_t b) {
    if (a == 0) return true;
    if (b == 0) return false;
    uint64_t a_sum = (uint64_t)a + 1;
    if (first.at[a_sum] != 0) return false;
    uint64_t b_sum = (uint64_t)b + 1;
    return second.at[b_sum] != 0;
}

/* merge::output::entry_size, crates/merge/src/output.rt */
static uint64_t merge_output_entry_size(struct slice_u8 set, uint16_t entry) {
    if (entry == 0) return 0;
    uint64_t code = (uint64_t)entry;
    return 3 + sectors_sector_size(set.at[code]);
}

/*
 * merge::output::taken_size, crates/merge/src/output.rt
 * The bytes that the copy taken has; none where neither set has the number.
 */
static uint64_t merge_output_taken_size(struct slice_u8 first, uint16_t a, struct slice_u8 second, uint16_t b) {
    if (merge_choice_takes_second(first, a, second, b)) return merge_output_entry_size(second, b);
    return merge_output_entry_size(first, a);
}

/* merge::ascending::merged_size, crates/merge/src/ascending.rt */
static uint64_t merge_ascending_merged_size(struct slice_u8 first, const struct array_u16_256 *a,
        struct slice_u8 second, const struct array_u16_256 *b, struct sets_span_Span span) {
    uint64_t size = 0;
    uint64_t n = span.low;
    uint64_t t8 = span.high;
    while (n < t8) {
        size += merge_output_taken_size(first, a->a[n], second, b->a[n]);
        n++;
    }
    return size;
}

/*
 * merge::output::copy, crates/merge/src/output.rt
 * A sector's data from a place on. Not `lists::store`: the compiler knows that a sector is whole blocks of 16 bytes,
 * and not that as many as have room are, which costs 27 instructions a sector.
 */
static void merge_output_copy(struct slice_u8 bytes, uint64_t at, struct slice_u8_mut out) {
    uint64_t k = 0;
    uint64_t t6 = bytes.len;
    while (k < t6) {
        out.at[at + k] = bytes.at[k];
        k++;
    }
}

/* merge::output::put_sector, crates/merge/src/output.rt: The sector whose length code stands at a place. */
static uint64_t merge_output_put_sector(struct slice_u8 set, uint64_t code, struct slice_u8_mut out, uint64_t start) {
    uint64_t size = sectors_sector_size(set.at[code]);
    out.at[start] = set.at[code - 1];
    out.at[start + 1] = set.at[code];
    out.at[start + 2] = core_convert_others_U8FromBool_from(set.at[code + 1] != 0);
    uint64_t data = code + 2;
    uint64_t end = data + size;
    merge_output_copy(slice_u8(set.at + data, end - data), start + 3, out);
    return start + 3 + size;
}

/* merge::output::put_entry, crates/merge/src/output.rt */
static uint64_t merge_output_put_entry(struct slice_u8 set, uint16_t entry, struct slice_u8_mut out, uint64_t start) {
    if (entry == 0) return start;
    return merge_output_put_sector(set, (uint64_t)entry, out, start);
}

/* merge::output::put_taken, crates/merge/src/output.rt: The copy taken, if one of the sets has the number. */
static uint64_t merge_output_put_taken(struct slice_u8 first, uint16_t a, struct slice_u8 second, uint16_t b,
        struct slice_u8_mut out, uint64_t start) {
    if (merge_choice_takes_second(first, a, second, b)) {
        return merge_output_put_entry(second, b, out, start);
    }
    return merge_output_put_entry(first, a, out, start);
}

/* merge::ascending::write_merged, crates/merge/src/ascending.rt */
static void merge_ascending_write_merged(struct slice_u8 first, const struct array_u16_256 *a, struct slice_u8 second,
        const struct array_u16_256 *b, struct sets_span_Span span, struct slice_u8_mut out) {
    uint64_t start = 0;
    uint64_t n = span.low;
    uint64_t t9 = span.high;
    while (n < t9) {
        start = merge_output_put_taken(first, a->a[n], second, b->a[n], out, start);
        n++;
    }
}

/* merge::deliver, crates/merge/src/lib.rt: 9, or the merged set at the front of the output. */
static struct Result_SetSize_Refusal merge_deliver(struct slice_u8 first, const struct array_u16_256 *a,
        struct slice_u8 second, const struct array_u16_256 *b, struct sets_span_Span span, uint64_t count,
        struct slice_u8_mut out) {
    uint64_t bytes = merge_ascending_merged_size(first, a, second, b, span);
    if (out.len < bytes) {
        return (struct Result_SetSize_Refusal){.tag = Result_SetSize_Refusal_Err,
                .u.Err = {.tag = refusal_Refusal_OutputTooShort}};
    }
    merge_ascending_write_merged(first, a, second, b, span, out);
    return (struct Result_SetSize_Refusal){.tag = Result_SetSize_Refusal_Ok, .u.Ok = {.count = count, .bytes = bytes}};
}

/* merge::merge_checked, crates/merge/src/lib.rt: Two sets of at most 32 sectors each. */
static struct Result_SetSize_Refusal merge_merge_checked(struct slice_u8 first, struct slice_u8 second,
        struct slice_u8_mut out) {
    struct array_u16_256 a = {0};
    struct array_u16_256 b = {0};
    struct sets_span_Span one = sets_index_index_set(first, &a);
    struct sets_span_Span other = sets_index_index_set(second, &b);
    struct sets_span_Span span = sets_span_join(one, other);
    struct ControlFlow_ErrResidual_Refusal_u64 t14 =
            core_result_ResultTry_branch_u64_Refusal(merge_check_numbers(first, &a, second, &b, span));
    uint64_t count;
    if (t14.tag == ControlFlow_ErrResidual_Refusal_u64_Continue) {
        count = t14.u.Continue;
    } else {
        return core_result_ResultFromResidualErrResidual_from_residual_SetSize_Refusal_Refusal(t14.u.Break);
    }
    return merge_deliver(first, &a, second, &b, span, count, out);
}

/*
 * merge::merge_sets, crates/merge/src/lib.rt
 * 13, 15, 17, 9; else the size of the merged set. On acceptance it fills the front of the output, by ascending sector
 * number.
 */
static struct Result_SetSize_Refusal merge_merge_sets(struct slice_u8 first, struct slice_u8 second,
        struct slice_u8_mut out) {
    struct ControlFlow_ErrResidual_Refusal_unit t6 =
            core_result_ResultTry_branch_unit_Refusal(merge_check_sets(first, second));
    if (t6.tag != ControlFlow_ErrResidual_Refusal_unit_Continue) {
        return core_result_ResultFromResidualErrResidual_from_residual_SetSize_Refusal_Refusal(t6.u.Break);
    }
    return merge_merge_checked(first, second, out);
}

/* The crate report */

/* report::check_list, crates/report/src/lib.rt: Whether a list of intervals has a report: 1, 2, 4. */
static struct Result_unit_Refusal report_check_list(struct timing_Profile p, struct slice_u16 intervals) {
    struct ControlFlow_ErrResidual_Refusal_unit t5 = core_result_ResultTry_branch_unit_Refusal(timing_rule_check(p));
    if (t5.tag != ControlFlow_ErrResidual_Refusal_unit_Continue) {
        return core_result_ResultFromResidualErrResidual_from_residual_unit_Refusal_Refusal(t5.u.Break);
    }
    if (51202 < intervals.len) {
        return (struct Result_unit_Refusal){.tag = Result_unit_Refusal_Err, .u.Err = {.tag = refusal_Refusal_TooLong}};
    }
    return (struct Result_unit_Refusal){.tag = Result_unit_Refusal_Ok};
}

/* report::row::add, crates/report/src/row.rt: Two rows added. One whose count is zero is passed over. */
static struct array_u64_4 report_row_add(struct array_u64_4 a, struct array_u64_4 b) {
    if (a.a[0] == 0) {
        if (b.a[0] == 0) return (struct array_u64_4){0};
        return b;
    }
    if (b.a[0] == 0) return a;
    uint64_t t20 = a.a[0] + b.a[0];
    uint64_t t21 = core_int_u64_min(a.a[1], b.a[1]);
    uint64_t t28 = core_int_u64_max(a.a[2], b.a[2]);
    return (struct array_u64_4){{t20, t21, t28, a.a[3] + b.a[3]}};
}

/*
 * report::list::renew, crates/report/src/list.rt
 * A report with an interval of this class more. Each arm renews a row at a place that the compiler knows, so that the
 * rows stay in registers.
 */
static struct array_u64_4_5 report_list_renew(struct array_u64_4_5 rows, struct timing_Class class, uint16_t interval) {
    uint64_t d = (uint64_t)interval;
    struct array_u64_4 one = {{1, d, d, d}};
    switch (class.tag) {
    case timing_Class_Narrow: {
        struct array_u64_4 t8 = report_row_add(rows.a[0], one);
        return (struct array_u64_4_5){{t8, rows.a[1], rows.a[2], rows.a[3], rows.a[4]}};
    }
    case timing_Class_Two: {
        struct array_u64_4 t26 = rows.a[0];
        struct array_u64_4 t27 = report_row_add(rows.a[1], one);
        return (struct array_u64_4_5){{t26, t27, rows.a[2], rows.a[3], rows.a[4]}};
    }
    case timing_Class_Three: {
        struct array_u64_4 t42 = rows.a[0];
        struct array_u64_4 t45 = rows.a[1];
        struct array_u64_4 t46 = report_row_add(rows.a[2], one);
        return (struct array_u64_4_5){{t42, t45, t46, rows.a[3], rows.a[4]}};
    }
    case timing_Class_Four: {
        struct array_u64_4 t58 = rows.a[0];
        struct array_u64_4 t61 = rows.a[1];
        struct array_u64_4 t64 = rows.a[2];
        struct array_u64_4 t65 = report_row_add(rows.a[3], one);
        return (struct array_u64_4_5){{t58, t61, t64, t65, rows.a[4]}};
    }
    default: { /* timing_Class_Wide */
        struct array_u64_4 t74 = rows.a[0];
        struct array_u64_4 t77 = rows.a[1];
        struct array_u64_4 t80 = rows.a[2];
        struct array_u64_4 t83 = rows.a[3];
        return (struct array_u64_4_5){{t74, t77, t80, t83, report_row_add(rows.a[4], one)}};
    }
    }
}

/*
 * report::list::gather, crates/report/src/list.rt
 * The report of a list that is not overlong, from where the classing stands on.
 */
static struct array_u64_4_5 report_list_gather(struct timing_cursor_Cursor start, struct slice_u16 intervals) {
    struct timing_cursor_Cursor cursor = start;
    struct array_u64_4_5 rows = {0};
    uint64_t interval_index = 0;
    uint64_t t10 = intervals.len;
    while (interval_index < t10) {
        uint16_t interval = intervals.at[interval_index];
        struct timing_cursor_Classed classed = timing_cursor_Cursor_step(cursor, interval);
        struct array_u64_4_5 next = report_list_renew(rows, classed.class, interval);
        rows = next;
        cursor = classed.next;
        interval_index++;
    }
    return rows;
}

/* report::report_list, crates/report/src/lib.rt: The report of a list; zeros where it has none. */
static struct array_u64_4_5 report_report_list(struct timing_Profile p, struct slice_u16 intervals) {
    if (report_check_list(p, intervals).tag == Result_unit_Refusal_Err) {
        return (struct array_u64_4_5){0};
    }
    return report_list_gather(timing_cursor_Cursor_start(p), intervals);
}

/*
 * report::row::exceed, crates/report/src/row.rt
 * Whether the sum of two numbers would not fit. No `checked_add` at the call: a number of an array is known to fit
 * only in a function that is given it, and the caller learns it here.
 */
static bool report_row_exceed(uint64_t a, uint64_t b) {
    return 18446744073709551615ull - b < a;
}

/* report::row::overflows, crates/report/src/row.rt: Whether a count or a sum of two rows added would not fit. */
static bool report_row_overflows(struct array_u64_4 a, struct array_u64_4 b) {
    bool counts = report_row_exceed(a.a[0], b.a[0]);
    bool sums = report_row_exceed(a.a[3], b.a[3]);
    if (a.a[0] == 0) return false;
    if (b.a[0] == 0) return false;
    return counts | sums;
}

/* report::check_sum, crates/report/src/lib.rt: Whether two reports can be added: 4. */
static struct Result_unit_Refusal report_check_sum(struct array_u64_4_5 a, struct array_u64_4_5 b) {
    uint64_t k = 0;
    while (k < 5) {
        if (report_row_overflows(a.a[k], b.a[k])) {
            return (struct Result_unit_Refusal){.tag = Result_unit_Refusal_Err,
                    .u.Err = {.tag = refusal_Refusal_TooLong}};
        }
        k++;
    }
    return (struct Result_unit_Refusal){.tag = Result_unit_Refusal_Ok};
}

/* report::add_rows, crates/report/src/lib.rt: The rows of two reports that can be added, added. */
static struct array_u64_4_5 report_add_rows(struct array_u64_4_5 a, struct array_u64_4_5 b) {
    struct array_u64_4_5 rows = {0};
    uint64_t k = 0;
    while (k < 5) {
        rows.a[k] = report_row_add(a.a[k], b.a[k]);
        k++;
    }
    return rows;
}

/* report::add, crates/report/src/lib.rt: Two reports added; zeros where they cannot be. */
static struct array_u64_4_5 report_add(struct array_u64_4_5 a, struct array_u64_4_5 b) {
    if (report_check_sum(a, b).tag == Result_unit_Refusal_Err) return (struct array_u64_4_5){0};
    return report_add_rows(a, b);
}

/* The crate entries */

/* entries::opening::opens_with, crates/entries/src/opening.rt */
static bool entries_opening_opens_with(struct slice_u16 items, uint16_t kind) {
    return (items.at[0] == 417) & (items.at[1] == 417) & (items.at[2] == 417) & (items.at[3] == kind);
}

/*
 * entries::opening::read_marked, crates/entries/src/opening.rt
 * A field of n bytes, the first of which are handed over; the intervals begin at a lock.
 */
static struct Option_Opened entries_opening_read_marked(struct timing_Profile p, struct slice_u16 intervals, uint64_t n,
        uint16_t kind, struct slice_u16_mut items) {
    struct Result_Field_Refusal t8 = fields_reader_read_in_place(p, intervals, n, items);
    uint64_t used;
    bool holds;
    if (t8.tag == Result_Field_Refusal_Ok) {
        used = t8.u.Ok.used;
        holds = t8.u.Ok.holds;
    } else {
        return (struct Option_Opened){.tag = Option_Opened_None};
    }
    if (entries_opening_opens_with(slice_u16(items.at, items.len), kind)) {
        return (struct Option_Opened){.tag = Option_Opened_Some, .u.Some = {.used = used, .holds = holds}};
    }
    return (struct Option_Opened){.tag = Option_Opened_None};
}

/*
 * entries::opening::read_sound, crates/entries/src/opening.rt
 * A field uses 4 n intervals at least, as a cell gives two bits at most. Where one of so many is no cell it does not
 * read, which is told in a small part of the time that reading takes.
 */
static struct Option_Opened entries_opening_read_sound(struct timing_Profile p, struct slice_u16 intervals, uint64_t n,
        uint16_t kind, struct slice_u16_mut items) {
    uint64_t front = core_int_usize_min(4 * n, intervals.len);
    if (intervals_edges_all_cells(p, slice_u16(intervals.at, front))) {
        return entries_opening_read_marked(p, intervals, n, kind, items);
    }
    return (struct Option_Opened){.tag = Option_Opened_None};
}

/*
 * entries::opening::read_opened, crates/entries/src/opening.rt
 * Most of what a lock precedes on a worn track is seen to be no field of a sector by its first intervals.
 */
static struct Option_Opened entries_opening_read_opened(struct timing_Profile p, struct slice_u16 intervals, uint64_t n,
        uint16_t kind, struct slice_u16_mut items) {
    if (locks_finder_three_marks_ahead(p, intervals)) {
        return entries_opening_read_sound(p, intervals, n, kind, items);
    }
    return (struct Option_Opened){.tag = Option_Opened_None};
}

/* core::option::OptionTry::branch<Opened>, of the kit's library */
static struct ControlFlow_NoValue_Opened core_option_OptionTry_branch_Opened(struct Option_Opened p1) {
    if (p1.tag == Option_Opened_Some) {
        return (struct ControlFlow_NoValue_Opened){.tag = ControlFlow_NoValue_Opened_Continue, .u.Continue = p1.u.Some};
    }
    return (struct ControlFlow_NoValue_Opened){.tag = ControlFlow_NoValue_Opened_Break};
}

/* core::option::OptionFromResidualNoValue::from_residual<Id>, of the kit's library */
static struct Option_Id core_option_OptionFromResidualNoValue_from_residual_Id(void) {
    return (struct Option_Id){.tag = Option_Id_None};
}

/* entries::id::is_identity, crates/entries/src/id.rt: FE and four data bytes, the last a length code. */
static bool entries_id_is_identity(struct slice_u16 items) {
    bool t2 = entries_opening_opens_with(items, 254);
    return t2 & (items.at[4] < 256) & (items.at[5] < 256) & (items.at[6] < 256) & (items.at[7] <= 3);
}

/* entries::id::four_bytes, crates/entries/src/id.rt: The four bytes fit a byte each, since they are data bytes. */
static struct entries_id_Id entries_id_four_bytes(struct slice_u16 items, uint64_t used) {
    return (struct entries_id_Id){.track = (uint8_t)items.at[4], .side = (uint8_t)items.at[5],
            .sector = (uint8_t)items.at[6], .code = (uint8_t)items.at[7], .used = used};
}

/* entries::id::identify, crates/entries/src/id.rt */
static struct Option_Id entries_id_identify(struct slice_u16 items, uint64_t used) {
    if (entries_id_is_identity(items)) {
        return (struct Option_Id){.tag = Option_Id_Some, .u.Some = entries_id_four_bytes(items, used)};
    }
    return (struct Option_Id){.tag = Option_Id_None};
}

/* entries::id::read_id, crates/entries/src/id.rt: The intervals begin at a lock. */
static struct Option_Id entries_id_read_id(struct timing_Profile p, struct slice_u16 intervals) {
    struct array_u16_10 items = {0};
    struct Option_Opened t10 = entries_opening_read_opened(p, intervals, 10, 254, slice_u16_mut(items.a, 10));
    struct ControlFlow_NoValue_Opened t9 = core_option_OptionTry_branch_Opened(t10);
    struct entries_opening_Opened t8;
    if (t9.tag == ControlFlow_NoValue_Opened_Continue) {
        t8 = t9.u.Continue;
    } else {
        return core_option_OptionFromResidualNoValue_from_residual_Id();
    }
    uint64_t used = t8.used;
    bool holds = t8.holds;
    if (holds) return entries_id_identify(slice_u16(items.a, 10), used);
    return (struct Option_Id){.tag = Option_Id_None};
}

/*
 * entries::content::read_data, crates/entries/src/content.rt
 * As many bytes as three marks, FB, the data of the code and two check bytes are. The first four tell what it is.
 */
static struct Option_Opened entries_content_read_data(struct timing_Profile p, struct slice_u16 intervals,
        uint8_t code) {
    uint64_t n = sectors_sector_size(code) + 6;
    struct array_u16_4 items = {0};
    return entries_opening_read_opened(p, intervals, n, 251, slice_u16_mut(items.a, 4));
}

/*
 * entries::content::find_data, crates/entries/src/content.rt
 * Searched after the intervals that the ID used, from `start` on.
 */
static struct entries_content_Sought entries_content_find_data(struct timing_Profile p, struct slice_u16 intervals,
        uint64_t start, uint8_t code) {
    struct entries_content_Sought none = {.field = {.tag = Option_DataField_None}, .end = start};
    struct Result_u64_Refusal t10 = locks_finder_search(p, intervals, start);
    uint64_t place;
    if (t10.tag == Result_u64_Refusal_Ok) {
        place = t10.u.Ok;
    } else {
        return none;
    }
    struct Option_Opened t11 =
            entries_content_read_data(p, slice_u16(intervals.at + place, intervals.len - place), code);
    uint64_t used;
    bool holds;
    if (t11.tag == Option_Opened_Some) {
        used = t11.u.Some.used;
        holds = t11.u.Some.holds;
    } else {
        return none;
    }
    return (struct entries_content_Sought){.field = {.tag = Option_DataField_Some,
            .u.Some = {.place = place, .holds = holds}}, .end = place + used};
}

/*
 * entries::look_at, crates/entries/src/lib.rt
 * What begins at the lock at k. The next search starts after the last field of the entry, or else at the place after
 * the lock.
 */
static struct entries_Step entries_look_at(struct timing_Profile p, struct slice_u16 intervals, uint64_t k) {
    struct Option_Id t7 = entries_id_read_id(p, slice_u16(intervals.at + k, intervals.len - k));
    if (t7.tag == Option_Id_None) {
        return (struct entries_Step){.tag = entries_Step_Other, .u.Other = {.next = k + 1}};
    }
    struct entries_id_Id id = t7.u.Some;
    struct entries_content_Sought sought = entries_content_find_data(p, intervals, k + id.used, id.code);
    struct entries_Entry entry = {.track = id.track, .side = id.side, .sector = id.sector, .code = id.code, .place = k,
            .field = sought.field};
    return (struct entries_Step){.tag = entries_Step_Begins, .u.Begins = {.entry = entry, .next = sought.end}};
}

/*
 * entries::find_entry, crates/entries/src/lib.rt
 * One search, from `start` on. The next starts at least 64 intervals after this one, so that they come to an end.
 */
static struct entries_Step entries_find_entry(struct timing_Profile p, struct slice_u16 intervals, uint64_t start) {
    struct Result_u64_Refusal t5 = locks_finder_search(p, intervals, start);
    if (t5.tag == Result_u64_Refusal_Err) return (struct entries_Step){.tag = entries_Step_End};
    return entries_look_at(p, intervals, t5.u.Ok);
}

/* The crate track */

/* track::index::IndexEntryFromEntry::from, crates/track/src/index.rt */
static ism_index_entry track_index_IndexEntryFromEntry_from(struct entries_Entry entry) {
    if (entry.field.tag == Option_DataField_Some) {
        struct entries_DataField data = entry.field.u.Some;
        return (ism_index_entry){.id_place = entry.place, .data_place = data.place, .track = entry.track,
                .side = entry.side, .sector = entry.sector, .code = entry.code, .found = 1,
                .holds = (uint8_t)data.holds};
    }
    return (ism_index_entry){.id_place = entry.place, .data_place = 0, .track = entry.track, .side = entry.side,
            .sector = entry.sector, .code = entry.code, .found = 0, .holds = 0};
}

/* track::order::goes_before, crates/track/src/order.rt */
static bool track_order_goes_before(ism_index_entry a, ism_index_entry b) {
    if (a.sector == b.sector) return a.id_place < b.id_place;
    return a.sector < b.sector;
}

/*
 * track::index::index_track, crates/track/src/index.rt
 * 1, 2, 15; else the entries by sector number, then by ID place: search after search, each from where the one before
 * says, until no lock is left or an entry has no room; each entry found is put where it belongs.
 */
static ism_index track_index_index_track(struct timing_Profile p, struct slice_u16 intervals) {
    struct array_track_index_IndexEntry_32 entries = {0};
    uint64_t count = 0;
    uint64_t start = 0;
    struct Result_unit_Refusal t16 = timing_rule_check(p);
    struct Result_u64_Refusal found;
    if (t16.tag == Result_unit_Refusal_Err) {
        found = (struct Result_u64_Refusal){.tag = Result_u64_Refusal_Err, .u.Err = t16.u.Err};
    } else {
        struct Result_u64_Refusal t18;
        for (;;) {
            struct entries_Step t19 = entries_find_entry(p, intervals, start);
            switch (t19.tag) {
            case entries_Step_End: {
                t18 = (struct Result_u64_Refusal){.tag = Result_u64_Refusal_Ok, .u.Ok = count};
                goto done_1;
            }
            case entries_Step_Other: {
                start = t19.u.Other.next;
                break;
            }
            default: { /* entries_Step_Begins */
                if (count == 32) {
                    entries = (struct array_track_index_IndexEntry_32){0};
                    t18 = (struct Result_u64_Refusal){.tag = Result_u64_Refusal_Err,
                            .u.Err = {.tag = refusal_Refusal_TooManySectors}};
                    goto done_1;
                }
                ism_index_entry new = track_index_IndexEntryFromEntry_from(t19.u.Begins.entry);
                uint64_t at = count;
                while (0 < at) {
                    ism_index_entry last = entries.a[at - 1];
                    if (track_order_goes_before(new, last)) {
                        entries.a[at] = last;
                        at--;
                    } else {
                        break;
                    }
                }
                entries.a[at] = new;
                count++;
                start = t19.u.Begins.next;
                break;
            }
            }
        }
        done_1:;
        found = t18;
    }
    struct refusal_Told told = refusal_ToldFromResultUsizeRefusal_from(found);
    ism_index result;
    result.number = told.number;
    result.place = told.place;
    result.count = told.count;
    for (uint64_t each = 0; each < 32; each++) {
        result.entries[each] = entries.a[each];
    }
    return result;
}

/* The crate track_set */

/* track_set::entry_size, crates/track_set/src/lib.rt */
static uint64_t track_set_entry_size(ism_index_entry entry) {
    if (entry.found == 0) return 0;
    return 3 + sectors_sector_size(entry.code);
}

/*
 * track_set::store_entry, crates/track_set/src/lib.rt
 * Number, code, whether its sum holds, and the data: read once more, since the index has kept none of it.
 */
static void track_set_store_entry(struct timing_Profile p, struct slice_u16 intervals, ism_index_entry entry,
        uint64_t at, struct slice_u8_mut out) {
    if (entry.found == 0) return;
    uint64_t place = entry.data_place;
    uint8_t code = entry.code;
    uint64_t size = sectors_sector_size(code);
    uint64_t data = at + 3;
    uint64_t end = data + size;
    out.at[at] = entry.sector;
    out.at[at + 1] = code;
    out.at[at + 2] = entry.holds;
    struct slice_u8_mut t27 = slice_u8_mut(out.at + data, end - data);
    fields_data_read_bytes(p, slice_u16(intervals.at + place, intervals.len - place), size + 6, 4, t27);
}

/*
 * track_set::read_track, crates/track_set/src/lib.rt
 * 1, 2, 15, 9; else the size of the set. On acceptance it fills the front of the output, in the index's order.
 */
static struct Result_SetSize_Refusal track_set_read_track(struct timing_Profile p, struct slice_u16 intervals,
        struct slice_u8_mut out) {
    struct ControlFlow_ErrResidual_Refusal_unit t16 = core_result_ResultTry_branch_unit_Refusal(timing_rule_check(p));
    if (t16.tag != ControlFlow_ErrResidual_Refusal_unit_Continue) {
        return core_result_ResultFromResidualErrResidual_from_residual_SetSize_Refusal_Refusal(t16.u.Break);
    }
    ism_index index = track_index_index_track(p, intervals);
    if (index.number != 0) {
        return (struct Result_SetSize_Refusal){.tag = Result_SetSize_Refusal_Err,
                .u.Err = {.tag = refusal_Refusal_TooManySectors}};
    }
    uint64_t count = 0;
    uint64_t bytes = 0;
    struct slice_track_index_IndexEntry entry_items = slice_track_index_IndexEntry(index.entries, 32);
    uint64_t entry_index = 0;
    uint64_t t24 = entry_items.len;
    while (entry_index < t24) {
        const ism_index_entry *entry = entry_items.at + entry_index;
        count += (uint64_t)entry->found;
        bytes += track_set_entry_size(*entry);
        entry_index++;
    }
    if (out.len < bytes) {
        return (struct Result_SetSize_Refusal){.tag = Result_SetSize_Refusal_Err,
                .u.Err = {.tag = refusal_Refusal_OutputTooShort}};
    }
    uint64_t at = 0;
    struct slice_track_index_IndexEntry entry_items_2 = slice_track_index_IndexEntry(index.entries, 32);
    uint64_t entry_index_2 = 0;
    uint64_t t35 = entry_items_2.len;
    while (entry_index_2 < t35) {
        const ism_index_entry *entry_2 = entry_items_2.at + entry_index_2;
        track_set_store_entry(p, intervals, *entry_2, at, out);
        at += track_set_entry_size(*entry_2);
        entry_index_2++;
    }
    return (struct Result_SetSize_Refusal){.tag = Result_SetSize_Refusal_Ok, .u.Ok = {.count = count, .bytes = bytes}};
}

/* The crate clearance */

/* core::result::ResultFromResidualErrResidual::from_residual<Clear_u64, Refusal, Refusal>, of the kit's library */
static struct Result_Clear_u64_Refusal
        core_result_ResultFromResidualErrResidual_from_residual_Clear_u64_Refusal_Refusal(
        struct ErrResidual_Refusal p1) {
    return (struct Result_Clear_u64_Refusal){.tag = Result_Clear_u64_Refusal_Err,
            .u.Err = core_convert_AnyFrom_from_Refusal(p1.f0)};
}

/* clearance::extremes::Extremes::none, crates/clearance/src/extremes.rt: Before any interval. */
static struct clearance_extremes_Extremes clearance_extremes_Extremes_none(void) {
    return (struct clearance_extremes_Extremes){.shortest = 32767, .longest = 32768, .from = 32767, .below = 32768};
}

/*
 * clearance::extremes::turned, crates/clearance/src/extremes.rt
 * Lengths are compared in the order of signed numbers, in which those from 32,768 on come first: for that order the
 * compiler has the lesser and the greater of eight pairs in one vector instruction each. This is a number's place in
 * it.
 */
static uint16_t clearance_extremes_turned(uint16_t x) {
    return (uint16_t)(x + 32768);
}

/* clearance::extremes::first, crates/clearance/src/extremes.rt */
static uint16_t clearance_extremes_first(uint16_t a, uint16_t b) {
    uint16_t t3 = clearance_extremes_turned(b);
    if (t3 < clearance_extremes_turned(a)) return b;
    return a;
}

/* clearance::extremes::last, crates/clearance/src/extremes.rt */
static uint16_t clearance_extremes_last(uint16_t a, uint16_t b) {
    uint16_t t3 = clearance_extremes_turned(a);
    if (t3 < clearance_extremes_turned(b)) return b;
    return a;
}

/*
 * clearance::extremes::past, crates/clearance/src/extremes.rt
 * How far an interval is past a bound, in that order: first those from the bound up, last the one just below it.
 */
static uint16_t clearance_extremes_past(uint16_t bound, uint16_t interval) {
    return (uint16_t)(interval - clearance_extremes_turned(bound));
}

/*
 * clearance::extremes::first_past, crates/clearance/src/extremes.rt
 * Of the ways past either bound, the first and the last.
 */
static uint16_t clearance_extremes_first_past(struct timing_Bounds bounds, uint16_t interval) {
    uint16_t t3 = clearance_extremes_past(bounds.b23.f0, interval);
    return clearance_extremes_first(t3, clearance_extremes_past(bounds.b34.f0, interval));
}

/* clearance::extremes::last_past, crates/clearance/src/extremes.rt */
static uint16_t clearance_extremes_last_past(struct timing_Bounds bounds, uint16_t interval) {
    uint16_t t3 = clearance_extremes_past(bounds.b23.f0, interval);
    return clearance_extremes_last(t3, clearance_extremes_past(bounds.b34.f0, interval));
}

/* clearance::blocks::extremes_alike, crates/clearance/src/blocks.rt: All between the same bounds. */
static struct clearance_extremes_Extremes clearance_blocks_extremes_alike(struct clearance_extremes_Extremes start,
        struct timing_Bounds bounds, struct slice_u16 intervals) {
    uint16_t shortest = start.shortest;
    uint16_t longest = start.longest;
    uint16_t from = start.from;
    uint16_t below = start.below;
    uint64_t interval_index = 0;
    uint64_t t10 = intervals.len;
    while (interval_index < t10) {
        uint16_t interval = intervals.at[interval_index];
        shortest = clearance_extremes_first(shortest, interval);
        longest = clearance_extremes_last(longest, interval);
        from = clearance_extremes_first(from, clearance_extremes_first_past(bounds, interval));
        below = clearance_extremes_last(below, clearance_extremes_last_past(bounds, interval));
        interval_index++;
    }
    return (struct clearance_extremes_Extremes){.shortest = shortest, .longest = longest, .from = from, .below = below};
}

/* clearance::masks::mask_of, crates/clearance/src/masks.rt */
static uint16_t clearance_masks_mask_of(bool two) {
    return (uint16_t)(0 - (uint16_t)two);
}

/* clearance::masks::fill_alike, crates/clearance/src/masks.rt: All where the classing stands the same. */
static void clearance_masks_fill_alike(struct timing_cursor_Cursor cursor, struct slice_u16 intervals,
        struct slice_u16_mut masks) {
    uint64_t k = 0;
    uint64_t t6 = intervals.len;
    while (k < t6) {
        masks.at[k] = clearance_masks_mask_of(timing_cursor_Cursor_meets_two(cursor, intervals.at[k]));
        k++;
    }
}

/*
 * clearance::masks::below, crates/clearance/src/masks.rt
 * All ones where a number is below another, by what their difference borrows: a compare becomes a jump in a loop whose
 * next turn waits for it.
 */
static uint16_t clearance_masks_below(uint16_t a, uint16_t b) {
    return (uint16_t)((uint32_t)((uint32_t)a - (uint32_t)b) >> 16);
}

/* clearance::masks::mask_in, crates/clearance/src/masks.rt: Of an interval where the classing stands. */
static uint16_t clearance_masks_mask_in(struct timing_cursor_Cursor cursor, uint16_t interval) {
    uint16_t past = (uint16_t)(interval - cursor.min.f0);
    return clearance_masks_below(past, cursor.bounds.b23.f0 - cursor.min.f0);
}

/* clearance::masks::chosen, crates/clearance/src/masks.rt */
static struct timing_HalfClocks clearance_masks_chosen(uint16_t mask, struct timing_HalfClocks short_,
        struct timing_HalfClocks long_) {
    uint16_t change = (uint16_t)(short_.f0 - long_.f0);
    return (struct timing_HalfClocks){.f0 = (uint16_t)(long_.f0 + (change & mask))};
}

/*
 * clearance::masks::bounds_by, crates/clearance/src/masks.rt
 * The bounds behind an interval of this mask, each chosen by itself.
 */
static struct timing_Bounds clearance_masks_bounds_by(uint16_t mask, struct timing_Bounds short_,
        struct timing_Bounds long_) {
    struct timing_HalfClocks t4 = clearance_masks_chosen(mask, short_.b23, long_.b23);
    return (struct timing_Bounds){.b23 = t4, .b34 = clearance_masks_chosen(mask, short_.b34, long_.b34)};
}

/* clearance::masks::behind_mask, crates/clearance/src/masks.rt */
static struct timing_cursor_Cursor clearance_masks_behind_mask(struct timing_cursor_Cursor cursor, uint16_t mask) {
    struct timing_Bounds short_ = cursor.short_;
    struct timing_Bounds long_ = cursor.long_;
    struct timing_cursor_Cursor next = cursor;
    next.bounds = clearance_masks_bounds_by(mask, short_, long_);
    return next;
}

/* clearance::masks::fill_in_turn, crates/clearance/src/masks.rt: One after the other. */
static void clearance_masks_fill_in_turn(struct timing_cursor_Cursor start, struct slice_u16 intervals,
        struct slice_u16_mut masks) {
    struct timing_cursor_Cursor cursor = start;
    uint64_t k = 0;
    uint64_t t8 = intervals.len;
    while (k < t8) {
        uint16_t mask = clearance_masks_mask_in(cursor, intervals.at[k]);
        masks.at[k] = mask;
        cursor = clearance_masks_behind_mask(cursor, mask);
        k++;
    }
}

/*
 * clearance::masks::fill, crates/clearance/src/masks.rt
 * Of a block that has some. Where no interval lies between the two B23, what stands before one does not matter, but
 * for the first, which goes by the cursor.
 */
static void clearance_masks_fill(struct timing_cursor_Cursor cursor, struct slice_u16 intervals,
        struct slice_u16_mut masks) {
    if (intervals_units_all_sure(cursor.short_, cursor.long_, intervals)) {
        clearance_masks_fill_alike(timing_cursor_Cursor_behind(cursor, true), intervals, masks);
        masks.at[0] = clearance_masks_mask_in(cursor, intervals.at[0]);
        return;
    }
    clearance_masks_fill_in_turn(cursor, intervals, masks);
}

/*
 * clearance::extremes::Extremes::with, crates/clearance/src/extremes.rt
 * With one interval more, between which and its neighbours in length these bounds stand.
 */
static struct clearance_extremes_Extremes clearance_extremes_Extremes_with(struct clearance_extremes_Extremes self,
        struct timing_Bounds bounds, uint16_t interval) {
    uint16_t t4 = clearance_extremes_first(self.shortest, interval);
    uint16_t t5 = clearance_extremes_last(self.longest, interval);
    uint16_t t6 = clearance_extremes_first(self.from, clearance_extremes_first_past(bounds, interval));
    return (struct clearance_extremes_Extremes){.shortest = t4, .longest = t5, .from = t6,
            .below = clearance_extremes_last(self.below, clearance_extremes_last_past(bounds, interval))};
}

/* clearance::seen::Seen::past, crates/clearance/src/seen.rt: With one interval more. */
static struct clearance_seen_Seen clearance_seen_Seen_past(struct clearance_seen_Seen self, uint16_t interval) {
    struct clearance_extremes_Extremes extremes = self.extremes;
    struct timing_cursor_Cursor cursor = self.cursor;
    struct timing_Bounds bounds = cursor.bounds;
    struct clearance_extremes_Extremes t6 = clearance_extremes_Extremes_with(extremes, bounds, interval);
    return (struct clearance_seen_Seen){.extremes = t6, .cursor = timing_cursor_Cursor_past(cursor, interval)};
}

/*
 * clearance::blocks::extremes_by, crates/clearance/src/blocks.rt
 * Each between the bounds for the mask of the one before it.
 */
static struct clearance_extremes_Extremes clearance_blocks_extremes_by(struct clearance_extremes_Extremes start,
        struct timing_Bounds short_, struct timing_Bounds long_, struct slice_u16 intervals, struct slice_u16 masks) {
    uint16_t shortest = start.shortest;
    uint16_t longest = start.longest;
    uint16_t from = start.from;
    uint16_t below = start.below;
    uint64_t k = 0;
    uint64_t t13 = intervals.len;
    while (k < t13) {
        uint16_t interval = intervals.at[k];
        struct timing_Bounds bounds = clearance_masks_bounds_by(masks.at[k], short_, long_);
        shortest = clearance_extremes_first(shortest, interval);
        longest = clearance_extremes_last(longest, interval);
        from = clearance_extremes_first(from, clearance_extremes_first_past(bounds, interval));
        below = clearance_extremes_last(below, clearance_extremes_last_past(bounds, interval));
        k++;
    }
    return (struct clearance_extremes_Extremes){.shortest = shortest, .longest = longest, .from = from, .below = below};
}

/*
 * clearance::seen::Seen::by_masks, crates/clearance/src/seen.rt
 * With a block that has some, by its masks: the first interval goes by the cursor, each other by the one before it.
 */
static struct clearance_seen_Seen clearance_seen_Seen_by_masks(struct clearance_seen_Seen self,
        struct slice_u16 intervals, struct slice_u16 masks) {
    struct timing_cursor_Cursor cursor = self.cursor;
    struct clearance_seen_Seen first = clearance_seen_Seen_past(self, intervals.at[0]);
    struct clearance_extremes_Extremes extremes = first.extremes;
    uint16_t last = masks.at[masks.len - 1];
    struct slice_u16 t19 = slice_u16(intervals.at + 1, intervals.len - 1);
    struct clearance_extremes_Extremes t14 =
            clearance_blocks_extremes_by(extremes, cursor.short_, cursor.long_, t19, masks);
    return (struct clearance_seen_Seen){.extremes = t14, .cursor = timing_cursor_Cursor_behind(cursor, last == 65535)};
}

/*
 * clearance::seen::Seen::masked, crates/clearance/src/seen.rt
 * The masks first, and then the extremes, in vector instructions.
 */
static struct clearance_seen_Seen clearance_seen_Seen_masked(struct clearance_seen_Seen self,
        struct slice_u16 intervals, struct slice_u16_mut masks) {
    clearance_masks_fill(self.cursor, intervals, masks);
    return clearance_seen_Seen_by_masks(self, intervals, slice_u16(masks.at, masks.len));
}

/* clearance::seen::Seen::block, crates/clearance/src/seen.rt */
static struct clearance_seen_Seen clearance_seen_Seen_block(struct clearance_seen_Seen self,
        struct slice_u16 intervals) {
    uint64_t n = intervals.len;
    struct array_u16_129 masks = {0};
    return clearance_seen_Seen_masked(self, intervals, slice_u16_mut(masks.a, n));
}

/* clearance::seen::Seen::all, crates/clearance/src/seen.rt: Block by block. */
static struct clearance_seen_Seen clearance_seen_Seen_all(struct clearance_seen_Seen self, struct slice_u16 intervals) {
    struct clearance_seen_Seen seen = self;
    uint64_t from = 0;
    while (from < intervals.len) {
        uint64_t n = core_int_usize_min(129, intervals.len - from);
        seen = clearance_seen_Seen_block(seen, slice_u16(intervals.at + from, from + n - from));
        from += n;
    }
    return seen;
}

/*
 * clearance::seen::Seen::with_all, crates/clearance/src/seen.rt
 * With all intervals of a list. Where the pairs are equal, all stand between the same bounds.
 */
static struct clearance_seen_Seen clearance_seen_Seen_with_all(struct clearance_seen_Seen self,
        struct slice_u16 intervals) {
    struct timing_cursor_Cursor cursor = self.cursor;
    if (timing_cursor_Cursor_is_steady(cursor)) {
        struct clearance_extremes_Extremes extremes = self.extremes;
        struct timing_Bounds bounds = cursor.bounds;
        return (struct clearance_seen_Seen){.extremes = clearance_blocks_extremes_alike(extremes, bounds, intervals),
                .cursor = cursor};
    }
    return clearance_seen_Seen_all(self, intervals);
}

/*
 * clearance::extremes::room, crates/clearance/src/extremes.rt
 * How far the places of a first and a last number are inside two others; 0 where one is outside.
 */
static uint16_t clearance_extremes_room(uint16_t from, uint16_t to, uint16_t first, uint16_t last) {
    uint16_t up = core_int_u16_saturating_sub(clearance_extremes_turned(first), from);
    uint16_t down = core_int_u16_saturating_sub(to, clearance_extremes_turned(last));
    return core_int_u16_min(up, down);
}

/*
 * clearance::extremes::Extremes::least, crates/clearance/src/extremes.rt
 * The least clearance of the intervals met. Where one is narrow or wide, it is 0 by the shortest or the longest.
 */
static uint16_t clearance_extremes_Extremes_least(struct clearance_extremes_Extremes self, uint16_t min, uint16_t rpt) {
    uint16_t t5 = clearance_extremes_turned(min);
    uint16_t outer = clearance_extremes_room(t5, clearance_extremes_turned(rpt - 1), self.shortest, self.longest);
    return core_int_u16_min(outer, clearance_extremes_room(0, 65535, self.from, self.below));
}

/*
 * clearance::least::least_from, crates/clearance/src/least.rt
 * The least over the intervals of a list that has some.
 */
static uint16_t clearance_least_least_from(struct timing_cursor_Cursor start, struct slice_u16 intervals) {
    struct clearance_seen_Seen none = {.extremes = clearance_extremes_Extremes_none(), .cursor = start};
    struct clearance_extremes_Extremes extremes = clearance_seen_Seen_with_all(none, intervals).extremes;
    return clearance_extremes_Extremes_least(extremes, start.min.f0, start.rpt.f0);
}

/* clearance::least::of_interval, crates/clearance/src/least.rt: Of one interval by itself. */
static uint16_t clearance_least_of_interval(struct timing_Profile p, uint16_t interval, bool two) {
    struct array_u16_1 alone = {{interval}};
    return clearance_least_least_from(timing_cursor_Cursor_after(p, two), slice_u16(alone.a, 1));
}

/*
 * clearance::class_number, crates/clearance/src/lib.rt
 * 1, 2; else the class of an interval, told whether the one before was of class 2.
 */
static struct Result_Clear_u64_Refusal clearance_class_number(struct timing_Profile p, uint16_t interval, bool two) {
    struct ControlFlow_ErrResidual_Refusal_u64 t8 =
            core_result_ResultTry_branch_u64_Refusal(timing_class_number(p, interval, two));
    uint64_t read;
    if (t8.tag == ControlFlow_ErrResidual_Refusal_u64_Continue) {
        read = t8.u.Continue;
    } else {
        return core_result_ResultFromResidualErrResidual_from_residual_Clear_u64_Refusal_Refusal(t8.u.Break);
    }
    uint16_t clearance = clearance_least_of_interval(p, interval, two);
    return (struct Result_Clear_u64_Refusal){.tag = Result_Clear_u64_Refusal_Ok,
            .u.Ok = {.read = read, .clearance = clearance}};
}

/* clearance::least::of_list, crates/clearance/src/least.rt: The least over a list; 0 for no interval. */
static uint16_t clearance_least_of_list(struct timing_Profile p, struct slice_u16 intervals) {
    if (intervals.len == 0) return 0;
    return clearance_least_least_from(timing_cursor_Cursor_start(p), intervals);
}

/* clearance::read, crates/clearance/src/lib.rt: As `codec::reader::read`. */
static struct Result_Clear_u64_Refusal clearance_read(struct timing_Profile p, struct slice_u16 intervals,
        struct slice_u16_mut out) {
    struct ControlFlow_ErrResidual_Refusal_u64 t8 =
            core_result_ResultTry_branch_u64_Refusal(codec_reader_read(p, intervals, out));
    uint64_t read;
    if (t8.tag == ControlFlow_ErrResidual_Refusal_u64_Continue) {
        read = t8.u.Continue;
    } else {
        return core_result_ResultFromResidualErrResidual_from_residual_Clear_u64_Refusal_Refusal(t8.u.Break);
    }
    uint16_t clearance = clearance_least_of_list(p, intervals);
    return (struct Result_Clear_u64_Refusal){.tag = Result_Clear_u64_Refusal_Ok,
            .u.Ok = {.read = read, .clearance = clearance}};
}

/* core::result::ResultFromResidualErrResidual::from_residual<Clear_Field, Refusal, Refusal>, of the kit's library */
static struct Result_Clear_Field_Refusal
        core_result_ResultFromResidualErrResidual_from_residual_Clear_Field_Refusal_Refusal(
        struct ErrResidual_Refusal p1) {
    return (struct Result_Clear_Field_Refusal){.tag = Result_Clear_Field_Refusal_Err,
            .u.Err = core_convert_AnyFrom_from_Refusal(p1.f0)};
}

/* clearance::read_field, crates/clearance/src/lib.rt: As `fields::reader::read_field`. */
static struct Result_Clear_Field_Refusal clearance_read_field(struct timing_Profile p, struct slice_u16 intervals,
        uint64_t n, struct slice_u16_mut out) {
    struct ControlFlow_ErrResidual_Refusal_Field t9 =
            core_result_ResultTry_branch_Field_Refusal(fields_reader_read_field(p, intervals, n, out));
    struct fields_reader_Field read;
    if (t9.tag == ControlFlow_ErrResidual_Refusal_Field_Continue) {
        read = t9.u.Continue;
    } else {
        return core_result_ResultFromResidualErrResidual_from_residual_Clear_Field_Refusal_Refusal(t9.u.Break);
    }
    uint16_t clearance = clearance_least_of_list(p, slice_u16(intervals.at, read.used));
    return (struct Result_Clear_Field_Refusal){.tag = Result_Clear_Field_Refusal_Ok,
            .u.Ok = {.read = read, .clearance = clearance}};
}

/* core::result::ResultTry::branch<Clear_Field, Refusal>, of the kit's library */
static struct ControlFlow_ErrResidual_Refusal_Clear_Field
        core_result_ResultTry_branch_Clear_Field_Refusal(struct Result_Clear_Field_Refusal p1) {
    if (p1.tag == Result_Clear_Field_Refusal_Ok) {
        return (struct ControlFlow_ErrResidual_Refusal_Clear_Field){
                .tag = ControlFlow_ErrResidual_Refusal_Clear_Field_Continue, .u.Continue = p1.u.Ok};
    }
    return (struct ControlFlow_ErrResidual_Refusal_Clear_Field){
            .tag = ControlFlow_ErrResidual_Refusal_Clear_Field_Break, .u.Break = {.f0 = p1.u.Err}};
}

/* The crate pace */

/* pace::Pace::measured, crates/pace/src/lib.rt: Of 64 intervals. */
static struct pace_Pace pace_Pace_measured(struct timing_HalfClocks t1, struct slice_u16 run) {
    uint32_t even = 0;
    uint32_t odd = 0;
    uint64_t pair = 0;
    while (pair < 32) {
        even += (uint32_t)run.at[2 * pair];
        odd += (uint32_t)run.at[2 * pair + 1];
        pair++;
    }
    return (struct pace_Pace){.nominal = 32 * (uint32_t)t1.f0, .even = even, .odd = odd};
}

/* pace::off_speed, crates/pace/src/lib.rt: 16 × the difference, sign dropped, exceeds 32 × T1. */
static bool pace_off_speed(uint32_t nominal, uint32_t sum) {
    return nominal < 16 * core_int_u32_abs_diff(sum, nominal);
}

/* pace::Pace::check, crates/pace/src/lib.rt: 18, off speed: the even ones, then the odd. */
static struct Result_unit_Refusal pace_Pace_check(struct pace_Pace self) {
    if (pace_off_speed(self.nominal, self.even)) {
        return (struct Result_unit_Refusal){.tag = Result_unit_Refusal_Err,
                .u.Err = {.tag = refusal_Refusal_OffSpeed, .u.OffSpeed = 0}};
    }
    if (pace_off_speed(self.nominal, self.odd)) {
        return (struct Result_unit_Refusal){.tag = Result_unit_Refusal_Err,
                .u.Err = {.tag = refusal_Refusal_OffSpeed, .u.OffSpeed = 1}};
    }
    return (struct Result_unit_Refusal){.tag = Result_unit_Refusal_Ok};
}

/* pace::corrected, crates/pace/src/lib.rt: An interval at the pace of a sum, cut off. */
static uint16_t pace_corrected(uint32_t nominal, uint32_t sum, uint16_t interval) {
    uint32_t number = ((uint32_t)interval * nominal) / sum;
    return (uint16_t)core_int_u32_min(number, 65535);
}

/* pace::Pace::correct, crates/pace/src/lib.rt: Intervals of which the first is even: the two sums take turns. */
static void pace_Pace_correct(struct pace_Pace self, struct slice_u16 intervals, struct slice_u16_mut out) {
    uint32_t nominal = self.nominal;
    uint32_t own = self.even;
    uint32_t other = self.odd;
    uint64_t k = 0;
    uint64_t t10 = intervals.len;
    while (k < t10) {
        out.at[k] = pace_corrected(nominal, own, intervals.at[k]);
        uint32_t next = other;
        other = own;
        own = next;
        k++;
    }
}

/* pace::difference, crates/pace/src/lib.rt: The signed difference of a sum to 32 × T1. */
static uint32_t pace_difference(uint32_t nominal, uint32_t sum) {
    return (uint32_t)((uint32_t)sum - (uint32_t)nominal);
}

/* The crate speed */

/* core::result::ResultFromResidualErrResidual::from_residual<Corrected, Refusal, Refusal>, of the kit's library */
static struct Result_Corrected_Refusal
        core_result_ResultFromResidualErrResidual_from_residual_Corrected_Refusal_Refusal(
        struct ErrResidual_Refusal p1) {
    return (struct Result_Corrected_Refusal){.tag = Result_Corrected_Refusal_Err,
            .u.Err = core_convert_AnyFrom_from_Refusal(p1.f0)};
}

/* speed::gather::Along::start, crates/speed/src/gather.rt: Before the first interval. */
static struct speed_gather_Along speed_gather_Along_start(struct timing_Profile p) {
    struct passes_block_Progress t2 = passes_block_Progress_start(p);
    struct items_Check t3 = items_Check_fresh();
    struct clearance_extremes_Extremes t5 = clearance_extremes_Extremes_none();
    return (struct speed_gather_Along){.at = t2, .check = t3, .edges = {.tag = Result_unit_Refusal_Ok},
            .seen = {.extremes = t5, .cursor = timing_cursor_Cursor_start(p)}};
}

/*
 * speed::gather::read_block, crates/speed/src/gather.rt
 * The intervals of a block, read: their items through the register, and to their places.
 */
static struct speed_gather_BlockRead speed_gather_read_block(struct passes_block_Progress start,
        struct items_Check check, struct slice_u16 block, uint32_t n, struct slice_u16_mut out) {
    struct array_u8_64 units = {0};
    struct array_u16_17 words = {0};
    uint32_t done = start.pass.reading.words;
    uint64_t length = block.len;
    struct passes_block_Progress at =
            passes_block_pass_block(start, block, slice_u8_mut(units.a, length), n, 0, slice_u16_mut(words.a, 17));
    uint64_t count = (uint64_t)(at.pass.reading.words - done);
    struct items_Check check_2 = fields_gather_sum_up(check, slice_u16_mut(words.a, count), (uint64_t)done, out);
    return (struct speed_gather_BlockRead){.at = at, .check = check_2};
}

/*
 * speed::gather::edges_after, crates/speed/src/gather.rt
 * The first interval that is no cell, in all before or in these.
 */
static struct Result_unit_Refusal speed_gather_edges_after(struct Result_unit_Refusal before,
        struct timing_cursor_Cursor start, uint64_t from, struct slice_u16 intervals) {
    struct ControlFlow_ErrResidual_Refusal_unit t7 = core_result_ResultTry_branch_unit_Refusal(before);
    if (t7.tag != ControlFlow_ErrResidual_Refusal_unit_Continue) {
        return core_result_ResultFromResidualErrResidual_from_residual_unit_Refusal_Refusal(t7.u.Break);
    }
    return intervals_edges_check_edges_from(start, from, intervals);
}

/* speed::gather::Along::next, crates/speed/src/gather.rt: With a block more. */
static struct speed_gather_Along speed_gather_Along_next(struct speed_gather_Along self, struct slice_u16 block,
        uint32_t n, struct slice_u16_mut out) {
    struct passes_block_Progress start = self.at;
    struct Result_unit_Refusal edges = self.edges;
    struct clearance_seen_Seen seen = self.seen;
    struct timing_cursor_Cursor cursor = start.cursor;
    uint64_t from = start.pass.used;
    struct speed_gather_BlockRead read = speed_gather_read_block(start, self.check, block, n, out);
    struct passes_block_Progress at = read.at;
    struct items_Check check = read.check;
    uint64_t used = at.pass.used - from;
    struct Result_unit_Refusal t17 = speed_gather_edges_after(edges, cursor, from, slice_u16(block.at, used));
    return (struct speed_gather_Along){.at = at, .check = check, .edges = t17,
            .seen = clearance_seen_Seen_with_all(seen, slice_u16(block.at, used))};
}

/* speed::gather::Along::advance, crates/speed/src/gather.rt: With the next block of a list, corrected. */
static struct speed_gather_Along speed_gather_Along_advance(struct speed_gather_Along self, struct pace_Pace pace,
        struct slice_u16 intervals, uint32_t n, struct slice_u16_mut out) {
    struct array_u16_64 block = {0};
    uint64_t from = self.at.pass.used;
    uint64_t count = core_int_usize_min(64, intervals.len - from);
    pace_Pace_correct(pace, slice_u16(intervals.at + from, from + count - from), slice_u16_mut(block.a, count));
    return speed_gather_Along_next(self, slice_u16(block.a, count), n, out);
}

/*
 * speed::gather::pass_over, crates/speed/src/gather.rt
 * One pass over the corrected intervals of n bytes, each taken as a cell.
 */
static struct speed_gather_Along speed_gather_pass_over(struct timing_Profile p, struct pace_Pace pace,
        struct slice_u16 intervals, uint32_t n, struct slice_u16_mut out) {
    struct speed_gather_Along along = speed_gather_Along_start(p);
    while (passes_block_Progress_goes_on(along.at, n, intervals.len)) {
        along = speed_gather_Along_advance(along, pace, intervals, n, out);
    }
    return along;
}

/*
 * speed::gather::gather, crates/speed/src/gather.rt
 * A field of n bytes. An interval among the used ones that is no cell comes before all else.
 */
static struct speed_gather_Gathered speed_gather_gather(struct timing_Profile p, struct pace_Pace pace,
        struct slice_u16 intervals, uint32_t n, struct slice_u16_mut out) {
    struct speed_gather_Along along = speed_gather_pass_over(p, pace, intervals, n, out);
    struct shifts_Pass pass = along.at.pass;
    bool holds = along.check.register_ == 0;
    struct Result_unit_Refusal edges = along.edges;
    if (edges.tag == Result_unit_Refusal_Err) {
        return (struct speed_gather_Gathered){.end = {.tag = Result_u64_Refusal_Err, .u.Err = edges.u.Err},
                .holds = holds, .clearance = 0};
    }
    struct Result_u64_Refusal t15 = fields_gather_conclude(pass.reading, pass.used, n);
    return (struct speed_gather_Gathered){.end = t15, .holds = holds,
            .clearance = clearance_extremes_Extremes_least(along.seen.extremes, p.min.f0, p.rpt.f0)};
}

/*
 * speed::reader::read_into, crates/speed/src/reader.rt
 * The items wait in a buffer, as a refusal changes nothing that was lent.
 */
static struct Result_Clear_Field_Refusal speed_reader_read_into(struct timing_Profile p, struct pace_Pace pace,
        struct slice_u16 intervals, uint64_t n, struct slice_u16_mut buffer, struct slice_u16_mut out) {
    struct speed_gather_Gathered gathered = speed_gather_gather(p, pace, intervals, (uint32_t)n, buffer);
    struct ControlFlow_ErrResidual_Refusal_u64 t18 = core_result_ResultTry_branch_u64_Refusal(gathered.end);
    uint64_t used;
    if (t18.tag == ControlFlow_ErrResidual_Refusal_u64_Continue) {
        used = t18.u.Continue;
    } else {
        return core_result_ResultFromResidualErrResidual_from_residual_Clear_Field_Refusal_Refusal(t18.u.Break);
    }
    struct Result_Field_Refusal t22 = fields_reader_deliver(slice_u16(buffer.at, n), used, gathered.holds, out);
    struct ControlFlow_ErrResidual_Refusal_Field t21 = core_result_ResultTry_branch_Field_Refusal(t22);
    struct fields_reader_Field read;
    if (t21.tag == ControlFlow_ErrResidual_Refusal_Field_Continue) {
        read = t21.u.Continue;
    } else {
        return core_result_ResultFromResidualErrResidual_from_residual_Clear_Field_Refusal_Refusal(t21.u.Break);
    }
    uint16_t clearance = gathered.clearance;
    return (struct Result_Clear_Field_Refusal){.tag = Result_Clear_Field_Refusal_Ok,
            .u.Ok = {.read = read, .clearance = clearance}};
}

/* speed::reader::read_checked, crates/speed/src/reader.rt: A short field has a short buffer. */
static struct Result_Clear_Field_Refusal speed_reader_read_checked(struct timing_Profile p, struct pace_Pace pace,
        struct slice_u16 intervals, uint64_t n, struct slice_u16_mut out) {
    if (n <= 16) {
        struct array_u16_16 buffer = {0};
        return speed_reader_read_into(p, pace, intervals, n, slice_u16_mut(buffer.a, 16), out);
    }
    struct array_u16_1030 buffer_2 = {0};
    return speed_reader_read_into(p, pace, intervals, n, slice_u16_mut(buffer_2.a, 1030), out);
}

/*
 * speed::reader::read_slowed, crates/speed/src/reader.rt
 * 12, then as the field reader over the corrected intervals.
 */
static struct Result_Clear_Field_Refusal speed_reader_read_slowed(struct timing_Profile p, struct pace_Pace pace,
        struct slice_u16 intervals, uint64_t n, struct slice_u16_mut out) {
    if ((n < 1) | (1030 < n)) {
        return (struct Result_Clear_Field_Refusal){.tag = Result_Clear_Field_Refusal_Err,
                .u.Err = {.tag = refusal_Refusal_CountOutOfRange}};
    }
    return speed_reader_read_checked(p, pace, intervals, n, out);
}

/* speed::reader::read_at, crates/speed/src/reader.rt: At a lock: 18, then as the field reader. */
static struct Result_Corrected_Refusal speed_reader_read_at(struct timing_Profile p, struct slice_u16 intervals,
        uint64_t lock, uint64_t n, struct slice_u16_mut out) {
    uint64_t t15 = lock - 64;
    struct pace_Pace pace = pace_Pace_measured(p.t1, slice_u16(intervals.at + t15, lock - t15));
    struct ControlFlow_ErrResidual_Refusal_unit t21 = core_result_ResultTry_branch_unit_Refusal(pace_Pace_check(pace));
    if (t21.tag != ControlFlow_ErrResidual_Refusal_unit_Continue) {
        return core_result_ResultFromResidualErrResidual_from_residual_Corrected_Refusal_Refusal(t21.u.Break);
    }
    struct Result_Clear_Field_Refusal t24 =
            speed_reader_read_slowed(p, pace, slice_u16(intervals.at + lock, intervals.len - lock), n, out);
    struct ControlFlow_ErrResidual_Refusal_Clear_Field t23 = core_result_ResultTry_branch_Clear_Field_Refusal(t24);
    struct clearance_Clear_Field field;
    if (t23.tag == ControlFlow_ErrResidual_Refusal_Clear_Field_Continue) {
        field = t23.u.Continue;
    } else {
        return core_result_ResultFromResidualErrResidual_from_residual_Corrected_Refusal_Refusal(t23.u.Break);
    }
    uint32_t even = pace_difference(pace.nominal, pace.even);
    uint32_t odd = pace_difference(pace.nominal, pace.odd);
    return (struct Result_Corrected_Refusal){.tag = Result_Corrected_Refusal_Ok,
            .u.Ok = {.field = field, .lock = lock, .even = even, .odd = odd}};
}

/*
 * speed::reader::read_corrected, crates/speed/src/reader.rt
 * 1, 2, 10, 18, 12, then 5, 6 or 11 as first met, 8, 9; places of 5, 6 and 8 count from the lock.
 */
static struct Result_Corrected_Refusal speed_reader_read_corrected(struct timing_Profile p, struct slice_u16 intervals,
        uint64_t start, uint64_t n, struct slice_u16_mut out) {
    struct ControlFlow_ErrResidual_Refusal_u64 t9 =
            core_result_ResultTry_branch_u64_Refusal(locks_finder_find_lock(p, intervals, start));
    uint64_t lock;
    if (t9.tag == ControlFlow_ErrResidual_Refusal_u64_Continue) {
        lock = t9.u.Continue;
    } else {
        return core_result_ResultFromResidualErrResidual_from_residual_Corrected_Refusal_Refusal(t9.u.Break);
    }
    return speed_reader_read_at(p, intervals, lock, n, out);
}

/* The crate limits */

/* core::result::ResultFromResidualErrResidual::from_residual<Limits, Refusal, Refusal>, of the kit's library */
static struct Result_Limits_Refusal
        core_result_ResultFromResidualErrResidual_from_residual_Limits_Refusal_Refusal(struct ErrResidual_Refusal p1) {
    return (struct Result_Limits_Refusal){.tag = Result_Limits_Refusal_Err,
            .u.Err = core_convert_AnyFrom_from_Refusal(p1.f0)};
}

/*
 * limits::side::counts, crates/limits/src/side.rt
 * Whether the lengths after a cell of class 2, or after any other, are among those of the kind.
 */
static bool limits_side_counts(struct limits_side_Kind after, bool two) {
    switch (after.tag) {
    case limits_side_Kind_Both: return true;
    case limits_side_Kind_Short: return two;
    default: return !two; /* limits_side_Kind_Long */
    }
}

/* limits::side::bounds, crates/limits/src/side.rt */
static struct timing_Bounds limits_side_bounds(struct timing_Profile p, struct limits_side_Kind after) {
    switch (after.tag) {
    case limits_side_Kind_Both: return p.short_;
    case limits_side_Kind_Short: return p.short_;
    default: return p.long_; /* limits_side_Kind_Long */
    }
}

/* limits::side::edge_of, crates/limits/src/side.rt */
static uint16_t limits_side_edge_of(struct timing_Profile p, struct limits_side_Edge edge,
        struct limits_side_Kind after) {
    struct timing_Bounds pair = limits_side_bounds(p, after);
    switch (edge.tag) {
    case limits_side_Edge_Min: return p.min.f0;
    case limits_side_Edge_B23: return pair.b23.f0;
    case limits_side_Edge_B34: return pair.b34.f0;
    default: return p.rpt.f0; /* limits_side_Edge_Rpt */
    }
}

/*
 * limits::side::reaches, crates/limits/src/side.rt
 * Whether a length is on that side of an edge, and on the other if it is moved towards it by n.
 */
static bool limits_side_reaches(bool above, uint16_t edge, uint16_t n, uint16_t length) {
    if (above) return (edge <= length) & ((uint32_t)length < (uint32_t)edge + (uint32_t)n);
    return (length < edge) & ((uint32_t)edge <= (uint32_t)length + (uint32_t)n);
}

/*
 * limits::side::crosses, crates/limits/src/side.rt
 * Whether a length, after a cell of class 2 or after any other, crosses the edge from that side if moved by n.
 */
static bool limits_side_crosses(struct timing_Profile p, struct limits_side_Side s, uint16_t n, bool two,
        uint16_t length) {
    struct limits_side_Edge edge = s.edge;
    struct limits_side_Kind after = s.after;
    bool t8 = limits_side_counts(after, two);
    return t8 & limits_side_reaches(s.above, limits_side_edge_of(p, edge, after), n, length);
}

/* limits::side::is_two, crates/limits/src/side.rt: Whether the next interval is of class 2. */
static bool limits_side_is_two(struct timing_Profile p, bool two, uint16_t length) {
    struct timing_cursor_Classed t6 = timing_cursor_Cursor_step(timing_cursor_Cursor_after(p, two), length);
    return timing_ClassPartialEq_eq(&t6.class, &limits_side_is_two_constant);
}

/* limits::search::first_seen, crates/limits/src/search.rt: The first of some intervals that crosses. */
static struct Option_Evidence limits_search_first_seen(struct timing_Profile p, struct limits_side_Side s, uint16_t n,
        uint16_t item, struct slice_u16 intervals) {
    bool two = true;
    uint64_t k = 0;
    uint64_t t9 = intervals.len;
    while (k < t9) {
        uint16_t d = intervals.at[k];
        if (limits_side_crosses(p, s, n, two, d)) {
            return (struct Option_Evidence){.tag = Option_Evidence_Some,
                    .u.Some = {.item = item, .interval = (uint16_t)k}};
        }
        two = limits_side_is_two(p, two, d);
        k++;
    }
    return (struct Option_Evidence){.tag = Option_Evidence_None};
}

/* limits::search::seen_in, crates/limits/src/search.rt: A byte ends eight cells at most and the closing 0s two. */
static struct Option_Evidence limits_search_seen_in(struct timing_Profile p, struct limits_side_Side s, uint16_t n,
        uint16_t item) {
    struct array_u16_1 items = {{item}};
    struct array_u16_10 out = {0};
    struct Result_u64_Refusal t8 = codec_writer_write(p, slice_u16(items.a, 1), slice_u16_mut(out.a, 10));
    if (t8.tag == Result_u64_Refusal_Err) return (struct Option_Evidence){.tag = Option_Evidence_None};
    return limits_search_first_seen(p, s, n, item, slice_u16(out.a, t8.u.Ok));
}

/* core::option::Option::is_some<Evidence>, of the kit's library */
static bool core_option_Option_is_some_Evidence(const struct Option_Evidence *p1) {
    if (p1->tag == Option_Evidence_Some) return true;
    return false;
}

/*
 * limits::search::search, crates/limits/src/search.rt
 * Of all lengths that any list can have, those nearest to the edges stand in the lists up to 1B: no side is missed.
 */
static struct Option_Evidence limits_search_search(struct timing_Profile p, struct limits_side_Side s, uint16_t n) {
    uint16_t item = 0;
    while (item <= 27) {
        struct Option_Evidence seen = limits_search_seen_in(p, s, n, item);
        if (core_option_Option_is_some_Evidence(&seen)) return seen;
        item++;
    }
    return (struct Option_Evidence){.tag = Option_Evidence_None};
}

/* limits::side::beyond, crates/limits/src/side.rt: The first length on the other side of the edge. */
static uint16_t limits_side_beyond(struct timing_Profile p, struct limits_side_Side s) {
    struct limits_side_Edge edge = s.edge;
    struct limits_side_Kind after = s.after;
    uint16_t there = limits_side_edge_of(p, edge, after);
    if (s.above) return core_int_u16_saturating_sub(there, 1);
    return there;
}

/* limits::push, crates/limits/src/lib.rt: One side more: named with its evidence where some list shows it. */
static struct limits_Limits limits_push(struct timing_Profile p, uint16_t n, struct limits_Limits made,
        struct limits_side_Edge edge, struct limits_side_Kind after, bool above) {
    struct limits_side_Side side = {.edge = edge, .after = after, .above = above};
    uint64_t at = made.count;
    struct array_limits_Limit_10 limits = made.limits;
    struct Option_Evidence t12 = limits_search_search(p, side, n);
    if (t12.tag == Option_Evidence_None) return made;
    struct limits_search_Evidence shown = t12.u.Some;
    if (at < 10) {
        uint16_t moved = limits_side_beyond(p, side);
        limits.a[at] =
                (struct limits_Limit){.side = side, .item = shown.item, .interval = shown.interval, .moved = moved};
        return (struct limits_Limits){.count = at + 1, .limits = limits};
    }
    return made;
}

/*
 * limits::push_both, crates/limits/src/lib.rt
 * Both sides of an edge, after one kind: the lengths below it before those above.
 */
static struct limits_Limits limits_push_both(struct timing_Profile p, uint16_t n, struct limits_Limits made,
        struct limits_side_Edge edge, struct limits_side_Kind after) {
    struct limits_Limits below = limits_push(p, n, made, edge, after, false);
    return limits_push(p, n, below, edge, after, true);
}

/* limits::gather, crates/limits/src/lib.rt: All sides, in document 02's order. */
static struct limits_Limits limits_gather(struct timing_Profile p, uint16_t n) {
    struct limits_Limit t12 = {.side = {.edge = {.tag = limits_side_Edge_Min}, .after = {.tag = limits_side_Kind_Both},
            .above = false}, .item = 0, .interval = 0, .moved = 0};
    struct array_limits_Limit_10 t13;
    for (uint64_t each = 0; each < 10; each++) {
        t13.a[each] = t12;
    }
    struct limits_Limits none = {.count = 0, .limits = t13};
    struct limits_side_Kind t10 = {.tag = limits_side_Kind_Both};
    struct limits_Limits min =
            limits_push(p, n, none, (struct limits_side_Edge){.tag = limits_side_Edge_Min}, t10, true);
    t10 = (struct limits_side_Kind){.tag = limits_side_Kind_Short};
    struct limits_Limits b23_short =
            limits_push_both(p, n, min, (struct limits_side_Edge){.tag = limits_side_Edge_B23}, t10);
    t10 = (struct limits_side_Kind){.tag = limits_side_Kind_Long};
    struct limits_Limits b23_long =
            limits_push_both(p, n, b23_short, (struct limits_side_Edge){.tag = limits_side_Edge_B23}, t10);
    t10 = (struct limits_side_Kind){.tag = limits_side_Kind_Short};
    struct limits_Limits b34_short =
            limits_push_both(p, n, b23_long, (struct limits_side_Edge){.tag = limits_side_Edge_B34}, t10);
    t10 = (struct limits_side_Kind){.tag = limits_side_Kind_Long};
    struct limits_Limits b34_long =
            limits_push_both(p, n, b34_short, (struct limits_side_Edge){.tag = limits_side_Edge_B34}, t10);
    t10 = (struct limits_side_Kind){.tag = limits_side_Kind_Both};
    return limits_push(p, n, b34_long, (struct limits_side_Edge){.tag = limits_side_Edge_Rpt}, t10, false);
}

/* limits::margin_limits, crates/limits/src/lib.rt: 1, 2, as for the margin; else the sides that hold it down. */
static struct Result_Limits_Refusal limits_margin_limits(struct timing_Profile p) {
    struct ControlFlow_ErrResidual_Refusal_u64 t5 = core_result_ResultTry_branch_u64_Refusal(lengths_margin(p));
    uint64_t m;
    if (t5.tag == ControlFlow_ErrResidual_Refusal_u64_Continue) {
        m = t5.u.Continue;
    } else {
        return core_result_ResultFromResidualErrResidual_from_residual_Limits_Refusal_Refusal(t5.u.Break);
    }
    return (struct Result_Limits_Refusal){.tag = Result_Limits_Refusal_Ok, .u.Ok = limits_gather(p, (uint16_t)m + 1)};
}

/* The crate best */

/*
 * best::trial::trial, crates/best/src/trial.rt
 * The five numbers with windows that are in range, so that `timing` can be asked about the five.
 */
static struct timing_Profile best_trial_trial(struct best_Writing w) {
    return (struct timing_Profile){.t1 = {.f0 = w.t1.f0}, .t0 = {.f0 = w.t0.f0}, .early = {.f0 = w.early.f0},
            .normal = {.f0 = w.normal.f0}, .late = {.f0 = w.late.f0}, .min = {.f0 = 1},
            .short_ = {.b23 = {.f0 = 1}, .b34 = {.f0 = 1}}, .long_ = {.b23 = {.f0 = 1}, .b34 = {.f0 = 1}},
            .rpt = {.f0 = 1}};
}

/* best::trial::lowest_unset, crates/best/src/trial.rt: Which of the five is the first out of range, from 1. */
static struct Option_u32 best_trial_lowest_unset(struct best_Writing w) {
    struct Result_unit_Refusal t3 = timing_rule_check(best_trial_trial(w));
    if (t3.tag == Result_unit_Refusal_Ok) return (struct Option_u32){.tag = Option_u32_None};
    struct refusal_Refusal refusal = t3.u.Err;
    if (refusal_Refusal_number(refusal) == 1) {
        return (struct Option_u32){.tag = Option_u32_Some, .u.Some = refusal_Refusal_place(refusal)};
    }
    return (struct Option_u32){.tag = Option_u32_None};
}

/* best::windows::shifts_of, crates/best/src/windows.rt */
static struct best_windows_Shifts best_windows_shifts_of(struct best_Writing w) {
    struct timing_Profile p = best_trial_trial(w);
    struct timing_HalfClocks t3 = timing_rule_swing(p);
    struct timing_HalfClocks t4 = timing_rule_advance(p);
    return (struct best_windows_Shifts){.d = t3.f0, .e = t4.f0, .l = timing_rule_delay(p).f0};
}

/* best::windows::has_windows, crates/best/src/windows.rt: Whether any windows are true. */
static bool best_windows_has_windows(struct best_Writing w) {
    struct best_windows_Shifts s = best_windows_shifts_of(w);
    return (w.early.f0 <= w.normal.f0) & (w.normal.f0 <= w.late.f0) & (s.d < w.t1.f0) & (s.l < w.t0.f0);
}

/* best::windows::best_margin, crates/best/src/windows.rt: The largest margin that any windows have. */
static uint16_t best_windows_best_margin(struct best_Writing w) {
    struct best_windows_Shifts s = best_windows_shifts_of(w);
    return core_int_u16_min(w.t1.f0 - s.d - 1, (w.t0.f0 - s.l - 1) / 2);
}

/*
 * best::windows::middle, crates/best/src/windows.rt
 * The bound in the middle between the nearest lengths on its two sides; the lower of two.
 */
static uint16_t best_windows_middle(uint16_t below, uint16_t above) {
    return (below + above + 1) / 2;
}

/*
 * best::windows::centred, crates/best/src/windows.rt
 * Each bound in the middle, Min and Rpt as far out as the margin needs.
 */
static struct timing_Profile best_windows_centred(struct best_Writing w, uint16_t margin) {
    struct best_windows_Shifts s = best_windows_shifts_of(w);
    uint16_t two = w.t1.f0;
    uint16_t three = w.t1.f0 + w.t0.f0;
    uint16_t four = w.t1.f0 + 2 * w.t0.f0;
    uint16_t b23_short = best_windows_middle(two, three + s.e);
    uint16_t b23_long = best_windows_middle(two - s.l, three);
    uint16_t b34_short = best_windows_middle(three + s.d, four + s.e);
    uint16_t b34_long = best_windows_middle(three + s.l, four);
    struct timing_Bounds t24 = {.b23 = {.f0 = b23_long}, .b34 = {.f0 = b34_long}};
    return (struct timing_Profile){.t1 = {.f0 = w.t1.f0}, .t0 = {.f0 = w.t0.f0}, .early = {.f0 = w.early.f0},
            .normal = {.f0 = w.normal.f0}, .late = {.f0 = w.late.f0}, .min = {.f0 = two - s.d - margin},
            .short_ = {.b23 = {.f0 = b23_short}, .b34 = {.f0 = b34_short}}, .long_ = t24,
            .rpt = {.f0 = four + s.d + margin + 1}};
}

/* best::best_windows, crates/best/src/lib.rt: 1, 2; else the profile with the largest margin. */
static struct Result_Best_Refusal best_best_windows(struct best_Writing w) {
    struct Option_u32 t5 = best_trial_lowest_unset(w);
    if (t5.tag == Option_u32_Some) {
        uint32_t which = t5.u.Some;
        return (struct Result_Best_Refusal){.tag = Result_Best_Refusal_Err,
                .u.Err = {.tag = refusal_Refusal_ProfileOutOfRange, .u.ProfileOutOfRange = which}};
    }
    if (best_windows_has_windows(w)) {
        uint16_t margin = best_windows_best_margin(w);
        struct timing_Profile profile = best_windows_centred(w, margin);
        return (struct Result_Best_Refusal){.tag = Result_Best_Refusal_Ok,
                .u.Ok = {.margin = margin, .profile = profile}};
    }
    return (struct Result_Best_Refusal){.tag = Result_Best_Refusal_Err,
            .u.Err = {.tag = refusal_Refusal_ProfileInconsistent}};
}

/* The crate answers */

/* answers::ProfileFromIsmProfile::from, crates/answers/src/lib.rt */
static struct timing_Profile answers_ProfileFromIsmProfile_from(ism_profile given) {
    struct array_u16_11 numbers = {{given.t1, given.t0, given.early, given.normal, given.late, given.min,
            given.b23_short, given.b23_long, given.b34_short, given.b34_long, given.rpt}};
    return timing_ProfileFromRefArrayU16PROFILENUMBERS_from(&numbers);
}

/* answers::IsmAnswer::refused, crates/answers/src/lib.rt: A refusal, by its number and place. */
static ism_answer answers_IsmAnswer_refused(struct refusal_Refusal refusal) {
    uint32_t t2 = refusal_Refusal_number(refusal);
    return (ism_answer){.number = t2, .place = refusal_Refusal_place(refusal), .count = 0, .used = 0, .holds = 0,
            .clearance = 0};
}

/* answers::IsmAnswerFromResultUsizeRefusal::from, crates/answers/src/lib.rt */
static ism_answer answers_IsmAnswerFromResultUsizeRefusal_from(struct Result_u64_Refusal counted) {
    if (counted.tag == Result_u64_Refusal_Ok) {
        return (ism_answer){.number = 0, .place = 0, .count = counted.u.Ok, .used = 0, .holds = 0, .clearance = 0};
    }
    return answers_IsmAnswer_refused(counted.u.Err);
}

/*
 * answers::card::edge_number, crates/answers/src/card.rt
 * Functions, since an impl for u16 would stand where `Edge` and `Kind` do, and these know no numbers of the interface.
 */
static uint16_t answers_card_edge_number(struct limits_side_Edge edge) {
    switch (edge.tag) {
    case limits_side_Edge_Min: return 1;
    case limits_side_Edge_B23: return 2;
    case limits_side_Edge_B34: return 3;
    default: return 4; /* limits_side_Edge_Rpt */
    }
}

/* answers::card::kind_number, crates/answers/src/card.rt */
static uint16_t answers_card_kind_number(struct limits_side_Kind after) {
    switch (after.tag) {
    case limits_side_Kind_Both: return 0;
    case limits_side_Kind_Short: return 1;
    default: return 2; /* limits_side_Kind_Long */
    }
}

/* answers::card::IsmLimitFromLimit::from, crates/answers/src/card.rt */
static ism_limit answers_card_IsmLimitFromLimit_from(struct limits_Limit limit) {
    struct limits_side_Side side = limit.side;
    uint16_t t3 = answers_card_edge_number(side.edge);
    uint16_t t5 = answers_card_kind_number(side.after);
    return (ism_limit){.edge = t3, .after = t5, .above = core_convert_others_U16FromBool_from(side.above),
            .item = limit.item, .interval = limit.interval, .moved = limit.moved};
}

/* answers::card::converted, crates/answers/src/card.rt: As many as are counted, in their places. */
static struct array_answers_card_IsmLimit_10 answers_card_converted(struct array_limits_Limit_10 limits,
        uint64_t count) {
    struct array_answers_card_IsmLimit_10 made = {0};
    uint64_t k = 0;
    uint64_t t7 = core_int_usize_min(count, 10);
    while (k < t7) {
        made.a[k] = answers_card_IsmLimitFromLimit_from(limits.a[k]);
        k++;
    }
    return made;
}

/* answers::card::IsmLimitsFromResultLimitsRefusal::from, crates/answers/src/card.rt */
static ism_limits answers_card_IsmLimitsFromResultLimitsRefusal_from(struct Result_Limits_Refusal given) {
    ism_limits t6;
    if (given.tag == Result_Limits_Refusal_Ok) {
        struct limits_Limits found = given.u.Ok;
        struct array_limits_Limit_10 limits = found.limits;
        struct array_answers_card_IsmLimit_10 made = answers_card_converted(limits, found.count);
        t6.number = 0;
        t6.place = 0;
        t6.count = found.count;
        for (uint64_t each = 0; each < 10; each++) {
            t6.limits[each] = made.a[each];
        }
        return t6;
    }
    struct refusal_Refusal refusal = given.u.Err;
    uint32_t t8 = refusal_Refusal_number(refusal);
    t6.number = t8;
    t6.place = refusal_Refusal_place(refusal);
    t6.count = 0;
    for (uint64_t each = 0; each < 10; each++) {
        t6.limits[each] = (struct array_answers_card_IsmLimit_10){0}.a[each];
    }
    return t6;
}

/* answers::windows::IsmProfileFromProfile::from, crates/answers/src/windows.rt */
static ism_profile answers_windows_IsmProfileFromProfile_from(struct timing_Profile p) {
    return (ism_profile){.t1 = p.t1.f0, .t0 = p.t0.f0, .early = p.early.f0, .normal = p.normal.f0, .late = p.late.f0,
            .min = p.min.f0, .b23_short = p.short_.b23.f0, .b23_long = p.long_.b23.f0, .b34_short = p.short_.b34.f0,
            .b34_long = p.long_.b34.f0, .rpt = p.rpt.f0};
}

/* answers::windows::IsmBestFromResultBestRefusal::from, crates/answers/src/windows.rt */
static ism_best answers_windows_IsmBestFromResultBestRefusal_from(struct Result_Best_Refusal given) {
    if (given.tag == Result_Best_Refusal_Ok) {
        uint64_t t6 = core_convert_U64FromU16_from(given.u.Ok.margin);
        return (ism_best){.number = 0, .place = 0, .margin = t6,
                .profile = answers_windows_IsmProfileFromProfile_from(given.u.Ok.profile)};
    }
    struct refusal_Refusal refusal = given.u.Err;
    uint32_t t8 = refusal_Refusal_number(refusal);
    return (ism_best){.number = t8, .place = refusal_Refusal_place(refusal), .margin = 0,
            .profile = {.t1 = 0, .t0 = 0, .early = 0, .normal = 0, .late = 0, .min = 0, .b23_short = 0, .b23_long = 0,
            .b34_short = 0, .b34_long = 0, .rpt = 0}};
}

/* answers::IsmAnswerFromResultClearUsizeRefusal::from, crates/answers/src/lib.rt */
static ism_answer answers_IsmAnswerFromResultClearUsizeRefusal_from(struct Result_Clear_u64_Refusal given) {
    if (given.tag == Result_Clear_u64_Refusal_Ok) {
        return (ism_answer){.number = 0, .place = 0, .count = given.u.Ok.read, .used = 0, .holds = 0,
                .clearance = core_convert_U32FromU16_from(given.u.Ok.clearance)};
    }
    return answers_IsmAnswer_refused(given.u.Err);
}

/* answers::IsmAnswerFromResultClearFieldRefusal::from, crates/answers/src/lib.rt */
static ism_answer answers_IsmAnswerFromResultClearFieldRefusal_from(struct Result_Clear_Field_Refusal given) {
    if (given.tag == Result_Clear_Field_Refusal_Ok) {
        struct fields_reader_Field read = given.u.Ok.read;
        uint32_t t8 = core_convert_others_U32FromBool_from(read.holds);
        return (ism_answer){.number = 0, .place = 0, .count = read.count, .used = read.used, .holds = t8,
                .clearance = core_convert_U32FromU16_from(given.u.Ok.clearance)};
    }
    return answers_IsmAnswer_refused(given.u.Err);
}

/* answers::slow::IsmCorrectedFromResultCorrectedRefusal::from, crates/answers/src/slow.rt */
static ism_corrected answers_slow_IsmCorrectedFromResultCorrectedRefusal_from(struct Result_Corrected_Refusal given) {
    if (given.tag == Result_Corrected_Refusal_Ok) {
        struct fields_reader_Field read = given.u.Ok.field.read;
        uint32_t t12 = core_convert_others_U32FromBool_from(read.holds);
        return (ism_corrected){.number = 0, .place = 0, .lock = given.u.Ok.lock, .count = read.count, .used = read.used,
                .holds = t12, .clearance = core_convert_U32FromU16_from(given.u.Ok.field.clearance),
                .even = as_int32(given.u.Ok.even), .odd = as_int32(given.u.Ok.odd)};
    }
    struct refusal_Refusal refusal = given.u.Err;
    uint32_t t14 = refusal_Refusal_number(refusal);
    return (ism_corrected){.number = t14, .place = refusal_Refusal_place(refusal), .lock = 0, .count = 0, .used = 0,
            .holds = 0, .clearance = 0, .even = 0, .odd = 0};
}

/* answers::IsmAnswerFromResultSetSizeRefusal::from, crates/answers/src/lib.rt */
static ism_answer answers_IsmAnswerFromResultSetSizeRefusal_from(struct Result_SetSize_Refusal given) {
    if (given.tag == Result_SetSize_Refusal_Ok) {
        return (ism_answer){.number = 0, .place = 0, .count = given.u.Ok.count, .used = given.u.Ok.bytes, .holds = 0,
                .clearance = 0};
    }
    return answers_IsmAnswer_refused(given.u.Err);
}

/* answers::drive::IsmReportRowFromArrayU644::from, crates/answers/src/drive.rt */
static ism_report_row answers_drive_IsmReportRowFromArrayU644_from(struct array_u64_4 numbers) {
    uint64_t count = numbers.a[0];
    uint64_t least = numbers.a[1];
    uint64_t greatest = numbers.a[2];
    uint64_t sum = numbers.a[3];
    return (ism_report_row){.count = count, .least = least, .greatest = greatest, .sum = sum};
}

/* answers::drive::given, crates/answers/src/drive.rt */
static ism_report answers_drive_given(struct Result_unit_Refusal verdict, struct array_u64_4_5 report) {
    struct array_u64_4 narrow = report.a[0];
    struct array_u64_4 two = report.a[1];
    struct array_u64_4 three = report.a[2];
    struct array_u64_4 four = report.a[3];
    struct array_u64_4 wide = report.a[4];
    ism_report_row t21 = answers_drive_IsmReportRowFromArrayU644_from(narrow);
    ism_report_row t22 = answers_drive_IsmReportRowFromArrayU644_from(two);
    ism_report_row t23 = answers_drive_IsmReportRowFromArrayU644_from(three);
    ism_report_row t24 = answers_drive_IsmReportRowFromArrayU644_from(four);
    struct array_answers_drive_IsmReportRow_5 rows =
            {{t21, t22, t23, t24, answers_drive_IsmReportRowFromArrayU644_from(wide)}};
    ism_report t26;
    if (verdict.tag == Result_unit_Refusal_Ok) {
        t26.number = 0;
        t26.place = 0;
        for (uint64_t each = 0; each < 5; each++) {
            t26.rows[each] = rows.a[each];
        }
        return t26;
    }
    struct refusal_Refusal refusal = verdict.u.Err;
    uint32_t t27 = refusal_Refusal_number(refusal);
    t26.number = t27;
    t26.place = refusal_Refusal_place(refusal);
    for (uint64_t each = 0; each < 5; each++) {
        t26.rows[each] = rows.a[each];
    }
    return t26;
}

/* answers::drive::ArrayU644FromIsmReportRow::from, crates/answers/src/drive.rt */
static struct array_u64_4 answers_drive_ArrayU644FromIsmReportRow_from(ism_report_row row) {
    return (struct array_u64_4){{row.count, row.least, row.greatest, row.sum}};
}

/* answers::drive::ReportFromIsmReport::from, crates/answers/src/drive.rt */
static struct array_u64_4_5 answers_drive_ReportFromIsmReport_from(ism_report given) {
    ism_report_row narrow = given.rows[0];
    ism_report_row two = given.rows[1];
    ism_report_row three = given.rows[2];
    ism_report_row four = given.rows[3];
    ism_report_row wide = given.rows[4];
    struct array_u64_4 t18 = answers_drive_ArrayU644FromIsmReportRow_from(narrow);
    struct array_u64_4 t19 = answers_drive_ArrayU644FromIsmReportRow_from(two);
    struct array_u64_4 t20 = answers_drive_ArrayU644FromIsmReportRow_from(three);
    struct array_u64_4 t21 = answers_drive_ArrayU644FromIsmReportRow_from(four);
    return (struct array_u64_4_5){{t18, t19, t20, t21, answers_drive_ArrayU644FromIsmReportRow_from(wide)}};
}

/* The crate ism */

/* ism::version::ism_version, crates/ism/src/version.rt */
static uint32_t ism_version_ism_version(void) {
    return 1501;
}

/*
 * ism::version::ism_interface_9, crates/ism/src/version.rt
 * Its name is what counts: a program asks the linker for the interface that it was compiled against.
 */
static uint32_t ism_version_ism_interface_9(void) {
    return 9;
}

/* ism::ism_margin, crates/ism/src/lib.rt */
static ism_answer ism_ism_margin(ism_profile p) {
    return answers_IsmAnswerFromResultUsizeRefusal_from(lengths_margin(answers_ProfileFromIsmProfile_from(p)));
}

/* ism::card::ism_margin_limits, crates/ism/src/card.rt: 1, 2; else the sides that hold the margin down. */
static ism_limits ism_card_ism_margin_limits(ism_profile p) {
    struct Result_Limits_Refusal t2 = limits_margin_limits(answers_ProfileFromIsmProfile_from(p));
    return answers_card_IsmLimitsFromResultLimitsRefusal_from(t2);
}

/*
 * ism::windows::ism_best_windows, crates/ism/src/windows.rt
 * 1, 2; else the profile with the largest margin that the five numbers allow, and that margin.
 */
static ism_best ism_windows_ism_best_windows(uint16_t t1, uint16_t t0, uint16_t early, uint16_t normal, uint16_t late) {
    struct best_Writing t12 = {.t1 = {.f0 = t1}, .t0 = {.f0 = t0}, .early = {.f0 = early}, .normal = {.f0 = normal},
            .late = {.f0 = late}};
    struct Result_Best_Refusal best = best_best_windows(t12);
    return answers_windows_IsmBestFromResultBestRefusal_from(best);
}

/* ism::ism_class, crates/ism/src/lib.rt */
static ism_answer ism_ism_class(ism_profile p, uint16_t interval, uint32_t two) {
    struct Result_Clear_u64_Refusal t4 =
            clearance_class_number(answers_ProfileFromIsmProfile_from(p), interval, 0 < two);
    return answers_IsmAnswerFromResultClearUsizeRefusal_from(t4);
}

/* ism::ism_write, crates/ism/src/lib.rt */
static ism_answer ism_ism_write(ism_profile p, struct slice_u16 items, struct slice_u16_mut out) {
    struct Result_u64_Refusal counted = codec_writer_write(answers_ProfileFromIsmProfile_from(p), items, out);
    return answers_IsmAnswerFromResultUsizeRefusal_from(counted);
}

/* ism::ism_read, crates/ism/src/lib.rt */
static ism_answer ism_ism_read(ism_profile p, struct slice_u16 intervals, struct slice_u16_mut out) {
    struct Result_Clear_u64_Refusal strip = clearance_read(answers_ProfileFromIsmProfile_from(p), intervals, out);
    return answers_IsmAnswerFromResultClearUsizeRefusal_from(strip);
}

/* ism::disk::ism_find, crates/ism/src/disk.rt */
static ism_answer ism_disk_ism_find(ism_profile p, struct slice_u16 intervals, uint64_t start) {
    struct Result_u64_Refusal t4 = locks_finder_find_lock(answers_ProfileFromIsmProfile_from(p), intervals, start);
    return answers_IsmAnswerFromResultUsizeRefusal_from(t4);
}

/* ism::disk::ism_read_field, crates/ism/src/disk.rt */
static ism_answer ism_disk_ism_read_field(ism_profile p, struct slice_u16 intervals, uint64_t bytes,
        struct slice_u16_mut out) {
    struct Result_Clear_Field_Refusal field =
            clearance_read_field(answers_ProfileFromIsmProfile_from(p), intervals, bytes, out);
    return answers_IsmAnswerFromResultClearFieldRefusal_from(field);
}

/* ism::slow::ism_read_corrected, crates/ism/src/slow.rt */
static ism_corrected ism_slow_ism_read_corrected(ism_profile p, struct slice_u16 intervals, uint64_t start,
        uint64_t bytes, struct slice_u16_mut out) {
    struct Result_Corrected_Refusal corrected =
            speed_reader_read_corrected(answers_ProfileFromIsmProfile_from(p), intervals, start, bytes, out);
    return answers_slow_IsmCorrectedFromResultCorrectedRefusal_from(corrected);
}

/* ism::disk::ism_make_sector, crates/ism/src/disk.rt */
static ism_answer ism_disk_ism_make_sector(uint8_t track, uint8_t side, uint8_t sector, uint8_t code,
        struct slice_u8 bytes, struct slice_u16_mut out) {
    struct Result_u64_Refusal counted = sectors_make_sector(track, side, sector, code, bytes, out);
    return answers_IsmAnswerFromResultUsizeRefusal_from(counted);
}

/* ism::index::ism_index_track, crates/ism/src/index.rt */
static ism_index ism_index_ism_index_track(ism_profile p, struct slice_u16 intervals) {
    return track_index_index_track(answers_ProfileFromIsmProfile_from(p), intervals);
}

/* ism::image::ism_make_image, crates/ism/src/image.rt */
static ism_answer ism_image_ism_make_image(struct slice_u16 items, struct slice_u16_mut out) {
    struct Result_u64_Refusal counted = images_make_make_image(items, out);
    return answers_IsmAnswerFromResultUsizeRefusal_from(counted);
}

/* ism::image::ism_read_image, crates/ism/src/image.rt */
static ism_answer ism_image_ism_read_image(struct slice_u16 words, struct slice_u16_mut out) {
    struct Result_u64_Refusal counted = images_read_read_image(words, out);
    return answers_IsmAnswerFromResultUsizeRefusal_from(counted);
}

/* ism::merging::ism_merge, crates/ism/src/merging.rt */
static ism_answer ism_merging_ism_merge(struct slice_u8 first, struct slice_u8 second, struct slice_u8_mut out) {
    struct Result_SetSize_Refusal merged = merge_merge_sets(first, second, out);
    return answers_IsmAnswerFromResultSetSizeRefusal_from(merged);
}

/* ism::index::ism_read_track, crates/ism/src/index.rt: The set of a track's sectors, for the merge. */
static ism_answer ism_index_ism_read_track(ism_profile p, struct slice_u16 intervals, struct slice_u8_mut set) {
    struct Result_SetSize_Refusal read = track_set_read_track(answers_ProfileFromIsmProfile_from(p), intervals, set);
    return answers_IsmAnswerFromResultSetSizeRefusal_from(read);
}

/* ism::drive::ism_drive_report, crates/ism/src/drive.rt */
static ism_report ism_drive_ism_drive_report(ism_profile p, struct slice_u16 intervals) {
    struct Result_unit_Refusal verdict = report_check_list(answers_ProfileFromIsmProfile_from(p), intervals);
    return answers_drive_given(verdict, report_report_list(answers_ProfileFromIsmProfile_from(p), intervals));
}

/* ism::drive::ism_add_reports, crates/ism/src/drive.rt */
static ism_report ism_drive_ism_add_reports(ism_report a, ism_report b) {
    struct array_u64_4_5 first = answers_drive_ReportFromIsmReport_from(a);
    struct array_u64_4_5 second = answers_drive_ReportFromIsmReport_from(b);
    struct Result_unit_Refusal verdict = report_check_sum(first, second);
    return answers_drive_given(verdict, report_add(first, second));
}

/* ism::queue::ism_fifo_new, crates/ism/src/queue.rt */
static ism_fifo ism_queue_ism_fifo_new(uint16_t mode) {
    return fifo_Fifo_new(mode);
}

/* ism::queue::ism_fifo_put, crates/ism/src/queue.rt */
static ism_fifo_answer ism_queue_ism_fifo_put(ism_fifo queue, uint16_t item) {
    return fifo_Fifo_put(queue, item);
}

/* ism::queue::ism_fifo_chip_put, crates/ism/src/queue.rt */
static ism_fifo_answer ism_queue_ism_fifo_chip_put(ism_fifo queue, uint16_t item) {
    return fifo_Fifo_chip_put(queue, item);
}

/* ism::queue::ism_fifo_take_data, crates/ism/src/queue.rt */
static ism_fifo_answer ism_queue_ism_fifo_take_data(ism_fifo queue) {
    return fifo_Fifo_take_data(queue);
}

/* ism::queue::ism_fifo_take_mark, crates/ism/src/queue.rt */
static ism_fifo_answer ism_queue_ism_fifo_take_mark(ism_fifo queue) {
    return fifo_Fifo_take_mark(queue);
}

/* ism::queue::ism_fifo_chip_take, crates/ism/src/queue.rt */
static ism_fifo_answer ism_queue_ism_fifo_chip_take(ism_fifo queue) {
    return fifo_Fifo_chip_take(queue);
}

/* ism::queue::ism_fifo_read_error, crates/ism/src/queue.rt */
static ism_fifo_answer ism_queue_ism_fifo_read_error(ism_fifo queue) {
    return fifo_Fifo_read_error(queue);
}

/* The entries that ism.h declares. A slice of no elements points to something, as the caller's may be null. */

uint32_t ism_version(void) {
    return ism_version_ism_version();
}

uint32_t ism_interface_9(void) {
    return ism_version_ism_interface_9();
}

ism_answer ism_margin(ism_profile profile) {
    return ism_ism_margin(profile);
}

ism_limits ism_margin_limits(ism_profile profile) {
    return ism_card_ism_margin_limits(profile);
}

ism_best ism_best_windows(uint16_t t1, uint16_t t0, uint16_t early, uint16_t normal, uint16_t late) {
    return ism_windows_ism_best_windows(t1, t0, early, normal, late);
}

ism_answer ism_class(ism_profile profile, uint16_t interval, uint32_t after_short) {
    return ism_ism_class(profile, interval, after_short);
}

ism_answer ism_write(ism_profile profile, const uint16_t *items, size_t n, uint16_t *out, size_t room) {
    uint16_t none_u16 = 0;
    return ism_ism_write(profile, slice_u16(n == 0 ? &none_u16 : items, n),
            slice_u16_mut(room == 0 ? &none_u16 : out, room));
}

ism_answer ism_read(ism_profile profile, const uint16_t *intervals, size_t n, uint16_t *out, size_t room) {
    uint16_t none_u16 = 0;
    return ism_ism_read(profile, slice_u16(n == 0 ? &none_u16 : intervals, n),
            slice_u16_mut(room == 0 ? &none_u16 : out, room));
}

ism_answer ism_find(ism_profile profile, const uint16_t *intervals, size_t n, uint64_t start) {
    uint16_t none_u16 = 0;
    return ism_disk_ism_find(profile, slice_u16(n == 0 ? &none_u16 : intervals, n), start);
}

ism_answer ism_read_field(ism_profile profile, const uint16_t *intervals, size_t n, uint64_t bytes, uint16_t *out,
        size_t room) {
    uint16_t none_u16 = 0;
    return ism_disk_ism_read_field(profile, slice_u16(n == 0 ? &none_u16 : intervals, n), bytes,
            slice_u16_mut(room == 0 ? &none_u16 : out, room));
}

ism_corrected ism_read_corrected(ism_profile profile, const uint16_t *intervals, size_t n, uint64_t start,
        uint64_t bytes, uint16_t *out, size_t room) {
    uint16_t none_u16 = 0;
    return ism_slow_ism_read_corrected(profile, slice_u16(n == 0 ? &none_u16 : intervals, n), start, bytes,
            slice_u16_mut(room == 0 ? &none_u16 : out, room));
}

ism_answer ism_make_sector(uint8_t track, uint8_t side, uint8_t sector, uint8_t code, const uint8_t *data, size_t n,
        uint16_t *out, size_t room) {
    uint8_t none_u8 = 0;
    uint16_t none_u16 = 0;
    return ism_disk_ism_make_sector(track, side, sector, code, slice_u8(n == 0 ? &none_u8 : data, n),
            slice_u16_mut(room == 0 ? &none_u16 : out, room));
}

ism_index ism_index_track(ism_profile profile, const uint16_t *intervals, size_t n) {
    uint16_t none_u16 = 0;
    return ism_index_ism_index_track(profile, slice_u16(n == 0 ? &none_u16 : intervals, n));
}

ism_answer ism_make_image(const uint16_t *items, size_t n, uint16_t *words, size_t room) {
    uint16_t none_u16 = 0;
    return ism_image_ism_make_image(slice_u16(n == 0 ? &none_u16 : items, n),
            slice_u16_mut(room == 0 ? &none_u16 : words, room));
}

ism_answer ism_read_image(const uint16_t *words, size_t n, uint16_t *items, size_t room) {
    uint16_t none_u16 = 0;
    return ism_image_ism_read_image(slice_u16(n == 0 ? &none_u16 : words, n),
            slice_u16_mut(room == 0 ? &none_u16 : items, room));
}

ism_answer ism_merge(const uint8_t *first, size_t n, const uint8_t *second, size_t m, uint8_t *out, size_t room) {
    uint8_t none_u8 = 0;
    return ism_merging_ism_merge(slice_u8(n == 0 ? &none_u8 : first, n), slice_u8(m == 0 ? &none_u8 : second, m),
            slice_u8_mut(room == 0 ? &none_u8 : out, room));
}

ism_answer ism_read_track(ism_profile profile, const uint16_t *intervals, size_t n, uint8_t *set, size_t room) {
    uint16_t none_u16 = 0;
    uint8_t none_u8 = 0;
    return ism_index_ism_read_track(profile, slice_u16(n == 0 ? &none_u16 : intervals, n),
            slice_u8_mut(room == 0 ? &none_u8 : set, room));
}

ism_report ism_drive_report(ism_profile profile, const uint16_t *intervals, size_t n) {
    uint16_t none_u16 = 0;
    return ism_drive_ism_drive_report(profile, slice_u16(n == 0 ? &none_u16 : intervals, n));
}

ism_report ism_add_reports(ism_report a, ism_report b) {
    return ism_drive_ism_add_reports(a, b);
}

ism_fifo ism_fifo_new(uint16_t mode) {
    return ism_queue_ism_fifo_new(mode);
}

ism_fifo_answer ism_fifo_put(ism_fifo fifo, uint16_t item) {
    return ism_queue_ism_fifo_put(fifo, item);
}

ism_fifo_answer ism_fifo_chip_put(ism_fifo fifo, uint16_t item) {
    return ism_queue_ism_fifo_chip_put(fifo, item);
}

ism_fifo_answer ism_fifo_take_data(ism_fifo fifo) {
    return ism_queue_ism_fifo_take_data(fifo);
}

ism_fifo_answer ism_fifo_take_mark(ism_fifo fifo) {
    return ism_queue_ism_fifo_take_mark(fifo);
}

ism_fifo_answer ism_fifo_chip_take(ism_fifo fifo) {
    return ism_queue_ism_fifo_chip_take(fifo);
}

ism_fifo_answer ism_fifo_read_error(ism_fifo fifo) {
    return ism_queue_ism_fifo_read_error(fifo);
}

//! Comparison of the library and of the strip program with an implementation written from the paper.
//!
//!     outside                  the library
//!     outside strip [PROGRAM]  the strip program, by default the one in ISM_STRIP
//!     outside crc              CRC of each line of hexadecimal digits on standard input: paper, library
//!
//! The last line is a count, and the exit status 1 tells of a disagreement.

mod call;
mod cases;
mod compare;
mod crc_lines;
mod paper;
mod random;
mod strip_program;

use std::process::exit;

use cases::{faults, fields, fifo, limits, margins, profiles, sectors, settled, strips};
use compare::Compare;

fn main() {
    let arguments: Vec<String> = std::env::args().skip(1).collect();
    match arguments.iter().map(String::as_str).collect::<Vec<_>>()[..] {
        [] => library(),
        ["crc"] => crc_lines::answer(),
        ["strip"] => match std::env::var("ISM_STRIP") {
            Ok(program) => strip_program::compare(&program),
            Err(_) => usage("no program named: give it as argument or in ISM_STRIP"),
        },
        ["strip", program] => strip_program::compare(program),
        _ => usage("usage: outside [crc | strip [PROGRAM]]"),
    }
}

fn usage(text: &str) -> ! {
    eprintln!("outside: {text}");
    exit(2);
}

fn library() {
    let mut compare = Compare::new();
    compare.group("settled by the paper", 0x01, settled::by_the_paper);
    compare.group("published check values", 0x02, settled::check_values);
    compare.group("examples of the chip", 0x03, settled::by_the_chip);
    compare.group("null pointers of length 0", 0x04, limits::null_pointers);
    compare.group("version", 0x05, settled::version);
    compare.group("profile ranges", 0x10, profiles::ranges);
    compare.group("random profiles", 0x11, profiles::random_profiles);
    compare.group("classes", 0x12, profiles::classes);
    compare.group("cells written", 0x13, profiles::cells_written);
    compare.group("pairs: every side of an edge", 0x14, cases::pairs::every_side);
    compare.group("pairs: numbers out of range", 0x15, cases::pairs::out_of_range);
    compare.group("pairs: equal, by the old rules", 0x16, cases::pairs::equal_pairs);
    compare.group("pairs: what they are for", 0x17, cases::pairs::larger_margin);
    compare.group("pairs: search from every start", 0x18, cases::pairs::every_start);
    compare.group("pairs: searches by hand", 0x19, cases::pairs::searches_by_hand);
    compare.group("held down: by hand", 0x1A, cases::held_down::by_hand);
    compare.group("held down: every side", 0x1B, cases::held_down::every_side);
    compare.group("held down: every tie", 0x1C, cases::held_down::every_tie);
    compare.group("held down: random profiles", 0x1D, cases::held_down::random_profiles);
    compare.group("held down: evidence", 0x1E, cases::held_down::evidence);
    compare.group("held down: longer lists", 0x1F, cases::held_down::longer_lists);
    compare.group("held down: the drawing", 0x23, cases::held_down::drawing);
    compare.group("best windows: by hand", 0x24, cases::best::by_hand);
    compare.group("best windows: small drives", 0x25, cases::best::every_small_drive);
    compare.group("best windows: every profile", 0x26, cases::best::every_profile);
    compare.group("best windows: out of range", 0x27, cases::best::out_of_range);
    compare.group("best windows: random drives", 0x28, cases::best::random_drives);
    compare.group("best windows: pairs", 0x29, cases::best::pairs);
    compare.group("every list up to two items", 0x20, strips::every_short_list);
    compare.group("every number as an item", 0x21, strips::every_number);
    compare.group("random lists", 0x22, strips::random_lists);
    compare.group("every row of up to ten classes", 0x30, strips::every_short_stream);
    compare.group("damaged streams", 0x31, strips::damaged_streams);
    compare.group("random classes", 0x32, strips::random_classes);
    compare.group("images: published words", 0x33, cases::bit_images::published);
    compare.group("images: every word", 0x34, cases::bit_images::every_word);
    compare.group("images: every item and pair", 0x35, cases::bit_images::every_item);
    compare.group("images: limits", 0x36, cases::bit_images::limits);
    compare.group("images: faults together", 0x37, cases::bit_images::faults);
    compare.group("images: random", 0x38, cases::bit_images::random_images);
    compare.group("images: cells", 0x39, cases::bit_images::cells);
    compare.group("moved within the margin", 0x40, margins::within_margin);
    compare.group("moved beyond the margin", 0x41, margins::beyond_margin);
    compare.group("no stretch: short lists", 0x42, cases::stretch::every_short_list);
    compare.group("no stretch: random lists", 0x43, cases::stretch::random_lists);
    compare.group("no stretch: longest lists", 0x44, cases::stretch::longest);
    compare.group("clearance: by hand", 0x45, cases::clearances::by_hand);
    compare.group("clearance: used intervals", 0x46, cases::clearances::used_intervals);
    compare.group("clearance: changed strips", 0x47, cases::clearances::changed_strips);
    compare.group("clearance: exactly the margin", 0x48, cases::clearances::exactly_the_margin);
    compare.group("clearance: changed sectors", 0x49, cases::clearances::changed_sectors);
    compare.group("finder", 0x50, fields::finder);
    compare.group("tracks", 0x51, fields::tracks);
    compare.group("fields", 0x52, fields::fields);
    compare.group("locks: page of raised dots", 0x53, cases::locks::full_page);
    compare.group("locks: sector of raised dots", 0x54, cases::locks::full_sector);
    compare.group("locks: every end of a run", 0x55, cases::locks::every_tail);
    compare.group("locks: data alone", 0x56, cases::locks::data_alone);
    compare.group("locks: data from every start", 0x58, cases::locks::data_from_every_start);
    compare.group("locks: marks", 0x57, cases::locks::marks);
    compare.group("every length code", 0x60, sectors::every_code);
    compare.group("codes with their own length", 0x63, sectors::own_length);
    compare.group("code 0 made no more", 0x64, sectors::code_0);
    compare.group("sectors there and back", 0x61, sectors::there_and_back);
    compare.group("sectors within the margin", 0x62, sectors::found_within_margin);
    compare.group("FIFO states", 0x70, fifo::every_state);
    compare.group("FIFO rows", 0x71, fifo::rows);
    compare.group("report: figures by hand", 0x72, cases::reports::by_hand);
    compare.group("report: limits", 0x73, cases::reports::limits);
    compare.group("report: faults together", 0x74, cases::reports::faults);
    compare.group("report: random lists", 0x75, cases::reports::random_lists);
    compare.group("report: lists joined", 0x76, cases::reports::joined);
    compare.group("report: an afternoon", 0x77, cases::reports::afternoon);
    compare.group("report: sums about 2^64", 0x78, cases::reports::overflow);
    compare.group("report: rows passed over", 0x79, cases::reports::passed_over);
    compare.group("report: random rows", 0x7A, cases::reports::random_rows);
    compare.group("limits of the writer", 0x80, limits::written);
    compare.group("limits of the strip reader", 0x81, limits::read);
    compare.group("limits of the field reader", 0x82, limits::field);
    compare.group("limits of the finder", 0x83, limits::finder);
    compare.group("faults together: writer", 0x90, faults::writer);
    compare.group("faults together: strip reader", 0x91, faults::reader);
    compare.group("faults together: finder", 0x92, faults::finder);
    compare.group("faults together: field reader", 0x93, faults::field);
    compare.group("faults together: sector maker", 0x94, faults::maker);
    compare.group("a fault at each place", 0x95, faults::at_each_place);
    compare.group("long lists: written", 0xD0, cases::long_lists::written);
    compare.group("long lists: images", 0xD1, cases::long_lists::images);
    compare.group("long lists: strips", 0xD2, cases::long_lists::read);
    compare.group("long lists: fields", 0xD3, cases::long_lists::fields);
    compare.group("long lists: leads", 0xD4, cases::long_lists::leads);
    compare.group("long lists: reports", 0xD5, cases::long_lists::reports);
    compare.group("long lists: searches", 0xD6, cases::long_lists::searches);
    compare.group("slow drives: by hand", 0xE0, cases::slow_drives::by_hand);
    compare.group("slow drives: limits of speed", 0xE1, cases::slow_drives::limits);
    compare.group("slow drives: faults together", 0xE2, cases::slow_drives::faults);
    compare.group("slow drives: tracks", 0xE3, cases::slow_drives::tracks);
    compare.group("slow drives: random lists", 0xE4, cases::slow_drives::random_lists);
    compare.group("slow drives: nominal speed", 0xE5, cases::slow_drives::nominal);
    compare.group("slow drives: speed drops out", 0xE6, cases::slow_drives::speed_drops_out);
    compare.group("slow drives: every length", 0xE7, cases::slow_drives::every_length);
    compare.group("merge: sets by hand", 0xB0, cases::merges::by_hand);
    compare.group("merge: every choice of a copy", 0xB1, cases::merges::every_choice);
    compare.group("merge: every size", 0xB2, cases::merges::every_size);
    compare.group("merge: largest sets", 0xB3, cases::merges::largest);
    compare.group("merge: one bit apart", 0xB7, cases::merges::one_bit_apart);
    compare.group("merge: misfit sectors", 0xB4, cases::merges::misfits);
    compare.group("merge: faults together", 0xB5, cases::merges::faults);
    compare.group("merge: random sets", 0xB6, cases::merges::random_sets);
    compare.group("index: sectors told", 0xC0, cases::indexes::told::sectors);
    compare.group("index: data that does not read", 0xCD, cases::indexes::told::unreadable);
    compare.group("index: fields that are no ID", 0xC1, cases::indexes::told::no_ids);
    compare.group("index: sizes told", 0xC2, cases::indexes::told::sizes);
    compare.group("index: search after the ID", 0xC3, cases::indexes::told::search_after_id);
    compare.group("index: search after a lock", 0xCE, cases::indexes::told::search_after_lock);
    compare.group("index: searches begun anew", 0xCF, cases::indexes::told::searches_anew);
    compare.group("index: every interval", 0xC4, cases::indexes::every_interval);
    compare.group("index: counts", 0xC5, cases::indexes::counts);
    compare.group("index: the 33rd entry", 0xC6, cases::indexes::thirty_third);
    compare.group("index: faults together", 0xC7, cases::indexes::faults);
    compare.group("index: random fields", 0xC8, cases::indexes::random_fields);
    compare.group("index: random classes", 0xC9, cases::indexes::random_classes);
    compare.group("index: damaged sectors", 0xCA, cases::indexes::damaged_sectors);
    compare.group("index: made tracks", 0xCB, cases::indexes::made_tracks);
    compare.group("index: distances of the locks", 0xBF, cases::indexes::distances);
    compare.group("index: long tracks", 0xCC, cases::indexes::long_tracks);
    compare.group("track set: told", 0x1A4, cases::track_sets::told);
    compare.group("track set: rooms", 0x1A5, cases::track_sets::rooms);
    compare.group("track set: faults together", 0x1A6, cases::track_sets::faults);
    compare.group("track set: random fields", 0x1A7, cases::track_sets::random_fields);
    compare.group("track set: made tracks merged", 0x1A8, cases::track_sets::made_tracks);
    compare.group("index: every order of few numbers", 0x1A0, cases::indexes::order::few_numbers);
    compare.group("index: many numbers in order", 0x1A1, cases::indexes::order::many_numbers);
    compare.group("index: crowded before the order", 0x1A2, cases::indexes::order::crowded_before);
    compare.group("index: what does not decide the order", 0x1A3, cases::indexes::order::other_bytes);
    compare.group("old disks moved over", 0xD0, cases::old_disks::moved_over);
    compare.group("pages: by hand", 0xE0, cases::pages::by_hand);
    compare.group("pages: every cell", 0xE1, cases::pages::every_cell);
    compare.group("pages: there and back", 0xE2, cases::pages::there_and_back);
    compare.group("pages: limits", 0xE3, cases::pages::limits);
    compare.group("pages: each page lost or soiled", 0xE4, cases::pages::each_page);
    compare.group("pages: faults together", 0xE5, cases::pages::faults);
    compare.group("pages: random sets", 0xE6, cases::pages::random_sets);
    check_coverage(&compare);
    println!("outside: {} cases agree", compare.total());
}

/// Stops if some answer of some function was never seen: the cases would then say nothing about it.
fn check_coverage(compare: &Compare) {
    let orders: &[(&str, &[u32])] = &[
        ("ism_margin", &[0, 1, 2]),
        ("ism_margin_limits", &[0, 1, 2]),
        ("ism_best_windows", &[0, 1, 2]),
        ("ism_class", &[0, 1, 2]),
        ("ism_drive_report", &[0, 1, 2, 4]),
        ("ism_add_reports", &[0, 4]),
        ("ism_write", &[0, 1, 2, 4, 3, 9]),
        ("ism_read", &[0, 1, 2, 4, 5, 6, 7, 8, 9]),
        ("ism_make_image", &[0, 4, 3, 9]),
        ("ism_read_image", &[0, 4, 16, 9]),
        ("ism_find", &[0, 1, 2, 10]),
        ("ism_read_field", &[0, 1, 2, 12, 5, 6, 11, 8, 9]),
        ("ism_read_corrected", &[0, 1, 2, 10, 18, 12, 5, 6, 11, 8, 9]),
        ("ism_make_sector", &[0, 13, 9]),
        ("ism_merge", &[0, 13, 15, 17, 9]),
        ("ism_index_track", &[0, 1, 2, 15]),
        ("ism_read_track", &[0, 1, 2, 15, 9]),
        ("ism_fifo", &[0, 3]),
        ("ism_read_pages", &[0, 12, 13, 15, 17, 19, 20, 9]),
        ("ism_make_pages", &[0, 12, 13, 9]),
    ];
    println!("answers seen, refusal number and times (0 is acceptance):");
    for (name, numbers) in orders.iter().copied() {
        let counts: Vec<String> = numbers.iter().map(|n| format!("{n}: {}", compare.seen(name, *n))).collect();
        println!("  {name:17} {}", counts.join("  "));
        if numbers.iter().any(|n| compare.seen(name, *n) < 20) {
            println!("outside: some answer of {name} was seen fewer than 20 times");
            exit(1);
        }
    }
}

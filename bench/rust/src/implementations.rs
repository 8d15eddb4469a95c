//! The implementations behind one set of function pointers: the library, the library as C, and C of each compiler and
//! Rust, careful and at their limit.

use bench::careful::*;
use bench::plain::*;
use ism::sys::{Answer, Corrected, Fifo, FifoAnswer, Index, Profile, Report};
use ism_page::sys::{ism_make_pages, ism_read_pages, Pages};

/// Track, side, sector, length code.
pub type Id = [u8; 4];

/// The corrected reader: list, start, bytes, output.
pub type ReadCorrected = fn(Profile, &[u16], u64, u64, &mut [u16]) -> Corrected;

/// What kind of version one is; the best of a kind counts.
#[derive(Clone, Copy, PartialEq, Eq)]
pub enum Kind {
    Library,
    /// the library as C, portable/ism.c
    Portable,
    /// C at its limit
    PlainC,
    /// C without vector tricks and tables: writer, readers, finder, index and pages alone
    CarefulC,
    /// the same in Rust
    CarefulRust,
    /// Rust at its limit
    PlainRust,
}

impl Kind {
    pub fn word(self) -> &'static str {
        match self {
            Kind::Library => "library",
            Kind::Portable => "portable",
            Kind::PlainC => "plain-c",
            Kind::CarefulC => "careful-c",
            Kind::CarefulRust => "careful-rust",
            Kind::PlainRust => "plain-rust",
        }
    }

    pub fn is_careful(self) -> bool {
        matches!(self, Kind::CarefulC | Kind::CarefulRust)
    }
}

pub struct Implementation {
    pub kind: Kind,
    pub name: &'static str,
    pub margin: fn(Profile) -> Answer,
    pub class: fn(Profile, u16, u32) -> Answer,
    pub write: fn(Profile, &[u16], &mut [u16]) -> Answer,
    pub read: fn(Profile, &[u16], &mut [u16]) -> Answer,
    pub find: fn(Profile, &[u16], u64) -> Answer,
    pub read_field: fn(Profile, &[u16], u64, &mut [u16]) -> Answer,
    /// the library and careful C alone have it
    pub read_corrected: Option<ReadCorrected>,
    pub make_sector: fn(Id, &[u8], &mut [u16]) -> Answer,
    pub make_image: fn(&[u16], &mut [u16]) -> Answer,
    pub read_image: fn(&[u16], &mut [u16]) -> Answer,
    pub merge: fn(&[u8], &[u8], &mut [u8]) -> Answer,
    pub index_track: fn(Profile, &[u16]) -> Index,
    pub read_track: fn(Profile, &[u16], &mut [u8]) -> Answer,
    pub read_pages: fn(&[u8], u64, &mut [u8]) -> Pages,
    pub make_pages: fn(&[u8], u64, &mut [u8]) -> Answer,
    pub drive_report: fn(Profile, &[u16]) -> Report,
    pub add_reports: fn(Report, Report) -> Report,
    /// A FIFO operation by its number, in the order of `ism.h`.
    pub fifo: fn(u8, Fifo, u16) -> FifoAnswer,
}

/// FIFO operations behind the making of one, which has the number 0.
pub const FIFO_OPERATIONS: u8 = 7;

fn made(next: Fifo) -> FifoAnswer {
    FifoAnswer { number: 0, place: 0, item: 0, next }
}

/// A module with the functions of `ism.h` under another prefix, and the implementation that they are. Each pointer
/// comes with the length of its slice. Those of `ism_page.h` are the careful Rust's, and no task measures that.
macro_rules! c_interface {
    ($module:ident, $prefix:literal) => {
        mod $module {
            use super::{careful_rust_make_pages, careful_rust_read_pages, made};
            use super::{Answer, Fifo, FifoAnswer, Implementation, Index, Kind, Profile, Report};

            extern "C" {
                #[link_name = concat!($prefix, "margin")]
                fn margin(p: Profile) -> Answer;
                #[link_name = concat!($prefix, "class")]
                fn class(p: Profile, interval: u16, after_short: u32) -> Answer;
                #[link_name = concat!($prefix, "write")]
                fn write(p: Profile, items: *const u16, n: usize, out: *mut u16, room: usize) -> Answer;
                #[link_name = concat!($prefix, "read")]
                fn read(p: Profile, list: *const u16, n: usize, out: *mut u16, room: usize) -> Answer;
                #[link_name = concat!($prefix, "find")]
                fn find(p: Profile, list: *const u16, n: usize, start: u64) -> Answer;
                #[link_name = concat!($prefix, "read_field")]
                fn read_field(p: Profile, list: *const u16, n: usize, bytes: u64, out: *mut u16, room: usize)
                    -> Answer;
                #[link_name = concat!($prefix, "make_sector")]
                fn make_sector(
                    track: u8,
                    side: u8,
                    sector: u8,
                    code: u8,
                    data: *const u8,
                    n: usize,
                    out: *mut u16,
                    room: usize,
                ) -> Answer;
                #[link_name = concat!($prefix, "make_image")]
                fn make_image(items: *const u16, n: usize, words: *mut u16, room: usize) -> Answer;
                #[link_name = concat!($prefix, "read_image")]
                fn read_image(words: *const u16, n: usize, items: *mut u16, room: usize) -> Answer;
                #[link_name = concat!($prefix, "merge")]
                fn merge(first: *const u8, n: usize, second: *const u8, m: usize, out: *mut u8, room: usize) -> Answer;
                #[link_name = concat!($prefix, "index_track")]
                fn index_track(p: Profile, list: *const u16, n: usize) -> Index;
                #[link_name = concat!($prefix, "read_track")]
                fn read_track(p: Profile, list: *const u16, n: usize, set: *mut u8, room: usize) -> Answer;
                #[link_name = concat!($prefix, "drive_report")]
                fn drive_report(p: Profile, list: *const u16, n: usize) -> Report;
                #[link_name = concat!($prefix, "add_reports")]
                fn add_reports(a: Report, b: Report) -> Report;
                #[link_name = concat!($prefix, "fifo_new")]
                fn fifo_new(mode: u16) -> Fifo;
                #[link_name = concat!($prefix, "fifo_put")]
                fn fifo_put(fifo: Fifo, item: u16) -> FifoAnswer;
                #[link_name = concat!($prefix, "fifo_chip_put")]
                fn fifo_chip_put(fifo: Fifo, item: u16) -> FifoAnswer;
                #[link_name = concat!($prefix, "fifo_take_data")]
                fn fifo_take_data(fifo: Fifo) -> FifoAnswer;
                #[link_name = concat!($prefix, "fifo_take_mark")]
                fn fifo_take_mark(fifo: Fifo) -> FifoAnswer;
                #[link_name = concat!($prefix, "fifo_chip_take")]
                fn fifo_chip_take(fifo: Fifo) -> FifoAnswer;
                #[link_name = concat!($prefix, "fifo_read_error")]
                fn fifo_read_error(fifo: Fifo) -> FifoAnswer;
            }

            pub fn implementation(kind: Kind, name: &'static str) -> Implementation {
                Implementation {
                    kind,
                    name,
                    margin: |p| unsafe { margin(p) },
                    class: |p, interval, after_short| unsafe { class(p, interval, after_short) },
                    write: |p, list, out| unsafe { write(p, list.as_ptr(), list.len(), out.as_mut_ptr(), out.len()) },
                    read: |p, list, out| unsafe { read(p, list.as_ptr(), list.len(), out.as_mut_ptr(), out.len()) },
                    find: |p, list, start| unsafe { find(p, list.as_ptr(), list.len(), start) },
                    read_field: |p, list, n, out| unsafe {
                        read_field(p, list.as_ptr(), list.len(), n, out.as_mut_ptr(), out.len())
                    },
                    read_corrected: None,
                    make_sector: |[track, side, sector, code], data, out| unsafe {
                        make_sector(track, side, sector, code, data.as_ptr(), data.len(), out.as_mut_ptr(), out.len())
                    },
                    make_image: |list, out| unsafe {
                        make_image(list.as_ptr(), list.len(), out.as_mut_ptr(), out.len())
                    },
                    read_image: |list, out| unsafe {
                        read_image(list.as_ptr(), list.len(), out.as_mut_ptr(), out.len())
                    },
                    merge: |a, b, out| unsafe {
                        merge(a.as_ptr(), a.len(), b.as_ptr(), b.len(), out.as_mut_ptr(), out.len())
                    },
                    index_track: |p, list| unsafe { index_track(p, list.as_ptr(), list.len()) },
                    read_track: |p, list, set| unsafe {
                        read_track(p, list.as_ptr(), list.len(), set.as_mut_ptr(), set.len())
                    },
                    read_pages: careful_rust_read_pages,
                    make_pages: careful_rust_make_pages,
                    drive_report: |p, list| unsafe { drive_report(p, list.as_ptr(), list.len()) },
                    add_reports: |a, b| unsafe { add_reports(a, b) },
                    fifo: |operation, fifo, item| unsafe {
                        match operation {
                            0 => made(fifo_new(fifo.mode)),
                            1 => fifo_put(fifo, item),
                            2 => fifo_chip_put(fifo, item),
                            3 => fifo_take_data(fifo),
                            4 => fifo_take_mark(fifo),
                            5 => fifo_chip_take(fifo),
                            _ => fifo_read_error(fifo),
                        }
                    },
                }
            }
        }
    };
}

c_interface!(library, "ism_");

c_interface!(portable_gcc_o2, "portable_gcc_o2_");
c_interface!(portable_gcc_o3, "portable_gcc_o3_");
c_interface!(portable_clang_o2, "portable_clang_o2_");
c_interface!(portable_clang_o3, "portable_clang_o3_");

c_interface!(gcc_o2, "plain_gcc_o2_");
c_interface!(gcc_o3, "plain_gcc_o3_");
c_interface!(clang_o2, "plain_clang_o2_");
c_interface!(clang_o3, "plain_clang_o3_");

fn rust_fifo(operation: u8, fifo: Fifo, item: u16) -> FifoAnswer {
    match operation {
        0 => made(plain_rust_fifo_new(fifo.mode)),
        1 => plain_rust_fifo_put(fifo, item),
        2 => plain_rust_fifo_chip_put(fifo, item),
        3 => plain_rust_fifo_take_data(fifo),
        4 => plain_rust_fifo_take_mark(fifo),
        5 => plain_rust_fifo_chip_take(fifo),
        _ => plain_rust_fifo_read_error(fifo),
    }
}

/// The plain Rust.
const RUST: Implementation = Implementation {
    kind: Kind::PlainRust,
    name: "rust",
    margin: plain_rust_margin,
    class: plain_rust_class,
    write: plain_rust_write,
    read: plain_rust_read,
    find: plain_rust_find,
    read_field: plain_rust_read_field,
    read_corrected: None,
    make_sector: plain_rust_make_sector,
    make_image: plain_rust_make_image,
    read_image: plain_rust_read_image,
    merge: plain_rust_merge,
    index_track: plain_rust_index_track,
    read_track: plain_rust_read_track,
    read_pages: careful_rust_read_pages,
    make_pages: careful_rust_make_pages,
    drive_report: plain_rust_drive_report,
    add_reports: |a, b| plain_rust_add_reports(&a, &b),
    fifo: rust_fifo,
};

/// A careful C. What it does not have is the plain Rust's, and no task measures that.
macro_rules! careful {
    ($module:ident, $prefix:literal, $name:literal) => {
        mod $module {
            use super::{Answer, Corrected, Implementation, Index, Kind, Pages, Profile, RUST};

            extern "C" {
                #[link_name = concat!($prefix, "margin")]
                fn margin(p: Profile) -> Answer;
                #[link_name = concat!($prefix, "class")]
                fn class(p: Profile, interval: u16, after_short: u32) -> Answer;
                #[link_name = concat!($prefix, "write")]
                fn write(p: Profile, items: *const u16, n: usize, out: *mut u16, room: usize) -> Answer;
                #[link_name = concat!($prefix, "read")]
                fn read(p: Profile, list: *const u16, n: usize, out: *mut u16, room: usize) -> Answer;
                #[link_name = concat!($prefix, "find")]
                fn find(p: Profile, list: *const u16, n: usize, start: u64) -> Answer;
                #[link_name = concat!($prefix, "read_field")]
                fn read_field(p: Profile, list: *const u16, n: usize, bytes: u64, out: *mut u16, room: usize)
                    -> Answer;
                #[link_name = concat!($prefix, "read_corrected")]
                fn read_corrected(
                    p: Profile,
                    list: *const u16,
                    n: usize,
                    start: u64,
                    bytes: u64,
                    out: *mut u16,
                    room: usize,
                ) -> Corrected;
                #[link_name = concat!($prefix, "index_track")]
                fn index_track(p: Profile, list: *const u16, n: usize) -> Index;
                #[link_name = concat!($prefix, "read_track")]
                fn read_track(p: Profile, list: *const u16, n: usize, set: *mut u8, room: usize) -> Answer;
                #[link_name = concat!($prefix, "read_pages")]
                fn read_pages(set: *const u8, n: usize, pages: u64, cells: *mut u8, room: usize) -> Pages;
                #[link_name = concat!($prefix, "make_pages")]
                fn make_pages(cells: *const u8, n: usize, pages: u64, set: *mut u8, room: usize) -> Answer;
            }

            /// Each pointer comes with the length of its slice.
            pub const IMPLEMENTATION: Implementation = Implementation {
                kind: Kind::CarefulC,
                name: $name,
                margin: |p| unsafe { margin(p) },
                class: |p, interval, after_short| unsafe { class(p, interval, after_short) },
                write: |p, list, out| unsafe { write(p, list.as_ptr(), list.len(), out.as_mut_ptr(), out.len()) },
                read: |p, list, out| unsafe { read(p, list.as_ptr(), list.len(), out.as_mut_ptr(), out.len()) },
                find: |p, list, start| unsafe { find(p, list.as_ptr(), list.len(), start) },
                read_field: |p, list, n, out| unsafe {
                    read_field(p, list.as_ptr(), list.len(), n, out.as_mut_ptr(), out.len())
                },
                read_corrected: Some(|p, list, start, n, out| unsafe {
                    read_corrected(p, list.as_ptr(), list.len(), start, n, out.as_mut_ptr(), out.len())
                }),
                index_track: |p, list| unsafe { index_track(p, list.as_ptr(), list.len()) },
                read_track: |p, list, set| unsafe {
                    read_track(p, list.as_ptr(), list.len(), set.as_mut_ptr(), set.len())
                },
                read_pages: |set, pages, out| unsafe {
                    read_pages(set.as_ptr(), set.len(), pages, out.as_mut_ptr(), out.len())
                },
                make_pages: |cells, pages, out| unsafe {
                    make_pages(cells.as_ptr(), cells.len(), pages, out.as_mut_ptr(), out.len())
                },
                ..RUST
            };
        }
    };
}

careful!(careful_gcc_o2, "careful_gcc_o2_", "careful-gcc-O2");
careful!(careful_gcc_o3, "careful_gcc_o3_", "careful-gcc-O3");
careful!(careful_clang_o2, "careful_clang_o2_", "careful-clang-O2");
careful!(careful_clang_o3, "careful_clang_o3_", "careful-clang-O3");

const CAREFUL_RUST: Implementation = Implementation {
    kind: Kind::CarefulRust,
    name: "careful-rust",
    write: careful_rust_write,
    read: careful_rust_read,
    find: careful_rust_find,
    read_field: careful_rust_read_field,
    index_track: careful_rust_index_track,
    read_track: careful_rust_read_track,
    ..RUST
};

fn library_read_corrected(p: Profile, list: &[u16], start: u64, bytes: u64, out: &mut [u16]) -> Corrected {
    // SAFETY: each pointer comes with the length of its slice
    unsafe { ism::sys::ism_read_corrected(p, list.as_ptr(), list.len(), start, bytes, out.as_mut_ptr(), out.len()) }
}

fn library_read_pages(set: &[u8], pages: u64, out: &mut [u8]) -> Pages {
    // SAFETY: each pointer comes with the length of its slice
    unsafe { ism_read_pages(set.as_ptr(), set.len(), pages, out.as_mut_ptr(), out.len()) }
}

fn library_make_pages(cells: &[u8], pages: u64, out: &mut [u8]) -> Answer {
    // SAFETY: each pointer comes with the length of its slice
    unsafe { ism_make_pages(cells.as_ptr(), cells.len(), pages, out.as_mut_ptr(), out.len()) }
}

/// The library first.
pub fn all() -> [Implementation; 15] {
    let library = library::implementation(Kind::Library, "library");
    [
        Implementation {
            read_corrected: Some(library_read_corrected),
            read_pages: library_read_pages,
            make_pages: library_make_pages,
            ..library
        },
        portable_gcc_o2::implementation(Kind::Portable, "portable-gcc-O2"),
        portable_gcc_o3::implementation(Kind::Portable, "portable-gcc-O3"),
        portable_clang_o2::implementation(Kind::Portable, "portable-clang-O2"),
        portable_clang_o3::implementation(Kind::Portable, "portable-clang-O3"),
        gcc_o2::implementation(Kind::PlainC, "gcc-O2"),
        gcc_o3::implementation(Kind::PlainC, "gcc-O3"),
        clang_o2::implementation(Kind::PlainC, "clang-O2"),
        clang_o3::implementation(Kind::PlainC, "clang-O3"),
        careful_gcc_o2::IMPLEMENTATION,
        careful_gcc_o3::IMPLEMENTATION,
        careful_clang_o2::IMPLEMENTATION,
        careful_clang_o3::IMPLEMENTATION,
        CAREFUL_RUST,
        RUST,
    ]
}

//! The commands.

use std::io::Write;
use std::path::Path;

use mfm_disk::commands::{build, format_of, load, print};
use mfm_disk::disk::Disk;
use mfm_disk::failure::Failure;
use mfm_disk::files::{self, Target};
use mfm_disk::read::profile_of;

use crate::arguments::Asked;
use crate::book::Book;
use crate::layout::{disk_of, Density};
use crate::list::List;
use crate::master::{Master, Pass};
use crate::page::Page;

const HELP: &str = include_str!("help.txt");

/// Does what was asked.
pub fn run(asked: Asked) -> Result<(), Failure> {
    match asked {
        Asked::Help => print(HELP),
        Asked::Version => {
            let (version, library) = (env!("CARGO_PKG_VERSION"), ism::version());
            let [major, minor, patch] = [library / 10_000, library / 100 % 100, library % 100];
            print(&format!("mfm_page {version}, libism {major}.{minor}.{patch}\n"))
        }
        Asked::Pack { from, to, density, force } => pack(&from, &to, density, force),
        Asked::Unpack { from, second, to, pages, force } => unpack(&from, second.as_deref(), &to, pages, force),
        Asked::List { master } => list(&master),
        Asked::Show { master, page } => {
            let name = master.display();
            let read = read(&[&master], "show")?;
            let page = read.page(page).map_err(|text| Failure::Unread(format!("{name}: {text}")))?;
            print(&page.page.shown())
        }
    }
}

/// A message on the error output.
pub fn tell(text: &str) {
    // where messages cannot be shown, the exit status still tells
    let _ = writeln!(std::io::stderr(), "mfm_page: {text}");
}

/// Makes a master from a braille file, and reads it again before it is written.
fn pack(from: &Path, to: &Path, density: Density, force: bool) -> Result<(), Failure> {
    let (book, format) = (Book::of(from)?, format_of(to)?);
    let target = Target::new(to, force)?;
    let file = files::read(from)?;
    let unread = |text: String| Failure::Unread(format!("{}: {text}", from.display()));
    let pages = book.parse(&file).map_err(unread)?;
    let disk = disk_of(&pages, density).map_err(unread)?;
    let file = build(&disk, format, profile_of(&disk, None), to)?;
    let made = format.parse(&file).and_then(|disk| Master::of(vec![pass(&disk, "pack")]));
    let back = made.map_err(|text| vec![text]).and_then(|master| master.all_pages());
    match back {
        Ok(back) if back.iter().map(|read| read.page).eq(pages) => target.write(&file),
        _ => Err(Failure::Unread(format!("{}: what was made reads otherwise; nothing is written", to.display()))),
    }
}

/// The braille file of a master, or of two passes over it.
fn unpack(from: &Path, second: Option<&Path>, to: &Path, count: Option<usize>, force: bool) -> Result<(), Failure> {
    let book = Book::of(to)?;
    let target = Target::new(to, force)?;
    let paths: Vec<&Path> = [from].into_iter().chain(second).collect();
    let (name, master) = (named(&paths), read(&paths, "unpack")?);
    let pages = match count {
        Some(count) => master.pages(count),
        None => master.all_pages(),
    };
    let pages = pages.map_err(|lines| {
        lines.iter().for_each(|line| tell(&format!("{name}: {line}")));
        let other = if count.is_none() { " (--pages gives as many as it says)" } else { "" };
        Failure::Unread(format!("{name}: nothing is written{other}"))
    })?;
    let pages: Vec<Page> = pages.iter().map(|read| read.page).collect();
    let unwritten = |text: String| Failure::Unread(format!("{}: {text}; nothing is written", to.display()));
    target.write(&book.build(&pages).map_err(unwritten)?)
}

fn list(path: &Path) -> Result<(), Failure> {
    let disk = load(path)?;
    let list = List::of(&disk, profile_of(&disk, None));
    print(&list.text)?;
    list.complaints.iter().for_each(|line| tell(&format!("{}: {line}", path.display())));
    match list.complaints.is_empty() {
        true => Ok(()),
        false => Err(Failure::Told),
    }
}

fn pass(disk: &Disk, what: &str) -> Pass {
    Pass::of(disk, profile_of(disk, None), what, |_, _, _| {})
}

/// The master of all passes.
fn read(paths: &[&Path], what: &str) -> Result<Master, Failure> {
    let mut passes = Vec::with_capacity(paths.len());
    for path in paths {
        passes.push(pass(&load(path)?, what));
    }
    Master::of(passes).map_err(|text| Failure::Unread(format!("{}: {text}", named(paths))))
}

fn named(paths: &[&Path]) -> String {
    let names: Vec<String> = paths.iter().map(|path| path.display().to_string()).collect();
    names.join(" and ")
}

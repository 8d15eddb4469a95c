//! The commands.

mod convert;
mod image;
mod pack;

use std::io::{stdout, ErrorKind, Write};
use std::path::Path;

use ism::Profile;

use crate::arguments::{Asked, Command, Request};
use crate::disk::Disk;
use crate::failure::Failure;
use crate::files::{self, Target};
use crate::format::Format;
use crate::list::List;
use crate::read::profile_of;

const HELP: &str = include_str!("help.txt");

/// Does what was asked.
pub fn run(asked: Asked) -> Result<(), Failure> {
    match asked {
        Asked::Help => print(HELP),
        Asked::Version => {
            let library = ism::version();
            let parts = (library / 10_000, library / 100 % 100, library % 100);
            let version = env!("CARGO_PKG_VERSION");
            print(&format!("mfm_disk {version}, libism {}.{}.{}\n", parts.0, parts.1, parts.2))
        }
        Asked::Do(request) => match request.command {
            Command::Pack => pack::pack(&request),
            Command::Unpack => image::unpack(&request),
            Command::List => list(&request),
            Command::Convert => convert::convert(&request),
            Command::Merge => image::merge(&request),
        },
    }
}

/// A message on the error output.
pub fn tell(text: &str) {
    // where messages cannot be shown, the exit status still tells
    let _ = writeln!(std::io::stderr(), "mfm_disk: {text}");
}

/// Text on the output.
pub fn print(text: &str) -> Result<(), Failure> {
    match stdout().write_all(text.as_bytes()).and_then(|()| stdout().flush()) {
        // a reader that has seen enough is no failure
        Err(error) if error.kind() != ErrorKind::BrokenPipe => Err(Failure::Unread(format!("output: {error}"))),
        _ => Ok(()),
    }
}

/// The container that a file's name asks for.
pub fn format_of(path: &Path) -> Result<Format, Failure> {
    let told = || Failure::Usage(format!("{}: a disk has the ending .hfe, .mfm or .dmk", path.display()));
    Format::of(path).ok_or_else(told)
}

fn raw_target(path: &Path, force: bool) -> Result<Target, Failure> {
    match Format::of(path) {
        None => Target::new(path, force),
        Some(_) => Err(Failure::Usage(format!(
            "{}: a raw image has not the ending .hfe, .mfm or .dmk; pack makes a disk from it, convert from a disk",
            path.display()
        ))),
    }
}

/// The disk of a file.
pub fn load(path: &Path) -> Result<Disk, Failure> {
    let format = format_of(path)?;
    let file = files::read(path)?;
    format.parse(&file).map_err(|text| Failure::Unread(format!("{}: {text}", path.display())))
}

/// The file of a disk.
pub fn build(disk: &Disk, format: Format, profile: Profile, to: &Path) -> Result<Vec<u8>, Failure> {
    format.build(disk, profile).map_err(|text| Failure::Unread(format!("{}: {text}", to.display())))
}

fn list(request: &Request) -> Result<(), Failure> {
    let path = &request.files[0];
    let (name, format) = (path.display().to_string(), format_of(path)?);
    let disk = load(path)?;
    let list = List::of(&disk, profile_of(&disk, request.profile));
    print(&if request.json { list.json(&name, format.name()) } else { list.text() })?;
    list.complaints().iter().for_each(|line| tell(&format!("{name}: {line}")));
    match list.all_read() {
        true => Ok(()),
        false => Err(Failure::Told),
    }
}

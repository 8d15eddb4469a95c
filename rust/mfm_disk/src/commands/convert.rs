//! A disk in another container.

use ism::Profile;

use super::{build, format_of, load, tell};
use crate::arguments::Request;
use crate::disk::Disk;
use crate::failure::Failure;
use crate::files::Target;
use crate::format::Format;
use crate::read::{profile_of, read_disk};
use crate::unread::{self, Unread};

/// Makes the disk and reads it again.
pub fn convert(request: &Request) -> Result<(), Failure> {
    let [from, to] = [&request.files[0], &request.files[1]];
    let format = format_of(to)?;
    format_of(from)?;
    let target = Target::new(to, request.force)?;
    let disk = load(from)?;
    let profile = profile_of(&disk, request.profile);
    let file = build(&disk, format, profile, to)?;
    let lines = differences(&disk, &file, format, profile)?;
    lines.iter().for_each(|line| tell(&format!("{}: {line}", from.display())));
    if lines.is_empty() || request.partial {
        target.write(&file)?;
    }
    match lines.is_empty() {
        true => Ok(()),
        false if request.partial => Err(Failure::Told),
        false => Err(Failure::Unread(format!("{}: nothing is written (--partial writes it)", to.display()))),
    }
}

/// The sectors that read otherwise in the file that was made than on the disk that it was made from.
fn differences(disk: &Disk, file: &[u8], format: Format, profile: Profile) -> Result<Vec<String>, Failure> {
    let made = format.parse(file).map_err(|text| Failure::Unread(format!("what was made does not read: {text}")))?;
    let (before, after) = (read_disk(disk, profile, "convert"), read_disk(&made, profile, "convert"));
    let (mut lines, mut unread) = (Vec::new(), Vec::new());
    for (old, new) in before.tracks.iter().zip(&after.tracks) {
        if old.single_density > 0 {
            let count = old.single_density;
            lines.push(format!("{}: {count} IDs of single density (FM), which is not converted", old.place));
        }
        let why = format!("it reads otherwise in {}", format.name());
        unread.extend(old.unlike(new).into_iter().map(|number| Unread { place: old.place, number, why: why.clone() }));
        if old.sectors.is_err() != new.sectors.is_err() {
            lines.push(format!("{}: it is crowded in one of the two", old.place));
        }
    }
    lines.extend(unread::lines(&unread));
    Ok(lines)
}

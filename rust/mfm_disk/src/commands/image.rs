//! A raw image from one disk, or from two passes over it.

use super::{load, raw_target, tell};
use crate::arguments::Request;
use crate::assemble::assemble;
use crate::failure::Failure;
use crate::files::Target;
use crate::geometry::{Geometry, Wanted};
use crate::read::{profile_of, read_disk, ReadDisk};
use crate::unread;

/// The raw image of one disk.
pub fn unpack(request: &Request) -> Result<(), Failure> {
    let target = raw_target(&request.files[1], request.force)?;
    let name = request.files[0].display().to_string();
    let disk = load(&request.files[0])?;
    let read = read_disk(&disk, profile_of(&disk, request.profile), "unpack");
    write_image(request, &name, &[&read], &target)
}

/// The raw image of a disk that was read in two passes.
pub fn merge(request: &Request) -> Result<(), Failure> {
    let target = raw_target(&request.files[2], request.force)?;
    let name = format!("{} and {}", request.files[0].display(), request.files[1].display());
    let mut passes = Vec::with_capacity(2);
    for path in &request.files[..2] {
        let disk = load(path)?;
        passes.push(read_disk(&disk, profile_of(&disk, request.profile), "merge"));
    }
    write_image(request, &name, &[&passes[0], &passes[1]], &target)
}

/// Writes what the passes gave, and tells what they did not.
fn write_image(request: &Request, name: &str, passes: &[&ReadDisk], target: &Target) -> Result<(), Failure> {
    let Some(geometry) = Geometry::found(passes, request.wanted) else {
        return Err(Failure::Unread(format!("{name}: no sector was read; nothing is written")));
    };
    if geometry.sectors > ism::MAX_SECTORS || usize::from(geometry.first) + geometry.sectors > 256 {
        let (first, last) = (geometry.first, usize::from(geometry.first) + geometry.sectors - 1);
        return Err(Failure::Unread(format!(
            "{name}: its sectors are numbered {first} to {last}, which is no track of 32; give --first and --sectors"
        )));
    }
    let image = assemble(&geometry, passes);
    let mut lines = unread::lines(&image.unread);
    lines.extend(outside(&geometry, request.wanted, passes));
    lines.iter().for_each(|line| tell(&format!("{name}: {line}")));
    if lines.is_empty() {
        return target.write(&image.bytes);
    }
    let all = geometry.sides * geometry.tracks * geometry.sectors;
    let counted = match image.unread.len() {
        0 => format!("{name}: not every sector has a place in the image"),
        count => format!("{name}: {count} of {all} sectors were not read"),
    };
    if request.partial {
        target.write(&image.bytes)?;
        tell(&counted);
        return Err(Failure::Told);
    }
    Err(Failure::Unread(format!("{counted}; nothing is written (--partial writes the others)")))
}

/// The sectors that have no place in an image whose numbers the command line leaves open.
fn outside(geometry: &Geometry, wanted: Wanted, passes: &[&ReadDisk]) -> Vec<String> {
    if wanted.sectors.is_some() || wanted.first.is_some() {
        return Vec::new();
    }
    let (first, last) = (geometry.first, usize::from(geometry.first) + geometry.sectors - 1);
    let mut lines = Vec::new();
    for (place, sectors) in passes.iter().flat_map(|pass| pass.ids()) {
        for sector in sectors.iter().filter(|sector| geometry.place_of(sector.id.sector).is_none()) {
            lines.push(format!("{place}, sector {}: it is not among the sectors {first} to {last}", sector.id.sector));
        }
    }
    lines
}

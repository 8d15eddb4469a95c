//! A disk from a raw image.

use super::{build, format_of};
use crate::arguments::Request;
use crate::failure::Failure;
use crate::files::{self, Target};
use crate::geometry::{Geometry, Wanted};
use crate::make;
use crate::read::profile_of;

/// Makes the disk.
pub fn pack(request: &Request) -> Result<(), Failure> {
    let [from, to] = [&request.files[0], &request.files[1]];
    let geometry = packed_geometry(request.wanted)?;
    let format = format_of(to)?;
    let target = Target::new(to, request.force)?;
    let image = files::read(from)?;
    if image.len() != geometry.image_bytes() {
        let Geometry { sides, tracks, sectors, .. } = geometry;
        return Err(Failure::Usage(format!(
            "{}: {} bytes; {sides} side(s), {tracks} tracks, {sectors} sectors of {} bytes are {}",
            from.display(),
            image.len(),
            geometry.size(),
            geometry.image_bytes()
        )));
    }
    let disk =
        make::disk_of(&geometry, &image).map_err(|text| Failure::Usage(format!("{}: {text}", from.display())))?;
    let file = build(&disk, format, profile_of(&disk, None), to)?;
    target.write(&file)
}

fn packed_geometry(wanted: Wanted) -> Result<Geometry, Failure> {
    let Wanted { sides: Some(sides), tracks: Some(tracks), sectors: Some(sectors), code: Some(code), first } = wanted
    else {
        return Err(Failure::Usage("pack needs --sides, --tracks, --sectors and --code".to_string()));
    };
    let first = first.unwrap_or(1);
    if usize::from(first) + sectors > 256 {
        return Err(Failure::Usage(format!("{sectors} sectors from number {first} on go beyond 255")));
    }
    Ok(Geometry { sides, tracks, sectors, code, first })
}

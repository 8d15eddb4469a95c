//! Files read whole, and files that appear whole or not at all.

use std::fs::{self, File, OpenOptions};
use std::io::{ErrorKind, Read, Write};
use std::path::{Path, PathBuf};

use crate::failure::Failure;

/// The most bytes of a file that can be a disk.
const MOST: u64 = 64 << 20;

/// All bytes of a file.
pub fn read(path: &Path) -> Result<Vec<u8>, Failure> {
    let shown = path.display();
    let file = File::open(path).map_err(|error| Failure::Usage(format!("{shown}: {error}")))?;
    let mut bytes = Vec::new();
    let count = file.take(MOST + 1).read_to_end(&mut bytes);
    match count.map_err(|error| Failure::Unread(format!("{shown}: {error}")))? as u64 {
        count if count > MOST => Err(Failure::Unread(format!("{shown}: more than 64 MB, which no disk has"))),
        _ => Ok(bytes),
    }
}

/// A place for a file that is not there yet, or may be overwritten.
pub struct Target {
    path: PathBuf,
    force: bool,
}

impl Target {
    /// The place, if nothing stands there that has to stay.
    pub fn new(path: &Path, force: bool) -> Result<Target, Failure> {
        let shown = path.display();
        let Ok(there) = fs::symlink_metadata(path) else {
            return Ok(Target { path: path.to_path_buf(), force });
        };
        if !force {
            return Err(Failure::Usage(format!("{shown} is there already; --force overwrites it")));
        }
        // what a link leads to is overwritten, not the link
        let path = fs::canonicalize(path).map_err(|error| Failure::Usage(format!("{shown}: {error}")))?;
        let there = fs::metadata(&path).unwrap_or(there);
        match there.is_file() {
            true => Ok(Target { path, force }),
            false => Err(Failure::Usage(format!("{shown} is no file that can be overwritten"))),
        }
    }

    /// Writes the file beside its place and moves it there when it is whole.
    pub fn write(&self, bytes: &[u8]) -> Result<(), Failure> {
        let part = self.part();
        let written = write_whole(&part, bytes).and_then(|()| self.put(&part));
        if written.is_err() {
            // the part may never have come to be
            let _ = fs::remove_file(&part);
        }
        written.map_err(|error| match error.kind() {
            ErrorKind::AlreadyExists => Failure::Usage(format!("{} is there already", self.path.display())),
            _ => Failure::Unread(format!("{}: {error}; nothing is written", self.path.display())),
        })
    }

    /// The name of the unfinished file, in the same folder.
    fn part(&self) -> PathBuf {
        let mut name = self.path.file_name().unwrap_or_default().to_os_string();
        name.push(format!(".{}.part", std::process::id()));
        self.path.with_file_name(name)
    }

    /// A new name for a whole file; without force, never over a file that has come in the meantime.
    fn put(&self, part: &Path) -> std::io::Result<()> {
        if self.force {
            return fs::rename(part, &self.path);
        }
        match fs::hard_link(part, &self.path) {
            Ok(()) => fs::remove_file(part),
            Err(error) if error.kind() == ErrorKind::AlreadyExists => Err(error),
            // a file system without links
            Err(_) => fs::rename(part, &self.path),
        }
    }
}

fn write_whole(part: &Path, bytes: &[u8]) -> std::io::Result<()> {
    let mut file = OpenOptions::new().write(true).create_new(true).open(part)?;
    file.write_all(bytes)?;
    file.sync_all()
}

#[cfg(test)]
mod tests {
    use super::*;

    fn folder(name: &str) -> PathBuf {
        let folder = std::env::temp_dir().join(format!("mfm_disk.{}.{name}", std::process::id()));
        fs::create_dir_all(&folder).unwrap();
        folder
    }

    #[test]
    fn nothing_is_overwritten_without_force() {
        let folder = folder("force");
        let path = folder.join("a");
        Target::new(&path, false).unwrap().write(b"one").unwrap();
        assert_eq!(Target::new(&path, false).err().map(|failure| failure.status()), Some(2));
        Target::new(&path, true).unwrap().write(b"two").unwrap();
        assert_eq!(read(&path).unwrap(), b"two");
        assert_eq!(fs::read_dir(&folder).unwrap().count(), 1, "no part is left");
        fs::remove_dir_all(folder).unwrap();
    }

    #[test]
    fn a_file_that_came_in_the_meantime_stays() {
        let folder = folder("meantime");
        let path = folder.join("a");
        let target = Target::new(&path, false).unwrap();
        fs::write(&path, b"another").unwrap();
        assert!(target.write(b"mine").is_err());
        assert_eq!(read(&path).unwrap(), b"another");
        assert_eq!(fs::read_dir(&folder).unwrap().count(), 1);
        fs::remove_dir_all(folder).unwrap();
    }

    #[test]
    fn folders_and_devices_are_not_overwritten() {
        assert!(Target::new(Path::new("/dev/null"), true).is_err());
        assert!(Target::new(&std::env::temp_dir(), true).is_err());
    }

    #[test]
    fn a_folder_that_is_not_there_is_told() {
        let failure = Target::new(Path::new("/no/such/folder/a"), false).unwrap().write(b"x").unwrap_err();
        assert!(failure.to_string().contains("/no/such/folder/a: "));
    }
}

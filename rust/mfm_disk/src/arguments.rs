//! The command line.

use std::ffi::{OsStr, OsString};
use std::path::PathBuf;

use ism::Profile;

use crate::failure::{refused, Failure};
use crate::geometry::Wanted;

/// What to do.
#[derive(Clone, Copy, Debug, PartialEq, Eq)]
pub enum Command {
    Pack,
    Unpack,
    List,
    Convert,
    Merge,
}

impl Command {
    const ALL: [Command; 5] = [Command::Pack, Command::Unpack, Command::List, Command::Convert, Command::Merge];

    /// Its name on the command line.
    pub fn name(self) -> &'static str {
        match self {
            Command::Pack => "pack",
            Command::Unpack => "unpack",
            Command::List => "list",
            Command::Convert => "convert",
            Command::Merge => "merge",
        }
    }

    /// How many files it takes.
    fn files(self) -> usize {
        match self {
            Command::List => 1,
            Command::Pack | Command::Unpack | Command::Convert => 2,
            Command::Merge => 3,
        }
    }

    /// The options that it takes.
    fn options(self) -> &'static [&'static str] {
        match self {
            Command::Pack => &["sides", "tracks", "sectors", "code", "first", "force"],
            Command::Unpack | Command::Merge => {
                &["sides", "tracks", "sectors", "code", "first", "profile", "force", "partial"]
            }
            Command::List => &["profile", "json"],
            Command::Convert => &["profile", "force", "partial"],
        }
    }
}

/// A command with all that belongs to it.
#[derive(Clone, Debug, PartialEq, Eq)]
pub struct Request {
    pub command: Command,
    pub files: Vec<PathBuf>,
    pub wanted: Wanted,
    pub profile: Option<Profile>,
    pub json: bool,
    pub force: bool,
    pub partial: bool,
}

/// What the command line asks for.
#[derive(Clone, Debug, PartialEq, Eq)]
pub enum Asked {
    Help,
    Version,
    Do(Request),
}

/// Reads the command line, the program's name left out.
pub fn parse(arguments: impl IntoIterator<Item = OsString>) -> Result<Asked, Failure> {
    let mut arguments = arguments.into_iter().peekable();
    let Some(first) = arguments.next() else {
        return Err(usage("a command is missing"));
    };
    match first.to_str() {
        Some("--help" | "-h" | "help") => return Ok(Asked::Help),
        Some("--version" | "-V") => return Ok(Asked::Version),
        _ => {}
    }
    let command = Command::ALL.into_iter().find(|command| first == command.name());
    let command = command.ok_or_else(|| usage(&format!("there is no command {}", first.to_string_lossy())))?;
    let mut request = Request {
        command,
        files: Vec::new(),
        wanted: Wanted::default(),
        profile: None,
        json: false,
        force: false,
        partial: false,
    };
    let mut plain = false;
    while let Some(argument) = arguments.next() {
        match argument.to_str().filter(|text| !plain && text.starts_with('-') && *text != "-") {
            None => request.files.push(PathBuf::from(argument)),
            Some("--") => plain = true,
            Some("--help" | "-h") => return Ok(Asked::Help),
            Some(option) => set(&mut request, option, || arguments.next())?,
        }
    }
    if request.files.len() != command.files() {
        let (wants, has) = (command.files(), request.files.len());
        return Err(usage(&format!("{} takes {wants} file name(s), not {has}", command.name())));
    }
    Ok(Asked::Do(request))
}

/// Takes in one option; its value stands behind = or comes next.
fn set(request: &mut Request, option: &str, next: impl FnOnce() -> Option<OsString>) -> Result<(), Failure> {
    let (name, joined) = match option.split_once('=') {
        Some((name, value)) => (name, Some(value)),
        None => (option, None),
    };
    let known = name.strip_prefix("--").filter(|name| request.command.options().contains(name));
    let Some(known) = known else {
        return Err(usage(&format!("{} takes no option {name}", request.command.name())));
    };
    let flag = match known {
        "json" => Some(&mut request.json),
        "force" => Some(&mut request.force),
        "partial" => Some(&mut request.partial),
        _ => None,
    };
    if let Some(flag) = flag {
        *flag = true;
        return match joined {
            Some(_) => Err(usage(&format!("{name} takes no value"))),
            None => Ok(()),
        };
    }
    let value = joined.map(OsString::from).or_else(next).ok_or_else(|| usage(&format!("{name} has no value")))?;
    let wanted = &mut request.wanted;
    match known {
        "sides" => wanted.sides = Some(number(name, &value, 1, 2)?),
        "tracks" => wanted.tracks = Some(number(name, &value, 1, 255)?),
        "sectors" => wanted.sectors = Some(number(name, &value, 1, ism::MAX_SECTORS)?),
        "code" => wanted.code = Some(number(name, &value, 0, 3)? as u8),
        "first" => wanted.first = Some(number(name, &value, 0, 255)? as u8),
        _ => request.profile = Some(profile(&value)?),
    }
    Ok(())
}

fn number(name: &str, value: &OsStr, least: usize, most: usize) -> Result<usize, Failure> {
    let number = value.to_str().and_then(|text| text.parse().ok()).filter(|number| (least..=most).contains(number));
    number.ok_or_else(|| usage(&format!("{name} is {least} to {most}, not {}", value.to_string_lossy())))
}

/// Eleven numbers, parted by commas, in the order of the library's profile.
fn profile(value: &OsStr) -> Result<Profile, Failure> {
    let text = value.to_string_lossy();
    let numbers: Option<Vec<u16>> = text.split(',').map(|number| number.trim().parse().ok()).collect();
    let numbers: Option<[u16; 11]> = numbers.and_then(|numbers| numbers.try_into().ok());
    let Some([t1, t0, early, normal, late, min, b23_short, b23_long, b34_short, b34_long, rpt]) = numbers else {
        return Err(usage(&format!("--profile is eleven numbers parted by commas, not {text}")));
    };
    let profile = Profile { t1, t0, early, normal, late, min, b23_short, b23_long, b34_short, b34_long, rpt };
    match ism::margin(profile) {
        Ok(_) => Ok(profile),
        Err(refusal) => Err(Failure::Usage(format!("--profile {text}: {}", refused(refusal)))),
    }
}

fn usage(text: &str) -> Failure {
    Failure::Usage(format!("{text}; mfm_disk --help shows how it is used"))
}

#[cfg(test)]
mod tests {
    use super::*;

    fn parsed(line: &str) -> Result<Asked, Failure> {
        parse(line.split_whitespace().map(OsString::from))
    }

    fn request(line: &str) -> Request {
        match parsed(line) {
            Ok(Asked::Do(request)) => request,
            other => panic!("{other:?}"),
        }
    }

    fn error(line: &str) -> String {
        let failure = parsed(line).unwrap_err();
        assert_eq!(failure.status(), 2);
        failure.to_string()
    }

    #[test]
    fn options_stand_anywhere_and_in_both_forms() {
        let request = request("pack disk.img --sides 2 --tracks=80 disk.hfe --sectors 9 --code=2 --force");
        assert_eq!(request.files, [PathBuf::from("disk.img"), PathBuf::from("disk.hfe")]);
        let wanted = Wanted { sides: Some(2), tracks: Some(80), sectors: Some(9), code: Some(2), first: None };
        assert_eq!((request.wanted, request.force, request.partial), (wanted, true, false));
    }

    #[test]
    fn file_names_that_look_like_options_stand_behind_two_dashes() {
        assert_eq!(request("list -- --json").files, [PathBuf::from("--json")]);
    }

    #[test]
    fn what_is_not_understood_is_told() {
        assert!(error("").contains("a command is missing"));
        assert!(error("fold a b").contains("no command fold"));
        assert!(error("list").contains("1 file name(s), not 0"));
        assert!(error("list a b").contains("not 2"));
        assert!(error("list a --force").contains("list takes no option --force"));
        assert!(error("pack --sides 3 a b").contains("--sides is 1 to 2, not 3"));
        assert!(error("pack --tracks").contains("--tracks has no value"));
        assert!(error("pack --sectors 33 a b").contains("1 to 32"));
        assert!(error("list --json=yes a").contains("takes no value"));
        assert!(error("list --profile 1,2 a").contains("eleven numbers"));
        assert!(error("list --profile 58,29,8,10,12,36,88,88,106,106,139 a").contains("crossed (refusal 2)"));
        assert!(error("list --profile 0,29,8,10,12,36,88,88,106,106,139 a").contains("unset (refusal 1)"));
    }

    #[test]
    fn help_and_version_come_first() {
        assert_eq!(parsed("--help"), Ok(Asked::Help));
        assert_eq!(parsed("pack --help"), Ok(Asked::Help));
        assert_eq!(parsed("--version"), Ok(Asked::Version));
    }

    #[test]
    fn a_profile_is_the_eleven_numbers() {
        let profile = request("list --profile 58,29,8,10,12,36,73,74,106,105,139 a").profile.unwrap();
        assert_eq!((profile.t1, profile.b23_long, profile.b34_long, profile.rpt), (58, 74, 105, 139));
    }
}

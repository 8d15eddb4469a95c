//! The command line.

use std::ffi::{OsStr, OsString};
use std::path::PathBuf;

use mfm_disk::failure::Failure;

use crate::layout::Density;
use crate::pages::count_refused;
use crate::words::page_refused;

/// What the command line asks for.
#[derive(Clone, Debug, PartialEq, Eq)]
pub enum Asked {
    Help,
    Version,
    Pack { from: PathBuf, to: PathBuf, density: Density, force: bool },
    Unpack { from: PathBuf, second: Option<PathBuf>, to: PathBuf, pages: Option<usize>, force: bool },
    List { master: PathBuf },
    Show { master: PathBuf, page: u8 },
}

/// The options that were given.
#[derive(Default)]
struct Options {
    dd: bool,
    hd: bool,
    force: bool,
    pages: Option<OsString>,
    second: Option<OsString>,
}

/// The commands, what each takes besides options, and its options.
const COMMANDS: [(&str, &[&str], &[&str]); 4] = [
    ("pack", &["BOOK", "MASTER"], &["--dd", "--hd", "--force"]),
    ("unpack", &["MASTER", "BOOK"], &["--pages", "--second", "--force"]),
    ("list", &["MASTER"], &[]),
    ("show", &["MASTER", "PAGE"], &[]),
];

/// Reads the command line, the program's name left out.
pub fn parse(arguments: impl IntoIterator<Item = OsString>) -> Result<Asked, Failure> {
    let mut arguments = arguments.into_iter();
    let first = arguments.next().ok_or_else(|| usage("a command is missing"))?;
    match first.to_str() {
        Some("--help" | "-h" | "help") => return Ok(Asked::Help),
        Some("--version" | "-V") => return Ok(Asked::Version),
        _ => {}
    }
    let command = COMMANDS.into_iter().find(|(name, ..)| first == *name);
    let (name, takes, known) =
        command.ok_or_else(|| usage(&format!("there is no command {}", first.to_string_lossy())))?;
    let (mut words, mut options, mut plain) = (Vec::new(), Options::default(), false);
    while let Some(argument) = arguments.next() {
        match argument.to_str().filter(|text| !plain && text.starts_with('-') && *text != "-") {
            None => words.push(argument),
            Some("--") => plain = true,
            Some("--help" | "-h") => return Ok(Asked::Help),
            Some(option) => {
                let (option, joined) = match option.split_once('=') {
                    Some((option, value)) => (option, Some(OsString::from(value))),
                    None => (option, None),
                };
                if !known.contains(&option) {
                    return Err(usage(&format!("{name} takes no option {option}")));
                }
                options.set(option, joined, || arguments.next())?;
            }
        }
    }
    if words.len() != takes.len() {
        return Err(usage(&format!("{name} takes {}, not {} name(s)", takes.join(" and "), words.len())));
    }
    asked(name, words, options)
}

impl Options {
    /// Takes in one option; its value stands behind = or comes next.
    fn set(
        &mut self,
        option: &str,
        joined: Option<OsString>,
        next: impl FnOnce() -> Option<OsString>,
    ) -> Result<(), Failure> {
        let flag = match option {
            "--dd" => Some(&mut self.dd),
            "--hd" => Some(&mut self.hd),
            "--force" => Some(&mut self.force),
            _ => None,
        };
        if let Some(flag) = flag {
            *flag = true;
            return match joined {
                Some(_) => Err(usage(&format!("{option} takes no value"))),
                None => Ok(()),
            };
        }
        let value = joined.or_else(next).ok_or_else(|| usage(&format!("{option} has no value")))?;
        match option {
            "--pages" => self.pages = Some(value),
            _ => self.second = Some(value),
        }
        Ok(())
    }
}

/// The command with all that belongs to it.
fn asked(name: &str, words: Vec<OsString>, options: Options) -> Result<Asked, Failure> {
    let path = |i: usize| PathBuf::from(&words[i]);
    Ok(match name {
        "pack" if options.dd && options.hd => return Err(usage("a master has --dd or --hd, not both")),
        "pack" => {
            let density = if options.hd { Density::High } else { Density::Double };
            Asked::Pack { from: path(0), to: path(1), density, force: options.force }
        }
        "unpack" => {
            let pages = options.pages.as_deref().map(|value| number("--pages", value)).transpose()?;
            let second = options.second.map(PathBuf::from);
            Asked::Unpack { from: path(0), second, to: path(1), pages, force: options.force }
        }
        "list" => Asked::List { master: path(0) },
        _ => Asked::Show { master: path(0), page: number("PAGE", &words[1])? as u8 },
    })
}

/// A number of pages, or of a page, that the library takes.
fn number(name: &str, value: &OsStr) -> Result<usize, Failure> {
    let shown = value.to_string_lossy();
    let number = shown.parse().map_err(|_| usage(&format!("{name} is a number, not {shown}")))?;
    match count_refused(number) {
        None => Ok(number),
        Some(refusal) => Err(Failure::Usage(format!("{name} {shown}: {}", page_refused(refusal)))),
    }
}

fn usage(text: &str) -> Failure {
    Failure::Usage(format!("{text}; mfm_page --help shows how it is used"))
}

#[cfg(test)]
mod tests {
    use super::*;

    fn parsed(line: &str) -> Result<Asked, Failure> {
        parse(line.split_whitespace().map(OsString::from))
    }

    fn error(line: &str) -> String {
        let failure = parsed(line).unwrap_err();
        assert_eq!(failure.status(), 2);
        failure.to_string()
    }

    #[test]
    fn options_stand_anywhere_and_in_both_forms() {
        let pack = |density, force| Asked::Pack { from: "a.brf".into(), to: "b.hfe".into(), density, force };
        assert_eq!(parsed("pack a.brf b.hfe"), Ok(pack(Density::Double, false)));
        assert_eq!(parsed("pack --dd a.brf b.hfe"), Ok(pack(Density::Double, false)));
        assert_eq!(parsed("pack a.brf --hd b.hfe --force"), Ok(pack(Density::High, true)));
        let second = Some("c.hfe".into());
        let unpack = Asked::Unpack { from: "-a".into(), second, to: "b".into(), pages: Some(16), force: false };
        assert_eq!(parsed("unpack --second=c.hfe --pages 16 -- -a b"), Ok(unpack));
        assert_eq!(parsed("show a 3"), Ok(Asked::Show { master: "a".into(), page: 3 }));
        assert_eq!(parsed("list a"), Ok(Asked::List { master: "a".into() }));
    }

    #[test]
    fn what_is_not_understood_is_told() {
        assert!(error("").contains("a command is missing"));
        assert!(error("fold a b").contains("no command fold"));
        assert!(error("list").contains("list takes MASTER, not 0 name(s)"));
        assert!(error("pack a").contains("pack takes BOOK and MASTER, not 1 name(s)"));
        assert!(error("pack --pages 3 a b").contains("pack takes no option --pages"));
        assert!(error("pack --dd --hd a b").contains("not both"));
        assert!(error("pack --hd=1 a b").contains("--hd takes no value"));
        assert!(error("unpack a b --pages").contains("--pages has no value"));
        assert!(error("unpack a b --pages x").contains("--pages is a number, not x"));
        assert!(
            error("unpack a b --pages 17").contains("--pages 17: miscount (refusal 12): a master has 1 to 16 pages")
        );
        assert!(error("show a 0").contains("PAGE 0: miscount (refusal 12)"));
        assert!(error("show a 257").contains("PAGE 257: miscount (refusal 12)"));
    }

    #[test]
    fn help_and_version_come_first() {
        assert_eq!(parsed("--help"), Ok(Asked::Help));
        assert_eq!(parsed("pack --help"), Ok(Asked::Help));
        assert_eq!(parsed("--version"), Ok(Asked::Version));
    }
}

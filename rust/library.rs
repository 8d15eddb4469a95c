//! Links a library, of the build scripts of `ism` and `ism_page`. Where ISM_LIB_DIR names a folder, it is the one there.
//! Else, on x86-64 Linux, it is the one that `tools/build` leaves in target/staticlib, two folders above the crate.
//! Where that is not there, and for every other processor, its C file in portable/ is compiled: by CC, or CC_ and the
//! target's name, by default `cc`; AR likewise.

use std::env;
use std::path::{Path, PathBuf};
use std::process::Command;

/// Links the library of a name.
pub fn link(name: &str) {
    println!("cargo:rerun-if-env-changed=ISM_LIB_DIR");
    let root = Path::new(&word("CARGO_MANIFEST_DIR")).join("../..");
    let folder = match env::var_os("ISM_LIB_DIR").map(PathBuf::from).or_else(|| proved(&root, name)) {
        Some(folder) => given(folder, name),
        None => compiled(&root, name),
    };
    println!("cargo:rustc-link-search=native={}", folder.display());
    println!("cargo:rustc-link-lib=static={name}");
}

/// A variable that cargo sets.
fn word(name: &str) -> String {
    env::var(name).unwrap_or_else(|_| panic!("cargo sets {name}"))
}

/// A folder that has the library.
fn given(folder: PathBuf, name: &str) -> PathBuf {
    let library = folder.join(format!("lib{name}.a"));
    if !library.is_file() {
        let folder = folder.display();
        eprintln!("lib{name}.a is not in {folder}: build it with `tools/build {name}`, or unset ISM_LIB_DIR");
        std::process::exit(1);
    }
    println!("cargo:rerun-if-changed={}", library.display());
    folder
}

/// The folder of the library that was proved and built here, if it is for the target.
fn proved(root: &Path, name: &str) -> Option<PathBuf> {
    let folder = root.join("target/staticlib");
    let fits = word("CARGO_CFG_TARGET_ARCH") == "x86_64" && word("CARGO_CFG_TARGET_OS") == "linux";
    (fits && folder.join(format!("lib{name}.a")).is_file()).then_some(folder)
}

/// The folder of the library that is compiled from its C file for the target.
fn compiled(root: &Path, name: &str) -> PathBuf {
    let (source, include) = (root.join(format!("portable/{name}.c")), root.join("include"));
    let folder = PathBuf::from(word("OUT_DIR"));
    let (object, library) = (folder.join(format!("{name}.o")), folder.join(format!("lib{name}.a")));
    println!("cargo:rerun-if-changed={}", source.display());
    println!("cargo:rerun-if-changed={}", include.display());
    let _ = std::fs::remove_file(&library);
    let mut compile = tool("CC", "cc");
    compile.args(["-std=c99", "-O2", "-fPIC", "-I"]).arg(include);
    run(compile.arg("-c").arg(source).arg("-o").arg(&object));
    run(tool("AR", "ar").arg("rcs").arg(&library).arg(&object));
    folder
}

/// A tool by its variable for the target, by its variable, or by its common name. A variable may also hold the tool's
/// first words.
fn tool(variable: &str, common: &str) -> Command {
    let for_target = format!("{variable}_{}", word("TARGET").replace('-', "_"));
    let named = [for_target.as_str(), variable].map(|name| {
        println!("cargo:rerun-if-env-changed={name}");
        env::var(name).ok()
    });
    let words = named.into_iter().flatten().next().unwrap_or_else(|| common.to_string());
    let mut words = words.split_whitespace();
    let mut command = Command::new(words.next().unwrap_or(common));
    command.args(words);
    command
}

fn run(command: &mut Command) {
    match command.status() {
        Ok(status) if status.success() => {}
        Ok(status) => panic!("{command:?} ended with {status}"),
        Err(error) => panic!("{command:?} could not be run: {error}; set CC and AR to a C compiler and archiver"),
    }
}

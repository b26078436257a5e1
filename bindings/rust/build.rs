//! Where is the archive? In the folder that `LOCKTABLE_LIB` names, or else in `lib` beside this file, where a release has
//! it. In the repository, where neither is there, `tools/hand/quick_build` compiles it without proofs, and a warning says
//! so. `./test` leaves the proved one in `crates/lt_c/out`.

use std::collections::BTreeSet;
use std::fmt::Display;
use std::fs;
use std::path::{Path, PathBuf};
use std::process::{exit, Command};

/// Ends the build, and says why.
fn stop(why: &dyn Display) -> ! {
    eprintln!("locktable: {why}; set LOCKTABLE_LIB to the folder of liblt_c.a, or build where rt is");
    exit(1)
}

/// The crate and those below it: a line of `crates.txt` is a crate, perhaps with options, a colon, and what it uses.
fn with_those_below<'a>(name: &'a str, list: &'a str, found: &mut BTreeSet<&'a str>) {
    let of_name = |line: &&str| line.split([' ', ':']).next() == Some(name);
    if let Some((_, uses)) = list.lines().find(of_name).and_then(|line| line.split_once(':')) {
        if found.insert(name) {
            uses.split_whitespace().for_each(|below| with_those_below(below, list, found));
        }
    }
}

fn built() -> PathBuf {
    let top = Path::new(env!("CARGO_MANIFEST_DIR")).join("../..");
    let list = top.join("crates.txt");
    let text = fs::read_to_string(&list).unwrap_or_else(|error| stop(&format!("{}: {error}", list.display())));
    let mut crates = BTreeSet::new();
    with_those_below("lt_c", &text, &mut crates);
    let sources = crates.iter().map(|name| top.join("crates").join(name).join("src"));
    for watched in sources.filter(|part| part.is_dir()).chain([list]) {
        println!("cargo:rerun-if-changed={}", watched.display());
    }
    println!("cargo:warning=the archive is compiled without proofs; LOCKTABLE_LIB=FOLDER takes a proved one");
    let tool = top.join("tools/hand/quick_build");
    match Command::new(&tool).arg("lt_c").output() {
        Ok(ran) if ran.status.success() => PathBuf::from(String::from_utf8_lossy(&ran.stdout).trim()),
        Ok(ran) => stop(&format!("{}: {}", tool.display(), String::from_utf8_lossy(&ran.stderr))),
        Err(error) => stop(&format!("{}: {error}", tool.display())),
    }
}

/// The folder that has the archive of a release.
fn released() -> Option<PathBuf> {
    let folder = Path::new(env!("CARGO_MANIFEST_DIR")).join("lib");
    folder.join("liblt_c.a").is_file().then_some(folder)
}

fn main() {
    println!("cargo:rerun-if-env-changed=LOCKTABLE_LIB");
    let given = std::env::var_os("LOCKTABLE_LIB").map(PathBuf::from).or_else(released);
    if let Some(folder) = &given {
        println!("cargo:rerun-if-changed={}", folder.join("liblt_c.a").display());
    }
    let folder = given.unwrap_or_else(built);
    let archive = folder.join("liblt_c.a");
    if !archive.is_file() {
        stop(&format!("there is no archive {}", archive.display()));
    }
    println!("cargo:rustc-link-search=native={}", folder.display());
    println!("cargo:rustc-link-lib=static=lt_c");
}

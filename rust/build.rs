// Links the repository's static library, and makes it first with `rt lib`, run in crates/aljumeste, where it is missing or older than the crates.
use std::{
    env, fs, io,
    path::{Path, PathBuf},
    process::{self, Command},
    time::SystemTime,
};

fn main() {
    let here = env::var("CARGO_MANIFEST_DIR").expect("cargo names the folder of a package");
    let root = Path::new(&here)
        .parent()
        .expect("the package stands in the repository");
    let exports = root.join("crates/aljumeste");
    let folder = exports.join("out");
    let archive = folder.join("libaljumeste.a");
    let sources = sources(root).expect("the repository has a folder crates");
    for path in sources.iter().chain([&archive]) {
        println!("cargo:rerun-if-changed={}", path.display());
    }
    if !is_current(&archive, &sources) {
        make(&exports);
    }
    println!("cargo:rustc-link-search=native={}", folder.display());
    println!("cargo:rustc-link-lib=static=aljumeste");
}

/// What the archive is made of: crates.txt, and all of each crate but out/, in which `rt` keeps what it made.
fn sources(root: &Path) -> io::Result<Vec<PathBuf>> {
    let mut found = vec![root.join("crates.txt")];
    for folder in fs::read_dir(root.join("crates"))? {
        for part in fs::read_dir(folder?.path())? {
            let part = part?;
            if part.file_name() != "out" {
                found.push(part.path());
            }
        }
    }
    Ok(found)
}

/// The archive is there, and no source is younger.
fn is_current(archive: &Path, sources: &[PathBuf]) -> bool {
    let Ok(made) = fs::metadata(archive).and_then(|data| data.modified()) else {
        return false;
    };
    sources
        .iter()
        .all(|source| youngest(source).is_ok_and(|change| change <= made))
}

/// When a file, or anything in a folder, was last changed.
fn youngest(path: &Path) -> io::Result<SystemTime> {
    let data = fs::metadata(path)?;
    let mut latest = data.modified()?;
    if data.is_dir() {
        for entry in fs::read_dir(path)? {
            latest = latest.max(youngest(&entry?.path())?);
        }
    }
    Ok(latest)
}

fn make(exports: &Path) {
    let ended = Command::new("rt")
        .arg("lib")
        .current_dir(exports)
        .status();
    match ended {
        Ok(status) if status.success() => (),
        Ok(status) => stop(&format!("`rt lib` in crates/aljumeste ended with {status}")),
        Err(error) => stop(&format!(
            "`rt`, the Rattle kit's tool, cannot be started ({error}): it has to be on the PATH"
        )),
    }
}

fn stop(why: &str) {
    eprintln!("crates/aljumeste/out/libaljumeste.a is not there or not current. {why}.");
    process::exit(1);
}

//! Links the archive of the proved engine: the one in the folder `REACTION_ARCHIVE_DIR` where that is set; else the one that the
//! kit built, in `crates/abi/out/`; where it built none, the stored one, in `dist/`. `reaction::ARCHIVE` says which.

use std::path::{Path, PathBuf};
use std::{env, fs, process};

const FOLDER: &str = "REACTION_ARCHIVE_DIR";
const BUILT: &str = "../crates/abi/out";
const STORED: &str = "../dist";

/// An archive, the file `lib` NAME `.a` of a folder.
struct Archive {
    folder: PathBuf,
    name: &'static str,
}

impl Archive {
    /// As the kit calls it, after its crate.
    fn built(folder: impl Into<PathBuf>) -> Archive {
        Archive { folder: folder.into(), name: "abi" }
    }

    /// As `dist/` has it.
    fn stored(folder: impl Into<PathBuf>) -> Archive {
        Archive { folder: folder.into(), name: "reaction" }
    }

    fn path(&self) -> PathBuf {
        self.folder.join(format!("lib{}.a", self.name))
    }

    /// Its path as it is shown: from the root of the repository, where it is there.
    fn shown(&self) -> String {
        let path = self.path();
        path.strip_prefix("..").unwrap_or(&path).display().to_string()
    }
}

/// Has cargo build anew where this has changed.
fn watch(path: &Path) {
    println!("cargo:rerun-if-changed={}", path.display());
}

/// The archives that may be taken: the first that is there is.
fn candidates() -> [Archive; 2] {
    println!("cargo:rerun-if-env-changed={FOLDER}");
    if let Some(folder) = env::var_os(FOLDER).map(PathBuf::from) {
        return [Archive::built(&folder), Archive::stored(&folder)];
    }
    // So that cargo notices when an archive is built. As long as a watched file is missing it would build anew each time, so
    // it watches the folder, which is made for that; where it cannot be made, only time is lost.
    let _ = fs::create_dir_all(BUILT);
    watch(Path::new(BUILT));
    [Archive::built(BUILT), Archive::stored(STORED)]
}

fn main() {
    let candidates = candidates();
    let there: Vec<&Archive> = candidates.iter().filter(|archive| archive.path().is_file()).collect();
    let Some(taken) = there.first() else {
        eprintln!("There is no archive, neither {} nor {}.", candidates[0].shown(), candidates[1].shown());
        eprintln!("`rt lib` in crates/abi makes it; {FOLDER} names another folder.");
        process::exit(1);
    };
    for archive in &there {
        watch(&archive.path());
        // One of them is older than the sources, or both are.
        if fs::read(archive.path()).ok() != fs::read(taken.path()).ok() {
            println!("cargo:warning={} is linked; {} differs from it", taken.shown(), archive.shown());
        }
    }
    let folder = taken.folder.canonicalize().unwrap_or_else(|_| taken.folder.clone());
    println!("cargo:rustc-env=REACTION_ARCHIVE={}", taken.shown());
    println!("cargo:rustc-link-search=native={}", folder.display());
    println!("cargo:rustc-link-lib=static={}", taken.name);
}

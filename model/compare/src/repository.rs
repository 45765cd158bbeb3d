//! The repository that this program stands in, and whether the archive there is the one that was
//! linked: a comparison with another library would say nothing of this one.

use crate::mark;
use std::path::{Path, PathBuf};

const ARCHIVE: &str = "crates/exports/out/libexports.a";

/// The mark of the archive that was linked, as build.rs read it.
const LINKED: &str = env!("LINKED_ARCHIVE");

/// The nearest folder above this program that has the archive in its place.
pub fn root() -> Result<PathBuf, String> {
    let program = std::env::current_exe().map_err(|error| error.to_string())?;
    let root = program.ancestors().find(|up| up.join(ARCHIVE).is_file());
    let root = root.ok_or(format!(
        "no folder above {} has {ARCHIVE}",
        program.display()
    ))?;
    Ok(root.to_path_buf())
}

/// Names the archive that stands in a repository; an error if it is not the one that was linked.
pub fn library(root: &Path) -> Result<String, String> {
    let archive = root.join(ARCHIVE);
    let bytes = std::fs::read(&archive).map_err(|error| error.to_string())?;
    let (name, mark) = (archive.display(), mark::of(&bytes));
    match mark == LINKED {
        true => Ok(format!("library: {name}, {mark}")),
        false => Err(format!(
            "library: {name} is not the one that was linked: {mark}, linked {LINKED}"
        )),
    }
}

#[cfg(test)]
mod tests {
    use super::*;

    #[test]
    fn the_archive_that_was_linked_stands_in_its_place() {
        let root = root().expect("the tests stand in a repository");
        assert_eq!(library(&root).err(), None);
    }

    #[test]
    fn marks_tell_archives_apart() {
        // FNV-1a of nothing is its offset basis.
        assert_eq!(mark::of(b""), "0 bytes, FNV-1a cbf29ce484222325");
        assert_eq!(mark::of(b"a"), "1 bytes, FNV-1a af63dc4c8601ec8c");
        assert_ne!(mark::of(b"ab"), mark::of(b"ba"));
    }
}

//! Links the proved library, which `rt lib` makes in crates/exports, and hands its mark on to the
//! program. The folder is told relative to this package, so that a copy of the repository, with
//! what cargo keeps in it, links its own archive.

#[path = "src/mark.rs"]
mod mark;

use std::process::exit;

const FOLDER: &str = "../../crates/exports/out";

fn main() {
    let archive = format!("{FOLDER}/libexports.a");
    println!("cargo:rerun-if-changed={archive}");
    let Ok(bytes) = std::fs::read(archive) else {
        eprintln!(
            "crates/exports/out/libexports.a is not there: run `rt lib` in crates/exports first."
        );
        exit(1);
    };
    println!("cargo:rustc-env=LINKED_ARCHIVE={}", mark::of(&bytes));
    println!("cargo:rustc-link-search=native={FOLDER}");
    println!("cargo:rustc-link-lib=static=exports");
}

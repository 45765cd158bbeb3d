//! Links the loop of `meter`, and `exports` for a step by way of bytes.

fn main() {
    for library in ["meter", "exports"] {
        let folder = format!("../../crates/{library}/out");
        println!("cargo:rerun-if-changed={folder}/lib{library}.a");
        println!("cargo:rustc-link-search=native={folder}");
        println!("cargo:rustc-link-lib=static={library}");
    }
}

//! Links the archive libespandim.a, from the folder that the environment variable ESPANDIM_ARCHIVE_FOLDER names.
//!
//! There is no folder to fall back on: an archive for another processor, or an older one, would be linked unasked. Without
//! the variable `cargo check` and `cargo doc` do, which link nothing; what links finds no archive, and the warning says why.

use std::path::PathBuf;
use std::process::exit;

const VARIABLE: &str = "ESPANDIM_ARCHIVE_FOLDER";

fn main() {
    println!("cargo:rerun-if-env-changed={VARIABLE}");
    println!("cargo:rustc-link-lib=static=espandim");
    let Some(folder) = std::env::var_os(VARIABLE).map(PathBuf::from) else {
        println!(
            "cargo:warning={VARIABLE} is not set, so only `cargo check` and `cargo doc` will do. Set it to the folder of \
             libespandim.a. In the repository, `rt lib` in crates/espandim makes it for x86-64, in crates/espandim/out."
        );
        return;
    };
    // A name that is not absolute would be taken from here by this script, and from elsewhere by the linker.
    let archive = folder.join("libespandim.a");
    if !folder.is_absolute() || !archive.is_file() {
        eprintln!(
            "{VARIABLE} must be the absolute name of a folder with libespandim.a in it, and is {}.",
            folder.display()
        );
        exit(1);
    }
    println!("cargo:rerun-if-changed={}", archive.display());
    println!("cargo:rustc-link-search=native={}", folder.display());
}

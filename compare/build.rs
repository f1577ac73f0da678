//! Links the engine's static libraries, which are made in the repository's root.

use std::path::Path;

fn main() {
    let folder = Path::new(env!("CARGO_MANIFEST_DIR")).join("../target/staticlib");
    println!("cargo::rustc-link-search=native={}", folder.display());
    for name in ["study", "convert", "planning", "timing"] {
        let library = folder.join(format!("lib{name}.a"));
        println!("cargo::rerun-if-changed={}", library.display());
        if !library.exists() {
            println!("cargo::error=the engine's library target/staticlib/lib{name}.a is missing");
            println!("cargo::error=make it first: in the repository's root run");
            println!(
                "cargo::error=./build study_c convert_c planning_c timing calls planning_check levels_check studies_check"
            );
        }
        println!("cargo::rustc-link-lib=static={name}");
    }
}

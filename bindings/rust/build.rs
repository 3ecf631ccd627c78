//! Links libengine.a, which `tools/build engine` writes. `ENGINE_LIB` names another folder that holds it.

use std::path::Path;

fn main() {
    println!("cargo::rerun-if-env-changed=ENGINE_LIB");
    let folder = std::env::var("ENGINE_LIB")
        .unwrap_or_else(|_| format!("{}/../../target/staticlib", env!("CARGO_MANIFEST_DIR")));
    let archive = format!("{folder}/libengine.a");
    // Documentation and lints need no archive, and a build script does not learn what it runs for: so this is a
    // warning. Cargo does not show it when it is to be quiet; then the name of the library that is not found says it.
    let mut library = "engine";
    if !Path::new(&archive).exists() {
        let tried = std::path::absolute(&archive).unwrap_or_else(|_| archive.clone().into());
        println!(
            "cargo::warning={} is missing, and no program can be linked without it. Run `tools/build engine` in the \
             repository, or set ENGINE_LIB to the full path of the folder that holds libengine.a.",
            tried.display()
        );
        library = "engine, which tools/build engine writes";
    }
    println!("cargo::rerun-if-changed={archive}");
    println!("cargo::rustc-link-search=native={folder}");
    println!("cargo::rustc-link-lib=static={library}");
}

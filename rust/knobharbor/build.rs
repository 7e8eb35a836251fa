//! Finds the proved archive: in the folder that KNOBHARBOR_ARCHIVE names (by an absolute path: cargo runs this in the crate's own
//! folder), or where `tools/archive` leaves it for x86-64 Linux and `tools/cross TARGET` for another target. To check and to
//! document the crate it is not needed, so that its absence is a warning here; a build that has none stops at the link.
use std::env;
use std::path::PathBuf;

const NAME: &str = "knobharbor";

fn main() {
    println!("cargo:rerun-if-env-changed=KNOBHARBOR_ARCHIVE");
    let target = env::var("TARGET").unwrap();
    let native = target.starts_with("x86_64-") && target.contains("-linux-");
    let given = env::var("KNOBHARBOR_ARCHIVE").ok();
    let folder = match &given {
        Some(folder) => PathBuf::from(folder),
        None => {
            let built = PathBuf::from(env::var("CARGO_MANIFEST_DIR").unwrap()).join("../../target/staticlib");
            if native {
                built
            } else {
                built.join(&target)
            }
        }
    };
    let file = folder.join(format!("lib{NAME}.a"));
    println!("cargo:rerun-if-changed={}", file.display());
    if !file.exists() {
        let cure = match (&given, native) {
            (Some(folder), _) => format!("KNOBHARBOR_ARCHIVE is {folder:?}: let it name, by an absolute path, a folder that has it"),
            (None, true) => "`tools/archive` in the repository's root proves and builds it".to_string(),
            (None, false) => format!("`tools/cross {target}` in the repository's root proves and builds it"),
        };
        println!("cargo:warning=the proved archive for {target} is missing, {}: {cure}. Nothing can be linked without it.", file.display());
    }
    println!("cargo:rustc-link-search=native={}", folder.display());
    println!("cargo:rustc-link-lib=static={NAME}");
}

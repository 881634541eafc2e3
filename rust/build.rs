//! Links the archive that `tools/library` writes: from the folder that FORMSTORE_LIB_DIR names, else from the
//! repository that this crate stands in.

use std::path::{Path, PathBuf};

const PLACE: &str = "FORMSTORE_LIB_DIR";

fn main() {
    let given = std::env::var_os(PLACE).map(PathBuf::from);
    let root = std::env::var_os("CARGO_MANIFEST_DIR").unwrap_or_default();
    let folder = given.unwrap_or_else(|| Path::new(&root).join("../target/staticlib"));
    let archive = folder.join("libformstore.a");
    println!("cargo:rerun-if-env-changed={PLACE}");
    println!("cargo:rerun-if-changed={}", archive.display());
    if let Err(wrong) = archive.metadata() {
        refuse(&format!(
            "there is no archive at {}: {wrong}\n\
             `tools/library` in the repository of the form store proves the library and writes target/staticlib/libformstore.a;\n\
             set {PLACE} to the folder that holds it",
            archive.display()
        ));
    }
    let target = |what| std::env::var(format!("CARGO_CFG_TARGET_{what}")).unwrap_or_default();
    if target("ARCH") != "x86_64" || target("POINTER_WIDTH") != "64" {
        refuse("the archive is for x86-64 with pointers of 64 bits");
    }
    println!("cargo:rustc-link-search=native={}", folder.display());
    println!("cargo:rustc-link-lib=static=formstore");
}

fn refuse(reason: &str) -> ! {
    eprintln!("formstore: {reason}");
    std::process::exit(1);
}

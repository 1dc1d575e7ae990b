// Links the static library of the proved crates: from the folder in AURA_LIB_DIR, or from target/staticlib of the repository.
use std::env;
use std::path::PathBuf;

fn main() {
    println!("cargo::rerun-if-env-changed=AURA_LIB_DIR");
    let here = PathBuf::from(env::var("CARGO_MANIFEST_DIR").expect("cargo sets it"));
    let folder = env::var_os("AURA_LIB_DIR").map_or(here.join("../target/staticlib"), PathBuf::from);
    let library = folder.join("libaura_host.a");
    println!("cargo::rerun-if-changed={}", library.display());
    if !library.is_file() {
        println!("cargo::error=the static library is missing: {}", library.display());
        println!("cargo::error=run `tools/staticlib` at the repository's root, or name the library's folder in AURA_LIB_DIR");
        return;
    }
    println!("cargo::rustc-link-search=native={}", folder.display());
    println!("cargo::rustc-link-lib=static=aura_host");
}

//! Tells cargo where the proved library is: in `../target/library`, or in the folder that GLAVORINT_LIBRARY names.
use std::env;
use std::path::Path;
use std::process::exit;

fn main() {
    let here = env::var_os("CARGO_MANIFEST_DIR").expect("cargo names the crate's folder");
    let named = env::var_os("GLAVORINT_LIBRARY").unwrap_or_else(|| "../target/library".into());
    let folder = Path::new(&here).join(named);
    let archive = folder.join("libglavorint.a");
    println!("cargo:rerun-if-changed=build.rs");
    println!("cargo:rerun-if-env-changed=GLAVORINT_LIBRARY");
    println!("cargo:rerun-if-changed={}", archive.display());
    if !archive.is_file() {
        eprintln!(
            "There is no {}: run library/build.sh, or name the library's folder in GLAVORINT_LIBRARY.",
            archive.display()
        );
        exit(1);
    }
    if env::var("CARGO_CFG_TARGET_ARCH").as_deref() != Ok("x86_64") {
        eprintln!("The proved library is for x86-64 alone.");
        exit(1);
    }
    println!("cargo:rustc-link-search=native={}", folder.display());
    println!("cargo:rustc-link-lib=static=glavorint");
}

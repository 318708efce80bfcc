//! Links the proved library, libreelpony.a: from the folder that REELPONY_LIB_DIR names, or else from
//! the repository's target/staticlib, where `host/prove-library` leaves it.
//!
//! A library that is missing is a warning here and no error, since `cargo check` and `cargo doc` do
//! without it. Where it is wanted, rustc says that it could not find it: the archive is bundled into
//! the Rust library, so this is as soon as that one is built, and whatever depends on it, a static
//! library too, holds the proved code without knowing of the folder.

use std::env;
use std::path::Path;

/// Names the folder that has the library.
const VARIABLE: &str = "REELPONY_LIB_DIR";

fn main() {
    println!("cargo:rerun-if-env-changed={VARIABLE}");
    let package = Path::new(env!("CARGO_MANIFEST_DIR"));
    // An empty one names nothing. A relative one goes from this package's folder, where we run.
    let named = env::var_os(VARIABLE).filter(|name| !name.is_empty());
    let folder = match &named {
        Some(name) => package.join(name),
        None => package.ancestors().nth(2).unwrap_or(package).join("target/staticlib"),
    };
    let library = folder.join("libreelpony.a");
    println!("cargo:rerun-if-changed={}", library.display());
    if !library.is_file() {
        let missing = match named {
            Some(_) => format!("{VARIABLE} names {}, which has no libreelpony.a", folder.display()),
            None => format!("{} is missing, and {VARIABLE} names no folder", library.display()),
        };
        println!(
            "cargo:warning={missing}: check and doc work, nothing can be linked. To prove and \
             build it, at Reelpony's root: host/prove-library (it leaves the file in \
             target/staticlib)"
        );
    }
    println!("cargo:rustc-link-search=native={}", folder.display());
    println!("cargo:rustc-link-lib=static=reelpony");
}

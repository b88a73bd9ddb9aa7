//! Links the console's static library.

use std::env;
use std::error::Error;
use std::path::PathBuf;

/// The folder of the library, unless `CONSOLE_LIB_DIR` says otherwise, seen from this package.
const LIBRARY: &str = "../crates/console_c/out";

fn main() -> Result<(), Box<dyn Error>> {
    let package = PathBuf::from(env::var("CARGO_MANIFEST_DIR")?);
    let library = env::var_os("CONSOLE_LIB_DIR").map_or(package.join(LIBRARY), PathBuf::from);
    let archive = library.join("libconsole_c.a");
    println!("cargo:rerun-if-env-changed=CONSOLE_LIB_DIR");
    println!("cargo:rerun-if-changed={}", archive.display());
    println!("cargo:rustc-link-search=native={}", library.display());
    println!("cargo:rustc-link-lib=static=console_c");
    Ok(())
}

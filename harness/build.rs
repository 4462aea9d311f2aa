//! Where the library of the session lies, and what to do where it doesn't.

use std::env;
use std::path::Path;

fn main() {
    let Ok(package) = env::var("CARGO_MANIFEST_DIR") else {
        println!("cargo::error=CARGO_MANIFEST_DIR is not set: build with cargo");
        return;
    };
    let out = Path::new(&package).join("../crates/session_c/out");
    let library = out.join("libsession_c.a");
    println!("cargo::rerun-if-changed={}", library.display());
    if library.exists() {
        println!("cargo::rustc-link-search=native={}", out.display());
        println!("cargo::rustc-link-lib=static=session_c");
    } else {
        println!("cargo::error=crates/session_c/out/libsession_c.a is not there; make it with: cd crates/session_c && rt lib");
    }
}

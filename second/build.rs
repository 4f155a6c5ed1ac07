//! Tells cargo where the library under test is, for the programs that call it.

use std::env;
use std::path::PathBuf;

/// Those that make cases or files are not among them: they must build where there is no library.
const CALLERS: [&str; 8] = [
    "compare",
    "compare_files",
    "compare_leaks",
    "compare_written",
    "compare_wkt",
    "compare_runs",
    "bench",
    "loop",
];

fn main() {
    let package =
        PathBuf::from(env::var_os("CARGO_MANIFEST_DIR").expect("cargo names the package's directory"));
    let named = env::var_os("MESKELOW_LIB_DIR").map(PathBuf::from);
    let directory = package.join(named.unwrap_or_else(|| PathBuf::from("../target/staticlib")));
    let archive = directory.join("libmeskelow.a");
    println!("cargo:rerun-if-env-changed=MESKELOW_LIB_DIR");
    println!("cargo:rerun-if-changed=build.rs");
    println!("cargo:rerun-if-changed={}", archive.display());
    for caller in CALLERS {
        println!("cargo:rustc-link-arg-bin={caller}={}", archive.display());
    }
}

//! Links the benchmark with the proved program's static library and with the probe library.

use std::env;
use std::path::{Path, PathBuf};

fn main() {
    link("JYRMEKKO_LIB", "libhost.a");
    link("JYRMEKKO_PROBE", "libprobe.a");
}

fn link(variable: &str, file: &str) {
    println!("cargo:rerun-if-env-changed={variable}");
    let beside = Path::new(env!("CARGO_MANIFEST_DIR")).join("../target/staticlib").join(file);
    let library = env::var_os(variable).map_or(beside, PathBuf::from);
    println!("cargo:rerun-if-changed={}", library.display());
    if !library.is_file() {
        println!("cargo:warning=there is no static library at {}; build it or set {variable}", library.display());
    }
    println!("cargo:rustc-link-arg-bins={}", library.display());
}

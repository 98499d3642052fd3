//! Links the archive that `rt lib` writes in crates/latency_monitor.

use std::env;
use std::path::{Path, PathBuf};

/// Names the archive's folder, where it is not the repository's.
const FOLDER: &str = "LATENCY_MONITOR_LIB";

fn main() {
    println!("cargo::rerun-if-env-changed={FOLDER}");
    let folder = env::var_os(FOLDER).map_or_else(repositorys, PathBuf::from);
    let archive = folder.join("liblatency_monitor.a");
    let name = archive.display();
    println!("cargo::rerun-if-changed={name}");
    if !archive.is_file() {
        println!("cargo::error=no {name}: run `rt lib` in crates/latency_monitor, or name its folder in {FOLDER}");
        return;
    }
    println!("cargo::rustc-link-search=native={}", folder.display());
    println!("cargo::rustc-link-lib=static=latency_monitor");
}

fn repositorys() -> PathBuf {
    Path::new(env!("CARGO_MANIFEST_DIR")).join("../../crates/latency_monitor/out")
}

//! Links the binaries that call the proved crates with the archives in `target/staticlib`, where `bench/run.sh` puts them.
use std::path::Path;

const RUNS: [&str; 3] = ["abi", "abi_serial", "abi_scheduler"];
const HEX: &str = "abi_hex";

fn link(program: &str, part: &str) {
    let path = Path::new(env!("CARGO_MANIFEST_DIR")).join(format!("../target/staticlib/lib{part}.a"));
    println!("cargo:rerun-if-changed={}", path.display());
    println!("cargo:rustc-link-arg-bin={program}={}", path.display());
}

fn main() {
    for part in RUNS {
        link("differ", part);
        link("measure", part);
    }
    for program in ["hexes", "tools", "measure"] {
        link(program, HEX);
    }
}

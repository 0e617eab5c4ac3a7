//! Links the library that `./library` builds: from the folder in `NCI_BENCH_LIB`, or from `build/lib`.

use std::env;

fn main() {
    let own = env::var("CARGO_MANIFEST_DIR").expect("cargo names the package's folder");
    let folder = env::var("NCI_BENCH_LIB").unwrap_or(format!("{own}/../build/lib"));
    println!("cargo:rerun-if-env-changed=NCI_BENCH_LIB");
    println!("cargo:rerun-if-changed={folder}/libnci_bench.a");
    println!("cargo:rustc-link-search=native={folder}");
    println!("cargo:rustc-link-lib=static=nci_bench");
}

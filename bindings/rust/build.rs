//! Links the static library that `bindings/build` makes.

use std::env;
use std::path::PathBuf;

fn main() {
    println!("cargo:rerun-if-env-changed=COUNTER_TIES_LIB");
    let here =
        PathBuf::from(env::var_os("CARGO_MANIFEST_DIR").expect("cargo names the crate's folder"));
    let folder = env::var_os("COUNTER_TIES_LIB").map_or_else(|| here.join("../out"), PathBuf::from);
    println!(
        "cargo:rerun-if-changed={}",
        folder.join("libcounter_ties.a").display()
    );
    println!("cargo:rustc-link-search=native={}", folder.display());
    println!("cargo:rustc-link-lib=static=counter_ties");
}

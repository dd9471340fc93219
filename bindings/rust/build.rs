//! Links `libexports.a`. `FOGETSU_LIB` names its folder; else it is `target/staticlib` of the
//! repository, where `bindings/archive` writes it.

use std::env;
use std::path::{Path, PathBuf};

fn main() {
    let built = Path::new(env!("CARGO_MANIFEST_DIR")).join("../../target/staticlib");
    let folder = env::var_os("FOGETSU_LIB").map_or(built, PathBuf::from);
    println!("cargo:rerun-if-env-changed=FOGETSU_LIB");
    println!(
        "cargo:rerun-if-changed={}",
        folder.join("libexports.a").display()
    );
    println!("cargo:rustc-link-search=native={}", folder.display());
    println!("cargo:rustc-link-lib=static=exports");
}

//! Links the static library: the one that SJ_C_LIB names, or the one that `make bindings` built.

use std::env;
use std::path::PathBuf;

fn main() {
    println!("cargo:rerun-if-env-changed=SJ_C_LIB");
    let here = PathBuf::from(env::var("CARGO_MANIFEST_DIR").expect("cargo sets it"));
    let library = env::var("SJ_C_LIB").map_or_else(
        |_| here.join("../../crates/sj_c/out/libsj_c.a"),
        PathBuf::from,
    );
    println!("cargo:rerun-if-changed={}", library.display());
    if !library.is_file() {
        let lacks = library.display();
        println!("cargo:warning=no {lacks}: run `make bindings`, or set SJ_C_LIB");
    }
    let folder = library.parent().expect("a file has a folder");
    println!("cargo:rustc-link-search=native={}", folder.display());
    println!("cargo:rustc-link-lib=static=sj_c");
}

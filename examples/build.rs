//! The `build.rs` of a daemon that has `bindings/rust/virtiofs_map.rs` as a module: it links the installed archive.

fn main() {
    println!("cargo:rerun-if-env-changed=VIRTIOFS_MAP_LIB");
    if let Ok(folder) = std::env::var("VIRTIOFS_MAP_LIB") {
        println!("cargo:rustc-link-search=native={folder}");
    }
    println!("cargo:rustc-link-lib=static=virtiofs_map");
}

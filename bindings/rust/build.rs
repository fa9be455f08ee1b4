// SPDX-License-Identifier: BSD-3-Clause
//! Tells Cargo where the archive is: in the folder that VIRTIOFS_MAP_LIB names, or where pkg-config says. Where there is
//! none, a warning says so: `cargo check` and `cargo doc` do without, and a build fails.

use std::env;
use std::fs;
use std::path::Path;
use std::process::Command;
use std::str;

/// What this asks of the environment. A change of one of them runs it again.
const ASKED: [&str; 5] =
    ["VIRTIOFS_MAP_LIB", "PKG_CONFIG", "PKG_CONFIG_PATH", "PKG_CONFIG_LIBDIR", "PKG_CONFIG_SYSROOT_DIR"];

fn main() {
    println!("cargo:rerun-if-changed=build.rs");
    for name in ASKED {
        println!("cargo:rerun-if-env-changed={name}");
    }
    println!("cargo:rustc-link-lib=static=virtiofs_map");
    match folder() {
        Ok(folder) => {
            println!("cargo:rerun-if-changed={folder}/libvirtiofs_map.a");
            println!("cargo:rustc-link-search=native={folder}");
            if let Some(symbol) = lacking(&Path::new(&folder).join("libvirtiofs_map.a")) {
                let version = env!("CARGO_PKG_VERSION");
                println!("cargo:warning={folder}/libvirtiofs_map.a lacks {symbol}: it is not the archive of version {version} \
                    that ./install puts there, which has the kit's liblibc_c.a in it");
            }
        }
        Err(why) => println!("cargo:warning={}", why.replace('\n', " ")),
    }
}

/// What the archive has to define: the kit's memory, and the last of the calls that this version came to.
const DEFINED: [&str; 2] = ["rattle_alloc", "virtiofs_map_ids_to_host"];

/// The first of these that the archive does not define, by the table of symbols with which an archive begins.
fn lacking(archive: &Path) -> Option<&'static str> {
    let bytes = fs::read(archive).unwrap_or_default();
    // (eight bytes, then a header of sixty with the size of the table in ten of them)
    let size = bytes.get(56..66).and_then(|it| str::from_utf8(it).ok()?.trim().parse::<usize>().ok());
    let table = size.and_then(|size| bytes.get(68..68 + size)).unwrap_or_default();
    let is_defined = |symbol: &&str| table.split(|it| *it == 0).any(|name| name.ends_with(symbol.as_bytes()));
    DEFINED.into_iter().find(|symbol| !is_defined(symbol))
}

/// The folder in which the archive stands, or a sentence that says why there is none.
fn folder() -> Result<String, String> {
    let folder = match env::var("VIRTIOFS_MAP_LIB") {
        Ok(named) => named,
        Err(_) => folder_of_pkg_config()?,
    };
    if Path::new(&folder).join("libvirtiofs_map.a").is_file() {
        return Ok(folder);
    }
    Err(format!("there is no libvirtiofs_map.a in {folder}"))
}

/// What pkg-config has after `-L`, of the archive that has this crate's version. A header, an archive and this crate
/// belong together only where they have one version.
fn folder_of_pkg_config() -> Result<String, String> {
    let program = env::var("PKG_CONFIG").unwrap_or_else(|_| "pkg-config".into());
    let wanted = format!("virtiofs_map = {}", env!("CARGO_PKG_VERSION"));
    let mut asked = Command::new(&program);
    // (a folder in which the linker looks anyway is told too)
    asked.env("PKG_CONFIG_ALLOW_SYSTEM_LIBS", "1").args(["--libs-only-L", "--print-errors", &wanted]);
    let hint = "VIRTIOFS_MAP_LIB may name the folder of libvirtiofs_map.a";
    let answer = asked.output().map_err(|error| format!("{program} does not run: {error}. {hint}"))?;
    if !answer.status.success() {
        return Err(format!("{}{hint}", String::from_utf8_lossy(&answer.stderr)));
    }
    let told = String::from_utf8_lossy(&answer.stdout).trim().replace("\\ ", " ");
    told.strip_prefix("-L").map(String::from).ok_or_else(|| format!("{program} tells no folder. {hint}"))
}

//! Finds the static library, and links it. It is `liblp_c.a` of the first of these folders that has it:
//!
//! 1. the folder that `LP_LIB_DIR` names; if that has none, no other is looked for;
//! 2. `native/` of this crate, which `bin/dist` of the repository fills;
//! 3. `crates/lp_c/out` of the repository, where this crate lies in it.
//!
//! Else it is the library that pkg-config knows as `influxdb_line_protocol`, of this major version: `PKG_CONFIG` names that program.
//!
//! Where `liblp_heap.a` lies beside `liblp_c.a`, its three heap functions are linked, and those of `src/heap.rs` are left out; so they are
//! for an installed library, which has its own. If there is none, a warning says so: documentation and checks need none, and the compiler
//! refuses to link without it.
use std::path::{Path, PathBuf};
use std::{env, fs, process::Command};

const ARCHIVE: &str = "liblp_c.a";
const PACKAGE: &str = "influxdb_line_protocol";

fn main() {
    for name in ["LP_LIB_DIR", "PKG_CONFIG", "PKG_CONFIG_PATH", "PKG_CONFIG_LIBDIR"] {
        println!("cargo:rerun-if-env-changed={name}");
    }
    println!("cargo:rustc-check-cfg=cfg(lp_heap)");
    let here = PathBuf::from(env::var("CARGO_MANIFEST_DIR").expect("cargo says where the crate lies"));
    let named = env::var_os("LP_LIB_DIR").map(PathBuf::from);
    let folders = named.map_or_else(|| vec![here.join("native"), here.join("../../crates/lp_c/out")], |folder| vec![folder]);
    for folder in &folders {
        println!("cargo:rerun-if-changed={}", folder.join(ARCHIVE).display());
    }
    if let Some(folder) = folders.iter().find(|folder| folder.join(ARCHIVE).exists()) {
        return link_archive(folder);
    }
    let mut missing: Vec<_> = folders.iter().map(|folder| format!("no {}", folder.join(ARCHIVE).display())).collect();
    if env::var_os("LP_LIB_DIR").is_none() {
        match installed() {
            Ok(folder) => return link_installed(&folder),
            Err(why) => missing.push(why),
        }
    }
    println!("cargo:warning=the proved library is not there: {}. README.md of this crate says where it comes from", missing.join("; "));
    println!("cargo:rustc-link-lib=static=lp_c");
}

/// The processor that an archive is for, as cargo names it, by the head of its first object file.
fn processor_of(archive: &Path) -> Option<&'static str> {
    let bytes = fs::read(archive).ok()?;
    let head = bytes.windows(20).find(|window| window.starts_with(b"\x7fELF"))?;
    match head[18] {
        62 => Some("x86_64"),
        183 => Some("aarch64"),
        _ => None,
    }
}

fn link_archive(folder: &Path) {
    let (archive, target) = (folder.join(ARCHIVE), env::var("CARGO_CFG_TARGET_ARCH").unwrap_or_default());
    if let Some(processor) = processor_of(&archive).filter(|processor| *processor != target) {
        println!("cargo:warning={} is for {processor}, and this build for {target}: bin/dist packs a crate for each", archive.display());
    }
    println!("cargo:rustc-link-search=native={}", folder.display());
    println!("cargo:rustc-link-lib=static=lp_c");
    if folder.join("liblp_heap.a").exists() {
        println!("cargo:rustc-link-lib=static=lp_heap");
        println!("cargo:rustc-cfg=lp_heap");
    }
}

/// Links the static library of a folder, so that programs run without it; or if there is none, the shared one.
fn link_installed(folder: &Path) {
    let kind = if folder.join(format!("lib{PACKAGE}.a")).exists() { "static" } else { "dylib" };
    println!("cargo:rustc-link-search=native={}", folder.display());
    println!("cargo:rustc-link-lib={kind}={PACKAGE}");
    println!("cargo:rustc-cfg=lp_heap");
}

/// The folder of the installed library, or why there is none.
fn installed() -> Result<PathBuf, String> {
    let program = env::var("PKG_CONFIG").unwrap_or("pkg-config".into());
    let ask = |words: &[&str]| Command::new(&program).args(words).output().map_err(|why| format!("{program}: {why}"));
    let found = ask(&["--print-errors", "--exists", &format!("{PACKAGE} >= 3"), &format!("{PACKAGE} < 4")])?;
    if !found.status.success() {
        let said = String::from_utf8_lossy(&found.stderr);
        return Err(format!("{program}: {}", said.lines().next().unwrap_or("it fails").trim_end_matches('.')));
    }
    let folder = ask(&["--variable=libdir", PACKAGE])?;
    Ok(PathBuf::from(String::from_utf8_lossy(&folder.stdout).trim()))
}

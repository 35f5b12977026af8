//! Links the two proved archives, which hosts/archives.sh puts into target/staticlib of the repository. Where HYL_OTHER_ENGINE names another
//! archive of the engine, the benchmark measures that one too: its entries get other names first. Then the functions of both start at the same
//! place of a page: where they stand elsewhere, an archive can be a tenth slower than itself.

use std::path::{Path, PathBuf};
use std::process::Command;

const ENTRIES: [&str; 5] = ["hyl_record_len", "hyl_open", "hyl_step", "hyl_run", "hyl_letter"];

/// An archive whose functions start at a page.
fn aligned(archive: &Path, made: &Path, names: &[String]) {
    let status = Command::new("objcopy").arg("--set-section-alignment=.text.*=4096").args(names).arg(archive).arg(made).status();
    assert!(status.is_ok_and(|status| status.success()), "objcopy of {} failed", archive.display());
}

fn main() {
    let folder = |name: &str| PathBuf::from(std::env::var_os(name).expect("cargo sets it"));
    let archives = folder("CARGO_MANIFEST_DIR").join("../../target/staticlib");
    let out = folder("OUT_DIR");
    let other = std::env::var_os("HYL_OTHER_ENGINE").filter(|path| !path.is_empty()).map(PathBuf::from);
    // what is looked in first has the engine that is linked
    println!("cargo:rustc-link-search=native={}", out.display());
    println!("cargo:rustc-link-search=native={}", archives.display());
    for name in ["engine", "wire"] {
        println!("cargo:rustc-link-lib=static={name}");
        println!("cargo:rerun-if-changed={}", archives.join(format!("lib{name}.a")).display());
    }
    println!("cargo:rustc-check-cfg=cfg(other)");
    println!("cargo:rerun-if-env-changed=HYL_OTHER_ENGINE");
    println!("cargo:rerun-if-changed=build.rs");
    match other {
        Some(other) => {
            println!("cargo:rerun-if-changed={}", other.display());
            let names = ENTRIES.map(|name| format!("--redefine-sym={name}=other_{name}"));
            aligned(&other, &out.join("libother.a"), &names);
            aligned(&archives.join("libengine.a"), &out.join("libengine.a"), &[]);
            println!("cargo:rustc-link-lib=static=other");
            println!("cargo:rustc-cfg=other");
        }
        None => drop(std::fs::remove_file(out.join("libengine.a"))),
    }
}

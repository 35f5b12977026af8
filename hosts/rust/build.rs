//! Links the proved archives, which `hosts/archives.sh` builds at the root of the repository.
//! `HYALONETH_LIB` names another directory that has them.

use std::env;
use std::path::PathBuf;

fn main() {
    println!("cargo:rerun-if-env-changed=HYALONETH_LIB");
    let archives = match env::var_os("HYALONETH_LIB") {
        Some(directory) => PathBuf::from(directory),
        None => {
            let package = env::var_os("CARGO_MANIFEST_DIR").expect("cargo names the package");
            PathBuf::from(package).join("../../target/staticlib")
        }
    };
    for name in ["engine", "wire"] {
        let archive = archives.join(format!("lib{name}.a"));
        assert!(
            archive.is_file(),
            "{} is not there: run hosts/archives.sh at the root of the repository",
            archive.display()
        );
        println!("cargo:rerun-if-changed={}", archive.display());
        println!("cargo:rustc-link-lib=static={name}");
    }
    println!("cargo:rustc-link-search=native={}", archives.display());
}

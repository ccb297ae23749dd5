//! Links the proved implementation: the one that the variable MIZZENGRAPE_LIB_DIR names, in the repository the archive that `make library`
//! writes, else the installed one that pkg-config finds.

use std::path::{Path, PathBuf};
use std::process::Command;

fn main() {
    println!("cargo:rerun-if-env-changed=MIZZENGRAPE_LIB_DIR");
    let repository = Path::new(env!("CARGO_MANIFEST_DIR")).join("../..");
    if let Some(folder) = std::env::var_os("MIZZENGRAPE_LIB_DIR") {
        link(Path::new(&folder), "mizzengrape", "no library is where MIZZENGRAPE_LIB_DIR leads");
    } else if repository.join("crates.txt").exists() {
        let hint = "run `make library` in the repository first";
        link(&repository.join("target/staticlib"), "exports", hint);
    } else {
        link(&installed(), "mizzengrape", "install the library, or set MIZZENGRAPE_LIB_DIR");
    }
}

fn link(folder: &Path, name: &str, hint: &str) {
    let archive = folder.join(format!("lib{name}.a"));
    println!("cargo:rerun-if-changed={}", archive.display());
    assert!(archive.exists(), "no {}: {hint}", archive.display());
    println!("cargo:rustc-link-search=native={}", folder.display());
    println!("cargo:rustc-link-lib=static={name}");
}

/// The folder of the installed library.
fn installed() -> PathBuf {
    let asked = Command::new("pkg-config").args(["--variable=libdir", "mizzengrape"]).output();
    let found = asked.ok().filter(|output| output.status.success());
    let folder = found.map(|output| String::from_utf8_lossy(&output.stdout).trim().to_string());
    PathBuf::from(folder.unwrap_or_default())
}

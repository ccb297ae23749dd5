//! The version is the same wherever it stands.

use std::fs;
use std::path::Path;

fn read(file: &str) -> String {
    fs::read_to_string(Path::new(env!("CARGO_MANIFEST_DIR")).join("..").join(file)).expect(file)
}

#[test]
fn one_version_everywhere() {
    let version = read("VERSION").trim().to_string();
    assert_eq!(version, env!("CARGO_PKG_VERSION"));
    let header = read("include/mizzengrape.h");
    assert!(header.contains(&format!("#define MIZZENGRAPE_VERSION \"{version}\"\n")));
    for (name, number) in ["MAJOR", "MINOR", "PATCH"].iter().zip(version.split('.')) {
        assert!(header.contains(&format!("#define MIZZENGRAPE_VERSION_{name} {number}\n")), "{name}");
    }
    let library = mizzengrape::version().map(|number| number.to_string()).join(".");
    assert_eq!(library, version, "the library's own");
    let changes = read("CHANGELOG.md");
    let mut headings = changes.lines().filter_map(|line| line.strip_prefix("## "));
    assert_eq!(headings.find(|heading| *heading != "Unreleased"), Some(version.as_str()));
}

//! README.md, followed to the letter: its files are written and its commands print what stands there.

use std::fs;
use std::path::{Path, PathBuf};
use std::process::Command;

struct Folder(PathBuf);

impl Drop for Folder {
    fn drop(&mut self) {
        let _ = fs::remove_dir_all(&self.0);
    }
}

/// A folder with the repository's routines in it.
fn folder(repository: &Path) -> Folder {
    let path = std::env::temp_dir().join(format!("mizzengrape-readme-{}", std::process::id()));
    fs::create_dir_all(path.join("routines")).expect("a folder");
    for entry in fs::read_dir(repository.join("routines")).expect("routines") {
        let from = entry.expect("a file").path();
        fs::copy(&from, path.join("routines").join(from.file_name().expect("a name"))).expect("a copy");
    }
    Folder(path)
}

/// What a command prints, diagnostics first, as a terminal shows it.
fn printed(folder: &Folder, line: &str) -> String {
    let mut words = line.split_whitespace();
    assert_eq!(words.next(), Some("mizzengrape"), "{line}");
    let output = Command::new(env!("CARGO_BIN_EXE_mizzengrape"))
        .args(words)
        .current_dir(&folder.0)
        .output()
        .expect("the command runs");
    let text = |bytes: &[u8]| String::from_utf8_lossy(bytes).into_owned();
    format!("$ {line}\n{}{}", text(&output.stderr), text(&output.stdout))
}

#[test]
fn each_example_does_what_is_said() {
    let repository = Path::new(env!("CARGO_MANIFEST_DIR")).join("..");
    let readme = fs::read_to_string(repository.join("README.md")).expect("the readme");
    let folder = folder(&repository);
    let mut commands = 0;
    for block in readme.split("\n```").skip(1).step_by(2) {
        let (language, text) = block.split_once('\n').expect("a language");
        if language == "console" {
            let lines = text.lines().filter_map(|line| line.strip_prefix("$ "));
            let shown: String = lines.map(|line| printed(&folder, line)).collect();
            assert_eq!(shown.trim_end(), text.trim_end());
            commands += text.matches("$ mizzengrape").count();
        } else {
            let name = text.lines().next().and_then(|line| line.strip_prefix("// ")).expect("a file's name");
            fs::write(folder.0.join(name), text).expect("a file");
        }
    }
    assert!(commands >= 8, "{commands}");
}

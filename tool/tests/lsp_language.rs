//! Every text of `tests/language` and of `routines` in the language server: its diagnostics are what `check` prints.

mod support;

use mizzengrape_tool::command::call;
use mizzengrape_tool::lsp::json::Json;
use std::fs;
use std::path::{Path, PathBuf};
use support::client::Client;

fn texts() -> Vec<PathBuf> {
    let folders =
        ["tests/language", "../routines"].map(|folder| Path::new(env!("CARGO_MANIFEST_DIR")).join(folder));
    let files = folders.iter().flat_map(|folder| fs::read_dir(folder).expect("a folder"));
    let mut texts: Vec<PathBuf> = files.map(|file| file.expect("a file").path()).collect();
    texts.retain(|path| path.extension().is_some_and(|extension| extension == "c"));
    texts.sort();
    texts
}

/// A diagnostic as the command prints it, with so many UTF-16 units as there are columns: no text has others before an error.
fn printed(path: &str, diagnostic: &Json) -> String {
    let number =
        |name| diagnostic.at(&["range", "start", name]).and_then(Json::as_u32).expect("a number") + 1;
    let severity = match diagnostic.get("severity").and_then(Json::as_u32) {
        Some(1) => "error",
        Some(2) => "warning",
        other => panic!("{other:?}"),
    };
    let message = diagnostic.get("message").and_then(Json::as_str).expect("a message");
    format!("{path}:{}:{}: {severity}: {message}\n", number("line"), number("character"))
}

#[test]
fn diagnostics_are_what_check_prints() {
    let mut client = Client::start(Path::new(env!("CARGO_BIN_EXE_mizzengrape")));
    client.initialize();
    let (mut refused, mut wrong, mut accepted) = (0, 0, 0);
    for path in texts() {
        let name = path.to_string_lossy().into_owned();
        client.open(&format!("file://{name}"), &fs::read_to_string(&path).expect("a text"));
        let shown: String =
            client.diagnostics().iter().map(|diagnostic| printed(&name, diagnostic)).collect();
        let output = call(&["check", "--short", &name].map(str::to_string));
        assert_eq!(shown, output.err);
        match output.status {
            0 => accepted += 1,
            1 => refused += 1,
            _ => wrong += 1,
        }
    }
    assert!(
        refused > 10 && wrong > 30 && accepted > 20,
        "{refused} refused, {wrong} wrong, {accepted} accepted"
    );
    assert_eq!(client.end(), 0);
}

//! docs/EDITORS.md: its screens are those that neovim showed, its set-ups the files that were tried.

use mizzengrape_tool::lsp::json::Json;
use std::fs;
use std::path::Path;

fn read(path: &str) -> String {
    let path = Path::new(env!("CARGO_MANIFEST_DIR")).join(path);
    fs::read_to_string(&path).unwrap_or_else(|error| panic!("{}: {error}", path.display()))
}

/// The examples of the document: language and text.
fn examples() -> Vec<(String, String)> {
    let document = read("../docs/EDITORS.md");
    let blocks = document.split("\n```").skip(1).step_by(2);
    blocks
        .filter_map(|block| {
            block.split_once('\n').map(|(language, text)| (language.to_string(), text.to_string()))
        })
        .collect()
}

#[test]
fn each_example_is_what_was_tried() {
    let seen = read("editors/try-neovim.txt");
    let seen: Vec<&str> = seen.lines().map(|line| line.strip_prefix("| ").unwrap_or(line)).collect();
    let mut screens = 0;
    for (language, text) in examples() {
        let is_there = match language.as_str() {
            "screen" => {
                screens += 1;
                let lines: Vec<&str> = text.lines().collect();
                seen.windows(lines.len())
                    .any(|shown| shown.iter().zip(&lines).all(|(a, b)| a.trim_end() == *b))
            }
            "lua" => read("editors/neovim.lua").ends_with(&format!("{text}\n")),
            "elisp" => read("editors/emacs.el").ends_with(&format!("{text}\n")),
            "json" => Json::read(&text).is_ok(),
            "toml" | "sh" => true,
            other => panic!("no example is in {other}"),
        };
        assert!(is_there, "{language}:\n{text}");
    }
    assert_eq!(screens, 3);
}

/// What neovim showed is the second club's routine as it stands.
#[test]
fn the_screen_shows_the_routine() {
    let seen = read("editors/try-neovim.txt");
    for line in read("../routines/second_club.c").lines() {
        assert!(seen.contains(line), "{line}");
    }
}

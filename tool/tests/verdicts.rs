//! The library's verdicts on the texts of `tests/language`, as `tests/language/verdicts.txt` lists them, and what `asm`, `dis` and
//! `fmt` print.

use mizzengrape_tool::command::{call, Output};
use std::fs;
use std::path::PathBuf;

fn folder() -> PathBuf {
    PathBuf::from(env!("CARGO_MANIFEST_DIR")).join("tests/language")
}

fn path(file: &str) -> String {
    folder().join(file).to_string_lossy().into_owned()
}

fn mizzengrape(arguments: &[&str]) -> Output {
    call(&arguments.iter().map(|argument| argument.to_string()).collect::<Vec<String>>())
}

/// Each text with the verdict that the library of today gives.
fn verdicts() -> Vec<(String, String)> {
    let list = fs::read_to_string(folder().join("verdicts.txt")).expect("the list");
    list.lines()
        .map(|line| line.split_once('\t').expect("name and verdict"))
        .map(|(n, v)| (n.into(), v.into()))
        .collect()
}

#[test]
fn check_prints_the_verdict() {
    for (name, verdict) in verdicts() {
        let output = mizzengrape(&["check", "--short", &path(&format!("{name}.c"))]);
        assert_eq!(output.out, format!("{verdict}\n"), "{name}");
        assert_eq!(output.status, u8::from(verdict != "accepted"), "{name}");
        let words = mizzengrape(&["check", "--short", &path(&format!("{name}.words"))]);
        assert_eq!((words.out, words.status), (output.out, output.status), "{name}");
    }
}

#[test]
fn asm_prints_the_words() {
    for (name, _) in verdicts() {
        let output = mizzengrape(&["asm", "--words", "--no-check", &path(&format!("{name}.c"))]);
        let words = fs::read_to_string(folder().join(format!("{name}.words"))).expect("words");
        assert_eq!((output.out, output.status), (words, 0), "{name}");
    }
}

#[test]
fn asm_writes_nothing_that_is_refused() {
    let out = std::env::temp_dir().join(format!("mizzengrape-{}.tbl", std::process::id()));
    let out = out.to_string_lossy();
    let refused = mizzengrape(&["asm", &path("second_club.c"), "-o", &out]);
    assert_eq!((refused.out.as_str(), refused.status), ("refused 8 0 0\n", 1));
    assert!(fs::metadata(&*out).is_err());
    let accepted = mizzengrape(&["asm", &path("first_club.c"), "-o", &out]);
    assert_eq!(accepted, Output::default());
    assert_eq!(mizzengrape(&["check", &out]).out, "accepted\n");
    let text = fs::read_to_string(path("first_club.dis")).expect("a text");
    assert_eq!(mizzengrape(&["dis", &out]).out, text);
    fs::remove_file(&*out).expect("it was written");
}

#[test]
fn the_map_tells_where_things_stand() {
    let map = std::env::temp_dir().join(format!("mizzengrape-{}.map", std::process::id()));
    let map = map.to_string_lossy();
    mizzengrape(&["asm", "--words", "--map", &map, &path("first_club.c")]);
    let lines = fs::read_to_string(&*map).expect("a map");
    fs::remove_file(&*map).expect("it was written");
    let expected = "object 0 0 2:10\nobject 0 1 3:10\nobject 0 2 4:10\nvariable 0 0 6:31\nvariable 0 1 6:59\nvariable 0 2 6:74\n\
                    statement 0 0 8:5\nstatement 0 1 9:5\nstatement 0 2 10:5\nstatement 0 3 11:9\nstatement 0 4 12:9\n";
    assert_eq!(lines, expected);
}

#[test]
fn statements_are_numbered_when_asked() {
    let output = mizzengrape(&["dis", "--numbers", &path("doc01-e.words")]);
    let body = "    dynamic_check(n1 > 0); // 0\n    bundled { // 1\n        p0 = p0 + 1; // 2\n        n1 = n1 - 1; // 3\n    }\n}\n";
    assert!(output.out.ends_with(body), "{}", output.out);
}

#[test]
fn a_line_is_explained() {
    let output = mizzengrape(&["explain", "--short", &path("first_club.c"), "12"]);
    let expected = "before rows = rows - 1\ndeclared: row : count(rows)\nknown lower end: row - 1 (line 11: row = row + 1)\n\
                    known upper end: row + rows - 1 (line 11: row = row + 1)\nknown: row != NULL, rows >= 1\n";
    assert_eq!(output.out, format!("{}:12:9: {expected}", path("first_club.c")));
    let refused = mizzengrape(&["explain", "--short", &path("second_club.c")]);
    assert_eq!(refused.out.lines().last(), Some("known: nothing"));
    let accepted = mizzengrape(&["explain", &path("first_club.c")]);
    assert_eq!(
        (accepted.err, accepted.status),
        (format!("{}: error: accepted: name a line\n", path("first_club.c")), 2)
    );
}

#[test]
fn names_bring_the_formatted_text_back() {
    let names = std::env::temp_dir().join(format!("mizzengrape-{}.names", std::process::id()));
    let (names, words) = (names.to_string_lossy(), format!("{names}.words", names = names.to_string_lossy()));
    for (name, verdict) in verdicts() {
        let text = path(&format!("{name}.c"));
        let formatted = mizzengrape(&["fmt", "--drop-comments", &text]);
        assert_eq!(formatted.status, 0, "{name}");
        let assembled = mizzengrape(&["asm", "--no-check", "--words", "--names", &names, &text]);
        fs::write(&words, assembled.out).expect("a place to write");
        let mut numbers = verdict.trim_start_matches("refused ").trim_start_matches("routine ").split(' ');
        let number = numbers.nth(usize::from(verdict.contains("routine")));
        let malformed = number.is_some_and(|number| matches!(number.parse(), Ok(1..=6)));
        if !malformed {
            let printed = mizzengrape(&["dis", "--names", &names, &words]);
            assert_eq!(printed.out, formatted.out, "{name}");
        }
    }
    fs::remove_file(&*names).expect("it was written");
    fs::remove_file(words).expect("it was written");
}

#[test]
fn calls_that_are_wrong_end_with_2() {
    let none: [&str; 0] = [];
    for wrong in [
        &none[..],
        &["chek"],
        &["check"],
        &["check", "--words", "a.c"],
        &["check", "no such file.c"],
        &["asm", "-o"],
    ] {
        let output = mizzengrape(wrong);
        assert_eq!((output.out.as_str(), output.status), ("", 2), "{wrong:?}");
        assert!(!output.err.is_empty());
    }
    for command in ["check", "asm", "dis", "fmt", "run", "trace"] {
        assert!(mizzengrape(&[command, "--help"]).out.starts_with(&format!("mizzengrape {command} ")));
    }
}

//! Every pair of text and words, and every wrong text, of `tests/language`: `INDEX.txt` lists them.

use mizzengrape_tool::diagnostics::Source;
use mizzengrape_tool::names::Names;
use mizzengrape_tool::printer::print;
use mizzengrape_tool::program::words_file;
use mizzengrape_tool::table::Table;
use mizzengrape_tool::words::{assemble, Assembly};
use std::fs;
use std::path::PathBuf;

/// A line of the index.
struct Entry {
    name: String,
    kind: String,
}

fn folder() -> PathBuf {
    PathBuf::from(env!("CARGO_MANIFEST_DIR")).join("tests/language")
}

fn read(name: &str, ending: &str) -> String {
    optional(name, ending).unwrap_or_else(|| panic!("no {name}.{ending}"))
}

fn optional(name: &str, ending: &str) -> Option<String> {
    fs::read_to_string(folder().join(format!("{name}.{ending}"))).ok()
}

fn entries() -> Vec<Entry> {
    let index = fs::read_to_string(folder().join("INDEX.txt")).expect("the index");
    let entry = |line: &str| {
        let fields: Vec<&str> = line.split('\t').collect();
        Entry { name: fields[0].to_string(), kind: fields[1].to_string() }
    };
    index.lines().skip(1).map(entry).collect()
}

fn assembled(name: &str) -> Assembly {
    assemble(&read(name, "c")).unwrap_or_else(|wrong| panic!("{name}: {wrong:?}"))
}

fn words(assembly: &Assembly) -> String {
    words_file(&assembly.tables, &assembly.facts)
}

fn canonical(assembly: &Assembly) -> String {
    let tables = assembly.tables.iter().map(|words| Table::split(words).expect("a directory"));
    let tables: Vec<Table> = tables.collect();
    print(&tables, &assembly.facts, &Names::canonical(&tables))
}

#[test]
fn each_text_has_its_words() {
    let pairs = entries().into_iter().filter(|entry| entry.kind != "wrong text");
    let mut count = 0;
    for Entry { name, .. } in pairs {
        assert_eq!(words(&assembled(&name)), read(&name, "words"), "{name}");
        count += 1;
    }
    assert_eq!(count, 62);
}

#[test]
fn each_table_has_its_canonical_text() {
    for Entry { name, kind } in entries() {
        match kind.as_str() {
            "canonical" => assert_eq!(canonical(&assembled(&name)), read(&name, "c"), "{name}"),
            "free" => {
                let text = canonical(&assembled(&name));
                assert_eq!(text, read(&name, "dis"), "{name}");
                let again = assemble(&text).expect("a canonical text");
                assert_eq!(words(&again), read(&name, "words"), "{name}");
            }
            _ => {}
        }
    }
}

#[test]
fn each_wrong_text_has_its_message() {
    let mut count = 0;
    for Entry { name, .. } in entries().into_iter().filter(|entry| entry.kind == "wrong text") {
        let text = read(&name, "c");
        let source = Source { name: &format!("{name}.c"), text: &text };
        let wrong = assemble(&text).expect_err(&name);
        assert_eq!(source.error(&wrong, false), read(&name, "err"), "{name}");
        count += 1;
    }
    assert_eq!(count, 40);
}

#[test]
fn each_warning_is_given() {
    for Entry { name, .. } in entries().into_iter().filter(|entry| entry.kind != "wrong text") {
        let text = read(&name, "c");
        let source = Source { name: &format!("{name}.c"), text: &text };
        let warnings = assembled(&name).warnings;
        let shown: String = warnings.iter().map(|warning| source.warning(warning, false)).collect();
        assert_eq!(shown, optional(&name, "warn").unwrap_or_default(), "{name}");
    }
}

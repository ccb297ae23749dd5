//! Text and table, both ways: all vectors, generated tables of all forms, damaged texts and tables. The examples `round_trip` and `fuzz`
//! do the same in greater numbers.

mod support;

use mizzengrape_tool::command::verdict;
use mizzengrape_tool::library::form_refusal;
use mizzengrape_tool::program::Program;
use std::fs;
use std::path::Path;
use support::{damage, generate, round_trip::round_trip, Random};

fn lines(file: &Path) -> Vec<String> {
    fs::read_to_string(file).expect("vectors").lines().map(str::to_string).collect()
}

fn numbers(line: &str) -> Vec<i32> {
    line.split_whitespace().map(|word| word.parse().expect("a word")).collect()
}

/// A table has a text exactly when the library passes it through causes 1 to 6, or when it has a form that the library does not have yet.
fn reads_as_the_library_reads(tables: &[Vec<i32>], has_text: bool) {
    let [table] = tables else { return };
    match form_refusal(tables) {
        None => assert!(has_text, "{table:?}"),
        Some(_) if has_text => {
            let program = Program::of_tables("t.tbl", tables.to_vec(), Vec::new());
            let reason = verdict(&program, true).expect("a verdict").err;
            assert!(reason.contains("this library has no "), "{table:?}\n{reason}");
        }
        Some(_) => {}
    }
}

#[test]
fn vectors_come_back() {
    let folder = Path::new(env!("CARGO_MANIFEST_DIR")).join("../vectors");
    let mut texts = 0;
    for file in ["named.txt", "random.txt"] {
        for line in lines(&folder.join(file)).iter().filter_map(|line| line.strip_prefix("table:")) {
            let tables = [numbers(line)];
            let text = round_trip(&tables, &[], &mut Random::of(1, texts));
            reads_as_the_library_reads(&tables, text.is_some());
            texts += u64::from(text.is_some());
        }
    }
    assert!(texts > 1_000, "{texts}");
}

#[test]
fn generated_tables_come_back() {
    for number in 0..3_000 {
        let random = &mut Random::of(7, number);
        let case = generate::case(random);
        assert!(round_trip(&case.tables, &case.facts, random).is_some(), "{case:?}");
        reads_as_the_library_reads(&case.tables, true);
    }
}

#[test]
fn nothing_damaged_ends_in_a_panic() {
    let texts = ["first_club", "kinds", "set_three", "loop_facts", "sizes_ends"].map(|name| {
        let path = Path::new(env!("CARGO_MANIFEST_DIR")).join(format!("tests/language/{name}.c"));
        fs::read_to_string(path).expect("a text")
    });
    for number in 0..5_000 {
        damage::one(&mut Random::of(3, number), &texts);
    }
}

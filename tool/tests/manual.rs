//! docs/FORMAT.md: each example prints what stands below it. The golden explanations of `tests/language` too.

use mizzengrape_tool::command::{call, run_in_turn, run_program, verdict, Asked, Given, Output};
use mizzengrape_tool::program::Program;
use std::fs;
use std::path::{Path, PathBuf};

fn repository() -> PathBuf {
    Path::new(env!("CARGO_MANIFEST_DIR")).join("..")
}

/// An example: its language, its text, and what is said to be printed.
struct Example {
    language: String,
    text: String,
    printed: String,
}

fn examples(manual: &str) -> Vec<Example> {
    let mut parts = manual.split("\n```");
    let mut examples = Vec::new();
    parts.next();
    while let (Some(block), Some(below)) = (parts.next(), parts.next()) {
        let (language, text) = block.split_once('\n').expect("a language");
        let printed = below.split_once("prints `").and_then(|(_, rest)| rest.split_once('`'));
        examples.push(Example {
            language: language.to_string(),
            text: text.to_string(),
            printed: printed.expect("what an example prints").0.to_string(),
        });
    }
    examples
}

fn program(routine: &str) -> Program {
    Program::of_text("example.c", routine.to_string(), false).expect("a text")
}

/// The routine in turn with each image of a block; a blank line is between two.
fn in_turn(routine: &str, images: &str) -> Result<Output, String> {
    let given = |image: &str| Given {
        program: program(routine),
        image_path: "image".to_string(),
        image_text: image.to_string(),
    };
    let asked = Asked { quantum: 1, allowance: None, turns: false, short: true };
    run_in_turn(images.split("\n\n").map(given).collect(), asked)
}

#[test]
fn each_example_prints_what_is_said() {
    let manual = fs::read_to_string(repository().join("docs/FORMAT.md")).expect("the manual");
    let mut routine = String::new();
    let mut count = 0;
    for Example { language, text, printed } in examples(&manual) {
        let output = match language.as_str() {
            "c" => {
                routine.clone_from(&text);
                verdict(&program(&text), false)
            }
            "words" => {
                let words = text.trim_start_matches("table:").split_whitespace();
                let table = words.map(|word| word.parse().expect("a word")).collect();
                verdict(&Program::of_tables("example.tbl", vec![table], Vec::new()), false)
            }
            "image" => run_program(program(&routine), "image", text.clone(), false, false),
            "images" => in_turn(&routine, &text),
            other => panic!("no example is in {other}"),
        };
        let output = output.unwrap_or_else(|message| panic!("{message}\n{text}"));
        assert_eq!(output.out.lines().next(), Some(printed.as_str()), "{text}{}", output.err);
        count += 1;
    }
    assert!(count > 30, "{count}");
}

#[test]
fn explain_prints_the_page() {
    let explain = |words: &[&str]| {
        let arguments: Vec<String> = ["explain"].iter().chain(words).map(|word| word.to_string()).collect();
        call(&arguments)
    };
    for number in (1..=20).filter(|&number| number != 7) {
        let page = explain(&[&number.to_string()]);
        assert!(page.out.starts_with(&format!("Refusal {number}: ")), "{number}");
        assert!(page.out.matches("Refusal ").count() == 1 && !page.out.contains("```"), "{}", page.out);
    }
    for number in 1..=6 {
        assert!(explain(&["stop", &number.to_string()]).out.starts_with(&format!("Stop {number}: ")));
    }
    assert_eq!(explain(&["21"]), Output::wrong("error: there is no refusal 21\n".to_string()));
}

/// As `check` prints them, diagnostics first; those of forms that the library does not have yet come later.
#[test]
fn explanations_are_as_written() {
    let folder = repository().join("tool/tests/language");
    let verdicts = fs::read_to_string(folder.join("verdicts.txt")).expect("the list");
    let mut count = 0;
    for line in verdicts.lines().filter(|line| !line.ends_with("\t-")) {
        let name = line.split('\t').next().expect("a name");
        let Ok(expected) = fs::read_to_string(folder.join(format!("{name}.explain"))) else { continue };
        let text = fs::read_to_string(folder.join(format!("{name}.c"))).expect("a text");
        let program = Program::of_text(&format!("{name}.c"), text, false).expect("a text");
        let output = verdict(&program, false).expect("a verdict");
        assert_eq!(format!("{}{}", output.err, output.out), expected, "{name}");
        count += 1;
    }
    assert!(count >= 2, "{count}");
}

/// The walk that explains answers as the library does, on every vector.
#[test]
fn the_explainer_agrees_on_all_vectors() {
    let mut count = 0;
    for file in ["named.txt", "random.txt"] {
        let vectors = fs::read_to_string(repository().join("vectors").join(file)).expect("vectors");
        for case in vectors.split("---\n") {
            let lines = |name: &str| -> Vec<Vec<i32>> {
                let lines = case.lines().filter_map(|line| line.strip_prefix(name));
                let words =
                    |line: &str| line.split_whitespace().map(|word| word.parse().expect("a word")).collect();
                lines.map(words).collect()
            };
            // Of routines in turn the first one, as by itself.
            let (mut tables, is_set) = (lines("table:"), case.contains("kind: set\n"));
            if tables.is_empty() {
                continue;
            }
            tables.truncate(if is_set { tables.len() } else { 1 });
            let facts = lines("facts:").into_iter().next().unwrap_or_default();
            let program = Program::of_tables("vector.tbl", tables, facts);
            let output = verdict(&program, false).expect("a verdict");
            assert!(output.status <= 1, "{case}\n{}", output.err);
            assert!(output.status == 0 || output.err.contains("error: refused "), "{case}\n{}", output.err);
            let is_printed = program.text.is_some();
            if is_printed && (output.out.starts_with("refused 8") || output.out.starts_with("refused 9")) {
                let declared = ["note: declared here: ", "note: declared before: "];
                assert!(declared.iter().any(|note| output.err.contains(note)), "{}", output.err);
                let reasons = ["note: not shown: ", " end was lost at line "];
                assert!(reasons.iter().any(|reason| output.err.contains(reason)), "{}", output.err);
            }
            let calls = [" 19 ", " 20 "].iter().any(|number| output.out.contains(number));
            if is_printed && output.out.contains("routine") && calls {
                assert!(!output.err.contains("tells what it means"), "{case}\n{}", output.err);
            }
            if output.out.starts_with("refused 13") {
                assert!(output.err.contains("has other bounds a"), "{}", output.err);
            }
            assert!(!output.err.contains("refused 17: \n"), "{case}\n{}", output.err);
            count += 1;
        }
    }
    assert!(count > 1_000, "{count}");
}

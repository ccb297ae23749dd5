//! `for` in a text: the while that does the same is said, and written in its place.

use mizzengrape_tool::repair::apply;
use mizzengrape_tool::words::{assemble, assemble_all};

const HEAD: &str =
    "void f(array_ptr<unsigned> p : count(n), unsigned n, unsigned i, unsigned j, unsigned x)\n{\n";

/// The message for a text's first error, and the text with its repair.
fn repaired(lines: &str) -> (String, Option<String>) {
    let text = format!("{HEAD}{lines}}}\n");
    let errors = assemble_all(&text).expect_err(lines);
    let edited =
        errors[0].edit.as_ref().map(|edit| apply(&text, std::slice::from_ref(edit)).expect("a text"));
    let lines = edited.map(|text| text[HEAD.len()..].strip_suffix("}\n").expect("an end").to_string());
    (errors[0].message.clone(), lines)
}

/// A for is told and written as a while, and what comes of it reads.
fn becomes(lines: &str, said: &str, written: &str) {
    let (message, edited) = repaired(lines);
    assert_eq!(message, format!("`for` is not part of the subset: write {said}"), "{lines}");
    assert_eq!(edited.as_deref(), Some(written), "{lines}");
    assert!(assemble(&format!("{HEAD}{written}}}\n")).is_ok(), "{written}");
    // What is said can be pasted too.
    if !said.contains("..") {
        assert!(assemble(&format!("{HEAD}{said}\n}}\n")).is_ok(), "{said}");
    }
}

#[test]
fn a_for_is_written_as_a_while() {
    becomes(
        "    for (i = 0; i < n; i++) {\n        x = p[i]; // each\n    }\n    x = 1;\n",
        "i = 0; while (i < n) { .. i++; }",
        "    i = 0;\n    while (i < n) {\n        x = p[i]; // each\n        i++;\n    }\n    x = 1;\n",
    );
    becomes(
        "    for (i = 0; i < n; i += 2) {\n        x = p[i];\n        if (x > 0) {\n            j = x;\n        }\n    }\n",
        "i = 0; while (i < n) { x = p[i]; if (x > 0) { j = x; } i += 2; }",
        "    i = 0;\n    while (i < n) {\n        x = p[i];\n        if (x > 0) {\n            j = x;\n        }\n        i += 2;\n    }\n",
    );
    becomes(
        "    x = 1; for (i = 0; i < n; i++) { x = p[i]; }\n",
        "i = 0; while (i < n) { x = p[i]; i++; }",
        "    x = 1; i = 0; while (i < n) { x = p[i]; i++; }\n",
    );
    becomes("\tfor (; i < n; ) { i++; }\n", "while (i < n) { i++; }", "\twhile (i < n) { i++; }\n");
}

#[test]
fn without_braces_and_with_commas() {
    becomes(
        "    for (i = 0, j = n; i < j; i++, --j)\n        x = p[i];\n",
        "i = 0; j = n; while (i < j) { x = p[i]; i++; --j; }",
        "    i = 0;\n    j = n;\n    while (i < j) {\n        x = p[i];\n        i++;\n        --j;\n    }\n",
    );
    becomes(
        "    for (x = 0; x < n; x++);\n",
        "x = 0; while (x < n) { x++; }",
        "    x = 0;\n    while (x < n) {\n        x++;\n    }\n",
    );
    becomes(
        "    for (x = 0; x < n; x++) { }\n",
        "x = 0; while (x < n) { x++; }",
        "    x = 0;\n    while (x < n) {\n        x++;\n    }\n",
    );
}

/// The variable of a for is declared before the statements, a long body is not told, what is missing is not guessed.
#[test]
fn what_cannot_be_pasted_is_said() {
    let (message, edited) = repaired("    for (unsigned int k = 0; k < n; k++) { x = p[k]; }\n");
    assert_eq!(
        message,
        "`for` is not part of the subset: write k = 0; while (k < n) { x = p[k]; k++; }, and unsigned k; before the statements"
    );
    assert_eq!(edited.as_deref(), Some("    k = 0;\n    while (k < n) { x = p[k]; k++; }\n"));
    let long = "x = x + 1;\n".repeat(20);
    let (message, _) = repaired(&format!("    for (i = 0; i < n; i++) {{\n{long}}}\n"));
    assert_eq!(message, "`for` is not part of the subset: write i = 0; while (i < n) { .. i++; }");
    for lines in [
        "for (;;) { }\n",
        "for (i = 0; i < n) { }\n",
        "for i\n",
        "for (i = 0; i < n; i++) if (x > 0) { x = 1; }\n",
        "for (",
    ] {
        assert_eq!(repaired(lines).0, "`for` is not part of the subset: write a while", "{lines}");
    }
}

/// A for in a for: one after the other.
#[test]
fn nested() {
    let inner = "        for (j = 0; j < i; j++) {\n            x = p[j];\n        }\n";
    let (_, edited) = repaired(&format!("    for (i = 0; i < n; i++) {{\n{inner}    }}\n"));
    let once = edited.expect("an edit");
    assert_eq!(once, format!("    i = 0;\n    while (i < n) {{\n{inner}        i++;\n    }}\n"));
    let (_, edited) = repaired(&once);
    let twice = edited.expect("an edit");
    assert!(assemble(&format!("{HEAD}{twice}}}\n")).is_ok(), "{twice}");
}

//! Calls and texts that once had a wrong answer or a message that led astray.

#[path = "support/folder.rs"]
mod folder;

use folder::Folder;

/// The first line that `check --short` says of a text.
fn said(text: impl AsRef<[u8]>) -> String {
    let folder = Folder::new(&format!("defect-{}", text.as_ref().len()));
    let file = folder.write("r.c", text);
    let output = folder.command(&["check", "--short", &file]);
    output.err.lines().next().unwrap_or_default().trim_start_matches("r.c:").to_string()
}

#[test]
fn standard_input_is_read_once() {
    let folder = Folder::new("twice");
    let message =
        "error: standard input can be read once: - is given twice; `mizzengrape run --help` tells more\n";
    let output = folder.command(&["run", "-", "-"]);
    assert_eq!((output.err.as_str(), output.status), (message, 2));
    assert_eq!(folder.command(&["check", "-", "--facts", "-"]).status, 2);
}

#[test]
fn an_unknown_option_is_one_line() {
    let folder = Folder::new("option");
    let output = folder.command(&["check", "--wrods", "r.c"]);
    let message = "error: no option --wrods here; `mizzengrape check --help` tells more\n";
    assert_eq!((output.err.as_str(), output.status), (message, 2));
}

#[test]
fn control_characters_are_not_passed_on() {
    let folder = Folder::new("controls");
    let file = folder.write("r.c", "void f(unsigned x) { x = m; } // \u{1b}[2J\r \u{7} \u{202e}\n");
    let output = folder.command(&["check", &file]);
    let line = "void f(unsigned x) { x = m; } // \u{fffd}[2J\u{fffd} \u{fffd} \u{fffd}\n";
    assert!(output.err.contains(line), "{:?}", output.err);
    let name = folder.write("a\u{1b}[31m.c", "void f(unsigned x) { }\nvoid g() { }\n");
    for command in
        [&["check", &name][..], &["check", "--report", &name], &["fmt", &name], &["run", &name, "-no"]]
    {
        let output = folder.command(command);
        let printed = [output.err, output.out, output.end].concat();
        assert!(!printed.contains('\u{1b}'), "{printed:?}");
    }
}

#[test]
fn a_long_token_is_cut() {
    let long = "x".repeat(41);
    let cut = format!("`{}..`", "x".repeat(40));
    assert_eq!(said(format!("void f(unsigned {long} 5)\n")), format!("1:59: error: expected `)`, found `5`"));
    assert_eq!(said(format!("void f {long}")), format!("1:8: error: expected `(`, found {cut}"));
    assert_eq!(
        said(format!("void f {}", "x".repeat(40))),
        format!("1:8: error: expected `(`, found `{}`", "x".repeat(40))
    );
}

#[test]
fn a_keyword_is_no_name() {
    assert_eq!(said("void f(unsigned for) { }"), "1:17: error: `for` is a keyword and no name");
    assert_eq!(said("void while(unsigned x) { }"), "1:6: error: `while` is a keyword and no name");
    assert_eq!(said("unsigned struct checked[3];"), "1:10: error: `struct` is a keyword and no name");
}

#[test]
fn misspelt_names_are_told() {
    let check = said("void f(unsigned x) { dynamic_chek(x > 0); }");
    assert_eq!(
        check,
        "1:22: error: `dynamic_chek` is no statement that has a condition: did you mean `dynamic_check`?"
    );
    let variable = said("void f(unsigned boats) { boats = baots; }");
    assert_eq!(variable, "1:34: error: `baots` is not declared: did you mean `boats`?");
    assert_eq!(said("void f(unsigned boats) { boats = x; }"), "1:34: error: `x` is not declared");
}

#[test]
fn characters_that_are_not_seen_are_named() {
    let parts = "stands here; blanks, tabs and line ends part tokens";
    assert_eq!(said("void f(unsigned x)\u{c} { }"), format!("1:19: error: a form feed (U+000C) {parts}"));
    assert_eq!(said("void f(unsigned x)\0 { }"), format!("1:19: error: a NUL (U+0000) {parts}"));
    assert_eq!(
        said("void f(unsigned\u{a0}x) { }"),
        format!("1:16: error: a no-break space (U+00A0) {parts}")
    );
}

#[test]
fn a_number_that_is_no_word_is_named() {
    let folder = Folder::new("word");
    let file = folder.write("t.words", "table: 6 0 6 99999999999 14 0\n");
    let output = folder.command(&["check", &file]);
    let message = "t.words:1: error: `99999999999` is no word: a word is -2147483648 to 2147483647\n";
    assert_eq!((output.err.as_str(), output.status), (message, 2));
    let other = folder.write("o.words", "table 6 0\n");
    assert_eq!(
        folder.command(&["check", &other]).err,
        "o.words:1: error: expected `table:` or `facts:` and words\n"
    );
}

#[test]
fn too_many_statements_are_counted_as_such() {
    let text = format!("void f(unsigned x)\n{{\n{}}}\n", "x = 1;\n".repeat(1100));
    let expected = "1027:1: error: refused 1: the routine has 1100 statements; it may have at most 1,024";
    assert_eq!(said(text), expected);
}

#[test]
fn a_large_object_is_counted_in_cells() {
    let expected = "1:20: error: object `o` has 4900000000 cells; an object has 1 to 1,000,000";
    assert_eq!(said("unsigned o checked[70000][70000];\nvoid f(unsigned x) { }"), expected);
    assert_eq!(
        said("unsigned o checked[1000001];\nvoid f(unsigned x) { }"),
        "1:10: error: refused 3: object `o` has 1000001 cells; an object has 1 to 1,000,000"
    );
}

#[test]
fn stops_and_refusals_are_listed() {
    let folder = Folder::new("stops");
    let stops = folder.command(&["explain", "stop"]);
    assert_eq!(
        (stops.out.lines().count(), stops.out.lines().next()),
        (6, Some("Stop 1: a dynamic check is false"))
    );
    assert_eq!(folder.command(&["explain", "stops"]), stops);
    assert!(folder
        .command(&["explain", "refusals"])
        .out
        .contains("Refusal 17: a loop fact that is not shown\n"));
}

#[test]
fn a_brace_that_is_missing_in_an_image_is_told() {
    let folder = Folder::new("brace");
    let routine = "unsigned o checked[4];\nvoid f(unsigned x)\n{\n}\n";
    let output = folder.call(&["run", "--short"], routine, "o = { 1, 2; x = 3;");
    assert_eq!(output.err, "image:1:11: error: expected `,` or `}`, found `;`\n");
    let output = folder.call(&["run", "--short"], routine, "o = { 1, 2");
    assert_eq!(output.err, "image:1:11: error: expected `,` or `}`, found end of text\n");
}

#[test]
fn bounds_beyond_the_terminator_say_so() {
    let folder = Folder::new("terminator");
    let routine =
        "unsigned name nt_checked[12];\nvoid f(nt_array_ptr<unsigned> s : count(n), unsigned n)\n{\n}\n";
    let output = folder.call(&["run", "--short"], routine, "s = name; n = 12;");
    let message = "image:1:1: error: refused 12: the bounds of `s` are untrue at entry: its upper end s + n is cell 1 + 12 = 13, \
                   beyond the terminator of `name` at cell 12: the bounds may end there at most\n";
    assert_eq!((output.err.as_str(), output.status), (message, 1));
}

//! Null-terminated names: what refuses them, how a run shows them.

use mizzengrape_tool::command::{run_program, verdict, Output};
use mizzengrape_tool::program::Program;

/// A routine with s : count(n), an nt_array_ptr, p : count(0), an array_ptr, integers n and x, a plain object of 4 cells and a terminated
/// one of 4; its body begins on line 5.
fn routine(statements: &str) -> Program {
    let text = format!(
        "unsigned plain checked[4];\nunsigned name nt_checked[4];\n\
         void f(nt_array_ptr<unsigned> s : count(n), array_ptr<unsigned> p : count(0), unsigned n, unsigned x)\n{{\n{statements}\n}}\n"
    );
    Program::of_text("r.c", text, false).unwrap_or_else(|wrong| panic!("{wrong}"))
}

/// The first line of a refusal's explanation, and the verdict.
fn refused(statements: &str) -> [String; 2] {
    let output = verdict(&routine(statements), true).expect("a verdict");
    [output.err.trim_end().to_string(), output.out.trim_end().to_string()]
}

#[test]
fn kinds_of_pointers_that_do_not_meet() {
    for (statement, reason) in [
        ("s = plain;", "`plain` is a plain object and `s` an nt_array_ptr"),
        ("s = p;", "an array_ptr cannot become an nt_array_ptr"),
        ("s = p + n;", "an array_ptr cannot become an nt_array_ptr"),
        ("dynamic_check(s == p);", "`s` and `p` are of different kinds"),
    ] {
        let error = format!("r.c:5:1: error: refused 5: {reason}");
        assert_eq!(refused(statement), [error, "refused 5 0".to_string()], "{statement}");
    }
    for statement in ["p = s;", "p = name;", "dynamic_check(s != NULL);"] {
        assert_eq!(refused(statement)[1], "accepted", "{statement}");
    }
    assert_eq!(refused("p = s + n;")[1], "refused 8 0 1");
}

#[test]
fn the_terminator_is_out_of_bounds() {
    let lines = |statements: &str| {
        let output = verdict(&routine(statements), false).expect("a verdict");
        output.err.lines().filter(|line| line.starts_with("note: ")).map(str::to_string).collect::<Vec<_>>()
    };
    assert_eq!(
        lines("bundled {\ns = name;\nn = 4;\n}"),
        [
            "note: not shown: declared upper end s + n <= known upper end s + 3: short by 1 \
             (line 6: s = name; the last cell of `name` is its terminator)",
            "note: known here: s != NULL, n == 4",
        ]
    );
    assert_eq!(refused("bundled {\ns = name;\nn = 3;\n}")[1], "accepted");
}

#[test]
fn objects_have_a_length_whatever_their_sign() {
    let object = |cells: &str| {
        let text = format!("unsigned name nt_checked[{cells}];\nvoid f(unsigned x)\n{{\n}}\n");
        verdict(&Program::of_text("r.c", text, true).expect("a text"), true).expect("a verdict")
    };
    assert_eq!(object("1").out, "accepted\n");
    assert_eq!(object("1000000").out, "accepted\n");
    let long = "r.c:1:10: error: refused 3: object `name` has 1000001 cells; an object has 1 to 1,000,000\n";
    assert_eq!(object("1000001").err, long);
}

/// A run of one statement on line 5 with plain at cells 1 to 4 and name at cells 5 to 8.
fn run(statement: &str, image: &str) -> Output {
    run_program(routine(statement), "image", image.to_string(), false, true).expect("a run")
}

fn ended(statement: &str, image: &str) -> (String, u8) {
    let output = run(statement, image);
    (output.err.trim_end().to_string(), output.status)
}

#[test]
fn stops_at_the_upper_end() {
    let stop = |text: &str| (format!("r.c:5:1: stopped at check {text}"), 3);
    let terminator = "6: only 0 may be stored at the upper end of `s` (cell 7); `x` is 65";
    assert_eq!(ended("s[n] = x;", "s = name; n = 2; x = 65;"), stop(terminator));
    let terminator = "6: only 0 may be stored at the upper end of `s` (cell 8); `n` is 3";
    assert_eq!(ended("s[3] = n;", "s = name; n = 3;"), stop(terminator));
    let outside = "3: `s[n + 1]` is cell 8; the bounds of `s` are cells 5 up to 7, 7 included";
    assert_eq!(ended("s[n + 1] = x;", "s = name; n = 2; x = 65;"), stop(outside));
    assert_eq!(ended("s[n] = x;", "s = name; n = 2;"), (String::new(), 0));
    assert_eq!(run("x = s[n];", "name = \"Eos\"; s = name; n = 2;").out.lines().next(), Some("done 1"));
}

#[test]
fn entries_of_names() {
    let refused = |image: &str, sentence: &str| {
        assert_eq!(ended("x = 1;", image), (format!("image:{sentence}"), 1), "{image}");
    };
    refused("s = plain;", "1:1: error: refused 12: `s` is an nt_array_ptr and `plain` is not terminated");
    refused(
        "s = name; n = 4;",
        "1:1: error: refused 12: the bounds of `s` are untrue at entry: its upper end s + n is cell 5 + 4 = 9, beyond the \
         terminator of `name` at cell 8: the bounds may end there at most",
    );
    refused(
        "\nname = \"Boat\";",
        "2:1: error: refused 16: the last cell of the terminated object `name` (cell 8) is 116 at entry; it must be 0",
    );
    assert_eq!(ended("x = 1;", "name = \"Eos\"; s = name; n = 3;"), (String::new(), 0));
}

#[test]
fn a_trace_shows_the_end_that_is_read() {
    let statements = "dynamic_check(n > 1);\nwhere s : count(1);\nwhere s : count(0);";
    let output = run_program(routine(statements), "image", "s = name; n = 3;".to_string(), true, false);
    let output = output.expect("a trace").out;
    let shown = output.lines().filter_map(|line| line.split_once("bounds of ")).map(|(_, change)| change);
    assert_eq!(
        shown.collect::<Vec<_>>(),
        ["s: count(n) -> count(1) (cells 5 to 6)", "s: count(1) -> count(0) (cell 5)"]
    );
}

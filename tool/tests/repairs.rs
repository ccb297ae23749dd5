//! The repairs that helps come with, applied to the text: the library accepts what comes of it, and its lines stand as a writer would have them.

use mizzengrape_tool::explain::{check, help};
use mizzengrape_tool::library::Verdict;
use mizzengrape_tool::program::Program;
use mizzengrape_tool::repair::{apply, edits};

fn program(text: &str) -> Program {
    Program::of_text("r.c", text.to_string(), false).unwrap_or_else(|wrong| panic!("{wrong}"))
}

/// A refused text as its first help repairs it.
fn repaired(text: &str) -> String {
    let program = program(text);
    let Verdict::Refused(refusal) = check(&program).expect("a verdict").verdict else { panic!("{text}") };
    let help = help(&program, &refusal);
    let repair = help.first().and_then(|help| help.repair.as_ref()).expect("a repair");
    let map = &program.text.as_ref().expect("a text").map.routines[0];
    let edits = edits(repair, text, map).expect("positions");
    apply(text, &edits).expect("positions of the text")
}

/// A refused routine becomes another one, which is accepted.
fn becomes(text: &str, expected: &str) {
    assert_eq!(repaired(text), expected);
    assert_eq!(check(&program(expected)).expect("a verdict").verdict, Verdict::Accepted, "{expected}");
}

/// A routine with row : count(rows) and an object of eight cells, with these lines as its body.
fn routine(lines: &[&str]) -> String {
    let head = "unsigned o checked[8];\nvoid f(array_ptr<unsigned> row : count(rows), unsigned rows, unsigned x)\n{\n";
    format!("{head}{}\n}}\n", lines.join("\n"))
}

fn lines_become(lines: &[&str], expected: &[&str]) {
    becomes(&routine(lines), &routine(expected));
}

#[test]
fn a_check_is_written_before_its_statement() {
    lines_become(
        &["    x = 1; // one", "    rows = rows - 1; // two"],
        &["    x = 1; // one", "    dynamic_check(rows >= 1);", "    rows = rows - 1; // two"],
    );
    lines_become(&["\trows--;"], &["\tdynamic_check(rows >= 1);", "\trows--;"]);
    lines_become(&["    x = 1; rows--;"], &["    x = 1; dynamic_check(rows >= 1); rows--;"]);
}

#[test]
fn line_ends_are_kept() {
    let lines = |text: &[&str]| routine(text).replace('\n', "\r\n");
    becomes(&lines(&["    rows--;"]), &lines(&["    dynamic_check(rows >= 1);", "    rows--;"]));
}

#[test]
fn several_checks_are_lines_of_their_own() {
    let copy = |checks: &str| {
        format!(
            "void copy(array_ptr<unsigned> s : count(n), unsigned n, array_ptr<unsigned> d : count(m), unsigned m)\n{{\n{checks}\
             \u{20}   bundled {{\n        s++;\n        n--;\n        d++;\n        m--;\n    }}\n}}\n"
        )
    };
    becomes(&copy(""), &copy("    dynamic_check(n >= 1);\n    dynamic_check(m >= 1);\n"));
}

#[test]
fn neighbours_are_put_in_a_bundle_with_their_comments() {
    lines_become(
        &["    dynamic_check(rows > 0);", "    row++; // on", "", "    // and", "    rows--; // off"],
        &[
            "    dynamic_check(rows > 0);",
            "    bundled {",
            "        row++; // on",
            "",
            "        // and",
            "        rows--;",
            "    } // off",
        ],
    );
    lines_become(
        &["    while (rows > 0) { x = row[0]; row++; rows--; }"],
        &["    while (rows > 0) { x = row[0]; bundled { row++; rows--; } }"],
    );
    lines_become(
        &["    row++;", "    rows--;"],
        &["    dynamic_check(rows >= 1);", "    bundled {", "        row++;", "        rows--;", "    }"],
    );
}

#[test]
fn an_assignment_and_its_where_become_one() {
    let choose = |statements: &str| {
        format!("unsigned o checked[4][3];\nvoid f(array_ptr<unsigned checked[3]> row : count(0))\n{{\n{statements}}}\n")
    };
    becomes(
        &choose("    row = o;\n    where row : count(4);\n"),
        &choose("    row = o where row : count(4);\n"),
    );
}

#[test]
fn an_access_moves_out_of_the_way() {
    lines_become(
        &[
            "    dynamic_check(rows > 0);",
            "    bundled {",
            "        row++;",
            "        x = row[0]; // here",
            "        rows--;",
            "    }",
        ],
        &[
            "    dynamic_check(rows > 0);",
            "    bundled {",
            "        row++;",
            "        // here",
            "        rows--;",
            "        x = row[0];",
            "    }",
        ],
    );
    lines_become(
        &["    bundled { row++; x = row[0]; rows--; }"],
        &["    dynamic_check(rows >= 1);", "    bundled { row++; rows--; x = row[0]; }"],
    );
}

#[test]
fn both_ways_get_the_same_rows() {
    lines_become(
        &[
            "    if (rows >= 3) {",
            "        where row : count(3);",
            "        x = 1;",
            "    } else {",
            "        row = o where row : count(3);",
            "        x = 0;",
            "        if (x > 0) { where row : count(2); } else { where row : count(2); }",
            "    }",
        ],
        &[
            "    if (rows >= 3) {",
            "        where row : count(3);",
            "        x = 1;",
            "        where row : count(2);",
            "    } else {",
            "        row = o where row : count(3);",
            "        x = 0;",
            "        if (x > 0) { where row : count(2); } else { where row : count(2); }",
            "    }",
        ],
    );
    lines_become(
        &["    dynamic_check(rows >= 3);", "    if (x > 3) {", "        where row : count(3);", "    }"],
        &[
            "    dynamic_check(rows >= 3);",
            "    if (x > 3) {",
            "        where row : count(3);",
            "    } else {",
            "        where row : count(3);",
            "    }",
        ],
    );
    lines_become(
        &[
            "    dynamic_check(rows >= 3);",
            "    while (x > 3) {",
            "        where row : count(3);",
            "        x--;",
            "    }",
        ],
        &[
            "    dynamic_check(rows >= 3);",
            "    where row : count(3);",
            "    while (x > 3) {",
            "        where row : count(3);",
            "        x--;",
            "    }",
        ],
    );
}

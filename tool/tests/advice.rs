//! What is said to repair a refused routine. Each advice is followed here, and the library accepts what comes of it.

#[path = "support/mod.rs"]
mod support;

use mizzengrape_tool::command::verdict;
use mizzengrape_tool::program::Program;
use support::repaired::Figures;

/// The line `help: ..` for a text, if there is one, and the verdict.
fn help(text: &str) -> (Option<String>, String) {
    let program = Program::of_text("r.c", text.to_string(), false).unwrap_or_else(|wrong| panic!("{wrong}"));
    let output = verdict(&program, false).expect("a verdict");
    let help = output.err.lines().find_map(|line| line.strip_prefix("help: ")).map(str::to_string);
    (help, output.out.trim_end().to_string())
}

/// A routine with row : count(rows), an object of eight cells, and these statements from line 4 on.
fn routine(statements: &str) -> String {
    format!("unsigned o checked[8];\nvoid f(array_ptr<unsigned> row : count(rows), unsigned rows, unsigned x)\n{{\n{statements}\n}}\n")
}

/// The advice for statements, and the same statements with the advice followed, which are accepted.
fn followed(statements: &str, advice: &str, repaired: &str) {
    let (found, answer) = help(&routine(statements));
    assert!(answer.starts_with("refused 8 "), "{statements}: {answer}");
    assert_eq!(found.as_deref(), Some(advice), "{statements}");
    assert_eq!(help(&routine(repaired)), (None, "accepted".to_string()), "{repaired}");
}

#[test]
fn a_check_stands_before_the_bundle_where_that_suffices() {
    followed(
        "bundled {\nrow = row + 1;\nrows = rows - 1;\n}",
        "write dynamic_check(rows >= 1); before line 4; it stops a run where rows < 1",
        "dynamic_check(rows >= 1);\nbundled {\nrow = row + 1;\nrows = rows - 1;\n}",
    );
    // By as much as the count is lowered before.
    followed(
        "bundled {\nrow = row + 2;\nrows = rows - 1;\nrows = rows - 1;\n}",
        "write dynamic_check(rows >= 2); before line 4; it stops a run where rows < 2",
        "dynamic_check(rows >= 2);\nbundled {\nrow = row + 2;\nrows = rows - 1;\nrows = rows - 1;\n}",
    );
    // What the bundle assigns first is asked behind that.
    followed(
        "bundled {\nrow = o;\nrows = x;\nwhere row : count(rows);\n}",
        "write dynamic_check(rows <= 8); before line 7; it stops a run where rows > 8",
        "bundled {\nrow = o;\nrows = x;\ndynamic_check(rows <= 8);\nwhere row : count(rows);\n}",
    );
}

#[test]
fn several_checks_are_named_together() {
    let copy = |checks: &str| {
        format!(
            "void copy(array_ptr<unsigned> s : count(n), unsigned n, array_ptr<unsigned> d : count(m), unsigned m)\n{{\n{checks}\
             bundled {{\ns = s + 1;\nn = n - 1;\nd = d + 1;\nm = m - 1;\n}}\n}}\n"
        )
    };
    let checks = "write dynamic_check(n >= 1); dynamic_check(m >= 1); before line 3";
    let advice = format!("{checks}; they stop a run where n < 1 or m < 1");
    assert_eq!(help(&copy("")), (Some(advice), "refused 8 0 0".to_string()));
    assert_eq!(
        help(&copy("dynamic_check(n >= 1);\ndynamic_check(m >= 1);\n")),
        (None, "accepted".to_string())
    );
}

#[test]
fn neighbours_are_put_in_one_bundle() {
    followed(
        "dynamic_check(rows > 0);\nrow++;\nrows--;",
        "put both in one bundled { row = row + 1; rows = rows - 1; }",
        "dynamic_check(rows > 0);\nbundled { row = row + 1; rows = rows - 1; }",
    );
    followed(
        "row++;\nrows--;",
        "put both in one bundled { row = row + 1; rows = rows - 1; }, with dynamic_check(rows >= 1); before it; \
         it stops a run where rows < 1",
        "dynamic_check(rows >= 1);\nbundled { row = row + 1; rows = rows - 1; }",
    );
    followed(
        "while (rows > 0) {\nx = row[0];\nrow++;\nrows--;\n}",
        "put both in one bundled { row = row + 1; rows = rows - 1; }",
        "while (rows > 0) {\nx = row[0];\nbundled { row = row + 1; rows = rows - 1; }\n}",
    );
    // A statement between, and the refused one behind.
    followed(
        "dynamic_check(rows > 0);\nrow++;\nx = x + 1;\nrows--;",
        "put these in one bundled { row = row + 1; x = x + 1; rows = rows - 1; }",
        "dynamic_check(rows > 0);\nbundled { row = row + 1; x = x + 1; rows = rows - 1; }",
    );
    followed(
        "row = o;\nrows = 8;",
        "put both in one bundled { row = o; rows = 8; }",
        "bundled { row = o; rows = 8; }",
    );
    followed(
        "rows = 8;\nrow = o;",
        "put both in one bundled { rows = 8; row = o; }",
        "bundled { rows = 8; row = o; }",
    );
    // Neighbours of another block, and those that do not help, are left alone: the bounds that are known are declared.
    let known = |line| {
        let bundle = "bundled { row = row + 1; where row : bounds(row - 1, row + rows - 1); }";
        Some(format!("in place of line {line} write {bundle}"))
    };
    assert_eq!(help(&routine("dynamic_check(rows > 0);\nif (x > 0) {\nrow++;\n}\nrows--;")).0, known(6));
    assert_eq!(help(&routine("dynamic_check(rows > 0);\nrow++;\nx = 1;")).0, known(5));
}

/// No check where another way keeps every run as it is.
#[test]
fn bounds_follow_before_a_check_is_asked_for() {
    followed(
        "row = o;\nx = 1;",
        "in place of line 4 write bundled { row = o; where row : count(8); }",
        "bundled { row = o; where row : count(8); }\nx = 1;",
    );
    // An assignment with its bounds joins a neighbour, also the other way round.
    followed(
        "row = o where row : count(rows);\nrows = 8;",
        "in place of lines 4 to 5 write bundled { rows = 8; row = o; where row : count(rows); }",
        "bundled { rows = 8; row = o; where row : count(rows); }",
    );
}

#[test]
fn a_count_that_is_set_anew_is_declared_before_and_behind() {
    followed(
        "rows = 0;",
        "write where row : count(0); before line 4 and where row : count(rows); behind it",
        "where row : count(0);\nrows = 0;\nwhere row : count(rows);",
    );
    followed(
        "dynamic_check(x <= rows);\nrows = x;",
        "write where row : count(x); before line 5 and where row : count(rows); behind it",
        "dynamic_check(x <= rows);\nwhere row : count(x);\nrows = x;\nwhere row : count(rows);",
    );
    followed(
        "rows = x;",
        "write dynamic_check(x <= rows); where row : count(x); before line 4 and where row : count(rows); behind it; \
         it stops a run where x > rows",
        "dynamic_check(x <= rows);\nwhere row : count(x);\nrows = x;\nwhere row : count(rows);",
    );
}

/// A step by a variable is made one by one, where the variable is not needed any more.
#[test]
fn a_step_by_a_variable_is_a_loop() {
    let written = "while (x > 0) where x <= rows { bundled { row = row + 1; rows = rows - 1; } x = x - 1; }";
    followed(
        "dynamic_check(x <= rows);\nrow = row + x;\nrows = rows - x;",
        &format!("in place of lines 5 to 6 write {written}"),
        &format!("dynamic_check(x <= rows);\n{written}"),
    );
    followed(
        "row = row + x;\nrows = rows - x;",
        &format!("in place of lines 4 to 5 write dynamic_check(x <= rows); {written}; it stops a run where x > rows"),
        &format!("dynamic_check(x <= rows);\n{written}"),
    );
    let needed = help(&routine("dynamic_check(x <= rows);\nrow = row + x;\nrows = rows - x;\nx = x + 1;"));
    assert_eq!(needed, (None, "refused 8 1 0".to_string()));
}

/// Statements change places only where a run does the same.
#[test]
fn what_a_run_does_stays() {
    // The other way round each of these would be accepted, and be another routine.
    for statements in ["row = o;\nrow++;", "rows = 0;\nrow = o where row : count(rows);\nrows = x;"] {
        let (found, _) = help(&routine(statements));
        let turned = ["{ row = row + 1; row = o;", "{ rows = x; rows = 0;"];
        let is_turned = |found: &String| turned.iter().any(|turned| found.contains(turned));
        assert!(!found.as_ref().is_some_and(is_turned), "{found:?}");
    }
    let refused_9 = |statements: &str, advice: Option<&str>| {
        let (found, answer) = help(&routine(statements));
        assert!(answer.starts_with("refused 9 "), "{statements}: {answer}");
        assert_eq!(found.as_deref(), advice, "{statements}");
    };
    // An access reaches the same cell behind what restores the bounds, or before what changed them, else it stays.
    refused_9(
        "dynamic_check(rows > 0);\nbundled {\nrow++;\nx = row[0];\nrows--;\n}",
        Some("move the access behind line 8: rows = rows - 1"),
    );
    refused_9(
        "bundled {\nrow++;\nx = row[0];\nrows--;\n}",
        Some(
            "move the access behind line 7: rows = rows - 1, and write dynamic_check(rows >= 1); before line 4; \
             it stops a run where rows < 1",
        ),
    );
    refused_9(
        "dynamic_check(rows > 0);\nbundled {\nrows++;\nx = row[0];\nrows = x;\n}",
        Some("move the access before line 6"),
    );
    refused_9("dynamic_check(rows > 0);\nbundled {\nrow++;\nx = row[0];\nrows = x;\n}", None);
}

/// No check that no run passes, and none where the refused statements break no bounds.
#[test]
fn checks_are_no_stronger_than_needed() {
    assert_eq!(
        help(&routine("where row : count(0);\nrows = 0;\nwhere row : count(rows);\nrows = 2;")).0,
        None
    );
    let chosen = "if (x > 0) {\nrow = o where row : count(8);\n}";
    let (found, answer) = help(&routine(&format!("{chosen}\nrows = x;")));
    assert_eq!(answer, "refused 13 0");
    let written = "where row : count(0);";
    assert_eq!(
        found,
        Some(format!(
            "behind it no cell is reached by row: write {written} at the end of the then block and add else {{ {written} }}"
        ))
    );
    let repaired =
        format!("if (x > 0) {{\nrow = o where row : count(8);\n{written}\n}} else {{ {written} }}");
    assert_eq!(help(&routine(&format!("{repaired}\nrows = x;"))).1, "accepted");
    // An access behind it needs bounds, and those of both ways have nothing in common.
    assert_eq!(help(&routine(&format!("{chosen}\nx = row[0];"))), (None, "refused 13 0".to_string()));
}

/// `if (k < n) { n = k; }`, help by help.
#[test]
fn the_lesser_of_two_counts() {
    let first = "if (x < rows) {\nrows = x;\n}";
    let (found, _) = help(&routine(first));
    let expected = "write where row : count(x); before line 5 and where row : count(rows); behind it";
    assert_eq!(found.as_deref(), Some(expected));
    let second = "if (x < rows) {\nwhere row : count(x);\nrows = x;\nwhere row : count(rows);\n}";
    let (found, answer) = help(&routine(second));
    assert_eq!(
        (found.as_deref(), answer.as_str()),
        (Some("add else { where row : count(rows); }"), "refused 13 0")
    );
    assert_eq!(help(&routine(&format!("{second} else {{ where row : count(rows); }}"))).1, "accepted");
}

#[test]
fn a_fact_that_a_loop_lost_is_kept_by_a_loop_fact() {
    let loops = |facts: &str| {
        format!(
            "void f(array_ptr<unsigned> p : count(n), unsigned n, array_ptr<unsigned> q : count(room), unsigned room, unsigned i)\n{{\n\
             dynamic_check(i <= room);\nwhile (i != room){facts} {{\ni = i + 1;\nbundled {{\np = q;\nn = i;\n}}\n}}\n}}\n"
        )
    };
    let program = Program::of_text("r.c", loops(""), false).expect("a text");
    let said = verdict(&program, false).expect("a verdict").err;
    assert!(said.contains("note: `i <= room` was known up to line 4; the loop assigns p, n and i"), "{said}");
    let (found, answer) = help(&loops(""));
    assert_eq!(
        (found.as_deref(), answer.as_str()),
        (Some("write where i <= room behind the condition of line 4"), "refused 8 3 0")
    );
    assert_eq!(help(&loops(" where i <= room")).1, "accepted");
}

/// Followed again and again, most helps lead to a routine that is accepted.
#[test]
fn figures_over_generated_routines() {
    let figures = Figures::of_generated(400, 5);
    assert!(
        figures.helped * 10 > figures.refused * 9 && figures.accepted * 10 > figures.refused * 6,
        "{figures}"
    );
    // No run ends otherwise than before. Those that stop leave their bounds, but for those with a pointer that is null.
    assert_eq!(
        (figures.changed, figures.at_checks.needless, figures.at_accesses.needless),
        (0, 0, 0),
        "{figures}"
    );
    assert!(figures.at_checks.leaving > 10 && figures.at_accesses.leaving > 0, "{figures}");
    let with_null = figures.at_checks.with_null + figures.at_accesses.with_null;
    assert!(with_null * 50 < figures.good_runs, "{figures}");
}

#[test]
fn bounds_that_follow_are_written_as_one() {
    let choose = |statements: &str| {
        format!("unsigned o checked[4][3];\nvoid f(array_ptr<unsigned checked[3]> row : count(0))\n{{\n{statements}\n}}\n")
    };
    let advice = "write it as one: row = o where row : count(4);".to_string();
    assert_eq!(help(&choose("row = o;\nwhere row : count(4);")), (Some(advice), "refused 8 1 0".to_string()));
    assert_eq!(help(&choose("row = o where row : count(4);")), (None, "accepted".to_string()));
}

/// The end with the integer is the one that cannot be compared.
#[test]
fn the_side_with_the_integer_is_named() {
    let rows = |row: &str, cell: &str| {
        let text = format!(
            "void f(array_ptr<unsigned checked[3]> row : count({row}), array_ptr<unsigned> cell : count({cell}), unsigned n)\n{{\nrow = cell;\n}}\n"
        );
        let program = Program::of_text("r.c", text, false).expect("a text");
        verdict(&program, false).expect("a verdict").err
    };
    let named = |with: &str, other: &str| {
        format!("an end with an integer in elements of {with} cannot be compared with one of {other} (")
    };
    assert!(rows("4", "n").contains(&named("1 cell", "3")), "{}", rows("4", "n"));
    assert!(rows("n", "12").contains(&named("3 cells", "1")), "{}", rows("n", "12"));
    assert_eq!(rows("4", "12"), "");
}

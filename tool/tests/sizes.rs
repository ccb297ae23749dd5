//! Pointers to rows of several cells: what refuses them, how a run shows them.

use mizzengrape_tool::command::{run_program, verdict, Output};
use mizzengrape_tool::program::Program;

fn program(text: &str) -> Program {
    Program::of_text("r.c", text.to_string(), false).unwrap_or_else(|wrong| panic!("{wrong}"))
}

/// A routine with row : count(n) of three cells, other : count(m) of so many, and integers n, m; its body begins on line 4.
fn routine(cells: usize, statements: &str) -> Program {
    program(&format!(
        "unsigned o checked[11];\nvoid f(array_ptr<unsigned checked[3]> row : count(n), array_ptr<unsigned checked[{cells}]> other : count(m), \
         unsigned n, unsigned m)\n{{\n{statements}\n}}\n"
    ))
}

/// The notes and the advice that explain a refusal, then the verdict.
fn explained(program: &Program) -> Vec<String> {
    let output = verdict(program, false).expect("a verdict");
    let told = |line: &&str| line.starts_with("note: ") || line.starts_with("help: ");
    output.err.lines().filter(told).chain(output.out.lines()).map(str::to_string).collect()
}

#[test]
fn ends_in_equal_elements_are_compared() {
    assert_eq!(
        explained(&routine(3, "row = other;")),
        [
            "note: not shown: declared upper end row + n <= known upper end other + m: nothing relates them (line 4: row = other)",
            "note: known here: row == other",
            "help: in place of line 4 write bundled { row = other; where row : bounds(other, other + m); }",
            "refused 8 0 0",
        ]
    );
    assert_eq!(
        explained(&routine(3, "where other : count(2);"))[2..],
        ["help: write dynamic_check(m >= 2); before line 4; it stops a run where m < 2", "refused 8 0 1"]
    );
    // Eleven cells are three rows, and two cells more.
    assert_eq!(
        explained(&routine(3, "row = o;"))[2..],
        [
            "help: in place of line 4 write bundled { row = o; where row : bounds(row, (array_ptr<unsigned>)row + 11); }",
            "refused 8 0 0"
        ]
    );
}

#[test]
fn a_step_of_one_cell_is_no_step_of_a_row() {
    let step = |by: &str| {
        routine(
            1,
            &format!(
                "dynamic_check(n > 0);\nbundled {{\nn = n - 1;\nrow = {by};\n}}\nbundled {{\nrow = {by};\n}}"
            ),
        )
    };
    assert_eq!(
        explained(&step("(array_ptr<unsigned>)row + 1")),
        [
            "note: not shown: declared upper end row + n <= known upper end (array_ptr<unsigned>)row + 3 * n - 1: short by 1 cell \
             (line 10: row = (array_ptr<unsigned>)row + 1)",
            "note: known here: row >= 2, n <= 4294967294",
            "refused 8 4 0",
        ]
    );
    assert_eq!(
        explained(&step("row + 1"))[0],
        "note: not shown: declared upper end row + n <= known upper end row + n - 1: short by 3 cells (line 10: row = row + 1)"
    );
}

#[test]
fn ends_in_other_elements_are_not() {
    let sizes = "an end with an integer in elements of 3 cells cannot be compared with one of 2";
    let known = "declared upper end row + n <= known upper end other + m";
    assert_eq!(
        explained(&routine(2, "dynamic_check(n <= m);\nrow = other;")),
        [
            &format!("note: not shown: {known}: {sizes} (line 5: row = other)"),
            "note: known here: row == other, n <= m",
            "refused 8 1 0"
        ]
    );
    // The same words, counted in other elements, are another end.
    let same = program(
        "void f(array_ptr<unsigned checked[3]> p : bounds(q, q + 3 * n), array_ptr<unsigned> q : count(n), unsigned n)\n{\np = q;\n}\n",
    );
    assert_eq!(
        explained(&same)[0],
        "note: not shown: declared upper end q + 3 * n <= known upper end q + n: an end with an integer in elements of 3 cells cannot be \
         compared with one of 1 (line 3: p = q)"
    );
    let fixed = program(
        "void f(array_ptr<unsigned checked[3]> p : count(2), array_ptr<unsigned checked[2]> q : count(3))\n{\np = q;\n}\n",
    );
    assert_eq!(explained(&fixed), ["accepted"]);
}

#[test]
fn an_element_has_eight_cells_at_most() {
    let sentence = |cells: usize| verdict(&routine(cells, "n = 1;"), true).expect("a verdict").err;
    let expected = "r.c:2:86: error: refused 4: an element of `other` has 9 cells; 1 to 8 are allowed\n";
    assert_eq!(sentence(9), expected);
    assert!(sentence(8).contains("refused 8: "));
}

/// A run of one statement, on line 4, with row : count(n), last : bounds(row, row) of three cells and integers n, x.
fn run(statement: &str, image: &str) -> Output {
    let text = format!(
        "unsigned o checked[11];\nvoid f(array_ptr<unsigned checked[3]> row : count(n), array_ptr<unsigned checked[3]> last : bounds(row, row), \
         unsigned n, unsigned x)\n{{\n{statement}\n}}\n"
    );
    run_program(program(&text), "image", image.to_string(), false, true).expect("a run")
}

#[test]
fn stops_and_entries_count_in_elements() {
    let ended = |output: Output| (output.err.trim_end().to_string(), output.status);
    let outside = "r.c:4:1: stopped at check 3: `row[x + 1][2]` is cell 14; the bounds of `row` are cells 3 up to 12, 12 not included";
    assert_eq!(ended(run("x = row[x + 1][2];", "row = o + 2; n = 3; x = 2;")), (outside.to_string(), 3));
    let range = "r.c:4:1: stopped at check 5: row + x is 4294967298, which is no address (1 to 4294967295)";
    assert_eq!(ended(run("last = row + x;", "row = o + 2; n = 3; x = 1431655765;")), (range.to_string(), 3));
    let untrue = "image:1:1: error: refused 12: the bounds of `row` are untrue at entry: its upper end row + n is cell 1 + 3 * 4 = 13, \
                  but `o` ends at 12";
    assert_eq!(ended(run("x = 1;", "row = o; n = 4;")), (untrue.to_string(), 1));
}

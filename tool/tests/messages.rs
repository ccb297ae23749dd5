//! What is said of texts that are wrong in further ways, and of tables that do not read.

use mizzengrape_tool::command::verdict;
use mizzengrape_tool::program::Program;
use mizzengrape_tool::words::assemble;

/// The message for a statement in a routine with one of each: object o, pointers p and r (rows of 3 cells), integers n and x.
fn statement(text: &str) -> String {
    let head = "unsigned o checked[3];\nvoid f(array_ptr<unsigned> p : count(n), array_ptr<unsigned checked[3]> r : count(n), \
                unsigned n, unsigned x)\n{\n";
    let wrong = assemble(&format!("{head}{text}\n}}\n")).expect_err(text);
    assert_eq!(wrong.at.line, 4, "{text}: {wrong:?}");
    format!("{}: {}", wrong.at.column, wrong.message)
}

fn file(text: &str) -> String {
    let wrong = assemble(text).expect_err(text);
    format!("{}: {}", wrong.at, wrong.message)
}

#[test]
fn statements() {
    for (text, message) in [
        ("x = p[0] + 1;", "10: one access a statement: read it into a variable first"),
        ("x = n + p[0];", "9: one access a statement: read it into a variable first"),
        ("x = 2 * n;", "5: a product has two variables: put the number in a variable first"),
        ("x = n / 2;", "7: `/` is not part of the subset: the operations are +, - and *"),
        ("x = 7 % n;", "7: `%` is not part of the subset: the operations are +, - and *"),
        ("x = p[0] / 2;", "10: `/` is not part of the subset: the operations are +, - and *"),
        ("x = p[n / 2];", "9: `/` is not part of the subset: the operations are +, - and *"),
        ("x /= 2;", "3: `/` is not part of the subset: the operations are +, - and *"),
        ("if (n % 2 == 0) { }", "7: `%` is not part of the subset: the operations are +, - and *"),
        ("p[0] = n / 2;", "10: `/` is not part of the subset: the operations are +, - and *"),
        ("x = (n + 1);", "6: parentheses stand around a cast only: (array_ptr<unsigned>)p"),
        ("x = NULL;", "5: NULL is a pointer; an integer is due here"),
        ("x = p;", "5: `p` is a pointer; an integer is due here"),
        ("x = o;", "5: `o` is an object; an integer is due here"),
        ("o = x;", "1: `o` is an object; a variable is due here"),
        ("p = 5;", "5: a number is no pointer: NULL or a pointer is due here"),
        ("p = o + 1;", "7: an object's address stands alone: p = o; p = p + 1"),
        ("p = p - n;", "9: a variable is added to a pointer, never taken from it"),
        ("p = p * n;", "7: a pointer has no product"),
        ("p = p + n + 1;", "11: one operation a statement: use another variable for the rest"),
        (
            "p = (array_ptr<unsigned>)r + n;",
            "30: `n` counts 1 cells here, but an element of the pointer has 3",
        ),
        ("*r = x;", "2: an element of `r` is a row of 3 cells: write r[i][cell]"),
        ("x = r[n][x];", "10: the second index is a number: a cell of the row"),
        ("x = p[n + x];", "9: an index is a variable and a number: add the variables before"),
        ("x = p[1 + n];", "9: the number comes second: p[i + 1]"),
        ("x = p[p[0]];", "7: one access a statement: read it into a variable first"),
        ("x = p[3000000000];", "7: this number does not fit a word of the table"),
        ("x = n + 3000000000;", "9: this number does not fit a word of the table"),
        ("if (5 < n) { }", "5: the variable comes first: n > 5"),
        ("if (3 >= n) { }", "5: the variable comes first: n <= 3"),
        ("if (NULL != p) { }", "5: the variable comes first: p != NULL"),
        ("while (1) { }", "8: a condition compares a variable: n > 0"),
        ("if (!n) { }", "5: a condition compares: write `== 0` or `== NULL`"),
        ("if (n < -1) { }", "9: integers are unsigned: for -1 write 4294967295"),
        (
            "if (n + 1 < x) { }",
            "7: a condition compares two variables, or one and a number: compute into a variable first",
        ),
        ("if (n == NULL) { }", "10: an integer is compared with a number or an integer"),
        ("if (n < p) { }", "9: `p` is a pointer; an integer is due here"),
        ("while (n > 0) { return x; }", "17: a return stands at the end of its routine"),
        ("do { } while (n);", "1: `do` is not part of the subset: write a while"),
        ("goto end;", "1: `goto` is not part of the subset"),
        ("{ x = 1; }", "1: expected a statement, found `{`"),
        ("p[0] = n + 1;", "10: a variable is stored in a cell: put the sum in a variable first"),
        ("where x : count(1);", "7: `x` is an integer; a pointer is due here"),
        ("where p : half;", "11: `half` is not declared"),
        ("x = f(1);", "7: an argument is a variable"),
        ("x = n $ 2;", "6: expected `;`, found `$`"),
        ("x = 12ab;", "5: a number is decimal digits, or 0x and hexadecimal digits"),
        ("x = \u{e9};", "5: only ASCII stands outside of comments"),
        ("x = n++;", "6: `++` is a statement of its own: i = i + 1;"),
        ("p[n--] = x;", "4: `--` is a statement of its own: i = i - 1;"),
        ("x = p[++n];", "7: `++` is a statement of its own: i = i + 1;"),
        ("assert(x > 0);", "1: `assert` is not part of the subset: write dynamic_check"),
        (
            "break;",
            "1: `break` is not part of the subset: let the loop's condition end it, with a flag where it has none",
        ),
        ("continue;", "1: `continue` is not part of the subset: put what follows in an if"),
        ("dynamic_check(n > 0 && x > 0);", "21: a condition is one comparison: write two checks"),
        ("while (n > 0 && x > 0) { }", "14: a condition is one comparison: set a flag and write while (flag != 0)"),
        (
            "if (n > 0 || x > 0) { }",
            "11: a condition is one comparison: write the statements for each, or set a flag",
        ),
        ("x = 1; // C goes on \\", "21: a backslash ends this comment: C takes the next line into it"),
    ] {
        assert_eq!(statement(text), message, "{text}");
    }
}

#[test]
fn files() {
    let deep = format!("void f(unsigned x)\n{{\n{}", "if (x > 0) {\n".repeat(65));
    for (text, message) in [
        ("", "1:1: expected a routine, found end of text"),
        ("unsigned o checked[3];\n", "2:1: expected a routine, found end of text"),
        ("void f(unsigned x) { }\nunsigned o checked[3];", "2:10: objects are declared before the routines"),
        ("void f(unsigned x) { return x; }", "1:22: `f` is void: a routine with a result is unsigned"),
        (
            "void f(unsigned x) { return; }",
            "1:22: a routine ends behind its last statement: leave the return out",
        ),
        ("unsigned f(unsigned x) { }", "1:26: expected `return`, found `}`"),
        ("void f(unsigned x : count(3)) { }", "1:19: an integer has no bounds"),
        ("void f(array_ptr<unsigned checked[0]> p : count(1)) { }", "1:35: a row has at least 1 cell"),
        (
            "void f(array_ptr<int> p : count(1)) { }",
            "1:18: `int` is not part of the subset: the one integer type is unsigned",
        ),
        (
            "void f(array_ptr<unsigned> p : bounds(p, p + n * 3), unsigned n) { }",
            "1:48: the number comes first in a product here: p + 3 * n",
        ),
        (
            "void f(array_ptr<unsigned> p : bounds(p, p + 1 + n), unsigned n) { }",
            "1:50: the variable comes before the number",
        ),
        (
            "void f(array_ptr<unsigned> p : bounds(p, p + n + 1 + 2), unsigned n) { }",
            "1:52: an end is a pointer, a variable and a number: nothing more",
        ),
        ("#define A 5\n#define A 6\nvoid f(unsigned x) { }", "2:9: `A` is defined twice"),
        ("#define A x\nvoid f(unsigned x) { }", "1:11: a #define gives a number or bounds(.., ..)"),
        ("#define A 5 6\nvoid f(unsigned x) { }", "1:13: a constant is one number: nothing stands behind it"),
        ("void f(unsigned x) {\n#pragma rows ", "2:14: expected `}`, found end of text"),
        ("void f(unsigned x) {\n#define b bounds(x, ", "2:21: expected a name, found end of line"),
        ("void f(unsigned x) { #define A 5\n }", "1:22: a directive begins its line"),
        ("#if 0\nvoid f(unsigned x) { }", "1:1: the directives are #include <..>, #define and #pragma rows"),
        ("void f(unsigned x) { }\nvoid f(unsigned x) { }", "2:6: `f` is declared twice"),
        (&deep, "67:12: blocks are nested 64 deep at most"),
    ] {
        assert_eq!(file(text), message, "{text}");
    }
    let long = format!("// {}\nvoid f(unsigned x) {{ }}", "x".repeat(1 << 20));
    assert_eq!(file(&long), "1:1: a text has 1 MiB at most");
}

fn table(words: &[i32]) -> String {
    let program = Program::of_tables("t.tbl", vec![words.to_vec()], Vec::new());
    verdict(&program, false).expect("a verdict").err
}

#[test]
fn tables_that_do_not_read() {
    assert_eq!(table(&[6, 0]), "t.tbl: error: refused 1: the table has 2 words; it may have 6 to 7318\n");
    let directory = "t.tbl: error: refused 2: section 1 (variables) begins at word 7; 6 was due\n\
                     note: the table begins with the words 6 0 7 8 15 0 0 0\n";
    assert_eq!(table(&[6, 0, 7, 8, 15, 0, 0, 0, 0, 0, 0, 0, 0, 0, 0]), directory);
    let variable = "t.tbl: error: refused 4: word 5 of the record: 3 names no pointer\n\
                    note: the words of the record are 1 0 0 -1 0 3 -1 0\n";
    assert_eq!(table(&[6, 0, 6, 8, 14, 0, 1, 0, 0, -1, 0, 3, -1, 0]), variable);
    let statement = "t.tbl: error: refused 5: field 2 of kind 8: 0 names no pointer\n\
                     note: the words of the record are 8 0 0 -1 0 0 0\n";
    assert_eq!(table(&[6, 0, 6, 8, 14, 7, 0, 0, 0, 0, 0, 0, 0, 0, 8, 0, 0, -1, 0, 0, 0]), statement);
    let block = "t.tbl: error: refused 6: 5 statements are counted, 0 are left in the block\n\
                 note: the words of the record are 12 0 0 1 0 5 0\n";
    assert_eq!(table(&[6, 0, 6, 8, 14, 7, 0, 0, 0, 0, 0, 0, 0, 0, 12, 0, 0, 1, 0, 5, 0]), block);
}

/// A table that reads is explained at the lines of its canonical text.
#[test]
fn tables_are_explained_by_their_text() {
    let words = [6, 0, 6, 16, 22, 7, 1, 0, 0, -1, 0, 0, 1, 0, 0, 0, 0, 0, 0, 0, 0, 0, 2, 1, 1, -1, 0, 0, 0];
    let first = "t.tbl:5:5: error: refused 8: the bounds of `p0` are not shown after this statement\n    n1 = n1 - 1;\n    ^\n";
    assert!(table(&words).starts_with(first));
}

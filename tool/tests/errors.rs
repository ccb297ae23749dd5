//! All errors of a text in one run, in the order of its lines.

use mizzengrape_tool::words::assemble_all;

/// `LINE:COLUMN: MESSAGE` of each error.
fn errors(text: &str) -> Vec<String> {
    let wrong = assemble_all(text).err().unwrap_or_default();
    wrong.iter().map(|wrong| format!("{}: {}", wrong.at, wrong.message)).collect()
}

#[test]
fn grammar_and_names_are_told_together() {
    let text = "unsigned o checked[3];\nvoid f(array_ptr<unsigned> p : count(n), unsigned n, unsigned x)\n{\n    x = m;\n    x = n / 2;\n    \
                while (n > 0 && x > 0) {\n        x = q[0];\n        x = x + ;\n    }\n    p = 5;\n    if (n > 0) x = 1;\n    \
                x = n\n    n = y;\n}\n";
    let expected = [
        "4:9: `m` is not declared",
        "5:11: `/` is not part of the subset: the operations are +, - and *",
        "6:18: a condition is one comparison: set a flag and write while (flag != 0)",
        "8:17: expected a name, found `;`",
        "10:9: a number is no pointer: NULL or a pointer is due here",
        "11:16: expected `{` after the condition, found `x`",
        "12:10: expected `;`, found `n`",
        "13:9: `y` is not declared",
    ];
    assert_eq!(errors(text), expected);
}

#[test]
fn declarations_are_told_together() {
    let text = "unsigned o checked[x];\nvoid f(int a, array_ptr<unsigned> p, unsigned while)\n{\n    unsigned b = 1;\n    a = 5;\n    c = ;\n}\n\
                void g(unsigned x)\n{\n    x = 08;\n}\n";
    let expected = [
        "1:20: expected a number, found `x`",
        "2:8: `int` is not part of the subset: the one integer type is unsigned",
        "2:36: a pointer is declared with its bounds: `p : count(n)` or `p : bounds(lower, upper)`",
        "2:47: `while` is a keyword and no name",
        "4:16: a variable has no initializer: write an assignment as a statement",
        "6:9: expected a name, found `;`",
        "10:9: a number does not begin with 0 (C would read it as octal)",
    ];
    assert_eq!(errors(text), expected);
}

#[test]
fn at_most_twenty_are_told() {
    let text = format!("void f(unsigned x)\n{{\n{}}}\n", "    y = 1;\n".repeat(50));
    assert_eq!(errors(&text).len(), 20);
    let text = format!("void f(unsigned x)\n{{\n{}}}\n", "    x = ;\n".repeat(50));
    assert_eq!(errors(&text).len(), 20);
}

/// However deep blocks stand in wrong ones.
#[test]
fn no_text_exhausts_the_parser() {
    for text in [
        "{".repeat(100_000),
        "if (x > 0) {".repeat(50_000),
        "while (x && {".repeat(50_000),
        "(".repeat(100_000),
    ] {
        assert!(!errors(&format!("void f(unsigned x)\n{{\n{text}")).is_empty());
    }
}

/// A text that is right has no errors, and one error is one.
#[test]
fn one_error_is_told_once() {
    assert_eq!(errors("void f(unsigned x)\n{\n    x = 1;\n}\n"), [""; 0]);
    assert_eq!(errors("void f(unsigned x)\n{\n    x = 1\n}\n"), ["3:10: expected `;`, found `}`"]);
    assert_eq!(errors("void f(unsigned x)\n{\n    x = 1;\n"), ["4:1: expected `}`, found end of text"]);
    assert_eq!(
        errors("void f(unsigned x)\n{\n    if (x > 0) {\n        x = 1;\n    } else x = 2;\n    x = 3;\n}\n")
            .len(),
        1
    );
    assert_eq!(errors("void f(unsigned x)\n{\n    for (x = 0; x < 9; x++) {\n        x = x + 1;\n    }\n    x = 3;\n}\n").len(), 1);
    assert_eq!(errors("void f(unsigned x)\n{\n    x = \u{1};\n    y = 1;\n}\n").len(), 1);
}

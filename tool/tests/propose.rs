//! `mizzengrape facts`: proposed loop facts, in the text that they are for. What is proposed is always taken by the library.

#[path = "support/folder.rs"]
mod folder;
#[path = "support/mod.rs"]
mod support;

use folder::Folder;
use support::proposals::Figures;

/// What `facts` prints for a text: the text with its loop facts, and what they bring.
fn proposed(text: &str) -> (String, String) {
    let folder = Folder::new(&format!("propose-{}", text.len()));
    let file = folder.write("r.c", text);
    let output = folder.command(&["facts", &file]);
    let again = folder.write("again.c", &output.out);
    assert_eq!(folder.command(&["facts", "--short", &again]).out, output.out, "proposed once more");
    (output.out, output.err)
}

const SUM: &str = "\
unsigned times checked[4];
void sum(array_ptr<unsigned> time : count(n), unsigned n, unsigned i, unsigned x)
{
    dynamic_check(time != NULL);
    i = 0; // from the first
    while (i != n) {
        x = time[i];
        i = i + 1;
    }
}
";

#[test]
fn a_fact_is_put_behind_its_condition() {
    let (text, found) = proposed(SUM);
    assert_eq!(text, SUM.replace("(i != n) {", "(i != n) where i <= n {"));
    assert_eq!(found, "r.c: 1 loop fact: accepted\nr.c:7:9: safe: x = time[i]\n");
}

#[test]
fn facts_that_bring_nothing_or_are_wrong_are_replaced() {
    let (text, found) = proposed(&SUM.replace("(i != n) {", "(i != n)\n    where i >= 0 and i < n {"));
    assert_eq!(text, SUM.replace("(i != n) {", "(i != n) where i <= n {"));
    assert_eq!(found, "r.c: 1 loop fact: accepted, before refused 17 1\nr.c:8:9: safe: x = time[i]\n");
    let known = SUM.replace("i != n", "i < n");
    assert_eq!(proposed(&known), (known.clone(), "r.c: no loop fact: accepted\n".to_string()));
}

#[test]
fn a_refusal_is_repaired() {
    let text = "unsigned block checked[8];\nvoid f(array_ptr<unsigned> p : count(n), unsigned n, unsigned i)\n{\n    i = 0;\n    \
                while (i != 8) {\n        i = i + 1;\n        bundled {\n            p = block;\n            n = i;\n        }\n    }\n}\n";
    let (repaired, found) = proposed(text);
    assert_eq!(repaired, text.replace("(i != 8) {", "(i != 8) where i <= 8 {"));
    assert_eq!(found, "r.c: 1 loop fact: accepted, before refused 8 3 0\n");
}

#[test]
fn loops_in_loops_have_their_own_facts() {
    let text = "void f(array_ptr<unsigned> p : count(n), unsigned n, unsigned i, unsigned j, unsigned x)\n{\n    \
                dynamic_check(p != NULL);\n    i = 0;\n    while (i != n) {\n        j = i;\n        while (j > 0) {\n            \
                x = p[j];\n            j = j - 1;\n            p[j] = x;\n        }\n        i = i + 1;\n    }\n}\n";
    let (with_facts, _) = proposed(text);
    let expected =
        text.replace("(i != n) {", "(i != n) where i <= n {").replace("(j > 0) {", "(j > 0) where j <= i {");
    assert_eq!(with_facts, expected);
}

#[test]
fn a_refusal_that_no_list_repairs_stays() {
    let text = "void f(array_ptr<unsigned> p : count(n), unsigned n)\n{\n    while (n < 9) {\n        n = n + 1;\n    }\n}\n";
    let folder = Folder::new("propose-none");
    let file = folder.write("r.c", text);
    let output = folder.command(&["facts", &file]);
    assert_eq!((output.out.as_str(), output.status), (text, 1));
    assert_eq!(output.err, "r.c: no loop fact: refused 8 1 0\n");
    let malformed = folder.write("m.c", "void f(unsigned n)\n{\n    n = n + 70000;\n}\n");
    assert_eq!(folder.command(&["facts", "--short", &malformed]).out, "refused 5 0\n");
}

/// Long lists stand on a line each.
#[test]
fn many_facts_stand_below_each_other() {
    let names = ["first_of_the_fleet", "second_of_the_fleet", "third_of_the_fleet"];
    let declared: Vec<String> =
        names.iter().map(|name| format!("array_ptr<unsigned> {name} : count(9)")).collect();
    let reads: String = names
        .iter()
        .map(|name| format!("        x = {name}[i];\n        i = i + 0;\n        {name} = {name} + 0;\n"))
        .collect();
    let checks: String = names.iter().map(|name| format!("    dynamic_check({name} != NULL);\n")).collect();
    let text = format!(
        "void f({}, unsigned i, unsigned x)\n{{\n{checks}    i = 0;\n    while (i != 9) {{\n{reads}        i = i + 1;\n    }}\n}}\n",
        declared.join(", ")
    );
    let (with_facts, found) = proposed(&text);
    assert_eq!(found.matches(": safe: ").count(), 3, "{found}");
    let lines: Vec<&str> = with_facts.lines().skip_while(|line| !line.contains("while")).take(5).collect();
    let expected = [
        "    while (i != 9)",
        "        where first_of_the_fleet != NULL",
        "          and second_of_the_fleet != NULL",
        "          and third_of_the_fleet != NULL",
        "          and i <= 9 {",
    ];
    assert_eq!(lines, expected, "{with_facts}");
}

/// Without a list few accesses are reported, and some routines refused.
#[test]
fn figures_over_generated_loops() {
    let figures = Figures::of_generated(300, 7);
    assert!(figures.safe[1] > 4 * figures.safe[0] && 5 * figures.safe[1] > 2 * figures.accesses, "{figures}");
    assert!(figures.refused[1] < figures.refused[0], "{figures}");
}

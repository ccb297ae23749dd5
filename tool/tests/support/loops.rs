//! Generated routines with loops, as clubs write them: sums, copies, searches, walks of pointers, sorts.

use super::Random;

/// A routine with one loop or two; many need loop facts, some are refused without them, some cannot be made safe.
pub fn routine(random: &mut Random) -> String {
    let (step, far) = (random.pick(&[1, 1, 1, 2, 3]), random.pick(&[0, 0, 0, 1, 2]));
    let up_to = random.pick(&["i < n", "i != n", "i < m", "i <= n"]);
    let walks = random.pick(&["p < last", "p != last"]);
    let check = |random: &mut Random, condition: &str| match random.chance(75) {
        true => format!("dynamic_check({condition});\n"),
        false => String::new(),
    };
    let not_null = check(random, "p != NULL");
    let noise = random.pick(&["", "t = t + x;\n", "t = x;\n", "if (x > t) { t = x; }\n"]);
    let body = match random.below(10) {
        0 => format!("i = 0;\nwhile ({up_to}) {{\nx = p[i];\n{noise}i = i + {step};\n}}\n"),
        1 => format!("i = 0;\nwhile ({up_to}) {{\nx = p[i + {far}];\n{noise}i = i + {step};\n}}\nx = p[i];\n"),
        2 => format!("i = n;\nwhile (i > 0) {{\ni = i - 1;\nx = p[i];\n{noise}}}\n"),
        3 => {
            let order = check(random, "first <= last");
            return walk(&format!("{order}p = first;\nwhile ({walks}) {{\nx = p[0];\n{noise}p = p + {step};\n}}\n"));
        }
        4 => format!("while (n > 0) {{\nx = p[0];\n{noise}bundled {{ p = p + 1; n = n - 1; }}\n}}\n"),
        5 => {
            let order = check(random, "n <= m");
            let other = check(random, "q != NULL");
            format!("{order}{other}i = 0;\nwhile ({up_to}) {{\nx = p[i];\nq[i] = x;\n{noise}i = i + 1;\n}}\n")
        }
        6 => format!(
            "i = 0;\nwhile (i != n) {{\nj = i;\nwhile (j > 0) {{\nx = p[j];\nj = j - {step};\ny = p[j];\n\
             if (y > x) {{\np[j] = x;\np[j + 1] = y;\n}}\n}}\ni = i + 1;\n}}\n"
        ),
        7 => {
            let some = check(random, "n > 0");
            format!("{some}j = 0;\ni = 1;\nwhile (i < n) {{\nx = p[i];\ny = p[j];\nif (x < y) {{ j = i; }}\ni = i + 1;\n}}\n")
        }
        8 => "i = 0;\nj = n;\nwhile (i < j) {\nx = p[i];\nif (x < t) { i = i + 1; } else { j = j - 1; }\n}\n".to_string(),
        _ => format!(
            "i = 0;\nwhile (i != 8) {{\ni = i + {step};\n{noise}bundled {{ p = block; n = i; }}\nx = p[0];\n}}\n"
        ),
    };
    format!(
        "unsigned block checked[8];\nvoid f(array_ptr<unsigned> p : count(n), unsigned n, array_ptr<unsigned> q : count(m), unsigned m, \
         unsigned i, unsigned j, unsigned x, unsigned y, unsigned t)\n{{\n{not_null}{body}}}\n"
    )
}

/// A pointer from the first cell of a block to its end.
fn walk(body: &str) -> String {
    format!(
        "void f(array_ptr<unsigned> p : bounds(first, last), array_ptr<unsigned> first : bounds(first, last), \
         array_ptr<unsigned> last : bounds(first, last), unsigned x, unsigned t)\n{{\ndynamic_check(first != NULL);\n{body}}}\n"
    )
}

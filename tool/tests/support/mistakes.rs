//! Generated routines as people write them at first: counts and pointers moved apart from each other, bounds that are chosen, loops.

use super::Random;

const SNIPPETS: [&str; 30] = [
    "row = row + 1;",
    "rows = rows - 1;",
    "row = row + 1;\nrows = rows - 1;",
    "rows = rows - 1;\nrow = row + 1;",
    "row = row + 2;\nrows = rows - 2;",
    "row = block;",
    "row = block;\nrows = 10;",
    "rows = 3;\nrow = small;",
    "rows = 0;",
    "rows = 2;",
    "rows = k;",
    "dynamic_check(k <= rows);\nrows = k;",
    "if (k < rows) {\nrows = k;\n}",
    "dynamic_check(rows > 0);",
    "dynamic_check(m <= rows);",
    "x = row[0];",
    "row[0] = x;",
    "other = row;",
    "m = rows;",
    "m = rows;\nother = row;",
    "other = other + 1;",
    "row = block where row : count(10);",
    "row = small where row : count(rows);\nrows = 3;",
    "if (x > 0) {\nrow = small where row : count(3);\n}",
    "if (x > 0) {\nrow = small where row : count(3);\n} else {\nrow = block where row : count(10);\n}",
    "while (rows > 0) {\nx = row[0];\nrow = row + 1;\nrows = rows - 1;\n}",
    "while (k != m) {\nrow = other;\nrows = k;\nk = k + 1;\n}",
    "bundled {\nrow = row + 1;\nx = row[0];\nrows = rows - 1;\n}",
    "where row : count(3);",
    "rows = rows + 1;",
];

/// A routine of one to four of them.
pub fn routine(random: &mut Random) -> String {
    let snippets: Vec<&str> = (0..1 + random.below(4)).map(|_| random.pick(&SNIPPETS)).collect();
    format!(
        "unsigned block checked[10];\nunsigned small checked[3];\nvoid f(array_ptr<unsigned> row : count(rows), unsigned rows, \
         array_ptr<unsigned> other : count(m), unsigned m, unsigned k, unsigned x)\n{{\n{}\n}}\n",
        snippets.join("\n")
    )
}

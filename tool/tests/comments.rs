//! `fmt` keeps comments: beside what they stood beside, with the same words, and once formatted a text stays as it is.

#[path = "support/folder.rs"]
mod folder;
#[path = "support/mod.rs"]
mod support;

use folder::Folder;
use mizzengrape_tool::program::Program;
use mizzengrape_tool::words::assemble;
use support::generate::case;
use support::Random;

fn formatted(folder: &Folder, text: &str) -> String {
    let file = folder.write("r.c", text);
    let output = folder.command(&["fmt", &file]);
    assert_eq!((output.err.as_str(), output.status), ("", 0), "{text}");
    output.out
}

const TEXT: &str = "\
// The first line.
/* A block
   of two lines. */
#define ROWS 4 // how many

unsigned first checked[ROWS]; // the block

// Registers a boat.
void late(array_ptr<unsigned> row : count(rows), // where
          unsigned rows, unsigned boat)
{
  // Is there room?
  dynamic_check(rows > 0); // no: stop
  if (boat > 0) { // a boat
      /* Two lines
         of a block. */
      row[0] = boat;
  }
  bundled { row = row + 1; rows -= 1; } // both
  /* a */ boat = 0; /* b */
      // last
}
// behind everything
";

const FORMATTED: &str = "\
// The first line.
/* A block
   of two lines. */
// how many
unsigned first checked[4]; // the block

// Registers a boat.
void late(
    array_ptr<unsigned> row : count(rows), // where
    unsigned rows,
    unsigned boat)
{
    // Is there room?
    dynamic_check(rows > 0); // no: stop
    if (boat > 0) { // a boat
        /* Two lines
           of a block. */
        row[0] = boat;
    }
    bundled {
        row = row + 1;
        rows = rows - 1;
    } // both
    /* a */
    boat = 0; /* b */
    // last
}
// behind everything
";

#[test]
fn comments_stay_beside_their_lines() {
    let folder = Folder::new("comments");
    assert_eq!(formatted(&folder, TEXT), FORMATTED);
    assert_eq!(formatted(&folder, FORMATTED), FORMATTED);
    let file = folder.write("r.c", TEXT);
    let without = folder.command(&["fmt", "--drop-comments", &file]).out;
    assert!(!without.contains("//") && !without.contains("/*"), "{without}");
}

/// Comments at the end of a then block stay there, and those behind its brace beside it.
#[test]
fn comments_stay_in_their_block() {
    let folder = Folder::new("blocks");
    let text = |body: &str| format!("void f(\n    unsigned x)\n{{\n{body}}}\n");
    let kept = [
        "    if (x > 0) {\n        x = 1;\n        // the end of then\n    } else {\n        x = 2;\n        // the end of else\n    }\n",
        "    if (x > 0) {\n        x = 1;\n        /* two\n           lines */\n    } else { // otherwise\n        // first\n        x = 2;\n    } // both\n",
        "    if (x > 0) {\n        if (x > 1) {\n            x = 1;\n            // inner then\n        } else {\n            x = 3;\n        }\n        \
         // outer then\n    } else {\n        x = 2;\n    }\n    while (x > 0) {\n        x = 0;\n        // the end of the body\n    }\n",
    ];
    for body in kept {
        assert_eq!(formatted(&folder, &text(body)), text(body));
    }
    let behind = "if (x > 0) { x = 1; /* one */ } // then\nelse { x = 2; } // else\n";
    let expected =
        "    if (x > 0) {\n        x = 1; /* one */\n    } else { // then\n        x = 2;\n    } // else\n";
    assert_eq!(formatted(&folder, &text(behind)), text(expected));
    // Further ifs stand in the else block, and an empty else block is left out.
    let further =
        "if (x > 0) {\n  x = 1;\n  // a\n} else if (x > 1) {\n  x = 2;\n  // b\n} else {\n  // c\n}\n";
    let expected = "    if (x > 0) {\n        x = 1;\n        // a\n    } else {\n        if (x > 1) {\n            x = 2;\n            \
                    // b\n        }\n        // c\n    }\n";
    assert_eq!(formatted(&folder, &text(further)), text(expected));
    assert_eq!(formatted(&folder, &text(expected)), text(expected));
}

/// A text with comments put between its tokens, at random.
fn with_comments(text: &str, random: &mut Random) -> (String, usize) {
    let (mut commented, mut count) = (String::new(), 0);
    for (number, line) in text.lines().enumerate() {
        if random.chance(20) && !line.contains('#') {
            commented.push_str(&format!("  // before {number}\n"));
            count += 1;
        }
        commented.push_str(line);
        if random.chance(20) && !line.contains('#') {
            let behind = random.pick(&[" // behind", " /* behind */", " /* on two\n lines */", "/**/"]);
            commented.push_str(behind);
            count += 1;
        }
        commented.push('\n');
    }
    (commented, count)
}

#[test]
fn generated_texts_keep_words_and_comments() {
    let folder = Folder::new("generated-comments");
    let mut texts = 0;
    for number in 0..400 {
        let mut random = Random::of(3, number);
        let case = case(&mut random);
        let Some(canonical) = Program::of_tables("t", case.tables, case.facts).text else { continue };
        let (text, count) = with_comments(&canonical.source, &mut random);
        texts += 1;
        let once = formatted(&folder, &text);
        let (before, after) = (assemble(&text).expect("a text"), assemble(&once).expect("a text"));
        assert_eq!((before.tables, before.facts), (after.tables, after.facts), "{text}");
        assert_eq!(once.matches("/*").count() + once.matches("//").count(), count, "{text}\n{once}");
        assert_eq!(formatted(&folder, &once), once, "{text}");
    }
    assert!(texts > 200, "{texts}");
}

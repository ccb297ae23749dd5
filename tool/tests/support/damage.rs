//! Damaged texts, tables and images: whatever they hold, every command answers.

use super::generate::case;
use super::loops::routine;
use super::Random;
use mizzengrape_tool::command::{formatted, run_in_turn, run_program, verdict, Asked, Given, Output};
use mizzengrape_tool::files::{as_text, IMAGE as IMAGES, TEXT};
use mizzengrape_tool::findings::{json, of_program, sarif};
use mizzengrape_tool::library::{check_table, form_refusal};
use mizzengrape_tool::lsp::json::Json;
use mizzengrape_tool::names::Names;
use mizzengrape_tool::printer::print;
use mizzengrape_tool::program::{printable, Program};
use mizzengrape_tool::propose::propose;
use mizzengrape_tool::words::assemble;

/// Pieces that a damaged text gets.
const PIECES: &str = "unsigned void return if else while bundled where and array_ptr nt_array_ptr checked nt_checked dynamic_check NULL \
    routines #define #pragma #include // /* */ <= >= == != += -= *= ++ -- ( ) { } [ ] < > = + - * ; : , ! & && | ? \" \\ \\0 \\x4 \\9 ' 0 1 3 \
    65536 65537 2147483648 4294967295 4294967296 010 0x 0xFFFFFFFF 7u count bounds rows n0 n1 p0 p1 s0 o0 b0 r0 r1 x _ int for \u{e9} \
    \u{feff} \u{0} \r \t \n";

/// Words that a damaged table gets.
const WORDS: [i32; 22] =
    [0, 1, 2, 3, 4, 5, 6, 7, 8, 9, 10, 11, 12, 13, 14, 15, 16, -1, -2, 65_537, i32::MAX, i32::MIN];

pub const IMAGE: &str =
    "memory 30; o0 at 1 = { 1, 2, 3 }; o1 = \"abc\"; p0 = o0 + 1; p1 = NULL; n0 = 3; n1 = 4; allowance 50;\n";

/// One damaged text, table or image through the commands that take it.
pub fn one(random: &mut Random, texts: &[String]) {
    match random.below(5) {
        0 | 1 => text(random, texts),
        2 => table(random),
        3 => image(random, texts),
        _ => in_turn(random, texts),
    }
}

fn text(random: &mut Random, texts: &[String]) {
    let mut bytes = if random.chance(50) {
        texts[random.below(texts.len())].clone().into_bytes()
    } else {
        generated(random).into_bytes()
    };
    for _ in 0..1 + random.below(4) {
        damage(random, &mut bytes);
    }
    let Ok(source) = as_text("damaged.c", bytes, &TEXT, false) else { return };
    let Ok(program) = Program::of_text("damaged.c", source, random.chance(50)) else { return };
    answered(verdict(&program, random.chance(50)));
    let text = program.text.as_ref().expect("a text that was assembled");
    if random.chance(20) {
        for_programs(&program);
    }
    if let ([table], [part], true) = (&program.tables[..], &text.parts[..], random.chance(5)) {
        if form_refusal(&program.tables).is_none() {
            let proposal = propose(part, &program.facts);
            assert_eq!(check_table(table, &proposal.facts), proposal.checked);
        }
    }
    if let Ok(with_comments) = formatted(&program, text, false) {
        let again = assemble(&with_comments).unwrap_or_else(|wrong| panic!("{wrong:?}\n{with_comments}"));
        assert_eq!((&again.tables, &again.facts), (&program.tables, &program.facts), "{with_comments}");
    }
    let canonical = print(&text.parts, &program.facts, &text.names);
    let again = assemble(&canonical).unwrap_or_else(|wrong| panic!("{wrong:?}\n{canonical}"));
    assert_eq!((again.tables, again.facts), (program.tables, program.facts), "{canonical}");
}

/// What programs read is JSON, whatever stands in a text.
fn for_programs(program: &Program) {
    let found = of_program(program);
    assert!(!found.is_at_odds, "{found:?}");
    for finding in &found.findings {
        let line = json(finding).to_string();
        assert!(!line.contains('\n') && Json::read(&line).is_ok(), "{line}");
    }
    assert!(Json::read(&sarif(&found.findings).to_string()).is_ok());
}

fn generated(random: &mut Random) -> String {
    let case = case(random);
    let parts = printable(&case.tables, &case.facts).expect("a generated table reads");
    print(&parts, &case.facts, &Names::canonical(&parts))
}

fn damage(random: &mut Random, bytes: &mut Vec<u8>) {
    let at = random.below(bytes.len() + 1);
    let length = random.below(12).min(bytes.len() - at);
    match random.below(6) {
        0 => drop(bytes.drain(at..at + length)),
        1 => bytes.truncate(at),
        2 => bytes.insert(at, random.next() as u8),
        3 => {
            let copied = bytes[at..at + length].to_vec();
            let to = random.below(bytes.len() + 1);
            bytes.splice(to..to, copied);
        }
        4 => {
            let pieces: Vec<&str> = PIECES.split(' ').collect();
            let piece = random.pick(&pieces);
            bytes.splice(at..at + length, piece.bytes());
        }
        _ => {
            let pieces: Vec<&str> = PIECES.split(' ').collect();
            let piece = format!(" {} ", random.pick(&pieces));
            bytes.splice(at..at, piece.bytes());
        }
    }
}

fn table(random: &mut Random) {
    let mut case = case(random);
    for _ in 0..random.below(4) {
        let number = random.below(case.tables.len());
        let words = if random.chance(85) { &mut case.tables[number] } else { &mut case.facts };
        let at = random.below(words.len().max(1));
        let word = if random.chance(90) { random.pick(&WORDS) } else { random.next() as i32 };
        match random.below(8) {
            0 => words.truncate(at),
            1 => words.insert(at.min(words.len()), word),
            _ if at < words.len() => words[at] = word,
            _ => {}
        }
    }
    let program = Program::of_tables("damaged.tbl", case.tables, case.facts);
    answered(verdict(&program, random.chance(50)));
}

fn image(random: &mut Random, texts: &[String]) {
    let Some(Given { program, image_path, image_text }) = given(random, texts) else { return };
    answered(run_program(program, &image_path, image_text, random.chance(50), random.chance(30)));
}

/// Some routines in turn with such images, now and then more than there may be, or turns that are too long.
fn in_turn(random: &mut Random, texts: &[String]) {
    let count = random.pick(&[1, 2, 2, 2, 3, 3, 8, 9]);
    let mut lent: Vec<Given> = (0..count).map(|_| with_loop(random)).collect();
    if random.chance(20) {
        let at = random.below(lent.len());
        lent.splice(at..=at, given(random, texts));
    }
    if lent.is_empty() {
        return;
    }
    let quantum = random.pick(&[1, 1, 2, 3, 7, 1_000, 0, 1_001]);
    let allowance = random.chance(50).then(|| random.below(100) as u32);
    let asked = Asked { quantum, allowance, turns: random.chance(50), short: random.chance(30) };
    answered(run_in_turn(lent, asked));
}

/// A routine with a loop and an image for it; now and then the entry is untrue, or the block overlaps another one.
fn with_loop(random: &mut Random) -> Given {
    let program = Program::of_text("loop.c", routine(random), true).unwrap_or_else(|wrong| panic!("{wrong}"));
    let has_block = program.text.as_ref().is_some_and(|text| !text.names.objects.is_empty());
    let (n, t) = (random.below(9) + random.below(100) / 98, random.below(4));
    let place = if random.chance(5) { format!("block at {};", random.below(30)) } else { String::new() };
    let image_text = match has_block {
        true => format!("{place} p = block + {}; n = {n}; t = {t};", 8 - n.min(8)),
        false => format!("t = {t};"),
    };
    Given { program, image_path: "image".to_string(), image_text }
}

/// A routine and a damaged image.
fn given(random: &mut Random, texts: &[String]) -> Option<Given> {
    let source = if random.chance(30) { texts[random.below(texts.len())].clone() } else { generated(random) };
    let program = Program::of_text("routine.c", source, true).ok()?;
    let mut bytes = IMAGE.as_bytes().to_vec();
    for _ in 0..random.below(4) {
        damage(random, &mut bytes);
    }
    let image_text = as_text("image", bytes, &IMAGES, true).ok()?;
    // A memory of the greatest size for every fifth case would take all the time.
    let is_great = ["65536", "65537", "2147483648", "42949672"].iter().any(|size| image_text.contains(size));
    (!is_great).then(|| Given { program, image_path: "image".to_string(), image_text })
}

/// No call may end with the two implementations at odds.
fn answered(output: Result<Output, String>) {
    if let Ok(output) = output {
        assert!(output.status != 5, "{}{}", output.err, output.out);
    }
}

//! The routines of `routines/`, checked and run; the tables that the proved programs read are made from them.

use mizzengrape_tool::command::{run_in_turn, run_program, verdict, Asked, Given, Output};
use mizzengrape_tool::image::read_image;
use mizzengrape_tool::library::Lent;
use mizzengrape_tool::program::Program;
use oracle::answer::RunInput;
use std::collections::BTreeSet;
use std::fs;
use std::path::{Path, PathBuf};

fn folder(name: &str) -> PathBuf {
    Path::new(env!("CARGO_MANIFEST_DIR")).join("..").join(name)
}

fn routine(name: &str) -> Program {
    let text = fs::read_to_string(folder("routines").join(format!("{name}.c"))).expect("a routine");
    Program::of_text(&format!("{name}.c"), text, false).unwrap_or_else(|wrong| panic!("{wrong}"))
}

/// `mizzengrape asm routines/NAME.c -o crates/rehearsal/data/NAME` makes them anew: a table NAME, or those of a set.
#[test]
fn tables_are_those_of_the_texts() {
    let data = folder("crates/rehearsal/data");
    let mut made = BTreeSet::new();
    for name in ["first_club", "second_club", "handicap"] {
        let tables = routine(name).tables;
        for (number, words) in tables.iter().enumerate() {
            let file = if tables.len() == 1 { name.to_string() } else { format!("{name}.{number}.tbl") };
            let bytes: Vec<u8> = words.iter().flat_map(|word| word.to_le_bytes()).collect();
            assert_eq!(bytes, fs::read(data.join(&file)).expect("a table"), "{file}");
            made.insert(file);
        }
    }
    let files = fs::read_dir(data).expect("a folder").map(|entry| entry.expect("a file").file_name());
    assert_eq!(files.map(|name| name.to_string_lossy().into_owned()).collect::<BTreeSet<_>>(), made);
}

/// The rehearsal scores the day of `race_day.img`: it has the same corrected times.
#[test]
fn the_rehearsal_scores_the_same_day() {
    let rehearsed = fs::read_to_string(folder("crates/rehearsal/stdout")).expect("what the rehearsal writes");
    let line = |line: &str| line.split_once(": corrected time ").map(|(_, time)| time.to_string());
    let rehearsed: Vec<String> = rehearsed.lines().filter_map(line).collect();
    let scored = run("handicap", "race_day.img").out;
    let wanted = |line: &&str| line.contains("][2] (cell") || line.starts_with("guest:");
    let time = |line: &str| line.rsplit(' ').next().unwrap_or_default().to_string();
    let (guest, rows): (Vec<&str>, Vec<&str>) =
        scored.lines().filter(wanted).partition(|line| line.starts_with("guest:"));
    let scored: Vec<String> = rows.into_iter().chain(guest).map(time).collect();
    assert_eq!(rehearsed, scored);
}

fn image(name: &str) -> String {
    fs::read_to_string(folder("routines").join(name)).expect("an image")
}

/// The run of a routine with an image; an accepted one.
fn run(name: &str, image_name: &str) -> Output {
    assert_eq!(verdict(&routine(name), true).expect("a verdict").out, "accepted\n");
    run_program(routine(name), image_name, image(image_name), false, false).expect("a run")
}

/// How the second implementation ends that run.
fn second(name: &str, image_name: &str) -> String {
    let program = routine(name);
    let text = program.text.as_ref().expect("a text");
    let read = read_image(&image(image_name), &text.parts, &text.names).expect("an image that reads");
    let Lent { directory, cells, values, origins, allowance } = read.lent;
    let mut input = RunInput { directory, cells, values, origins, allowance };
    oracle::machine::run(&program.tables[0], &mut input).to_string()
}

#[test]
fn the_first_club_stops_and_the_second_is_refused() {
    assert_eq!(verdict(&routine("second_club"), true).expect("a verdict").out, "refused 8 0 0\n");
    let last = run("first_club", "last_row.img");
    assert_eq!(
        last.out,
        "done after 5 steps\nrow: first + 3 -> first + 4\nrows: 1 -> 0\nfirst[3] (cell 4): 0 -> 77\n"
    );
    let full = run("first_club", "full_block.img");
    assert_eq!((full.out.as_str(), full.status), ("stopped after 1 step; nothing changed\n", 3));
}

#[test]
fn rows_are_stepped_as_a_whole() {
    assert_eq!(second("rows_of_three", "last_row_of_three.img"), "done 7");
    let expected =
        "done after 7 steps\nrow: first + 9 -> first + 12\nrows: 1 -> 0\nfirst[3][0] (cell 10): 0 -> 4\n\
                    first[3][1] (cell 11): 0 -> 77\nfirst[3][2] (cell 12): 0 -> 750\n";
    assert_eq!(run("rows_of_three", "last_row_of_three.img").out, expected);
    assert_eq!(second("rows_of_three", "full_rows_of_three.img"), "stopped 1 0 1");
    let full = run("rows_of_three", "full_rows_of_three.img");
    assert_eq!((full.out.as_str(), full.status), ("stopped after 1 step; nothing changed\n", 3));
}

#[test]
fn a_name_is_copied_as_far_as_there_is_room() {
    assert_eq!(second("boat_name", "short_name.img"), "done 24");
    let expected = "done after 24 steps\ni: 0 -> 5\nlisted: \"\" -> \"Wanda\"\n";
    assert_eq!(run("boat_name", "short_name.img").out, expected);
    assert_eq!(second("boat_name", "long_name.img"), "stopped 32 3 6");
    let long = run("boat_name", "long_name.img");
    let expected = "stopped after 32 steps\ni: 0 -> 7\nletter: 0 -> 119\nlisted: \"\" -> \"Windflo\"\n";
    assert_eq!((long.out.as_str(), long.status), (expected, 3));
}

#[test]
fn elapsed_times_are_summed_and_no_access_can_stop() {
    assert_eq!(verdict(&routine("elapsed_times"), true).expect("a verdict").out, "accepted\nsafe: 4\n");
    let image_name = "three_finishers.img";
    let run = run_program(routine("elapsed_times"), image_name, image(image_name), false, false);
    let expected = "done after 16 steps\ni: 0 -> 3\ntime: 0 -> 811\ntotal: 0 -> 2363\n";
    assert_eq!(run.expect("a run").out, expected);
}

#[test]
fn the_bounds_follow_the_block() {
    assert_eq!(second("two_blocks", "keelboat.img"), "done 10");
    let expected =
        "done after 10 steps\nrow: NULL -> keelboats + 3\nrows: 0 -> 1\nkeelboats[2] (cell 6): 0 -> 77\n\
                    bounds of row: count(0) -> count(rows) (cell 7)\n";
    assert_eq!(run("two_blocks", "keelboat.img").out, expected);
}

/// The incident: the first laptop has one boat more than rows, and behind its block lies the first row of the other's.
#[test]
fn both_laptops_run_in_turn_over_touching_blocks() {
    let given = |(name, image_name): (&str, &str)| Given {
        program: routine(name),
        image_path: image_name.to_string(),
        image_text: image(image_name),
    };
    let run = |lent: [(&str, &str); 2], quantum| {
        let asked = Asked { quantum, allowance: None, turns: false, short: true };
        let output = run_in_turn(lent.map(given).into(), asked).expect("an answer");
        (output.out, output.status)
    };
    let laptops = [("late_boats", "first_laptop.img"), ("late_boats", "second_laptop.img")];
    let expected = "\
routine 0: stopped 18 1 1
values: 5 0 105 1
routine 1: done 17
values: 8 1 204 0
cells: 0 101 102 103 104 201 202 203 0
";
    // Whatever the turns, each boat has its own row, and the first laptop stops at its check.
    for quantum in 1..=20 {
        assert_eq!(run(laptops, quantum), (expected.to_string(), 3), "{quantum}");
    }
    // The other laptop's block before this one's: nobody stops the second laptop either.
    let [first, second] = laptops;
    let (out, _) = run([second, first], 3);
    assert!(out.ends_with("cells: 0 201 202 203 0 101 102 103 104\n"), "{out}");
    // The second club's routine gets no turn, and neither does the first club's beside it.
    let clubs = [("first_club", "last_row.img"), ("second_club", "last_row.img")];
    assert_eq!(run(clubs, 3), ("refused routine 1 8 0 0\n".to_string(), 1));
}

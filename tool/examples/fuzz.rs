//! `cargo run --release --example fuzz -- COUNT [SEED]`: damaged texts, tables and images through every command; the first case that
//! panics ends it with its number.

#[path = "../tests/support/mod.rs"]
mod support;

use std::path::Path;

fn main() {
    let [count, seed] = support::numbers([1_000_000, 1]);
    let texts = golden_texts();
    for number in 0..count {
        let case = || support::damage::one(&mut support::Random::of(seed, number), &texts);
        if std::panic::catch_unwind(std::panic::AssertUnwindSafe(case)).is_err() {
            eprintln!("seed {seed}, case {number}");
            std::process::exit(1);
        }
    }
    println!("{count} damaged texts, tables and images: no panic");
}

fn golden_texts() -> Vec<String> {
    let folder = Path::new(env!("CARGO_MANIFEST_DIR")).join("tests/language");
    let files = std::fs::read_dir(folder)
        .expect("the pairs of text and words")
        .map(|entry| entry.expect("a file").path());
    let mut texts: Vec<_> =
        files.filter(|path| path.extension().is_some_and(|ending| ending == "c")).collect();
    texts.sort();
    texts.into_iter().map(|path| std::fs::read_to_string(path).expect("a text")).collect()
}

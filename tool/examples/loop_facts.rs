//! What proposed loop facts bring: `loop_facts [COUNT [SEED]]`, over generated loops and over the routines of the repository.

#[path = "../tests/support/mod.rs"]
mod support;

use mizzengrape_tool::program::Program;
use std::path::Path;
use support::numbers;
use support::proposals::Figures;

fn main() {
    let [count, seed] = numbers([2_000, 1]);
    println!("generated loops: {}", Figures::of_generated(count, seed));
    let mut figures = Figures::default();
    let folder = Path::new(env!("CARGO_MANIFEST_DIR")).join("../routines");
    for entry in std::fs::read_dir(folder).expect("the routines") {
        let path = entry.expect("a file").path();
        if path.extension().is_some_and(|ending| ending == "c") {
            let text = std::fs::read_to_string(&path).expect("a text");
            figures
                .count(&Program::of_text("routine.c", text, false).unwrap_or_else(|wrong| panic!("{wrong}")));
        }
    }
    println!("routines/: {figures}");
}

//! `cargo run --release --example round_trip -- COUNT [SEED]`: generated tables of all forms to text and back.

#[path = "../tests/support/mod.rs"]
mod support;

use support::{generate, round_trip::round_trip, Random};

fn main() {
    let [count, seed] = support::numbers([100_000, 1]);
    for number in 0..count {
        let random = &mut Random::of(seed, number);
        let case = generate::case(random);
        let text = round_trip(&case.tables, &case.facts, random);
        assert!(text.is_some(), "seed {seed}, case {number}: {case:?} does not read");
    }
    println!("{count} tables: the same words came back from their texts");
}

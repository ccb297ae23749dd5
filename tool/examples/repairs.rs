//! Help for refused routines, followed again and again: `repairs [COUNT [SEED]]`.

#[path = "../tests/support/mod.rs"]
mod support;

use support::numbers;
use support::repaired::Figures;

fn main() {
    let [count, seed] = numbers([4_000, 1]);
    println!("{}", Figures::of_generated(count, seed));
}

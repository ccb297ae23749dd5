//! Embedding in Rust: checks a routine for late entries, runs it for three boats, and shows what wrong lengths are answered.
//! The memory: cell 0 is in no object, cells 1 and 2 are one laptop's block, cells 3 and 4 the other's.

use mizzengrape::{check, run};

#[rustfmt::skip]
const ROUTINE: [i32; 67] = [
    6, 2, 8, 24, 32, 35,        // objects, variables, statements: offset and length of each
    2, 2,                       // objects 0 and 1 have 2 cells each
    1, 0, 0, -1, 0, 0, 1, 0,    // variable 0: row, array_ptr with count(rows)
    0, 0, 0, 0, 0, 0, 0, 0,     // variable 1: rows
    0, 0, 0, 0, 0, 0, 0, 0,     // variable 2: boat
    10, 1, 2, 1, 0, 0, 0,       // 0: check rows > 0
    9, 0, -1, 0, 2, 0, 0,       // 1: row[0] := boat
    13, 2, 0, 0, 0, 0, 0,       // 2: bundle of 2
    6, 0, 0, 1, 0, 0, 0,        // 3:   row := row + 1
    2, 1, 1, -1, 0, 0, 0,       // 4:   rows := rows - 1
];

/// The count raised before anything allows it.
#[rustfmt::skip]
const RAISED: [i32; 39] = [
    6, 2, 8, 24, 32, 7, 2, 2, 1, 0, 0, -1, 0, 0, 1, 0, 0, 0, 0, 0, 0, 0, 0, 0, 0, 0, 0, 0, 0, 0, 0, 0,
    2, 1, 1, 1, 0, 0, 0,        // 0: rows := rows + 1
];

const DIRECTORY: [u32; 4] = [1, 2, 3, 2];
const ORIGINS: [u32; 3] = [1, 0, 0];

fn main() {
    println!("the routine: {}", check(&ROUTINE));
    println!("the count raised first: {}", check(&RAISED));
    let mut cells = [0, 0, 0, 201, 0];
    let mut values = [1, 2, 0];
    for boat in 101..=103 {
        values[2] = boat;
        let outcome = run(&ROUTINE, &DIRECTORY, &mut cells, &mut values, &ORIGINS, 100);
        println!("boat {boat}: {outcome}, cells {cells:?}");
    }
    println!("values {values:?}");
    println!("no step allowed: {}", run(&ROUTINE, &DIRECTORY, &mut cells, &mut values, &ORIGINS, 0));

    println!("no table: {}", check(&[]));
    println!("five words of the table: {}", check(&ROUTINE[..5]));
    println!("one word too few: {}", check(&ROUTINE[..66]));
    println!("no directory: {}", run(&ROUTINE, &[], &mut cells, &mut values, &ORIGINS, 100));
    println!("half a pair: {}", run(&ROUTINE, &DIRECTORY[..3], &mut cells, &mut values, &ORIGINS, 100));
    println!("no cells: {}", run(&ROUTINE, &DIRECTORY, &mut [], &mut values, &ORIGINS, 100));
    println!("one cell too few: {}", run(&ROUTINE, &DIRECTORY, &mut cells[..4], &mut values, &ORIGINS, 100));
    println!("two values: {}", run(&ROUTINE, &DIRECTORY, &mut cells, &mut values[..2], &ORIGINS, 100));
    println!("no origins: {}", run(&ROUTINE, &DIRECTORY, &mut cells, &mut values, &[], 100));
    println!("cells {cells:?}, values {values:?}");
}

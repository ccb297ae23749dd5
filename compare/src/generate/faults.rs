//! Tables made wrong: one rule of causes 1 to 6 broken, words changed, cut or added.

use crate::rng::Rng;
use oracle::draft::Draft;
use oracle::table::{
    MAX_OBJECTS, MAX_ROWS, MAX_STATEMENTS, MAX_VARIABLES, MAX_WORDS, MAX_WORDS_WITH_ROWS, ROW_WORDS,
    VARIABLE_WORDS,
};

const WORDS: [i32; 24] = [
    -1,
    0,
    1,
    2,
    3,
    4,
    5,
    6,
    7,
    8,
    11,
    12,
    13,
    14,
    15,
    16,
    17,
    64,
    65_536,
    65_537,
    -65_536,
    -65_537,
    i32::MAX,
    i32::MIN,
];

/// Another word in a place: near the old one, or one of those that matter.
fn other_word(rng: &mut Rng, old: i32) -> i32 {
    match rng.below(3) {
        0 => old.wrapping_add(rng.pick(&[1, -1])),
        1 => rng.pick(&[-1, 0, 1, 2, 3]),
        _ => rng.pick(&WORDS),
    }
}

/// Changes up to three words, most often in the statements.
pub fn mutate(rng: &mut Rng, words: &mut [i32]) {
    for _ in 0..rng.pick(&[1, 1, 1, 2, 3]) {
        if words.is_empty() {
            return;
        }
        let place = match rng.below(12) {
            0 => rng.below(words.len().min(8)),
            1..=3 => rng.below(words.len()),
            _ => words.len() - 1 - rng.below(words.len().saturating_sub(8).max(1)) * 3 / 4,
        };
        words[place] = other_word(rng, words[place]);
    }
}

/// Cuts words off or adds some.
pub fn resize(rng: &mut Rng, words: &mut Vec<i32>) {
    match rng.below(5) {
        0 => words.truncate(rng.below(9)),
        1 => words.truncate(words.len().saturating_sub(rng.pick(&[6, 7]))),
        2 => words.truncate(rng.below(words.len() + 1)),
        3 => {
            let (least, most) = (MAX_WORDS, MAX_WORDS_WITH_ROWS);
            words.resize(rng.pick(&[least, least + 1, most, most + 1, 8_000]), 0);
        }
        _ => words.extend([0; 7]),
    }
}

/// Fills each section with items that change no answer: the largest table with as many pairs.
pub fn fill(draft: &mut Draft) {
    let same = |v: i32| [10, v, 4, 0, v, 0, 0];
    draft.objects.resize(MAX_OBJECTS, 1);
    draft.variables.resize(MAX_VARIABLES, [0; VARIABLE_WORDS]);
    draft.statements.resize(MAX_STATEMENTS, same(0));
    let pointer = draft.variables.iter().position(|record| record[0] != 0);
    if let (Some(rows), Some(p)) = (&mut draft.rows, pointer) {
        let p = p as i32;
        rows.resize(MAX_ROWS, [p, -1, 0, p, -1, 0]);
    }
}

/// Breaks one rule of causes 2 to 6 in the records; a later one may break it again.
pub fn break_record(rng: &mut Rng, draft: &mut Draft) {
    match rng.below(15) {
        0 => draft.objects.resize(17, 1),
        1 => draft.variables.resize(rng.pick(&[0, 17]), [0; VARIABLE_WORDS]),
        2 => draft.statements.resize(rng.pick(&[1_024, 1_025]), [4, 0, 0, 0, 0, 0, 0]),
        3 => {
            let o = rng.below(draft.objects.len());
            if let Some(length) = draft.objects.get_mut(o) {
                *length =
                    rng.pick(&[0, -1, 1_000_000, 1_000_001, -1_000_000, -1_000_001, i32::MAX, i32::MIN]);
            }
        }
        4 | 5 => {
            let v = rng.below(draft.variables.len());
            if let Some(record) = draft.variables.get_mut(v) {
                let field = rng.below(VARIABLE_WORDS);
                record[field] = match field {
                    // The element size.
                    1 => rng.pick(&[-1, 1, 8, 9]),
                    _ => other_word(rng, record[field]),
                };
            }
        }
        6 => {
            let s = rng.below(draft.statements.len());
            if let Some(record) = draft.statements.get_mut(s) {
                let field = rng.below(7);
                record[field] = other_word(rng, record[field]);
            }
        }
        7 | 8 => break_row(rng, draft),
        9 => break_declaration(rng, draft),
        13 | 14 => put_call(rng, draft),
        _ => break_head(rng, draft),
    }
}

/// A faulty row, or a wrong number of them.
fn break_row(rng: &mut Rng, draft: &mut Draft) {
    let rows = draft.rows.get_or_insert_default();
    let (r, field) = (rng.below(rows.len()), rng.below(ROW_WORDS));
    match rows.get_mut(r) {
        Some(row) if rng.chance(85) => row[field] = other_word(rng, row[field]),
        _ => rows.resize(rng.pick(&[0, 1, 64, 65]), [0, -1, 0, 0, -1, 0]),
    }
}

/// A kind 14 that names no pointer or no row, or has a field too many.
fn break_declaration(rng: &mut Rng, draft: &mut Draft) {
    let rows = draft.rows.as_ref().map_or(0, Vec::len) as i32;
    let declarations: Vec<usize> =
        (0..draft.statements.len()).filter(|&s| draft.statements[s][0] == 14).collect();
    let Some(s) = rng.pick_any(&declarations) else {
        draft.statements.push([14, rng.range(0, 3), rng.range(-1, 1), 0, 0, 0, 0]);
        return;
    };
    match rng.below(4) {
        0 => draft.statements[s][rng.range(3, 6) as usize] = 1,
        1 => draft.statements[s][1] = rng.range(-1, draft.variables.len() as i32),
        _ => draft.statements[s][2] = rng.pick(&[-1, rows - 1, rows, rows + 1]),
    }
}

/// A call where another statement stood: of a routine by itself it reads, and is 19 (point 14).
fn put_call(rng: &mut Rng, draft: &mut Draft) {
    let word = |rng: &mut Rng| if rng.chance(60) { -1 } else { rng.range(-1, 16) };
    let record = [15, rng.range(-1, 1), word(rng), word(rng), word(rng), word(rng), word(rng)];
    let s = rng.below(draft.statements.len());
    match draft.statements.get_mut(s) {
        Some(statement) if statement[0] < 11 => *statement = record,
        _ => draft.statements.push(record),
    }
}

/// Changes a count of some head, so that blocks overlap or run out.
fn break_head(rng: &mut Rng, draft: &mut Draft) {
    let heads: Vec<usize> = (0..draft.statements.len()).filter(|&s| draft.statements[s][0] >= 11).collect();
    let Some(s) = rng.pick_any(&heads) else {
        draft.statements.push([13, rng.pick(&[-1, 0, 1, 17]), 0, 0, 0, 0, 0]);
        return;
    };
    let record = &mut draft.statements[s];
    let field = match record[0] {
        11 => rng.pick(&[5, 6]),
        12 => 5,
        _ => 1,
    };
    record[field] = match rng.below(5) {
        0 => rng.pick(&[-1, 0, 17, i32::MAX, i32::MIN]),
        1 => record[field] - 1,
        _ => record[field] + rng.range(1, 3),
    };
}

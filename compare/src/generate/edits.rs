//! Tables that are edited (point 13): texts that fit and texts that do not, positions of all sorts, buffers with and
//! without room, stores with few places.

use super::{faults, layout, repair, Layout, Writer};
use crate::edits::{EditCase, Written};
use crate::rng::Rng;
use oracle::draft::{Draft, Record};
use oracle::editor::{Editor, INSERT, REMOVE, REPLACE};
use oracle::table::{MAX_STATEMENTS, STATEMENT_WORDS};

/// Case `number` of a seed is always the same.
pub fn edits_case(seed: u64, number: u64) -> EditCase {
    let mut rng = Rng::of_case(seed ^ 0x6564_6974, number);
    let mut draft = Draft::default();
    let layout = layout::choose(&mut rng, &mut draft);
    let size = if rng.chance(3) { rng.range(60, 300) } else { rng.range(0, 16) };
    draft.statements = Writer { rng: &mut rng, layout: &layout }.body(size as usize, 0);
    if rng.chance(80) {
        repair(&mut rng, &mut draft, &mut Vec::new());
    }
    if rng.chance(2) {
        // As many statements as there may be, or nearly.
        draft.statements.resize(MAX_STATEMENTS - rng.below(3), [10, 0, 4, 0, 0, 0, 0]);
    }
    if rng.chance(4) {
        faults::break_record(&mut rng, &mut draft);
    }
    let mut buffer = draft.words();
    let length = buffer.len();
    let room = match rng.below(8) {
        0 => rng.below(STATEMENT_WORDS + 1),
        1 => STATEMENT_WORDS * rng.below(6),
        _ => rng.range(50, 700) as usize,
    };
    buffer.extend((0..room).map(|_| rng.range(-9, 9)));
    let places = rng.pick(&[0, 1, 1, 2, 3, 4, 6]);
    let keep = keep(&mut rng, draft.statements.len());
    let mut case = EditCase { buffer, length, places, keep, edits: Vec::new() };
    // What comes before an edit tells where it can be.
    let Ok((mut editor, _)) = Editor::start(case.buffer.clone(), length, 0, &[]) else { return case };
    for _ in 0..rng.range(1, 6) {
        let edit = edit(&mut rng, &layout, editor.table());
        let _ = editor.edit(edit.edit(), &[]);
        case.edits.push(edit);
    }
    case
}

/// Positions to keep: some of the table, now and then others, twice or out of order.
fn keep(rng: &mut Rng, statements: usize) -> Vec<u32> {
    let mut keep: Vec<u32> = (0..=statements as u32).filter(|_| rng.chance(35)).collect();
    if rng.chance(20) {
        rng.shuffle(&mut keep);
        keep.extend(keep.clone().into_iter().take(2));
        keep.push(rng.pick(&[u32::MAX, statements as u32 + 1, 2_000]));
    }
    keep.truncate(40);
    keep
}

/// The first statement of a chunk, with its blocks.
fn first_statement(chunk: &[Record]) -> Vec<Record> {
    let Some(first) = chunk.first() else { return Vec::new() };
    let blocks = match first[0] {
        11 => first[5] + first[6],
        12 => first[5],
        13 => first[1],
        _ => 0,
    };
    chunk[..chunk.len().min(1 + blocks.max(0) as usize)].to_vec()
}

fn edit(rng: &mut Rng, layout: &Layout, table: &[i32]) -> Written {
    let statements = Draft::from_words(table).map_or(Vec::new(), |draft| draft.statements);
    let mut tops = vec![];
    let mut s = 0;
    while s < statements.len() {
        tops.push(s as u32);
        s += first_statement(&statements[s..]).len();
    }
    let count = statements.len() as u32;
    let operation = match rng.below(40) {
        0 => rng.pick(&[3, 4, u32::MAX]),
        1..=17 => INSERT,
        18..=28 => REPLACE,
        _ => REMOVE,
    };
    let position = match rng.below(12) {
        0 => rng.pick(&[count, count + 1, u32::MAX]),
        // Perhaps inside of blocks.
        1 => rng.below(count as usize + 1) as u32,
        2 if operation == INSERT => count,
        _ => rng.pick_any(&tops).unwrap_or(0),
    };
    let text = text(rng, layout);
    let keep =
        if rng.chance(60) { keep(rng, statements.len() + text.len() / STATEMENT_WORDS) } else { vec![] };
    Written { operation, position, text, keep }
}

/// One statement with its blocks; at times none, several, one cut short or a wrong one.
fn text(rng: &mut Rng, layout: &Layout) -> Vec<i32> {
    let mut chunk = Writer { rng, layout }.body(1, 0);
    if rng.chance(90) {
        chunk = first_statement(&chunk);
    }
    let mut words = chunk.into_flattened();
    match rng.below(24) {
        0 => words.clear(),
        1 => words.truncate(words.len() - rng.range(1, 6).min(words.len() as i32) as usize),
        2 => words.extend([4, 0, 0]),
        3 | 4 => faults::mutate(rng, &mut words),
        _ => {}
    }
    words
}

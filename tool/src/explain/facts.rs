//! Known facts in the text's notation.

use super::Note;
use crate::printer::{plus, Printer};
use oracle::facts::{Facts, GREATEST, ZERO};

/// The facts that name one of these variables, without what is always known and without what follows from two facts with zero.
pub fn known(printer: &Printer, facts: &Facts, variables: &[i32]) -> String {
    if facts.contradictory() {
        return "the facts contradict each other".to_string();
    }
    let mut shown = Vec::new();
    let all = 0..printer.table.variables.len() as i32;
    for v in all.clone().filter(|v| variables.contains(v)) {
        shown.extend(with_zero(printer, facts, v));
    }
    for x in all.clone() {
        for y in all.clone().filter(|&y| y != x) {
            if variables.contains(&x) || variables.contains(&y) {
                shown.extend(between(printer, facts, x, y));
            }
        }
    }
    if shown.is_empty() {
        "nothing".to_string()
    } else {
        shown.join(", ")
    }
}

/// `v >= a` and `v <= b`, or `v == a`.
fn with_zero(printer: &Printer, facts: &Facts, v: i32) -> Vec<String> {
    let (least, most) = (-facts.sum(ZERO, v as usize), facts.sum(v as usize, ZERO));
    if least == most && !(least == 0 && printer.table.is_pointer(v)) {
        return vec![format!("{} == {least}", printer.name(v))];
    }
    // What follows from a fact with another variable and that variable's range is said by that fact, where it is listed.
    let node = v as usize;
    let others = || (0..printer.table.variables.len()).filter(|&y| y != node);
    let below = |y: usize| facts.sum(ZERO, y) == 0 && facts.sum(y, node) == -least;
    let above = |y: usize| facts.sum(y, ZERO) == GREATEST && facts.sum(node, y) == most - GREATEST;
    let follows_below = || others().any(|y| below(y) && is_listed(printer, facts, y as i32, v));
    let follows_above = || others().any(|y| above(y) && is_listed(printer, facts, v, y as i32));
    let mut shown = Vec::new();
    if least > 0 && !follows_below() {
        shown.push(printer.fact(-1, v, -least));
    }
    if most < GREATEST && !follows_above() {
        shown.push(printer.fact(v, -1, most));
    }
    shown
}

/// Whether x <= y + k is a fact of its own: over two of a sort, and more than what the two are known to be beside zero.
fn is_listed(printer: &Printer, facts: &Facts, x: i32, y: i32) -> bool {
    let (a, b) = (x as usize, y as usize);
    let same_sort = printer.table.is_pointer(x) == printer.table.is_pointer(y);
    same_sort && facts.sum(a, b) < facts.sum(a, ZERO) + facts.sum(ZERO, b)
}

/// `x <= y + k`, or once `x == y + k` where both ways hold.
fn between(printer: &Printer, facts: &Facts, x: i32, y: i32) -> Option<String> {
    if !is_listed(printer, facts, x, y) {
        return None;
    }
    let (there, back) = (facts.sum(x as usize, y as usize), facts.sum(y as usize, x as usize));
    if there + back > 0 {
        return Some(printer.fact(x, y, there));
    }
    let right = match printer.table.is_pointer(y) {
        true => printer.moved(y, there),
        false => format!("{}{}", printer.name(y), plus(there)),
    };
    (x < y).then(|| format!("{} == {right}", printer.name(x)))
}

/// The note `known here: ..`.
pub fn note(printer: &Printer, facts: &Facts, variables: &[i32]) -> Note {
    Note::new(format!("known here: {}", known(printer, facts, variables)))
}

//! A run that ends inside of a bundle: which bounds are untrue there.

use super::drawing::Scene;
use super::lost::joined;
use super::values::end;
use super::Place;
use crate::rows::InForce;

/// What is said of a run that stops or is spent inside of a bundle; none outside of one.
pub fn note(place: &Place, scene: &Scene) -> Option<String> {
    let table = place.printer.table;
    let head = table.bundle_around(scene.statement)?;
    let untrue: Vec<String> = (0..table.variables.len())
        .filter(|&p| table.is_pointer(p as i32) && !is_true(scene, p))
        .map(|p| format!("`{}`", place.printer.name(p as i32)))
        .collect();
    let names: Vec<&str> = untrue.iter().map(String::as_str).collect();
    let bundle = format!("this is inside of the bundle of {}", place.line(head));
    Some(match names.len() {
        0 => format!("{bundle}; all bounds are true here"),
        _ => format!(
            "{bundle}: the bounds of {} are untrue here, and lent again they are refused with 12",
            joined(&names)
        ),
    })
}

/// Whether the bounds in force of a pointer lie in the object that it belongs to, at its terminator at most.
fn is_true(scene: &Scene, p: usize) -> bool {
    let (memory, table) = (&scene.memory, scene.memory.printer.table);
    if scene.values[p] == 0 {
        return true;
    }
    let Some(object) = (scene.origins[p] as usize).checked_sub(1) else { return false };
    let Some((low, length)) = memory.object(object) else { return false };
    let [q, n, k, r, m, j] = InForce::before(table, scene.statement).bounds(table, p);
    let size = table.size(p as i32);
    let ends = [[q, n, k], [r, m, j]].map(|words| end(words, size, scene.values).value);
    let room = length - i64::from(memory.is_terminated(object));
    let fits = low <= ends[0] && ends[1] <= low + room;
    fits && (memory.is_terminated(object) || !table.is_terminated(p as i32))
}

//! Why a run is refused at entry: causes 10 to 12 and 16, at the image's line.

use super::values::end;
use super::Explanation;
use crate::image::Image;
use crate::library::{Lent, Refusal};
use crate::printer::Printer;
use crate::program::Text;

pub fn explain(text: &Text, image: &Image, refusal: &Refusal) -> Explanation {
    let printer = Printer::new(&text.parts, &[], &text.names, text.parts.len() - 1);
    let place = refusal.place;
    let (sentence, at) = match refusal.number {
        10 => (directory(text, image, place), image.objects.get(place)),
        12 => (entry(&printer, &image.lent, place), image.variables.get(place)),
        _ => (terminator(text, &image.lent, place), image.objects.get(place)),
    };
    Explanation::new(at.copied(), sentence)
}

/// Cause 10, of a pair or of the memory.
fn directory(text: &Text, image: &Image, object: usize) -> String {
    let (lent, memory) = (&image.lent, image.memory);
    if memory > 1 << 24 {
        return format!("the memory has {memory} cells; 16,777,216 is the limit");
    }
    let names = &text.names.objects;
    let (Some(&[offset, length]), Some(name)) =
        (lent.directory.chunks_exact(2).nth(object).map(array), names.get(object))
    else {
        return "the directory does not fit the routine's objects".to_string();
    };
    let end = u64::from(offset) + u64::from(length);
    let before =
        object.checked_sub(1).and_then(|before| lent.directory.chunks_exact(2).nth(before).map(array));
    let what = match before {
        _ if offset == 0 => "lies at cell 0, which is in no object".to_string(),
        Some(&[other, _]) if offset < other => format!("is placed before `{}`", names[object - 1]),
        Some(&[other, cells]) if u64::from(offset) < u64::from(other) + u64::from(cells) => {
            format!("overlaps `{}`", names[object - 1])
        }
        _ => format!("ends beyond the memory of {memory} cells"),
    };
    format!("object `{name}` at cells {offset} to {} {what}", end.saturating_sub(1))
}

fn array(pair: &[u32]) -> &[u32; 2] {
    pair.try_into().expect("a pair")
}

/// Cause 12.
fn entry(printer: &Printer, lent: &Lent, variable: usize) -> String {
    let (value, origin) = (lent.values[variable], lent.origins[variable]);
    let (v, name) = (variable as i32, printer.name(variable as i32));
    let table = printer.table;
    if !table.is_pointer(v) {
        return format!("`{name}` is an integer and is given the address of an object");
    }
    let Some(object) = origin.checked_sub(1) else {
        return format!("`{name}` is {value} and belongs to no object: write it as OBJECT + NUMBER");
    };
    let Some(&[low, length]) = lent.directory.chunks_exact(2).nth(object as usize).map(array) else {
        return format!("`{name}`: origin {origin} is no object");
    };
    let object_name = printer.object_name(object as i32);
    let terminated = printer.objects().get(object as usize).is_some_and(|cells| *cells < 0);
    if table.is_terminated(v) && !terminated {
        return format!("`{name}` is an nt_array_ptr and `{object_name}` is not terminated");
    }
    let size = table.size(v);
    let [_, _, q, n, k, r, m, j] = table.variables[variable];
    let (lower, upper) = (end([q, n, k], size, &lent.values), end([r, m, j], size, &lent.values));
    let high = i64::from(low) + i64::from(length);
    let untrue = format!("the bounds of `{name}` are untrue at entry: its");
    if lower.value < i64::from(low) {
        let shown = printer.end([q, n], i64::from(k), size);
        return format!(
            "{untrue} lower end {shown} is cell {}, but `{object_name}` begins at {low}",
            lower.shown
        );
    }
    let shown = printer.end([r, m], i64::from(j), size);
    let upper = format!("{untrue} upper end {shown} is cell {}", upper.shown);
    if terminated {
        let last = high - 1;
        return format!("{upper}, beyond the terminator of `{object_name}` at cell {last}: the bounds may end there at most");
    }
    format!("{upper}, but `{object_name}` ends at {high}")
}

/// Cause 16.
fn terminator(text: &Text, lent: &Lent, object: usize) -> String {
    let pair = lent.directory.chunks_exact(2).nth(object).map(array);
    let last = pair.map_or(0, |[offset, length]| offset + length - 1);
    let value = lent.cells.get(last as usize).copied().unwrap_or(0);
    let name = &text.names.objects[object];
    format!("the last cell of the terminated object `{name}` (cell {last}) is {value} at entry; it must be 0")
}

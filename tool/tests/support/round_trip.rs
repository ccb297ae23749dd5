//! Tables to text and back: the same words, bit for bit.

use super::Random;
use mizzengrape_tool::names::Names;
use mizzengrape_tool::printer::print;
use mizzengrape_tool::program::printable;
use mizzengrape_tool::words::assemble;

/// The canonical text of tables, after it was held against them; none where they are not well-formed.
pub fn round_trip(tables: &[Vec<i32>], facts: &[i32], random: &mut Random) -> Option<String> {
    let parts = printable(tables, facts)?;
    let canonical = Names::canonical(&parts);
    let text = print(&parts, facts, &canonical);
    let again = assemble(&text).unwrap_or_else(|wrong| panic!("{wrong:?}\n{text}"));
    assert_eq!((&again.tables[..], &again.facts[..]), (tables, facts), "{text}");
    let named = print(&parts, facts, &renamed(canonical, random));
    let again = assemble(&named).unwrap_or_else(|wrong| panic!("{wrong:?}\n{named}"));
    assert_eq!((&again.tables[..], &again.facts[..]), (tables, facts), "{named}");
    let formatted = print(&parts, facts, &again.names.completed(&parts));
    assert_eq!(formatted, named);
    Some(text)
}

/// Other names and headers: names that are words elsewhere, any number of parameters.
fn renamed(mut names: Names, random: &mut Random) -> Names {
    let mut words =
        ["count", "bounds", "any", "unknown", "rows", "at", "memory", "define", "b0", "n1"].to_vec();
    let mut rename = |name: &mut String, random: &mut Random| {
        if random.chance(20) && !words.is_empty() {
            *name = words.swap_remove(random.below(words.len())).to_string();
        } else {
            name.push_str("_x");
        }
    };
    names.objects.iter_mut().for_each(|name| rename(name, random));
    for routine in &mut names.routines {
        rename(&mut routine.name, random);
        routine.variables.iter_mut().for_each(|name| rename(name, random));
        routine.rows.iter_mut().for_each(|name| rename(name, random));
        routine.parameters = random.below(routine.variables.len() + 1);
        let last = routine.variables.len();
        routine.has_result = routine.has_result && last > 0 && random.chance(50);
    }
    names
}

//! Refusals 8 and 9: which inequality between declared and known ends is not shown, and what moved or lost the known end.

use super::advice::Check;
use super::facts::note;
use super::walk::{Moment, Walk};
use super::{ways, Explanation, Note, Place};
use crate::library::Refusal;
use crate::rows::InForce;
use crate::table::{accessed, Table};
use crate::tree::Relation;
use oracle::checker::{KnownBounds, KnownEnd, Value};
use oracle::facts::{node_or_zero, Facts, GREATEST};

/// Beyond this nothing but the range of all values relates two ends.
pub const UNRELATED: i64 = 65_536;

/// The bounds of a pointer are not shown after a statement.
pub fn not_shown(place: &Place, seen: &Walk, refusal: &Refusal) -> Explanation {
    let (s, pointer) = (refusal.place, refusal.pointer.unwrap_or(0));
    let name = place.printer.name(pointer as i32);
    let sentence = match place.printer.table.statements[s][0] {
        13 => format!("the bounds of `{name}` are not shown at the end of this bundle"),
        14 => format!("the bounds of `{name}` are not shown: this where declares more than is known"),
        _ => format!("the bounds of `{name}` are not shown after this statement"),
    };
    let mut explanation = Explanation::new(place.statement(s), sentence);
    if let Some(moment) = &seen.after {
        notes(place, moment, pointer, &mut explanation);
    }
    let lost = ways::lost_by_loop(place, s).into_iter().next();
    explanation.notes.extend(lost.map(|kept| Note::new(kept.note(place))));
    explanation
}

/// An access in a bundle whose pointer's bounds are not shown there.
pub fn not_shown_for_access(place: &Place, seen: &Walk, refusal: &Refusal) -> Explanation {
    let pointer = pointer_of(place.printer.table, refusal.place);
    let name = place.printer.name(pointer as i32);
    let sentence = format!(
        "in a bundle an access through `{name}` needs its declared bounds, and they are not shown here"
    );
    let mut explanation = Explanation::new(place.statement(refusal.place), sentence);
    if let Some(moment) = &seen.before {
        notes(place, moment, pointer, &mut explanation);
    }
    explanation
}

/// The first statement that changed the bounds of a refused access's pointer.
pub fn changed_before_access(place: &Place, seen: &Walk, refusal: &Refusal) -> Option<usize> {
    let pointer = pointer_of(place.printer.table, refusal.place);
    seen.before.as_ref()?.changed[pointer].into_iter().flatten().min()
}

/// The pointer of an access.
fn pointer_of(table: &Table, statement: usize) -> usize {
    accessed(&table.statements[statement]).0 as usize
}

/// Where the bounds were declared, what is not shown of them, what is known.
fn notes(place: &Place, moment: &Moment, pointer: usize, explanation: &mut Explanation) {
    let printer = &place.printer;
    // A where statement stands at the refused line itself: what it replaces is declared elsewhere.
    let is_where = printer.table.statements[moment.statement][0] == 14;
    let (when, rows) = match is_where {
        true => ("before", InForce::before(printer.table, moment.statement)),
        false => ("here", moment.rows(printer.table)),
    };
    let bounds = place.in_force(&rows, pointer);
    let message = format!("declared {when}: {} : {bounds}", printer.name(pointer as i32));
    explanation.notes.push(Note { at: place.declaration(&rows, pointer), message });
    let mut variables = Vec::new();
    for (side, gap) in unshown(printer.table, moment, pointer) {
        variables.extend(side.variables());
        explanation.notes.push(Note::new(side.reason(&gap, place, moment, pointer)));
    }
    explanation.notes.push(note(printer, &moment.facts, &variables));
}

/// One of the two inequalities: its ends, and how many cells the integer of each counts.
pub struct Side {
    pub upper: bool,
    pub declared: Value,
    pub size: i64,
    pub known: KnownEnd,
    pub known_size: i64,
}

/// Why an inequality is not shown.
pub enum Gap {
    /// So many cells are missing.
    Short(i64),
    /// Ends with integers that count different numbers of cells are not compared.
    Sizes,
    /// The known end is unknown.
    Lost,
}

pub(super) fn unshown(table: &Table, moment: &Moment, pointer: usize) -> Vec<(Side, Gap)> {
    let [q, n, k, r, m, j] = moment.rows(table).bounds(table, pointer);
    let Some(KnownBounds { size: known_size, lower, upper }) = moment.known.of(pointer) else {
        return Vec::new();
    };
    let side = |upper: bool, [pointer_of_end, integer, constant]: [i32; 3], known: KnownEnd| Side {
        upper,
        declared: Value {
            pointer: pointer_of_end as u8,
            integer: u8::try_from(integer).ok(),
            constant: i64::from(constant),
        },
        size: i64::from(table.size(pointer as i32)),
        known,
        known_size,
    };
    let sides = [side(false, [q, n, k], lower), side(true, [r, m, j], upper)];
    sides.into_iter().filter_map(|side| side.gap(&moment.facts).map(|gap| (side, gap))).collect()
}

impl Side {
    /// The two ends, the one that has to be at most the other first; none for an unknown end.
    fn ordered(&self) -> Option<(Value, Value)> {
        let known = self.known?;
        Some(if self.upper { (self.declared, known) } else { (known, self.declared) })
    }

    /// None where the inequality is shown.
    pub fn gap(&self, facts: &Facts) -> Option<Gap> {
        let Some((a, b)) = self.ordered() else { return Some(Gap::Lost) };
        let names_integer = a.integer.is_some() || b.integer.is_some();
        if names_integer && self.size != self.known_size {
            return Some(Gap::Sizes);
        }
        let pointers = facts.sum(usize::from(a.pointer), usize::from(b.pointer));
        let integers = facts.sum(node_or_zero(a.integer), node_or_zero(b.integer));
        let cells = pointers + self.size * integers + a.constant - b.constant;
        (cells > 0).then_some(Gap::Short(cells))
    }

    /// A condition on integers that would show the inequality.
    pub fn lacking(&self, facts: &Facts) -> Option<[i32; 4]> {
        let (a, b) = self.ordered().filter(|_| self.size == self.known_size)?;
        let cells = b.constant - a.constant - facts.sum(usize::from(a.pointer), usize::from(b.pointer));
        // a's integer has to be at most b's and this.
        let room = cells.div_euclid(self.size);
        let literal = |value: i64| u32::try_from(value).ok().map(|value| value as i32);
        let [below, above] = [a.integer, b.integer].map(|variable| variable.map(i32::from));
        match (below, above) {
            (None, Some(m)) if (-UNRELATED..0).contains(&cells) => {
                Some([m, Relation::GreaterEqual as i32, 1, literal(-room)?])
            }
            (Some(n), None) => Some([n, Relation::LessEqual as i32, 1, literal(room)?]),
            (Some(n), Some(m)) if room == 0 && n != m => Some([n, Relation::LessEqual as i32, 0, m]),
            (Some(n), Some(m)) if room == -1 && n != m => Some([n, Relation::Less as i32, 0, m]),
            _ => None,
        }
    }

    /// `row + i + 1 <= row + rows`.
    pub fn inequality(&self, place: &Place) -> String {
        let end = |value, size| place.end(value, size);
        let known = self.known.map_or(String::new(), |known| end(known, self.known_size));
        let declared = end(self.declared, self.size);
        let (below, above) = if self.upper { (declared, known) } else { (known, declared) };
        format!("{below} <= {above}")
    }

    pub(super) fn variables(&self) -> Vec<i32> {
        let of = |value: Value| [Some(value.pointer), value.integer];
        let ends = [Some(self.declared), self.known].into_iter().flatten().flat_map(of);
        ends.flatten().map(i32::from).collect()
    }

    fn reason(&self, gap: &Gap, place: &Place, moment: &Moment, pointer: usize) -> String {
        let which = if self.upper { "upper" } else { "lower" };
        let by = moment.changed[pointer][usize::from(self.upper)];
        let (size, known_size) = (self.size, self.known_size);
        if let Gap::Lost = gap {
            return match by {
                Some(s) => format!("the known {which} end was lost at {}", lost(place, s, self.upper)),
                None => format!("the known {which} end is unknown"),
            };
        }
        let gap = self.gap_words(gap);
        let declared = format!("declared {which} end {}", place.end(self.declared, size));
        let known = self.known.map_or(String::new(), |known| place.end(known, known_size));
        let known = format!("known {which} end {known}");
        let (below, above) = if self.upper { (declared, known) } else { (known, declared) };
        let by = by.map_or(String::new(), |s| format!(" ({}{})", place.line_and_text(s), kept(place, s)));
        format!("not shown: {below} <= {above}: {gap}{by}")
    }

    /// How far an inequality is from being shown.
    pub(super) fn gap_words(&self, gap: &Gap) -> String {
        match gap {
            Gap::Lost => "the known end is unknown".to_string(),
            Gap::Sizes => {
                let (size, known_size) = (self.size, self.known_size);
                let is_declared = self.declared.integer.is_some();
                let (with, other) = if is_declared { (size, known_size) } else { (known_size, size) };
                let element = counted(with);
                format!(
                    "an end with an integer in elements of {element} cannot be compared with one of {other}"
                )
            }
            Gap::Short(cells) if *cells > UNRELATED => "nothing relates them".to_string(),
            Gap::Short(cells) if self.size > 1 => format!("short by {}", counted(*cells)),
            Gap::Short(cells) => format!("short by {cells}"),
        }
    }
}

/// Of the address of a terminated object, the cell that its bounds leave out.
fn kept(place: &Place, s: usize) -> String {
    let [kind, _, o, ..] = place.printer.table.statements[s];
    if kind != 5 || place.printer.objects()[o as usize] > 0 {
        return String::new();
    }
    format!("; the last cell of `{}` is its terminator", place.printer.object_name(o))
}

/// `1 cell`, `3 cells`.
fn counted(cells: i64) -> String {
    format!("{cells} cell{}", if cells == 1 { "" } else { "s" })
}

/// The statement that made an end unknown, and why it could not be turned round.
fn lost(place: &Place, s: usize, is_upper: bool) -> String {
    let printer = &place.printer;
    let why = match may_wrap(printer.table, s) {
        Some((_, k)) if k > 0 && is_upper => "raises it, and nothing allows more".to_string(),
        Some((n, k)) if k > 0 => {
            format!("may wrap: {} <= {} is not shown there", printer.name(n), GREATEST - k)
        }
        Some((n, k)) => format!("may wrap: {} >= {} is not shown there", printer.name(n), -k),
        None => "cannot be turned round".to_string(),
    };
    format!("{} {why}", place.line_and_text(s))
}

/// n and k of a statement n := n + k, which is turned round where it does not wrap.
pub(super) fn may_wrap(table: &Table, s: usize) -> Option<(i32, i64)> {
    let [kind, x, y, k, ..] = table.statements[s];
    (kind == 2 && x == y && k != 0).then_some((x, i64::from(k)))
}

/// Checks that show what is missing after a refused statement: n >= k before n := n - k, or the order of two integers before the
/// statement itself. None where the walk was not refused there.
pub fn lacking(table: &Table, seen: &Walk, refused: usize) -> Vec<Check> {
    let (Err(refusal), Some(moment)) = (&seen.answer, &seen.after) else { return Vec::new() };
    let Some(pointer) = refusal.pointer.filter(|_| refusal.place as usize == refused) else {
        return Vec::new();
    };
    let pointer = usize::from(pointer);
    let wrapping = |s: usize| may_wrap(table, s).filter(|(_, k)| *k < 0).map(|(n, k)| (s, n, -k));
    let lost = moment.changed[pointer].into_iter().flatten().find_map(wrapping);
    if let Some((before, n, k)) = lost {
        return vec![Check { before, condition: [n, Relation::GreaterEqual as i32, 1, k as i32] }];
    }
    let unshown = unshown(table, moment, pointer).into_iter();
    let conditions = unshown.filter_map(|(side, _)| side.lacking(&moment.facts));
    conditions.map(|condition| Check { before: refused, condition }).collect()
}

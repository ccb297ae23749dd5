//! A table that is edited while somebody else writes its buffer or its store. No verdict is promised then; but each call
//! ends and answers, a refused one changes nothing, and none writes anything but what it is lent.

use crate::differ_edits::vector;
use crate::edits::{EditCase, EditWords};
use crate::generate::edits_case;
use crate::linked_editor::Lent;
use crate::parallel::lowest;
use crate::rng::Rng;

/// The first case from `first` on where that is not so of the proved implementation, as a report; the forms in Rust own
/// what they work on.
pub fn search(seed: u64, first: u64, count: u64) -> Option<String> {
    let (number, what) = lowest(first..first + count, |number| broken(seed, number))?;
    let case = edits_case(seed, number);
    let title =
        format!("damaged edits of seed {seed}, number {number}: {what}; the case without the damage:\n");
    Some(title + &vector(&case))
}

/// What is wrong at a case, in words.
fn broken(seed: u64, number: u64) -> Option<String> {
    let mut rng = Rng::of_case(seed ^ 0x6461_6d61, number);
    let case = edits_case(seed, number);
    let mut lent = Lent::new(&case);
    if rng.chance(20) {
        damage_store(&mut rng, lent.store());
    }
    let length = if rng.chance(10) { rng.below(2 * case.buffer.len() + 2) } else { case.length };
    let wrong = held(lent.clone(), &mut lent, |lent| lent.start(length, &case.keep));
    if wrong.is_some() {
        return wrong.map(|what| format!("start: {what}"));
    }
    for (e, written) in case.edits.iter().enumerate() {
        damage(&mut rng, &mut lent, &case);
        if let Some(what) = held(lent.clone(), &mut lent, |lent| lent.edit(written)) {
            return Some(format!("edit {e}: {what}"));
        }
    }
    None
}

/// Calls, and looks at what must hold whatever was lent.
fn held(mut before: Lent, lent: &mut Lent, call: impl Fn(&mut Lent) -> EditWords) -> Option<String> {
    let words = call(lent);
    let [number, _, pointer, walked, length, is_made] = words;
    if !lent.is_whole() {
        return Some(format!("words beside buffer or store are written, answer {words:?}"));
    }
    if number > 19 || is_made > 1 || pointer > 15 || walked > 1_024 || length as usize > lent.buffer().len() {
        return Some(format!("answer {words:?}"));
    }
    let is_same = lent.buffer() == before.buffer() && lent.store() == before.store();
    if is_made == 0 && (walked > 0 || number == 0 || !is_same) {
        return Some(format!("not made, but changed or walked: {words:?}"));
    }
    // The same lent again gives the same answer.
    (call(&mut before) != words).then(|| format!("another answer than {words:?}"))
}

fn damage(rng: &mut Rng, lent: &mut Lent, case: &EditCase) {
    match rng.below(4) {
        0 => {}
        1 => damage_store(rng, lent.store()),
        2 => damage_table(rng, lent.buffer(), case.length),
        _ => {
            damage_store(rng, lent.store());
            damage_table(rng, lent.buffer(), case.length);
        }
    }
}

const PLACE_WORDS: usize = mizzengrape::store_words(1) - mizzengrape::store_words(0);

fn any_word(rng: &mut Rng) -> u64 {
    let small = rng.below(1_030) as u64;
    let any = rng.next();
    rng.pick(&[0, 1, 2, small, small, any, any >> 32, u64::MAX, 1 << 62, 1 << 63])
}

/// The number of places, a position, a few words anywhere, or all of them.
fn damage_store(rng: &mut Rng, store: &mut [u64]) {
    let places = store.len() / PLACE_WORDS;
    let place = 1 + PLACE_WORDS * rng.below(places.max(1));
    match rng.below(5) {
        0 => store.iter_mut().take(1).for_each(|word| *word = any_word(rng)),
        1 => store.iter_mut().skip(place).take(1).for_each(|word| *word = any_word(rng)),
        2 => store.iter_mut().skip(1).for_each(|word| *word = any_word(rng)),
        3 => store.iter_mut().for_each(|word| *word = any_word(rng)),
        _ => {
            for _ in 0..rng.range(1, 20) {
                let at = rng.below(store.len());
                store.iter_mut().skip(at).take(1).for_each(|word| *word = any_word(rng));
            }
        }
    }
}

/// A word of the directory, a few words of the table, or the whole buffer.
fn damage_table(rng: &mut Rng, buffer: &mut [i32], length: usize) {
    let word = |rng: &mut Rng| match rng.below(3) {
        0 => rng.range(-2, 20),
        _ => any_word(rng) as i32,
    };
    match rng.below(8) {
        0 | 1 => {
            let at = rng.below(8);
            buffer.iter_mut().skip(at).take(1).for_each(|place| *place = word(rng));
        }
        2 => buffer.iter_mut().for_each(|place| *place = word(rng)),
        _ => {
            for _ in 0..rng.range(1, 6) {
                let at = rng.below(length.min(buffer.len()));
                buffer.iter_mut().skip(at).take(1).for_each(|place| *place = word(rng));
            }
        }
    }
}

#[cfg(test)]
mod tests {
    use super::*;

    #[test]
    fn damage_changes_nothing_else() {
        assert_eq!(search(61, 0, 2_000), None);
    }
}

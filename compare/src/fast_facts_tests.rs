use super::*;
use crate::rng::Rng;
use oracle::facts::{Facts, Node, ZERO};
use oracle::table::Kind::{self, Integer, Pointer};

/// Rows of the fast form: pointers, zero, integers.
fn fast_rows(kinds: &[Kind]) -> Vec<usize> {
    let pointers = kinds.iter().filter(|&&k| k == Pointer).count();
    let (mut p, mut i) = (0, pointers + 1);
    let mut rows = vec![pointers; ZERO + 1];
    for (v, kind) in kinds.iter().enumerate() {
        let next = if *kind == Pointer { &mut p } else { &mut i };
        rows[v] = *next;
        *next += 1;
    }
    rows
}

/// The sums of the fast form are those of the plain one; it keeps none between a pointer and an integer.
fn same(kinds: &[Kind], plain: &Facts, fast: &FastFacts, rows: &[usize]) {
    assert_eq!(fast.contradictory, plain.contradictory());
    if plain.contradictory() {
        return;
    }
    let nodes: Vec<Node> = (0..kinds.len()).chain([ZERO]).collect();
    for &a in &nodes {
        for &b in &nodes {
            if a == ZERO || b == ZERO || kinds[a] == kinds[b] {
                assert_eq!(fast.sum(rows[a], rows[b]), plain.sum(a, b), "from {a} to {b}");
            }
        }
    }
}

#[test]
fn the_fast_store_agrees_with_the_plain_one() {
    for seed in 0..300 {
        let mut rng = Rng::of_case(seed, 0);
        let kinds: Vec<Kind> = (0..rng.range(1, 6)).map(|_| rng.pick(&[Integer, Pointer])).collect();
        let rows = fast_rows(&kinds);
        let pointers = rows[ZERO];
        let mut plain = Facts::new(&kinds);
        let mut fast = FastFacts::new(pointers, kinds.len() - pointers);
        let mut saved = (plain.clone(), fast);
        for _ in 0..25 {
            // Go on with contradictory facts now and then.
            if plain.contradictory() && rng.chance(70) {
                (plain, fast) = saved.clone();
            }
            let x = rng.below(kinds.len());
            let mates: Vec<Node> = (0..kinds.len()).filter(|&y| y != x && kinds[y] == kinds[x]).collect();
            let y = if rng.chance(50) { ZERO } else { rng.pick_any(&mates).unwrap_or(ZERO) };
            let k = rng.pick(&[0, 1, -1, 2, 5, -5, 65_536, GREATEST, -GREATEST, 2_147_483_647]);
            match rng.below(7) {
                0 => {
                    plain = plain.drop(x);
                    fast.drop(rows[x]);
                }
                1 => {
                    plain = plain.shift(x, k % 65_537);
                    fast.shift(rows[x], k % 65_537);
                }
                2 if y != ZERO => {
                    plain = plain.equate(x, y, k % 65_537);
                    fast.copy(rows[x], rows[y], k % 65_537);
                }
                3 => {
                    plain = plain.join(&saved.0);
                    fast.join(&saved.1);
                }
                4 => saved = (plain.clone(), fast),
                5 => {
                    plain = plain.add(y, x, -k);
                    fast.add(rows[y], rows[x], -k);
                }
                _ => {
                    plain = plain.add(x, y, k);
                    fast.add(rows[x], rows[y], k);
                }
            }
            same(&kinds, &plain, &fast, &rows);
        }
    }
}

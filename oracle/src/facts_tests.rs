use super::*;
use Kind::{Integer, Pointer};

/// The definition itself: a list of facts, and all chains by relaxation.
#[derive(Clone)]
struct Definition {
    kinds: Vec<Kind>,
    facts: Vec<(Node, Node, i64)>,
}

impl Definition {
    fn new(kinds: &[Kind]) -> Definition {
        let always = (0..kinds.len()).flat_map(|v| [(v, ZERO, GREATEST), (ZERO, v, 0)]);
        Definition { kinds: kinds.to_vec(), facts: always.collect() }
    }

    fn nodes(&self) -> Vec<Node> {
        (0..self.kinds.len()).chain([ZERO]).collect()
    }

    fn related(&self, a: Node, b: Node) -> bool {
        a == ZERO || b == ZERO || self.kinds[a] == self.kinds[b]
    }

    /// Least sums; `None` where facts contradict.
    fn sums(&self) -> Option<[[i64; NODES]; NODES]> {
        let mut sums = [[i64::MAX / 4; NODES]; NODES];
        for v in self.nodes() {
            sums[v][v] = 0;
        }
        for &(x, y, k) in &self.facts {
            sums[x][y] = sums[x][y].min(k);
        }
        for m in self.nodes() {
            for a in self.nodes() {
                for b in self.nodes() {
                    sums[a][b] = sums[a][b].min(sums[a][m] + sums[m][b]);
                }
            }
        }
        self.nodes().iter().all(|&v| sums[v][v] >= 0).then_some(sums)
    }

    /// Every fact shown, as a list; facts relate no pointer to an integer.
    fn shown(&self) -> Definition {
        let sums = self.sums().expect("no contradiction");
        let mut all = Definition::new(&self.kinds);
        for &a in &self.nodes() {
            for &b in &self.nodes() {
                if a != b && self.related(a, b) {
                    all.facts.push((a, b, sums[a][b]));
                }
            }
        }
        all
    }

    fn drop(&self, x: Node) -> Definition {
        let mut kept = self.shown();
        kept.facts.retain(|&(a, b, _)| a != x && b != x);
        kept.facts.extend([(x, ZERO, GREATEST), (ZERO, x, 0)]);
        kept
    }

    fn shift(&self, x: Node, k: i64) -> Definition {
        let mut moved = self.shown();
        for (a, b, c) in &mut moved.facts {
            *c += if *a == x {
                k
            } else if *b == x {
                -k
            } else {
                0
            };
        }
        moved.facts.extend([(x, ZERO, GREATEST), (ZERO, x, 0)]);
        moved
    }

    fn join(&self, other: &Definition) -> Definition {
        let (Some(a), Some(b)) = (self.sums(), other.sums()) else {
            return if self.sums().is_some() { self.clone() } else { other.clone() };
        };
        let mut both = self.shown();
        for (x, y, k) in &mut both.facts {
            *k = a[*x][*y].max(b[*x][*y]);
        }
        both
    }
}

fn same(plain: &Facts, definition: &Definition) {
    let sums = definition.sums();
    assert_eq!(plain.contradictory(), sums.is_none());
    if let Some(sums) = sums {
        for a in definition.nodes() {
            for b in definition.nodes() {
                assert_eq!(plain.sum(a, b), sums[a][b], "from {a} to {b}");
            }
        }
    }
}

/// A sequence of numbers that looks random (xorshift), the same on every machine.
struct Numbers(u64);

impl Numbers {
    fn below(&mut self, limit: usize) -> usize {
        self.0 ^= self.0 << 13;
        self.0 ^= self.0 >> 7;
        self.0 ^= self.0 << 17;
        (self.0 >> 8) as usize % limit
    }

    fn pick<T: Copy>(&mut self, items: &[T]) -> T {
        items[self.below(items.len())]
    }
}

#[test]
fn the_store_shows_what_the_definition_shows() {
    for seed in 1..=300 {
        let mut numbers = Numbers(seed * 0x9e37_79b9_7f4a_7c15);
        let kinds: Vec<Kind> = (0..1 + numbers.below(6)).map(|_| numbers.pick(&[Integer, Pointer])).collect();
        let mut plain = Facts::new(&kinds);
        let mut definition = Definition::new(&kinds);
        let mut saved = (plain.clone(), definition.clone());
        for _ in 0..25 {
            if plain.contradictory() {
                (plain, definition) = saved.clone();
            }
            let x = numbers.below(kinds.len());
            // Zero, or another variable of the same kind.
            let mates = (0..kinds.len()).filter(|&y| y != x && kinds[y] == kinds[x]);
            let y = numbers.pick(&[ZERO].into_iter().cycle().take(2).chain(mates).collect::<Vec<_>>());
            let k = numbers.pick(&[0, 1, -1, 2, 5, -5, 65_536, GREATEST, -GREATEST, 2_147_483_647]);
            match numbers.below(7) {
                0 => {
                    plain = plain.drop(x);
                    definition = definition.drop(x);
                }
                1 => {
                    plain = plain.shift(x, k % 65_537);
                    definition = definition.shift(x, k % 65_537);
                }
                2 if y != ZERO => {
                    plain = plain.equate(x, y, k % 65_537);
                    definition = definition.drop(x);
                    definition.facts.extend([(x, y, k % 65_537), (y, x, -(k % 65_537))]);
                }
                3 => {
                    plain = plain.join(&saved.0);
                    definition = definition.join(&saved.1);
                }
                4 => saved = (plain.clone(), definition.clone()),
                5 => {
                    plain = plain.add(y, x, -k);
                    definition.facts.push((y, x, -k));
                }
                _ => {
                    plain = plain.add(x, y, k);
                    definition.facts.push((x, y, k));
                }
            }
            same(&plain, &definition);
        }
    }
}

#[test]
fn a_join_keeps_no_mixed_sum() {
    // Null on one side, an integer at 0 on the other: neither side's p <= i is a fact.
    let facts = Facts::new(&[Pointer, Integer]);
    let null = facts.clone().add(0, ZERO, 0);
    let full = facts.add(ZERO, 1, -GREATEST);
    assert_eq!((null.sum(0, 1), full.sum(0, 1)), (0, 0));
    assert_eq!(null.join(&full).sum(0, 1), GREATEST);
}

#[test]
fn a_shift_moves_the_range_too() {
    let facts = Facts::new(&[Integer]).add(0, ZERO, 10).shift(0, 5);
    assert!(facts.shows(0, ZERO, 15) && facts.shows(ZERO, 0, -5) && !facts.shows(ZERO, 0, -6));
    assert!(Facts::new(&[Pointer]).add(0, ZERO, 0).shift(0, -1).contradictory());
}

#[test]
fn contradictory_facts_show_everything_and_stay_so() {
    let facts = Facts::new(&[Integer, Integer]).add(0, 0, -1);
    assert!(facts.contradictory() && facts.shows(0, 1, -9) && facts.shows(1, ZERO, -9));
    assert!(facts.clone().drop(0).contradictory() && facts.clone().shift(0, 1).contradictory());
    let other = Facts::new(&[Integer, Integer]).add(1, ZERO, 3);
    assert!(facts.clone().join(&other).shows(1, ZERO, 3));
    assert!(other.join(&facts).shows(1, ZERO, 3));
    assert!(facts.clone().join(&facts).contradictory());
}

fn unequal(right: Right) -> Condition {
    Condition { left: 0, relation: Relation::NotEqual, right }
}

#[test]
fn not_equal_makes_an_order_strict() {
    let facts = Facts::new(&[Integer, Integer]);
    let other = unequal(Right::Variable(1));
    let plain = facts.clone().assume(other);
    assert!(!plain.shows(0, 1, -1) && !plain.shows(1, 0, -1));
    let below = facts.clone().add(0, 1, 0).assume(other);
    assert!(below.shows(0, 1, -1) && !below.shows(0, 1, -2) && !below.shows(1, 0, -1));
    let above = facts.clone().add(1, 0, 0).assume(other);
    assert!(above.shows(1, 0, -1) && !above.shows(0, 1, -1));
    // Nothing where the order is only nearly shown.
    let near = facts.clone().add(0, 1, 1).assume(other);
    assert!(near.shows(0, 1, 1) && !near.shows(0, 1, 0));
    let equal = facts.clone().add(0, 1, 0).add(1, 0, 0).assume(other);
    assert!(equal.contradictory());
    assert!(facts.assume(unequal(Right::Variable(0))).contradictory());
}

#[test]
fn not_equal_to_a_literal_asks_the_range_too() {
    let facts = Facts::new(&[Integer]);
    assert!(facts.clone().assume(unequal(Right::Literal(0))).shows(ZERO, 0, -1));
    assert!(facts.clone().assume(unequal(Right::Literal(u32::MAX))).shows(0, ZERO, GREATEST - 1));
    let middle = facts.clone().assume(unequal(Right::Literal(5)));
    assert!(!middle.shows(0, ZERO, GREATEST - 1) && !middle.shows(ZERO, 0, -1));
    let up_to = facts.add(0, ZERO, 5).assume(unequal(Right::Literal(5)));
    assert!(up_to.shows(0, ZERO, 4) && !up_to.shows(0, ZERO, 3) && !up_to.shows(ZERO, 0, -1));
}

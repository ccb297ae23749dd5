//! Objects and variables of a generated routine: what the bounds hang on.

use crate::rng::Rng;
use oracle::draft::{Draft, RowRecord};
use oracle::table::{MAX_ROWS, VARIABLE_WORDS};

/// The names a routine can use, by what they are good for.
#[derive(Clone, Debug, Default)]
pub struct Layout {
    /// The cells of each object that bounds may take in, which objects are terminated, and those that kind 5 may name.
    pub objects: Vec<i32>,
    pub terminated_objects: Vec<bool>,
    pub named: Vec<i32>,
    pub integers: Vec<i32>,
    /// Of both kinds, and which variables are kind 2 pointers.
    pub pointers: Vec<i32>,
    pub terminated: Vec<bool>,
    /// Integers that some end names, and those that none does.
    pub counts: Vec<i32>,
    pub free: Vec<i32>,
    /// Pointers with ends (p, -1, 0) and (p, n, 0) on one count n.
    pub groups: Vec<Group>,
    /// Pointers whose ends do not name themselves: they can move freely.
    pub movers: Vec<i32>,
    /// The element sizes of all variables, in cells.
    pub sizes: Vec<i32>,
    /// The variables' own bounds, and the bounds rows, each with the pointer that it was made for.
    pub own: Vec<RowRecord>,
    pub rows: Vec<LaidRow>,
    /// Whether there are loops that a list of loop facts says something of.
    pub loops: bool,
    /// The routines of the set that may be called (point 14).
    pub callees: Vec<Callee>,
}

/// A routine before this one: its variables, of which so many are meant to take arguments.
#[derive(Clone, Debug)]
pub struct Callee {
    pub number: i32,
    pub variables: Vec<[i32; VARIABLE_WORDS]>,
    pub parameters: usize,
}

#[derive(Clone, Copy, Debug)]
pub struct LaidRow {
    pub pointer: i32,
    pub bounds: RowRecord,
}

#[derive(Clone, Debug)]
pub struct Group {
    pub count: i32,
    pub pointers: Vec<i32>,
}

pub fn record(lower: [i32; 3], upper: [i32; 3]) -> [i32; VARIABLE_WORDS] {
    [1, 0, lower[0], lower[1], lower[2], upper[0], upper[1], upper[2]]
}

/// A constant: small ones mostly, and those at the limits.
pub fn constant(rng: &mut Rng) -> i32 {
    match rng.below(20) {
        0 => rng.pick(&[65_536, 65_535, -65_536, -65_535, 65_000]),
        1 => rng.range(-12, 12),
        2..=5 => 0,
        _ => rng.range(-3, 3),
    }
}

fn object_length(rng: &mut Rng) -> i32 {
    match rng.below(400) {
        0 => 1_000_000,
        1 => rng.pick(&[65_535, 65_536, 65_537]),
        2..=9 => rng.range(20, 300),
        _ => rng.range(1, 12),
    }
}

/// Chooses objects and variables. Names are shuffled, so that pointers and
/// integers come in any order.
pub fn choose(rng: &mut Rng, draft: &mut Draft) -> Layout {
    let object_count = rng.pick(&[0, 1, 1, 2, 2, 2, 3, 3, 4, 16]);
    draft.objects = (0..object_count).map(|_| object_length(rng)).collect();
    choose_variables(rng, draft)
}

/// The same over objects that another routine lists.
pub fn over_objects(rng: &mut Rng, draft: &mut Draft, objects: &[i32]) -> Layout {
    draft.objects = objects.to_vec();
    let mut layout = choose_variables(rng, draft);
    draft.objects = objects.to_vec();
    classify(draft, &mut layout);
    layout
}

fn choose_variables(rng: &mut Rng, draft: &mut Draft) -> Layout {
    let variables = match rng.below(10) {
        0 => rng.pick(&[15, 16]),
        1 => rng.pick(&[1, 2]),
        _ => rng.range(3, 9),
    };
    let mut layout = with_size(rng, draft, variables as usize);
    // Often the routine leaves some objects alone: so they can be out of reach.
    if rng.chance(60) {
        layout.named.retain(|_| rng.chance(40));
    }
    if !layout.pointers.is_empty() && rng.chance(45) {
        add_sizes(rng, draft, &mut layout);
    }
    if rng.chance(40) {
        add_names(rng, draft, &mut layout);
    }
    if rng.chance(55) {
        let rows = match rng.below(60) {
            0 => MAX_ROWS,
            _ => rng.pick(&[0, 1, 1, 2, 2, 3, 4, 6]),
        };
        add_rows(rng, draft, &mut layout, rows);
    }
    layout.loops = rng.chance(60);
    layout
}

/// Element sizes: one for the pointers of a count, most often, and few different ones in a table, so that bounds of
/// equal and of different sizes meet.
pub fn add_sizes(rng: &mut Rng, draft: &mut Draft, layout: &mut Layout) {
    let favourite = rng.pick(&[2, 3, 3, 3, 4, 5, 8]);
    let size = |rng: &mut Rng| match rng.below(6) {
        0 => rng.range(0, 1),
        1 => rng.range(0, 8),
        _ => favourite,
    };
    let grouped: Vec<i32> = layout.groups.iter().flat_map(|group| group.pointers.clone()).collect();
    let common = [rng.pick(&layout.pointers), rng.range(0, 9)];
    for &p in &layout.pointers {
        draft.variables[p as usize][1] = size(rng);
        // Ends without integers, which compare whatever their sizes; most often those of other pointers too.
        if !grouped.contains(&p) && rng.chance(60) {
            let own = [rng.pick(&[p, common[0]]), rng.range(0, 9)];
            let [q, cells] = if rng.chance(70) { common } else { own };
            draft.variables[p as usize][2..].copy_from_slice(&[q, -1, 0, q, -1, cells]);
        }
    }
    for group in &layout.groups {
        let size = size(rng);
        for &p in group.pointers.iter().filter(|_| rng.chance(90)) {
            draft.variables[p as usize][1] = size;
        }
    }
    for length in draft.objects.iter_mut().filter(|length| **length <= 300) {
        *length *= rng.pick(&[1, favourite]);
    }
    classify(draft, layout);
}

/// Terminated objects and kind 2 pointers, beside others.
fn add_names(rng: &mut Rng, draft: &mut Draft, layout: &mut Layout) {
    for word in draft.objects.iter_mut().filter(|_| rng.chance(65)) {
        *word = -*word;
    }
    for &p in layout.pointers.iter().filter(|_| rng.chance(50)) {
        draft.variables[p as usize][0] = 2;
    }
    for group in &layout.groups {
        let kind = rng.range(1, 2);
        group.pointers.iter().for_each(|&p| draft.variables[p as usize][0] = kind);
    }
    classify(draft, layout);
}

/// The same element size for every pointer.
pub fn set_sizes(draft: &mut Draft, layout: &mut Layout, size: i32) {
    for &p in &layout.pointers {
        draft.variables[p as usize][1] = size;
    }
    classify(draft, layout);
}

/// A fourth section with so many rows, where there is a pointer to make them for.
pub fn add_rows(rng: &mut Rng, draft: &mut Draft, layout: &mut Layout, rows: usize) {
    // Few pointers share the rows, so that one has several to choose from.
    let mut pointers = layout.pointers.clone();
    rng.shuffle(&mut pointers);
    pointers.truncate(1 + rng.below(3));
    for _ in 0..rows {
        let Some(pointer) = rng.pick_any(&pointers) else { break };
        let bounds = row(rng, layout, pointer);
        layout.rows.push(LaidRow { pointer, bounds });
    }
    draft.rows = Some(layout.rows.iter().map(|row| row.bounds).collect());
}

/// A row for p: its own bound, one narrower or wider, one by another count or constant, one at another pointer.
fn row(rng: &mut Rng, layout: &Layout, p: i32) -> RowRecord {
    let own = layout.own[p as usize];
    let other = rng.pick(&layout.pointers);
    let integer = rng.pick_any(&layout.integers).unwrap_or(-1);
    let moved = |by: i32| [own[0], own[1], own[2] + by, own[3], own[4], own[5] - by];
    let bounds = match rng.below(16) {
        0..=3 => own,
        4 | 5 => moved(rng.range(1, 2)),
        6 => moved(-rng.range(1, 2)),
        7 | 8 => [own[0], own[1], own[2], own[0], own[1], own[2]],
        9 | 10 => [p, -1, 0, p, -1, rng.range(1, 5)],
        11 | 12 => [p, -1, 0, p, integer, 0],
        13 => [other, -1, 0, other, integer, 0],
        14 => layout.own[other as usize],
        _ => {
            let integer = if rng.chance(50) { -1 } else { integer };
            [other, -1, constant(rng), p, integer, constant(rng)]
        }
    };
    let k = |word: i32| word.clamp(-65_536, 65_536);
    [bounds[0], bounds[1], k(bounds[2]), bounds[3], bounds[4], k(bounds[5])]
}

/// The variables alone, so many of them.
pub fn with_size(rng: &mut Rng, draft: &mut Draft, variables: usize) -> Layout {
    let mut names: Vec<i32> = (0..variables as i32).collect();
    rng.shuffle(&mut names);
    let pointer_count = (variables * rng.range(25, 65) as usize).div_ceil(100).min(variables);
    let mut layout = Layout {
        named: (0..draft.objects.len() as i32).collect(),
        pointers: names[..pointer_count].to_vec(),
        integers: names[pointer_count..].to_vec(),
        ..Layout::default()
    };
    draft.variables = vec![[0; VARIABLE_WORDS]; variables];
    let mut left = layout.pointers.clone();
    if rng.chance(4) {
        distant_ends(draft, &layout, &mut left);
    }
    while !left.is_empty() {
        choose_group(rng, draft, &mut layout, &mut left);
    }
    classify(draft, &mut layout);
    layout
}

/// Takes some of the pointers left and gives them bounds of one shape.
fn choose_group(rng: &mut Rng, draft: &mut Draft, layout: &mut Layout, left: &mut Vec<i32>) {
    let shape = rng.below(11);
    let anchored = (5..=7).contains(&shape);
    let take = rng.pick(if anchored { &[2, 2, 3, 4] } else { &[1, 1, 1, 2, 2, 3] }).min(left.len());
    let members: Vec<i32> = left.drain(..take).collect();
    let integer = |rng: &mut Rng, layout: &Layout| rng.pick_any(&layout.integers).unwrap_or(-1);
    let count = integer(rng, layout);
    match shape {
        // count(n), several pointers on one count.
        0..=4 => {
            for &p in &members {
                draft.variables[p as usize] = record([p, -1, 0], [p, count, 0]);
            }
            if count >= 0 {
                layout.groups.push(Group { count, pointers: members });
            }
        }
        // The first is the anchor that all have their bounds at.
        5..=7 => {
            for &p in &members {
                draft.variables[p as usize] = record([members[0], -1, 0], [members[0], count, 0]);
            }
            if count >= 0 {
                layout.groups.push(Group { count, pointers: vec![members[0]] });
            }
        }
        // Constant bounds around a pointer, some at the limits of k.
        8 => {
            let (low, high) = (-constant(rng).abs(), constant(rng).abs());
            for &p in &members {
                draft.variables[p as usize] = record([p, -1, low], [p, -1, high]);
            }
        }
        // From one integer to another.
        9 => {
            let low = integer(rng, layout);
            for &p in &members {
                draft.variables[p as usize] = record([p, low, 0], [p, count, constant(rng)]);
            }
        }
        // Anything.
        _ => {
            for &p in &members {
                let end = |rng: &mut Rng| {
                    let named = if rng.chance(40) { p } else { rng.pick(&layout.pointers) };
                    let integer = if rng.chance(50) { -1 } else { integer(rng, layout) };
                    [named, integer, constant(rng)]
                };
                draft.variables[p as usize] = record(end(rng), end(rng));
            }
        }
    }
}

/// Two pointers with a common lower end whose upper ends lie far apart in what
/// they name: a copy between them rests on sums of pointers and of integers.
fn distant_ends(draft: &mut Draft, layout: &Layout, left: &mut Vec<i32>) {
    let (&[to, from, high, low, ..], &[i, j, ..]) = (&left[..], &layout.integers[..]) else { return };
    draft.variables[to as usize] = record([low, -1, 0], [high, i, 0]);
    draft.variables[from as usize] = record([low, -1, 0], [low, j, 0]);
    draft.variables[high as usize] = record([high, -1, 0], [high, -1, 4]);
    draft.variables[low as usize] = record([low, -1, 0], [low, -1, 4]);
    left.drain(..4);
}

fn classify(draft: &Draft, layout: &mut Layout) {
    let named: Vec<i32> = draft.variables.iter().filter(|v| v[0] != 0).flat_map(|v| [v[3], v[6]]).collect();
    let (counts, free) = layout.integers.iter().partition(|i| named.contains(i));
    (layout.counts, layout.free) = (counts, free);
    let moves = |p: &&i32| {
        let bounds = draft.variables[**p as usize];
        bounds[2] != **p && bounds[5] != **p
    };
    layout.movers = layout.pointers.iter().filter(moves).copied().collect();
    let own =
        |record: &[i32; VARIABLE_WORDS]| record[2..].try_into().expect("six words behind the first two");
    layout.own = draft.variables.iter().map(own).collect();
    layout.sizes = draft.variables.iter().map(|record| record[1].max(1)).collect();
    layout.terminated = draft.variables.iter().map(|record| record[0] == 2).collect();
    layout.terminated_objects = draft.objects.iter().map(|&word| word < 0).collect();
    layout.objects = draft.objects.iter().map(|&word| word.abs() - i32::from(word < 0)).collect();
}

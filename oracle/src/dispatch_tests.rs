use super::*;
use crate::draft::*;

/// A routine that adds 1 to its only variable so many times.
fn counter(times: usize) -> Member {
    let draft =
        Draft { variables: vec![[0; 8]], statements: vec![add_constant(0, 0, 1); times], ..Draft::default() };
    Member { table: draft.words(), values: vec![0], origins: vec![0], ..Member::default() }
}

/// A routine with one object of two cells at this place: checks that the first is 0 and writes 1 there.
fn writer(place: u32) -> Member {
    let statements = vec![
        load(1, 0, -1, 0),
        dynamic_check(with_literal(1, EQUAL, 0)),
        set(1, 1),
        store(0, -1, 0, 1),
        load(1, 0, -1, 1),
    ];
    let variables = vec![[1, 0, 0, -1, 0, 0, -1, 2], [0; 8]];
    Member {
        table: Draft { objects: vec![2], variables, statements, rows: None }.words(),
        directory: vec![place, 2],
        values: vec![place, 9],
        origins: vec![1, 0],
        ..Member::default()
    }
}

fn turns(members: Vec<Member>, quantum: u32, total: u32) -> Turns {
    Turns { members, cells: vec![0; 20], quantum, total }
}

/// Refusal; or the answers and the order.
fn shown(lent: &mut Turns) -> String {
    match dispatch(lent) {
        Err(refusal) => refusal.to_string(),
        Ok(Dispatched { answers, order }) => {
            let answers: Vec<String> = answers.iter().map(|answer| answer.to_string()).collect();
            let order: Vec<String> =
                order.iter().map(|turn| format!("{}:{}", turn.routine, turn.steps)).collect();
            format!("{} | {}", answers.join(", "), order.join(" "))
        }
    }
}

fn counters(times: &[usize], quantum: u32, total: u32) -> String {
    shown(&mut turns(times.iter().map(|&times| counter(times)).collect(), quantum, total))
}

#[test]
fn turns_go_round_and_skip_those_that_ended() {
    assert_eq!(counters(&[3, 2], 2, 100), "done 3, done 2 | 0:2 1:2 0:1");
    assert_eq!(counters(&[1, 3, 2], 1, 100), "done 1, done 3, done 2 | 0:1 1:1 2:1 1:1 2:1 1:1");
    // The rest of a turn is nobody's.
    assert_eq!(counters(&[1, 4], 3, 100), "done 1, done 4 | 0:1 1:3 1:1");
}

#[test]
fn the_total_ends_all() {
    assert_eq!(counters(&[5, 5], 2, 3), "spent 2 2, spent 1 1 | 0:2 1:1");
    assert_eq!(counters(&[2, 1], 2, 3), "done 2, done 1 | 0:2 1:1");
    assert_eq!(counters(&[2, 0], 2, 0), "spent 0 0, done 0 | ");
    assert_eq!(counters(&[9, 2, 0], 5, 3), "spent 3 3, spent 0 0, done 0 | 0:3");
}

#[test]
fn a_stopping_step_counts() {
    let mut lent = turns(vec![writer(1), writer(3)], 2, 5);
    lent.cells[1] = 7;
    assert_eq!(shown(&mut lent), "stopped 2 1 1, spent 3 3 | 0:2 1:2 1:1");
}

#[test]
fn each_ends_as_by_itself_with_the_steps_it_received() {
    let mut lent = turns(vec![writer(1), writer(3), writer(6)], 2, 9);
    lent.cells[3] = 5;
    let before = lent.clone();
    let dispatched = dispatch(&mut lent).unwrap();
    for (r, member) in before.members.iter().enumerate() {
        let steps: u64 =
            dispatched.order.iter().filter(|turn| turn.routine == r).map(|turn| turn.steps).sum();
        let mut alone = Turns { members: vec![member.clone()], total: steps as u32, ..before.clone() };
        assert_eq!(dispatch(&mut alone).unwrap().answers, [dispatched.answers[r]]);
        assert_eq!(alone.members[0], lent.members[r]);
        let own = member.directory[0] as usize..;
        assert_eq!(alone.cells[own.clone()][..2], lent.cells[own][..2]);
    }
}

#[test]
fn refusals_in_their_order() {
    let eight = vec![counter(1); 8];
    assert_eq!(shown(&mut turns(vec![], 1, 9)), "refused 15 0");
    assert_eq!(shown(&mut turns([&eight[..], &eight[..1]].concat(), 1, 9)), "refused 15 0");
    for (quantum, refused) in [(0, true), (1, false), (1_000, false), (1_001, true), (u32::MAX, true)] {
        assert_eq!(shown(&mut turns(eight.clone(), quantum, 9)) == "refused 15 0", refused, "{quantum}");
    }
    // Routine by routine, each whole; 14 last; 15 before all.
    let wrong_table = Member { table: vec![6], ..counter(1) };
    let wrong_entry = Member { values: vec![], ..counter(1) };
    let members = vec![writer(1), wrong_entry, wrong_table, writer(2)];
    assert_eq!(shown(&mut turns(members.clone(), 0, 9)), "refused 15 0");
    assert_eq!(shown(&mut turns(members, 1, 9)), "refused routine 1 11 0");
    let lowered = Draft { variables: vec![[1, 0, 0, -1, 0, 0, 1, 0], [0; 8]], ..Draft::default() };
    let lowered = Draft { statements: vec![add_constant(1, 1, -1)], ..lowered };
    let lowered = Member { table: lowered.words(), ..Member::default() };
    assert_eq!(shown(&mut turns(vec![writer(1), lowered], 1, 9)), "refused routine 1 8 0 0");
    let listed = Member { facts: vec![0, 0, 0, 0], ..counter(1) };
    assert_eq!(shown(&mut turns(vec![listed], 1, 9)), "refused routine 0 17 0");
}

#[test]
fn objects_of_different_routines_share_no_cell() {
    let places = |places: &[u32]| shown(&mut turns(places.iter().map(|&p| writer(p)).collect(), 9, 99));
    // Touching is no overlap, in either order.
    assert_eq!(places(&[1, 3]), "done 5, done 5 | 0:5 1:5");
    assert_eq!(places(&[3, 1]), "done 5, done 5 | 0:5 1:5");
    assert_eq!(places(&[1, 2]), "refused 14 1");
    assert_eq!(places(&[2, 1]), "refused 14 1");
    assert_eq!(places(&[1, 3, 4, 1]), "refused 14 2");
    let before = turns(vec![writer(1), writer(1)], 9, 99);
    let mut lent = before.clone();
    assert_eq!(shown(&mut lent), "refused 14 1");
    assert_eq!(lent, before);
}

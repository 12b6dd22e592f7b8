//! Quarter turns. Where a list goes is decided twice: voxel by voxel up to depth 3, and leaf by leaf at any depth. Then the laws, by the calls alone.
use crate::link::{self, given};
use crate::lists;
use crate::model::{self, told, Cell, Said};
use crate::moves;
use crate::run::Run;
use crate::sets;

/// The turn numbers, and some above them.
const NUMBERS: [u32; 9] = [0, 1, 2, 3, 4, 5, 7, 255, u32::MAX];

/// Where so many turns take a voxel.
fn turned(depth: u32, at: [u32; 3], turns: u32) -> [u32; 3] {
    (0..turns).fold(at, |[x, y, z], _| [(1 << depth) - 1 - y, x, z])
}

/// Each black voxel by itself, and the good list of where they go.
fn by_voxels(depth: u32, list: &[u32], turns: u32) -> Vec<u32> {
    let goes = |v: u64| {
        let to = model::number(depth, turned(depth, model::voxel(depth, v), turns));
        (to, to + 1)
    };
    model::good_list(depth, &model::union(model::black(depth, list).into_iter().flat_map(|r| r.0..r.1).map(goes).collect()))
}

/// Each leaf by two opposite corners, which go to opposite corners of a cube as large; and the leaves in the order of their voxels.
fn by_leaves(depth: u32, list: &[u32], turns: u32) -> Vec<u32> {
    let goes = |code: &u32| {
        let Cell { corner, level } = model::cell(depth, *code).unwrap();
        let far = corner.map(|x| x + model::side(depth, level) - 1);
        let (a, b) = (turned(depth, corner, turns), turned(depth, far, turns));
        model::code(depth, Cell { corner: [0, 1, 2].map(|axis| a[axis].min(b[axis])), level })
    };
    let mut codes: Vec<u32> = list.iter().map(goes).collect();
    codes.sort_by_key(|code| model::interval(depth, *code));
    codes
}

fn turn_of(depth: u32, list: &[u32], turns: u32) -> Said<u32> {
    if let Some(refused) = model::refusal(depth, &[list]) {
        return Err(refused);
    }
    if turns > 3 {
        return Err(link::answer(6, 1, 0));
    }
    let codes = by_leaves(depth, list, turns);
    if depth <= 3 {
        assert_eq!(by_voxels(depth, list, turns), codes, "the two ways to turn {depth} {list:?} by {turns}");
    }
    Ok(codes)
}

/// A list by every turn number, each with an exact buffer, one place short, empty and larger.
fn about(run: &mut Run, n: usize, depth: u32, list: &[u32]) {
    for turns in NUMBERS {
        let want = turn_of(depth, list, turns);
        for room in [list.len(), list.len().saturating_sub(1), 0, list.len() + 3] {
            let what = || format!("turn {depth} {list:?} by {turns}, room {room}, {n} words");
            run.same(what, link::turn(n, room, depth, list, turns), told(n, room, &want));
        }
    }
}

/// Answers by hand: where cells go, and which refusal comes before which.
fn settled(run: &mut Run) {
    let mut by_hand = |depth: u32, list: &[u32], turns: u32, room: usize, want: Said<u32>| {
        let what = || format!("by hand, turn {depth} {list:?} by {turns}, room {room}");
        run.same(what, link::turn(8, room, depth, list, turns), told(8, room, &want));
    };
    // r0, r1, r3 and r2 go round, and so do r4, r5, r7 and r6 over them; r057, r176, r364 and r245 do
    for round in [[8, 9, 11, 10], [12, 13, 15, 14], [559, 638, 756, 677]] {
        for (from, turns) in (0..4).flat_map(|from| (0..4).map(move |turns| (from, turns))) {
            by_hand(3, &[round[from]], turns, 1, Ok(vec![round[(from + turns as usize) % 4]]));
        }
    }
    // r0 goes to r1 and r2 to r0, so that their order changes
    by_hand(1, &[8, 10], 1, 2, Ok(vec![8, 9]));
    let siblings = [8, 9, 10, 11, 12, 13, 14, 15];
    for turns in NUMBERS {
        by_hand(11, &[7], turns, 0, Err(link::answer(1, 0, 0)));
        by_hand(3, &[7], turns, 0, Err(link::answer(2, 0, 1)));
        by_hand(3, &[559, 559], turns, 0, Err(link::answer(3, 1, 1)));
        by_hand(1, &siblings, turns, 0, Err(link::answer(4, 7, 1)));
    }
    for depth in 0..=model::DEEPEST {
        for turns in 0..4 {
            by_hand(depth, &[], turns, 0, Ok(vec![]));
            by_hand(depth, &[1], turns, 1, Ok(vec![1]));
            by_hand(depth, &[1], turns, 0, Err(link::answer(8, 1, 0)));
        }
        by_hand(depth, &[], 4, 0, Err(link::answer(6, 1, 0)));
        by_hand(depth, &[1], 4, 0, Err(link::answer(6, 1, 0)));
    }
    by_hand(1, &siblings[1..], 1, 6, Err(link::answer(8, 7, 0)));
}

// ---- laws of the calls

fn turn(depth: u32, list: &[u32], turns: u32) -> Said<u32> {
    given(link::turn(8, list.len(), depth, list, turns))
}

/// Room for every list up to depth 4. One that does not fit is refused on both sides of a law, with as many leaves.
fn room(depth: u32) -> usize {
    1 << (3 * depth.min(4))
}

/// Turns add up modulo four, and each keeps the leaf count and the volume.
fn added_up(run: &mut Run, depth: u32, list: &[u32]) {
    for a in 0..4 {
        for b in 0..4 {
            let both = turn(depth, list, a).and_then(|there| turn(depth, &there, b));
            run.same(|| format!("{a} turns and {b} of {depth} {list:?}"), both, turn(depth, list, (a + b) % 4));
        }
        let kept = |codes: &[u32]| (codes.len(), link::volume(8, depth, codes));
        run.same(|| format!("what {a} turns keep of {depth} {list:?}"), turn(depth, list, a).map(|there| kept(&there)), Ok(kept(list)));
    }
}

/// Turning carries through join, intersection and difference.
fn carried_through(run: &mut Run, depth: u32, a: &[u32], b: &[u32]) {
    for (op, turns) in sets::OPS.into_iter().flat_map(|op| (0..4).map(move |turns| (op, turns))) {
        let set = |a: &[u32], b: &[u32]| given(link::set(op, 8, room(depth), depth, a, b));
        let before = turn(depth, a, turns).and_then(|a| set(&a, &turn(depth, b, turns)?));
        let after = set(a, b).and_then(|both| turn(depth, &both, turns));
        run.same(|| format!("{op:?} {depth} {a:?} {b:?} by {turns} turns"), after, before);
    }
}

/// A move and then one turn is the turn and then the move turned, where that can be written. Both are accepted or neither; the leaf that leaves may differ.
fn moved(run: &mut Run, depth: u32, list: &[u32], d: [i32; 3]) {
    let [dx, dy, dz] = d;
    if dy == i32::MIN {
        return;
    }
    let shift = |list: &[u32], d: [i32; 3]| given(link::shift(8, room(depth), depth, list, d));
    let after = shift(list, d).and_then(|there| turn(depth, &there, 1));
    let before = turn(depth, list, 1).and_then(|there| shift(&there, [-dy, dx, dz]));
    run.same(|| format!("move {depth} {list:?} by {d:?} and turn"), after.map_err(|a| a.number), before.map_err(|a| a.number));
}

fn laws(run: &mut Run) {
    for list in lists::every(1) {
        added_up(run, 1, &list);
        let other = lists::good(run, 1, 4);
        carried_through(run, 1, &list, &other);
        // by up to 2 along each axis
        for d in moves::every(0) {
            moved(run, 1, &list, d);
        }
    }
    for _ in 0..run.cases / 4 {
        let depth = run.one_of(&[2, 3, 4, 10, 10]);
        let most = run.one_of(&[1, 5, 20]);
        let (a, b) = (lists::good(run, depth, most), lists::good(run, depth, most));
        added_up(run, depth, &a);
        carried_through(run, depth, &a, &b);
    }
    for _ in 0..run.cases {
        let depth = run.one_of(&[1, 2, 3, 4, 10, 10]);
        let most = run.one_of(&[1, 2, 8]);
        let list = moves::movable(run, depth, most);
        for _ in 0..3 {
            let d = moves::displacement(run, depth);
            moved(run, depth, &list, d);
        }
    }
}

pub fn all(run: &mut Run) {
    settled(run);
    for depth in 0..2 {
        for list in lists::every(depth) {
            about(run, 8, depth, &list);
        }
    }
    for depth in (0..13).chain([u32::MAX]) {
        for list in lists::FEW {
            about(run, 8, depth, list);
        }
    }
    // voxels at random, half of a small root and some of the largest
    for _ in 0..run.cases / 40 {
        for depth in [2, 3] {
            let half: Vec<(u64, u64)> = (0..1 << (3 * depth)).filter(|_| run.below(2) == 0).map(|v| (v, v + 1)).collect();
            about(run, 8, depth, &model::good_list(depth, &model::union(half)));
        }
        let some = (0..100).map(|_| run.below(1 << 30)).map(|v| (v, v + 1)).collect();
        about(run, 8, 10, &model::good_list(10, &model::union(some)));
    }
    // cells at random, whole and damaged
    for _ in 0..run.cases {
        let depth = run.one_of(&[2, 2, 3, 4, 7, 10, 10, 11, u32::MAX]);
        let n = run.one_of(&[8, 8, 8, 9, 7, 0]);
        let most = run.one_of(&[0, 1, 5, 20]);
        let list = if run.below(3) == 0 { lists::damaged(run, depth.min(10), most) } else { lists::good(run, depth.min(10), most) };
        about(run, n, depth, &list);
    }
    laws(run);
}

//! Lookups: a voxel's colour, and the level of the largest cell of that colour that holds it: ticket 6. Every voxel of small roots, and voxels at the edges of
//! leaves at any depth. Then what the planner counts on, by the calls alone.
use crate::levels::{self, Leaves, Painting};
use crate::link::{self, answer, found, Answer, Told};
use crate::lists;
use crate::model::{self, Cell, Op, Runs};
use crate::run::Run;
use std::collections::BTreeSet;

// ---- answers by hand

/// Whose level is told.
fn settled(run: &mut Run) {
    let mut by_hand = |depth: u32, list: &[u32], at: [u32; 3], want: Answer| {
        run.same(|| format!("by hand, lookup {depth} {list:?} {at:?}"), link::lookup(8, depth, list, at), Ok(Some(want)));
    };
    // r057 is at 3, 1, 3; r056 beside it; r04 has the voxels at 0 or 1, 0 or 1, 2 or 3; and r1 those from 4, 0, 0 to 7, 3, 3
    by_hand(3, &[559], [3, 1, 3], found(true, 3));
    by_hand(3, &[559], [2, 1, 3], found(false, 3));
    by_hand(3, &[559], [1, 1, 2], found(false, 2));
    by_hand(3, &[559], [7, 3, 3], found(false, 1));
    // r2 lies between the leaves r0 and r7
    by_hand(3, &[8, 15], [3, 0, 2], found(true, 1));
    by_hand(3, &[8, 15], [3, 4, 2], found(false, 1));
    for depth in 0..=model::DEEPEST {
        for at in [[0; 3], [(1 << depth) - 1; 3]] {
            by_hand(depth, &[], at, found(false, 0));
            by_hand(depth, &[1], at, found(true, 0));
        }
    }
}

/// Which refusal comes before which: each is met with those after it wrong too, and none tells a level.
fn refused(run: &mut Run) {
    let mut refuses = |depth: u32, list: &[u32], at: [u32; 3], number: u64, place: u64, of: u64| {
        run.same(|| format!("by hand, lookup {depth} {list:?} {at:?}"), link::lookup(8, depth, list, at), Ok(Some(answer(number, place, of))));
    };
    for depth in [model::DEEPEST + 1, 32, u32::MAX] {
        for (list, at) in [(&[][..], [0; 3]), (&[1][..], [0; 3]), (&[7][..], [u32::MAX; 3])] {
            refuses(depth, list, at, 1, 0, 0);
        }
    }
    for depth in 0..=model::DEEPEST {
        for at in [[0; 3], [u32::MAX; 3]] {
            refuses(depth, &[1 << 31], at, 2, 0, 1);
            refuses(depth, &[1, 1], at, 3, 1, 1);
            if depth > 0 {
                refuses(depth, &[8, 9, 10, 11, 12, 13, 14, 15], at, 4, 7, 1);
            }
        }
        for (axis, x) in (0..3).flat_map(|axis| [1 << depth, 1 << 31, u32::MAX].map(|x| (axis, x))) {
            let at = [0, 1, 2].map(|a| if a == axis { x } else { 0 });
            refuses(depth, &[], at, 6, 0, 0);
            refuses(depth, &[1], at, 6, 0, 0);
        }
    }
}

// ---- what the planner counts on

/// The least corner of the cell of that level that holds a voxel.
fn corner(depth: u32, at: [u32; 3], level: u32) -> [u32; 3] {
    at.map(|x| x / model::side(depth, level) * model::side(depth, level))
}

/// Other voxels of the cell of that level that holds a voxel: its corners, and some at random.
fn others(run: &mut Run, depth: u32, at: [u32; 3], level: u32) -> BTreeSet<[u32; 3]> {
    let (side, least) = (model::side(depth, level), corner(depth, at, level));
    let corners = (0..8).map(|n| [0, 1, 2].map(|axis| least[axis] + (n >> axis & 1) * (side - 1)));
    let inside = (0..4).map(|_| least.map(|x| x + run.below(side as u64) as u32));
    corners.chain(inside).filter(|u| *u != at).collect()
}

/// A voxel of another colour in the cell of that level that holds a voxel. Where there is one, the first voxel of the cell or an end of the first run that ends
/// after it is one: runs do not touch.
fn contrast(depth: u32, black: &Runs, at: [u32; 3], level: u32) -> Option<[u32; 3]> {
    let (start, end) = model::interval(depth, model::code(depth, Cell { corner: corner(depth, at, level), level })).unwrap();
    let colour = model::has(black, model::number(depth, at));
    let ends = black.get(black.partition_point(|r| r.1 <= start)).map_or(vec![], |r| vec![r.0, r.1]);
    let is_other = |v: &u64| (start..end).contains(v) && model::has(black, *v) != colour;
    ends.into_iter().chain([start]).find(is_other).map(|v| model::voxel(depth, v))
}

/// The planner's law, by the calls alone: every voxel of the told cell is told the same, and the next larger cell has a voxel of another colour. `other` finds that
/// one in the cell of a level.
pub fn planned(run: &mut Run, what: impl Fn() -> String, depth: u32, at: [u32; 3], look: impl Fn([u32; 3]) -> Told, other: impl Fn(u32) -> Option<[u32; 3]>) {
    let told = look(at).expect("a call that keeps what it was lent").expect("an answer in eight words");
    let level = told.beside[3];
    run.same(|| format!("{} tells a level of {at:?}", what()), (told.number, level.min(depth as u64)), (0, level));
    if told.number != 0 || level > depth as u64 {
        return;
    }
    let level = level as u32;
    for u in others(run, depth, at, level) {
        run.same(|| format!("{} tells of {u:?} what it tells of {at:?}", what()), look(u), Ok(Some(told)));
    }
    if level == 0 {
        return;
    }
    let colour = |u| look(u).ok().flatten().map(|a| (a.number, a.place));
    let seen = other(level - 1).map(|u| (corner(depth, u, level - 1), colour(u)));
    let want = (corner(depth, at, level - 1), Some((0, 1 - told.place)));
    run.same(|| format!("{} has another colour in the next cell around {at:?}", what()), seen, Some(want));
}

/// The planner's law in a list.
fn planned_in_list(run: &mut Run, depth: u32, list: &[u32], black: &Runs, at: [u32; 3]) {
    let look = |u| link::lookup(8, depth, list, u);
    planned(run, || format!("lookup {depth} {list:?}"), depth, at, look, |level| contrast(depth, black, at, level));
}

// ---- every voxel of small roots

/// The call against the voxels' colours, and the two ways to a level against each other; here and there the planner's law.
fn every_voxel(run: &mut Run, depth: u32, list: &[u32]) {
    let (painting, leaves, black) = (Painting::new(depth, list), Leaves::new(depth, list), model::black(depth, list));
    for at in levels::voxels(depth, [0; 3], 0) {
        let want = painting.found(at);
        run.same(|| format!("lookup {depth} {list:?} {at:?} by voxels"), link::lookup(8, depth, list, at), Ok(Some(want)));
        run.same(|| format!("the two ways to look up {depth} {list:?} {at:?}"), leaves.found(at), want);
        if depth < 2 || run.below(8) == 0 {
            planned_in_list(run, depth, list, &black, at);
        }
    }
}

/// Half of the voxels, at random.
fn half(run: &mut Run, depth: u32) -> Vec<u32> {
    let black = (0..1 << (3 * depth)).filter(|_| run.below(2) == 0).map(|v| (v, v + 1)).collect();
    model::good_list(depth, &model::union(black))
}

fn small(run: &mut Run) {
    for depth in 0..2 {
        for list in lists::every(depth) {
            every_voxel(run, depth, &list);
        }
    }
    for _ in 0..run.cases / 10 {
        for depth in 0..4 {
            let most = run.one_of(&[1, 3, 10]);
            let list = if run.below(4) == 0 { half(run, depth) } else { lists::good(run, depth, most) };
            every_voxel(run, depth, &list);
        }
    }
}

// ---- the edges of leaves at any depth

/// Voxels at and beside the edges of some leaves, the first and the last among them: along the axes, and in the order of the voxels. Then some anywhere.
fn edges(run: &mut Run, depth: u32, list: &[u32]) -> BTreeSet<[u32; 3]> {
    let most = (1 << depth) - 1;
    let any = |run: &mut Run| run.below(list.len().max(1) as u64) as usize;
    let some = [0, list.len().saturating_sub(1), any(run), any(run)];
    let mut voxels = BTreeSet::from([[0; 3], [most; 3]]);
    for code in some.into_iter().filter_map(|i| list.get(i)) {
        let Cell { corner, level } = model::cell(depth, *code).unwrap();
        let side = model::side(depth, level);
        for _ in 0..3 {
            voxels.insert(corner.map(|x| run.one_of(&[x.saturating_sub(1), x, x + side - 1, (x + side).min(most)])));
        }
        let (start, end) = model::interval(depth, *code).unwrap();
        let beside = [start.saturating_sub(1), start, end - 1, end.min((1 << (3 * depth)) - 1)];
        voxels.extend(beside.map(|v| model::voxel(depth, v)));
    }
    voxels.extend((0..6).map(|_| [0; 3].map(|_: u32| run.below(1 << depth) as u32)));
    voxels
}

/// The call against the leaves, and the planner's law; the colours and levels that should be told.
fn looked_up(run: &mut Run, depth: u32, list: &[u32], voxels: &BTreeSet<[u32; 3]>) -> BTreeSet<(u64, u64)> {
    let (leaves, black) = (Leaves::new(depth, list), model::black(depth, list));
    let mut seen = BTreeSet::new();
    for at in voxels {
        let want = leaves.found(*at);
        run.same(|| format!("lookup {depth} {list:?} {at:?} by leaves"), link::lookup(8, depth, list, *at), Ok(Some(want)));
        planned_in_list(run, depth, list, &black, *at);
        seen.insert((want.place, want.beside[3]));
    }
    seen
}

/// All voxels of the largest root but those.
fn all_but(some: &Runs) -> Runs {
    model::combined(Op::Less, &vec![(0, 1 << (3 * model::DEEPEST))], some)
}

/// Sets of voxels of the largest root: a cell of each level, the root among them; the first voxel, the last and one between; and some that have many leaves.
fn large(run: &mut Run) -> Vec<Runs> {
    let all = 1 << (3 * model::DEEPEST);
    let cell = |run: &mut Run, level: u32| {
        let span = all >> (3 * level);
        let start = run.below(all) / span * span;
        vec![(start, start + span)]
    };
    let mut sets: Vec<Runs> = (0..=model::DEEPEST).map(|level| cell(run, level)).collect();
    sets.extend([0, all - 1, run.below(all)].map(|v| vec![(v, v + 1)]));
    // four thousand voxels near each other, and three hundred anywhere
    let near = run.below(all - (1 << 14));
    sets.push(model::union((0..4000).map(|_| near + run.below(1 << 14)).map(|v| (v, v + 1)).collect()));
    sets.push(model::union((0..300).map(|_| run.below(all)).map(|v| (v, v + 1)).collect()));
    sets
}

/// These and all but these, each at the edges of both, so that each level is told of a black voxel and of a white one.
fn deepest(run: &mut Run) {
    let depth = model::DEEPEST;
    let mut seen = BTreeSet::new();
    for some in large(run) {
        let (these, rest) = (model::good_list(depth, &some), model::good_list(depth, &all_but(&some)));
        let voxels = &edges(run, depth, &these) | &edges(run, depth, &rest);
        for list in [these, rest] {
            seen.extend(looked_up(run, depth, &list, &voxels));
        }
    }
    let each = (0..2).flat_map(|colour| (0..=depth as u64).map(move |level| (colour, level))).collect();
    run.same(|| format!("colours and levels at depth {depth}"), seen, each);
}

fn deep(run: &mut Run) {
    deepest(run);
    for _ in 0..run.cases / 2 {
        let depth = run.one_of(&[4, 5, 6, 7, 8, 9, 10, 10, 10, 10]);
        let most = run.one_of(&[1, 5, 40]);
        let list = lists::good(run, depth, most);
        let voxels = edges(run, depth, &list);
        looked_up(run, depth, &list, &voxels);
    }
}

pub fn all(run: &mut Run) {
    settled(run);
    refused(run);
    small(run);
    deep(run);
}

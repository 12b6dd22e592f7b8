//! Lists: check, lookup, volume, leaves met; and random lists for the other groups.
use crate::link;
use crate::model;
use crate::run::Run;

/// A random set of voxels of some whole cells, as its good list.
pub fn good(run: &mut Run, depth: u32, most: u64) -> Vec<u32> {
    let n = run.below(most + 1);
    let near = run.below(1 << (3 * depth));
    let mut pieces = Vec::new();
    for _ in 0..n {
        let level = if run.below(3) == 0 { run.below(depth as u64 + 1) as u32 } else { depth - run.below(2.min(depth as u64 + 1)) as u32 };
        let span = 1u64 << (3 * (depth - level));
        let v = if run.below(2) == 0 { run.below(1 << (3 * depth)) } else { (near + run.below(600)) % (1 << (3 * depth)) };
        let start = v / span * span;
        // a run of cells of that size, so that siblings get complete now and then
        let cells = run.one_of(&[1, 1, 2, 7, 8, 9, 64]);
        pieces.push((start, (start + span * cells).min(1 << (3 * depth))));
    }
    model::good_list(depth, &model::union(pieces))
}

/// The good list of every set of voxels, at depth 0 or 1.
pub fn every(depth: u32) -> Vec<Vec<u32>> {
    let voxels = 1u64 << (3 * depth);
    let list = |set: u32| model::good_list(depth, &model::union((0..voxels).filter(|v| set >> v & 1 == 1).map(|v| (v, v + 1)).collect()));
    (0..1 << voxels).map(list).collect()
}

/// The empty list, the root, and each fault of a list: a number that is no code, two leaves out of order, eight siblings.
pub const FEW: [&[u32]; 5] = [&[], &[1], &[7], &[9, 8], &[8, 9, 10, 11, 12, 13, 14, 15]];

/// The list with one or two kinds of damage.
pub fn damaged(run: &mut Run, depth: u32, most: u64) -> Vec<u32> {
    let mut list = good(run, depth, most);
    for _ in 0..1 + run.below(2) {
        let at = run.below(list.len() as u64 + 1) as usize;
        match run.below(7) {
            // a code that is no code, or is below the depth
            0 => list.insert(at, run.one_of(&[0, 2, 3, 4, 5, 6, 7, 16, 1 << 31, u32::MAX])),
            1 => list.insert(at, 8u32.checked_pow(depth + 1).map_or(0, |c| c + 5)),
            // a leaf twice, two exchanged, one split into its eight children
            2 if at < list.len() => list.insert(at, list[at]),
            3 if at + 1 < list.len() => list.swap(at, at + 1),
            4 if at < list.len() => {
                let c = list.remove(at);
                if let Some(first) = c.checked_mul(8) {
                    for j in 0..8 {
                        list.insert(at + j as usize, first + j);
                    }
                }
            }
            // a leaf's parent before it, any number
            5 if at < list.len() => list.insert(at, list[at] / 8),
            _ => list.insert(at, run.next() as u32),
        }
    }
    list
}

pub fn check(run: &mut Run, n: usize, depth: u32, list: &[u32]) {
    let want = if n < 8 { None } else { Some(model::check_of(depth, list)) };
    run.same(|| format!("check {depth} {list:?}"), link::check(n, depth, list), Ok(want));
    let want = if n < 8 { None } else { Some(model::volume_of(depth, list)) };
    run.same(|| format!("volume {depth} {list:?}"), link::volume(n, depth, list), Ok(want));
}

fn lookup(run: &mut Run, n: usize, depth: u32, list: &[u32], at: [u32; 3]) {
    let want = if n < 8 { None } else { Some(model::lookup_of(depth, list, at)) };
    run.same(|| format!("lookup {depth} {list:?} {at:?}"), link::lookup(n, depth, list, at), Ok(want));
}

fn met(run: &mut Run, n: usize, room: usize, depth: u32, list: &[u32], code: u32, d: [i32; 3]) {
    let (mut want, part) = model::met_of(depth, list, code, d);
    want.beside[0] = part.len() as u64;
    let copied: Vec<u32> = list[part.clone()].iter().copied().take(room).collect();
    let got = link::met(n, room, depth, list, code, d);
    let want = if n < 8 { Ok((None, Vec::new())) } else { Ok((Some(want), copied)) };
    run.same(|| format!("met {depth} {list:?} {code} {d:?} room {room}"), got, want);
}

fn steps(run: &mut Run) -> [i32; 3] {
    let mut d = [0; 3];
    for s in &mut d {
        *s = run.one_of(&[-1, 0, 1, 1, -1]);
    }
    if run.below(20) == 0 {
        d[0] = run.one_of(&[2, -2, i32::MIN, i32::MAX]);
    }
    d
}

/// Everything about one list.
fn about(run: &mut Run, depth: u32, list: &[u32]) {
    let n = run.one_of(&[8, 8, 8, 9, 12, 7, 0]);
    check(run, n, depth, list);
    let side = 1u64 << depth.min(10);
    for _ in 0..4 {
        let mut at = [run.below(side) as u32, run.below(side) as u32, run.below(side) as u32];
        if !list.is_empty() && run.below(2) == 0 {
            let c = run.one_of(list);
            if let Some(cell) = model::cell(depth.min(10), c) {
                at = cell.corner;
            }
        }
        if run.below(8) == 0 {
            at[run.below(3) as usize] = run.one_of(&[1 << depth.min(10), u32::MAX, 1 << 31]);
        }
        lookup(run, n, depth, list, at);
    }
    for _ in 0..4 {
        let code = if !list.is_empty() && run.below(2) == 0 {
            let c = run.one_of(list);
            run.one_of(&[c, c / 8, c.wrapping_mul(8).wrapping_add(3)])
        } else {
            let level = run.below(depth.min(10) as u64 + 1) as u32;
            (1 << (3 * level)) + run.below(1 << (3 * level)) as u32
        };
        let d = steps(run);
        let room = run.one_of(&[0, 1, 3, 64, 100]);
        met(run, n, room, depth, list, code, d);
    }
}

pub fn all(run: &mut Run) {
    // every set of depth 1, and every list of up to three codes from 0 to 17 at depths 0 to 2
    for list in every(1) {
        about(run, 1, &list);
    }
    for depth in 0..3 {
        for a in 0..18 {
            check(run, 8, depth, &[a]);
            for b in 0..18 {
                check(run, 8, depth, &[a, b]);
                for c in 0..18 {
                    check(run, 8, depth, &[a, b, c]);
                }
            }
        }
    }
    for _ in 0..run.cases {
        let depth = run.one_of(&[0, 1, 2, 3, 4, 10, 10, 11, u32::MAX]);
        let most = run.one_of(&[0, 1, 3, 30]);
        let list = if run.below(2) == 0 { good(run, depth.min(10), most) } else { damaged(run, depth.min(10), most) };
        about(run, depth, &list);
    }
}

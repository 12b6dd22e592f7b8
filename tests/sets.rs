//! Join, intersection and difference.
use crate::link;
use crate::lists;
use crate::model::{self, Op};
use crate::run::Run;

pub const OPS: [Op; 3] = [Op::Join, Op::Meet, Op::Less];

fn one(run: &mut Run, op: Op, n: usize, room: usize, depth: u32, a: &[u32], b: &[u32]) {
    let (answer, codes) = model::set_of(op, depth, a, b, room);
    let want = if n < 8 { (None, Vec::new()) } else { (Some(answer), codes) };
    run.same(|| format!("{op:?} {depth} {a:?} {b:?} room {room}, {n} words"), link::set(op, n, room, depth, a, b), Ok(want));
}

/// The three operations with an exact buffer, one place short, empty and larger.
fn about(run: &mut Run, depth: u32, a: &[u32], b: &[u32]) {
    for op in OPS {
        let need = model::set_of(op, depth, a, b, usize::MAX).0.place as usize;
        let need = need.min(1 << 16);
        for room in [need, need.saturating_sub(1), 0, need + 3] {
            one(run, op, 8, room, depth, a, b);
        }
    }
}

pub fn all(run: &mut Run) {
    // all pairs of sets of depth 1
    let sets = lists::every(1);
    for a in &sets {
        for b in &sets {
            for op in OPS {
                one(run, op, 8, 8, 1, a, b);
            }
        }
    }
    for _ in 0..run.cases {
        let depth = run.one_of(&[0, 1, 2, 3, 4, 10, 10, 10]);
        let most = run.one_of(&[0, 1, 5, 40]);
        let a = lists::good(run, depth, most);
        let b = match run.below(8) {
            0 => a.clone(),
            1 => Vec::new(),
            2 => vec![1],
            _ => lists::good(run, depth, most),
        };
        about(run, depth, &a, &b);
    }
    // refusals: a damaged first list, a damaged second, both, a depth, and answer buffers that are too short
    for _ in 0..run.cases / 2 {
        let depth = run.one_of(&[0, 1, 2, 3, 10, 11, u32::MAX]);
        let bad = [run.below(2) == 0, run.below(2) == 0];
        let a = if bad[0] { lists::damaged(run, depth.min(10), 6) } else { lists::good(run, depth.min(10), 6) };
        let b = if bad[1] { lists::damaged(run, depth.min(10), 6) } else { lists::good(run, depth.min(10), 6) };
        let op = run.one_of(&OPS);
        let n = run.one_of(&[8, 8, 9, 7, 0]);
        let room = run.one_of(&[0, 1, 2, 100, 1000]);
        one(run, op, n, room, depth, &a, &b);
    }
}

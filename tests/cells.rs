//! Codes, corners and neighbours.
use crate::link;
use crate::model;
use crate::run::Run;

/// Lengths of an answer buffer: too short, just long enough, longer.
const LENGTHS: [usize; 6] = [0, 1, 7, 8, 9, 13];

const ODD: [i32; 9] = [-1, 0, 1, 2, -2, i32::MAX, i32::MIN, 3, -3];

fn place(run: &mut Run, n: usize, depth: u32, code: u32) {
    let want = if n < 8 { None } else { Some(model::place_of(depth, code)) };
    run.same(|| format!("place {depth} {code} with {n} words"), link::place(n, depth, code), Ok(want));
}

fn code(run: &mut Run, n: usize, depth: u32, corner: [u32; 3], level: u32) {
    let want = if n < 8 { None } else { Some(model::code_of(depth, corner, level)) };
    let got = link::code(n, depth, corner[0], corner[1], corner[2], level);
    run.same(|| format!("code {depth} {corner:?} {level} with {n} words"), got, Ok(want));
}

fn neighbour(run: &mut Run, n: usize, depth: u32, code: u32, d: [i32; 3]) {
    let right = model::neighbour_of(depth, code, d);
    let want = if n < 8 { None } else { Some(right) };
    run.same(|| format!("neighbour {depth} {code} {d:?} with {n} words"), link::neighbour(n, depth, code, d), Ok(want));
    run.same(|| format!("cab_neighbour {depth} {code} {d:?}"), link::packed_neighbour(depth, code, d), model::packed(right));
}

fn directions() -> Vec<[i32; 3]> {
    let steps = [-1, 0, 1];
    let mut all = Vec::new();
    for x in steps {
        for y in steps {
            for z in steps {
                all.push([x, y, z]);
            }
        }
    }
    all
}

/// A code near the proper ones: some labels behind some leading bits.
fn near_code(run: &mut Run) -> u32 {
    let level = run.below(11) as u32;
    let top = run.one_of(&[1, 1, 1, 1, 0, 2, 3, 4, 7]);
    let mut code: u32 = top;
    for _ in 0..level {
        code = code.wrapping_mul(8).wrapping_add(run.below(8) as u32);
    }
    code
}

/// A corner on the grid of a level, or beside it.
fn near_corner(run: &mut Run, depth: u32, level: u32) -> [u32; 3] {
    let shift = depth.saturating_sub(level).min(10);
    let mut corner = [0; 3];
    for x in &mut corner {
        *x = (run.below(1 << (depth.min(10) + 1)) as u32) >> shift << shift;
        if run.below(8) == 0 {
            *x = x.wrapping_add(run.one_of(&[1, u32::MAX, 1 << 10, 1 << 31]));
        }
    }
    corner
}

pub fn all(run: &mut Run) {
    // every number up to the last code of depth 3 and past it, at the depths around
    for code in 0..1100 {
        for depth in 0..5 {
            place(run, 8, depth, code);
        }
    }
    // every cell of depth at most 3 in all directions, the one with no step among them
    for depth in 0..4 {
        for code in 1..1024 {
            if model::labels(depth, code).is_none() {
                continue;
            }
            for d in directions() {
                neighbour(run, 8, depth, code, d);
            }
        }
        for level in 0..depth + 2 {
            for x in 0..(1 << depth) + 2 {
                for y in 0..(1 << depth) + 2 {
                    code(run, 8, depth, [x, y, (x + y) % ((1 << depth) + 1)], level);
                }
            }
        }
    }
    // at every level the cells whose labels are all alike, where a carry runs through all of them
    for level in 0..11 {
        for label in 0..8 {
            let alike = (0..level).fold(1, |code, _| code * 8 + label);
            for d in directions() {
                neighbour(run, 8, 10, alike, d);
            }
        }
    }
    // random ones at every depth, refused depths among them, with answer buffers of every kind
    for _ in 0..run.cases {
        let n = run.one_of(&LENGTHS);
        let depth = run.one_of(&[0, 1, 2, 5, 9, 10, 10, 10, 11, 12, u32::MAX]);
        let c = near_code(run);
        place(run, n, depth, c);
        let wild = run.next() as u32;
        place(run, n, depth, wild);
        let d = [run.one_of(&ODD), run.one_of(&ODD), run.one_of(&ODD)];
        neighbour(run, n, depth, c, d);
        neighbour(run, n, depth, wild, d);
        let step = run.one_of(&directions());
        neighbour(run, n, depth, c, step);
        let level = run.one_of(&[0, 1, 2, 5, 9, 10, 11, 32, u32::MAX]);
        let corner = near_corner(run, depth, level);
        code(run, n, depth, corner, level);
    }
}

//! Moves in whole voxels and in metres.
use crate::link;
use crate::lists;
use crate::model;
use crate::run::Run;

fn whole(run: &mut Run, n: usize, room: usize, depth: u32, list: &[u32], d: [i32; 3]) {
    let (answer, codes) = model::move_of(depth, list, d, room);
    let want = if n < 8 { (None, Vec::new()) } else { (Some(answer), codes) };
    run.same(|| format!("move {depth} {list:?} {d:?} room {room}, {n} words"), link::shift(n, room, depth, list, d), Ok(want));
}

fn metres(run: &mut Run, n: usize, room: usize, depth: u32, list: &[u32], d: [f64; 3], s: u32) {
    let (answer, codes) = model::metres_of(depth, list, d, s, room);
    let want = if n < 8 { (None, Vec::new()) } else { (Some(answer), codes) };
    run.same(|| format!("move {depth} {list:?} {d:?} metres, s {s}, room {room}, {n} words"), link::shift_metres(n, room, depth, list, d, s), Ok(want));
}

/// A move with an exact buffer, one place short, empty and larger.
fn about(run: &mut Run, depth: u32, list: &[u32], d: [i32; 3]) {
    let need = (model::move_of(depth, list, d, usize::MAX).0.place as usize).min(1 << 16);
    for room in [need, need.saturating_sub(1), 0, need + 3] {
        whole(run, 8, room, depth, list, d);
    }
}

/// A good list whose leaves are small enough to be moved voxel by voxel.
pub fn movable(run: &mut Run, depth: u32, most: u64) -> Vec<u32> {
    lists::good(run, depth, most).into_iter().filter(|c| depth < 10 || *c >= 1 << 21).collect()
}

/// Every move by -2^D - 1 to 2^D + 1 along each axis.
pub fn every(depth: u32) -> Vec<[i32; 3]> {
    let reach = (1i32 << depth) + 1;
    let along = move || -reach..=reach;
    along().flat_map(|x| along().flat_map(move |y| along().map(move |z| [x, y, z]))).collect()
}

/// A move near or far for the depth, by whole cells now and then, and now and then as far as it can be written.
pub fn displacement(run: &mut Run, depth: u32) -> [i32; 3] {
    let far = run.one_of(&[1, 2, 3, 16, 300, 1 << 20]).min(1 << (depth + 1));
    let mut d = [0; 3];
    for x in &mut d {
        *x = run.below(2 * far as u64 + 1) as i32 - far;
    }
    if run.below(6) == 0 {
        let step = run.one_of(&[2, 4, 8, 256]);
        d = [d[0] / step * step, d[1] / step * step, d[2] / step * step];
    }
    if run.below(30) == 0 {
        d[run.below(3) as usize] = run.one_of(&[i32::MIN, i32::MAX, i32::MIN + 1]);
    }
    d
}

/// Coordinates around every edge of the rule: halves, ends of the range, the smallest floats, no numbers.
const EDGES: [f64; 22] = [
    0.0, -0.0, 0.0625, -0.0625, 0.1875, -0.1875, 0.5, -0.5, 1.5, -1.5, 2147483647.0, 2147483647.5, 2147483648.0, -2147483648.0, -2147483648.5, -2147483649.0,
    5e-324, -5e-324, f64::MAX, f64::INFINITY, f64::NEG_INFINITY, f64::NAN,
];

/// A coordinate at such an edge, any float, or some halves or sixteenths of a voxel.
pub fn coordinate(run: &mut Run, s: u32) -> f64 {
    match run.below(6) {
        0 => run.one_of(&EDGES),
        1 => run.one_of(&EDGES) / (1u64 << s.min(10)) as f64,
        2 => f64::from_bits(run.next()),
        3 => (run.below(65) as f64 - 32.0) / (2u64 << s.min(10)) as f64,
        4 => (run.below(4000) as f64 - 2000.0) / 16.0 / (1u64 << s.min(10)) as f64,
        _ => 0.0,
    }
}

/// The float one bit larger in size, and the one smaller.
fn beside(d: f64) -> [f64; 2] {
    [f64::from_bits(d.to_bits() + 1), f64::from_bits(d.to_bits() - 1)]
}

/// A coordinate along each axis, of a voxel in the middle of the root, which shows where it goes, and of the empty list, which takes every whole move.
fn along_each(run: &mut Run, d: f64, s: u32) {
    for axis in 0..3 {
        let mut m = [0.0; 3];
        m[axis] = d;
        metres(run, 8, 1, 10, &[0x7800_0000], m, s);
        metres(run, 8, 1, 10, &[], m, s);
    }
}

/// Each edge number: halves of both signs and the floats beside them; both ends of the range; zeros and the floats too small to have all their bits.
fn edges(run: &mut Run) {
    for s in 0..=10u32 {
        let voxel = 1.0 / (1u64 << s) as f64;
        for whole in (0..12).map(f64::from).chain([255.0, 511.0, 65535.0, 1073741823.0, 2147483646.0, 2147483647.0, 2147483648.0]) {
            for half in [(whole + 0.5) * voxel, -(whole + 0.5) * voxel] {
                along_each(run, half, s);
                beside(half).into_iter().for_each(|d| along_each(run, d, s));
            }
        }
        for bits in [0, 1, 2, (1 << 52) - 1, 1 << 52] {
            along_each(run, f64::from_bits(bits), s);
            along_each(run, -f64::from_bits(bits), s);
        }
    }
}

/// A record moved over by metres, and what stands then moved back by the negated metres, is the record itself.
fn over_and_back(run: &mut Run, depth: u32, list: &[u32], d: [f64; 3], s: u32) {
    if list.is_empty() || model::metres_of(depth, list, d, s, 4096).0.number != 0 {
        return;
    }
    let back = link::shift_metres(8, 4096, depth, list, d, s).and_then(|(_, there)| link::shift_metres(8, 4096, depth, &there, d.map(|x| -x), s));
    run.same(|| format!("over and back {depth} {list:?} {d:?} metres, s {s}"), back, Ok((Some(link::answer(0, list.len() as u64, 0)), list.to_vec())));
}

pub fn all(run: &mut Run) {
    edges(run);
    // every move at depths 0 to 2, on sets of every kind
    for depth in 0..3 {
        for _ in 0..4 {
            let most = run.one_of(&[1, 2, 6]);
            let list = lists::good(run, depth, most);
            for d in every(depth) {
                whole(run, 8, 64, depth, &list, d);
            }
        }
    }
    for _ in 0..run.cases {
        let depth = run.one_of(&[1, 2, 3, 4, 10, 10, 10]);
        let most = run.one_of(&[0, 1, 2, 8]);
        let list = movable(run, depth, most);
        let d = displacement(run, depth);
        about(run, depth, &list, d);
    }
    // refusals and metres
    for _ in 0..run.cases {
        let depth = run.one_of(&[0, 1, 2, 3, 10, 11, u32::MAX]);
        let list = if depth != 10 && run.below(3) == 0 { lists::damaged(run, depth.min(3), 4) } else { movable(run, depth.min(10), 4) };
        let n = run.one_of(&[8, 8, 8, 9, 7, 0]);
        let room = run.one_of(&[0, 1, 8, 4096]);
        let d = [run.one_of(&[0, 1, -1, i32::MIN]), run.one_of(&[0, 1, -2]), run.one_of(&[0, 2, i32::MAX])];
        whole(run, n, room, depth, &list, d);
        let s = run.one_of(&[0, 1, 3, 9, 10, 10, 11, u32::MAX]);
        let m = [coordinate(run, s), coordinate(run, s), coordinate(run, s)];
        metres(run, n, room, depth, &list, m, s);
        metres(run, n, room, depth, &[], m, s);
    }
    // over and back by so many halves of a voxel
    for _ in 0..run.cases {
        let depth = run.one_of(&[1, 2, 3, 4, 10, 10]);
        let most = run.one_of(&[1, 2, 8]);
        let list = movable(run, depth, most);
        let s = run.below(11) as u32;
        let far = run.one_of(&[2, 4, 64]);
        let m = [0; 3].map(|_: u32| (run.below(2 * far + 1) as f64 - far as f64) / (2u64 << s) as f64);
        over_and_back(run, depth, &list, m, s);
    }
}

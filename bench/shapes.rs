//! Lists of 16,384 leaves at depth 10, of five shapes, each twice: as it is and displaced; voxels to look up in each; a million cells, each with a direction; and
//! bits of two shapes at depth 6.
use crate::plain;

pub const DEPTH: u32 = 10;
pub const LEAVES: usize = 16_384;

/// The greatest depth of the plain engine.
pub const BITS_DEPTH: u32 = 6;

pub struct Shape {
    pub name: &'static str,
    pub first: Vec<u32>,
    pub second: Vec<u32>,
}

#[derive(Clone, Copy, PartialEq)]
enum Tone {
    White,
    Black,
    Mixed,
}

/// The cube of coordinates `from` up to `from + side` along each axis.
struct Cube {
    from: [i64; 3],
    side: i64,
}

impl Cube {
    /// The least and the greatest coordinate along an axis.
    fn range(&self, axis: usize) -> (i64, i64) {
        (self.from[axis], self.from[axis] + self.side - 1)
    }
}

fn tone(all: bool, some: bool) -> Tone {
    match (all, some) {
        (true, _) => Tone::Black,
        (_, true) => Tone::Mixed,
        _ => Tone::White,
    }
}

/// A pit with staircase walls: eight voxels in for eight down.
fn pit(c: &Cube) -> Tone {
    let (low, high) = c.range(2);
    let inside = |lo: i64, hi: i64, z: i64| {
        let k = (999 - z) / 8 * 8;
        (60 + k <= lo && hi < 700 - k, 60 + k <= hi && lo < 700 - k)
    };
    let (x, y) = (c.range(0), c.range(1));
    let all = high < 1000 && inside(x.0, x.1, low).0 && inside(y.0, y.1, low).0;
    let top = high.min(999);
    let some = low < 1000 && inside(x.0, x.1, top).1 && inside(y.0, y.1, top).1;
    tone(all, some)
}

fn sphere(c: &Cube) -> Tone {
    let mut least = 0;
    let mut most = 0;
    for axis in 0..3 {
        let (lo, hi) = c.range(axis);
        let (a, b) = ((lo - 480).abs(), (hi - 480).abs());
        most += a.max(b).pow(2);
        if !(lo <= 480 && 480 <= hi) {
            least += a.min(b).pow(2);
        }
    }
    tone(most <= 120 * 120, least <= 120 * 120)
}

/// A trench along the diagonal.
fn trench(c: &Cube) -> Tone {
    let (x, y, z) = (c.range(0), c.range(1), c.range(2));
    let (lo, hi) = (x.0 - y.1, x.1 - y.0);
    let all = -12 <= lo && hi <= 12 && 980 <= z.0 && z.1 < 1000;
    let some = -12 <= hi && lo <= 12 && 980 <= z.1 && z.0 < 1000;
    tone(all, some)
}

/// The leaves of a shape displaced by d, the first of them.
fn leaves(shape: fn(&Cube) -> Tone, d: [i64; 3]) -> Vec<u32> {
    fn below(shape: fn(&Cube) -> Tone, d: [i64; 3], code: u32, from: [i64; 3], side: i64, out: &mut Vec<u32>) {
        if out.len() == LEAVES {
            return;
        }
        let cube = Cube { from: [from[0] - d[0], from[1] - d[1], from[2] - d[2]], side };
        match shape(&cube) {
            Tone::White => {}
            Tone::Black => out.push(code),
            Tone::Mixed => {
                for label in 0..8u32 {
                    let half = side / 2;
                    let at = |axis: usize| from[axis] + (label >> axis & 1) as i64 * half;
                    below(shape, d, code * 8 + label, [at(0), at(1), at(2)], half, out);
                }
            }
        }
    }
    let mut out = Vec::new();
    below(shape, d, 1, [0; 3], 1 << DEPTH, &mut out);
    assert_eq!(out.len(), LEAVES, "the shape is too small");
    out
}

/// The code of a voxel.
fn voxel(at: [u32; 3]) -> u32 {
    (0..DEPTH).rev().fold(1, |code, bit| code * 8 + (0..3).map(|axis| (at[axis] >> bit & 1) << axis).sum::<u32>())
}

fn voxels(mut codes: Vec<u32>) -> Vec<u32> {
    codes.sort();
    codes.dedup();
    codes.truncate(LEAVES);
    assert_eq!(codes.len(), LEAVES);
    codes
}

/// A surface one voxel thick over 128 x 128 columns.
fn surface(d: [u32; 3]) -> Vec<u32> {
    let column = |i: u32| {
        let (x, y) = (i % 128, i / 128);
        voxel([200 + x + d[0], 300 + y + d[1], 500 + (x * x / 97 + y * 3 / 7) % 40 + d[2]])
    };
    voxels((0..LEAVES as u32).map(column).collect())
}

/// The next random number of 31 bits.
fn next(state: &mut u64) -> u32 {
    *state = state.wrapping_mul(6364136223846793005).wrapping_add(1442695040888963407);
    (*state >> 33) as u32
}

/// Voxels at random; every other one is the same in both lists.
fn scatter(seed: u64) -> Vec<u32> {
    let mut state = [seed, 77];
    let mut coordinate = |k: usize| next(&mut state[k]) % 700;
    let codes = (0..LEAVES + 200).map(|i| voxel([coordinate(i % 2), coordinate(i % 2), coordinate(i % 2)])).collect();
    voxels(codes)
}

/// A cell, and a direction of the 26.
pub struct Step {
    pub code: u32,
    pub d: [i32; 3],
}

/// A million cells at random, of every level, each with a direction.
pub fn steps() -> Vec<Step> {
    let mut state = 5;
    let mut one = || {
        let level = next(&mut state) % (DEPTH + 1);
        let code = (0..level).fold(1, |code, _| code * 8 + next(&mut state) % 8);
        // 13 of 27 is no step
        let n = (14 + next(&mut state) % 26) % 27;
        Step { code, d: [1, 3, 9].map(|weight| (n / weight % 3) as i32 - 1) }
    };
    (0..1_000_000).map(|_| one()).collect()
}

/// Ten thousand voxels to look up in a list: by turns in the root, and in one of its leaves or beside it.
pub fn sought(list: &[u32]) -> Vec<[u32; 3]> {
    let mut state = 6;
    let one = |i: usize| {
        let code = if i % 2 == 0 { 1 } else { list[next(&mut state) as usize % list.len()] };
        let side = 1 << (DEPTH - (31 - code.leading_zeros()) / 3);
        [0, 1, 2].map(|axis| {
            let from = plain::coordinate(DEPTH, plain::start(DEPTH, code), axis) - 1;
            (from + next(&mut state) as i64 % (side + 2)).clamp(0, (1 << DEPTH) - 1) as u32
        })
    };
    (0..10_000).map(one).collect()
}

pub fn all() -> Vec<Shape> {
    let moved = |name, shape: fn(&Cube) -> Tone| Shape { name, first: leaves(shape, [0; 3]), second: leaves(shape, [5, 3, 2]) };
    vec![
        moved("pit", pit),
        moved("sphere", sphere),
        moved("trench", trench),
        Shape { name: "scatter", first: scatter(1), second: scatter(2) },
        Shape { name: "surface", first: surface([0; 3]), second: surface([5, 3, 0]) },
    ]
}

/// One bit a voxel, twice.
pub struct Bits {
    pub name: &'static str,
    pub first: Vec<u8>,
    pub second: Vec<u8>,
}

/// The bits of the voxels that are black, by their coordinates.
fn bits(mut black: impl FnMut([i64; 3]) -> bool) -> Vec<u8> {
    let voxel = |v| [0, 1, 2].map(|axis| plain::coordinate(BITS_DEPTH, v, axis));
    (0..1 << (3 * BITS_DEPTH - 3)).map(|byte| (0..8).map(|bit| (black(voxel(8 * byte + bit)) as u8) << bit).sum()).collect()
}

/// A sphere, as it is and displaced; and an eighth of the voxels at random, none on the three last faces, so that a move by one is accepted.
pub fn all_bits() -> Vec<Bits> {
    let sphere = |middle: i64| bits(|at| at.iter().map(|x| (x - middle).pow(2)).sum::<i64>() <= 20 * 20);
    let scatter = |mut seed: u64| bits(|at| next(&mut seed) % 8 == 0 && at.iter().all(|x| *x < 63));
    vec![
        Bits { name: "sphere of bits", first: sphere(28), second: sphere(33) },
        Bits { name: "scatter of bits", first: scatter(3), second: scatter(4) },
    ]
}

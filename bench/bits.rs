//! One bit a voxel in plain Rust: each job is one loop over the voxels in the order of their numbers, the lowest bit of a byte first. The same refusals in the same
//! order, testing before writing.
use crate::plain::{coordinate, interleaved, refused, start, told, width, Answer, Emitter, Op};

/// The number of voxels, and the bytes of their bits.
fn size(depth: u32) -> (u32, usize) {
    let voxels = 1 << (3 * depth);
    (voxels, (voxels as usize / 8).max(1))
}

/// 1 for the depth; 8 for a bit buffer of fewer bytes.
fn short(depth: u32, lengths: &[usize]) -> Option<Answer> {
    if depth > 6 {
        return Some(told(1, 0, 0));
    }
    let need = size(depth).1;
    lengths.iter().any(|len| *len < need).then_some(told(8, need as u64, 0))
}

fn is_one(bits: &[u8], v: u32) -> bool {
    bits[v as usize / 8] >> (v % 8) & 1 == 1
}

/// The bits of the voxels that are black, and their bytes.
fn paint(depth: u32, out: &mut [u8], mut black: impl FnMut(u32) -> bool) -> Answer {
    let (voxels, need) = size(depth);
    out[..need].fill(0);
    for v in 0..voxels {
        out[v as usize / 8] |= (black(v) as u8) << (v % 8);
    }
    told(0, need as u64, 0)
}

/// Beside the voxel goes the leaf that ends after it.
pub fn from(depth: u32, list: &[u32], bits: &mut [u8]) -> Answer {
    if depth > 6 {
        return told(1, 0, 0);
    }
    if let Some(r) = refused(depth, &[list]).or_else(|| short(depth, &[bits.len()])) {
        return r;
    }
    let mut leaves = list.iter().map(|code| (start(depth, *code), start(depth, *code) + width(depth, *code)));
    let mut leaf = leaves.next();
    paint(depth, bits, |v| {
        if leaf.map_or(false, |(_, to)| to <= v) {
            leaf = leaves.next();
        }
        leaf.map_or(false, |(from, _)| from <= v)
    })
}

/// One pass: the number of leaves.
fn gather(depth: u32, bits: &[u8], out: Option<&mut [u32]>) -> usize {
    let mut e = Emitter::new(depth, out);
    for v in 0..size(depth).0 {
        if is_one(bits, v) {
            e.black(v, v + 1);
        }
    }
    e.finish()
}

pub fn to(depth: u32, bits: &[u8], out: &mut [u32]) -> Answer {
    if let Some(r) = short(depth, &[bits.len()]) {
        return r;
    }
    let need = gather(depth, bits, None);
    if out.len() < need {
        return told(8, need as u64, 0);
    }
    told(0, gather(depth, bits, Some(out)) as u64, 0)
}

pub fn set(op: Op, depth: u32, a: &[u8], b: &[u8], out: &mut [u8]) -> Answer {
    if let Some(r) = short(depth, &[a.len(), b.len(), out.len()]) {
        return r;
    }
    paint(depth, out, |v| match op {
        Op::Join => is_one(a, v) || is_one(b, v),
        Op::Meet => is_one(a, v) && is_one(b, v),
        Op::Less => is_one(a, v) && !is_one(b, v),
    })
}

/// Where a voxel goes, or none where it leaves the root.
fn displaced(depth: u32, v: u32, d: [i32; 3]) -> Option<u32> {
    let to = [0, 1, 2].map(|axis| coordinate(depth, v, axis) + d[axis as usize] as i64);
    let stays = to.iter().all(|x| (0..1 << depth).contains(x));
    stays.then(|| interleaved(depth, to.map(|x| x as u32)))
}

pub fn shift(depth: u32, bits: &[u8], d: [i32; 3], out: &mut [u8]) -> Answer {
    if let Some(r) = short(depth, &[bits.len(), out.len()]) {
        return r;
    }
    if let Some(v) = (0..size(depth).0).find(|v| is_one(bits, *v) && displaced(depth, *v, d).is_none()) {
        return told(7, v as u64, 1);
    }
    let back = d.map(|x| x.wrapping_neg());
    paint(depth, out, |v| displaced(depth, v, back).map_or(false, |u| is_one(bits, u)))
}

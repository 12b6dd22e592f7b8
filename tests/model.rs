//! Document 01 done plainly: cells as rows of labels and cubes of coordinates.
use crate::levels::Leaves;
use crate::link::{answer, Answer, Wrote};

pub const DEEPEST: u32 = 10;

/// The labels of a code, outermost first, or none where it is not proper for the depth: divided down, the code must end at the leading one bit.
pub fn labels(depth: u32, code: u32) -> Option<Vec<u32>> {
    let mut rest = code;
    let mut found = Vec::new();
    while rest > 1 {
        found.push(rest % 8);
        rest /= 8;
    }
    if rest != 1 || found.len() > depth as usize {
        return None;
    }
    found.reverse();
    Some(found)
}

/// A cell as its least corner and its level.
#[derive(Clone, Copy, PartialEq, Eq, Debug)]
pub struct Cell {
    pub corner: [u32; 3],
    pub level: u32,
}

pub fn side(depth: u32, level: u32) -> u32 {
    1 << (depth - level)
}

pub fn cell(depth: u32, code: u32) -> Option<Cell> {
    let path = labels(depth, code)?;
    let mut corner = [0; 3];
    for (i, label) in path.iter().enumerate() {
        for (axis, c) in corner.iter_mut().enumerate() {
            *c += (label >> axis & 1) * side(depth, i as u32 + 1);
        }
    }
    Some(Cell { corner, level: path.len() as u32 })
}

/// The code of a cell that lies on the grid of its level.
pub fn code(depth: u32, cell: Cell) -> u32 {
    let mut found = 1;
    for level in 1..=cell.level {
        let half = side(depth, level);
        let label: u32 = (0..3).map(|axis| (cell.corner[axis] / half % 2) << axis).sum();
        found = found * 8 + label;
    }
    found
}

pub fn place_of(depth: u32, code: u32) -> Answer {
    if depth > DEEPEST {
        return answer(1, 0, 0);
    }
    match cell(depth, code) {
        None => answer(6, 0, 0),
        Some(c) => Answer { beside: [c.corner[0] as u64, c.corner[1] as u64, c.corner[2] as u64, c.level as u64], ..answer(0, 0, 0) },
    }
}

pub fn code_of(depth: u32, corner: [u32; 3], level: u32) -> Answer {
    if depth > DEEPEST {
        return answer(1, 0, 0);
    }
    if level > depth || corner.iter().any(|x| *x >= 1 << depth || x % side(depth, level) != 0) {
        return answer(6, 0, 0);
    }
    answer(0, code(depth, Cell { corner, level }) as u64, 0)
}

pub fn neighbour_of(depth: u32, from: u32, d: [i32; 3]) -> Answer {
    if depth > DEEPEST {
        return answer(1, 0, 0);
    }
    let c = match cell(depth, from) {
        None => return answer(6, 0, 0),
        Some(c) => c,
    };
    if d.iter().any(|s| !(-1..=1).contains(s)) || d == [0; 3] {
        return answer(6, 1, 0);
    }
    let step = side(depth, c.level) as i64;
    let moved: Vec<i64> = (0..3).map(|axis| c.corner[axis] as i64 + d[axis] as i64 * step).collect();
    if moved.iter().any(|x| *x < 0 || *x >= 1 << depth) {
        return answer(7, 0, 0);
    }
    let corner = [moved[0] as u32, moved[1] as u32, moved[2] as u32];
    answer(0, code(depth, Cell { corner, level: c.level }) as u64, 0)
}

/// number x 2^32 + place, the place cut at 2^32 - 1
pub fn packed(a: Answer) -> u64 {
    (a.number << 32) + a.place.min(u32::MAX as u64)
}

// ---- lists

/// A cell's voxels as an interval of voxel numbers: start and end.
pub fn interval(depth: u32, code: u32) -> Option<(u64, u64)> {
    let path = labels(depth, code)?;
    let span = 1u64 << (3 * (depth - path.len() as u32));
    let start = path.iter().fold(0, |v, l| v * 8 + *l as u64) * span;
    Some((start, start + span))
}

/// The first fault of a list: its number and its index.
pub fn fault(depth: u32, list: &[u32]) -> Option<(u64, usize)> {
    for i in 0..list.len() {
        let (start, _) = match interval(depth, list[i]) {
            None => return Some((2, i)),
            Some(x) => x,
        };
        // the leaves before this one are proper
        if i > 0 && start < interval(depth, list[i - 1]).unwrap().1 {
            return Some((3, i));
        }
        if i >= 7 && list[i - 7] % 8 == 0 && (0..8).all(|j| list[i - 7 + j as usize] == list[i - 7] + j) {
            return Some((4, i));
        }
    }
    None
}

/// The refusals 1 to 4 of a call on lists, the first list before the second.
pub fn refusal(depth: u32, lists: &[&[u32]]) -> Option<Answer> {
    if depth > DEEPEST {
        return Some(answer(1, 0, 0));
    }
    for (k, list) in lists.iter().enumerate() {
        if let Some((number, place)) = fault(depth, list) {
            return Some(answer(number, place as u64, k as u64 + 1));
        }
    }
    None
}

/// A set of voxels as rising runs [start, end) of voxel numbers that neither overlap nor touch.
pub type Runs = Vec<(u64, u64)>;

/// The voxels of some intervals, in any order, overlapping or not.
pub fn union(mut pieces: Vec<(u64, u64)>) -> Runs {
    pieces.sort();
    let mut runs: Runs = Vec::new();
    for (start, end) in pieces {
        match runs.last_mut() {
            Some(last) if start <= last.1 => last.1 = last.1.max(end),
            _ => runs.push((start, end)),
        }
    }
    runs
}

/// The black voxels of a list of proper codes.
pub fn black(depth: u32, list: &[u32]) -> Runs {
    union(list.iter().map(|c| interval(depth, *c).unwrap()).collect())
}

pub fn has(runs: &Runs, v: u64) -> bool {
    let i = runs.partition_point(|r| r.1 <= v);
    i < runs.len() && runs[i].0 <= v
}

pub fn volume(runs: &Runs) -> u64 {
    runs.iter().map(|r| r.1 - r.0).sum()
}

/// The good list of a set of voxels, from the root down: a cell that is all black is a leaf, one that is partly black goes by its children.
pub fn good_list(depth: u32, runs: &Runs) -> Vec<u32> {
    fn below(runs: &[(u64, u64)], code: u32, start: u64, span: u64, out: &mut Vec<u32>) {
        let from = runs.partition_point(|r| r.1 <= start);
        let to = runs.partition_point(|r| r.0 < start + span);
        let met = &runs[from..to];
        if met.is_empty() {
            return;
        }
        if met[0].0 <= start && start + span <= met[0].1 {
            out.push(code);
            return;
        }
        for child in 0..8 {
            below(met, code * 8 + child, start + child as u64 * (span / 8), span / 8, out);
        }
    }
    let mut out = Vec::new();
    below(runs, 1, 0, 1 << (3 * depth), &mut out);
    out
}

pub fn check_of(depth: u32, list: &[u32]) -> Answer {
    refusal(depth, &[list]).unwrap_or(answer(0, list.len() as u64, 0))
}

pub fn volume_of(depth: u32, list: &[u32]) -> Answer {
    refusal(depth, &[list]).unwrap_or_else(|| answer(0, volume(&black(depth, list)), 0))
}

/// The voxel number of coordinates in the root: their bits by turns.
pub fn number(depth: u32, at: [u32; 3]) -> u64 {
    (0..depth).flat_map(|bit| (0..3).map(move |axis| (at[axis] as u64 >> bit & 1) << (3 * bit + axis as u32))).sum()
}

/// The coordinates of a voxel number.
pub fn voxel(depth: u32, v: u64) -> [u32; 3] {
    cell(depth, (1 << (3 * depth)) + v as u32).unwrap().corner
}

/// The colour by the runs of black voxels, the level by the leaves.
pub fn lookup_of(depth: u32, list: &[u32], at: [u32; 3]) -> Answer {
    if let Some(a) = refusal(depth, &[list]) {
        return a;
    }
    if at.iter().any(|x| *x >= 1 << depth) {
        return answer(6, 0, 0);
    }
    let black = has(&black(depth, list), number(depth, at));
    Answer { place: black as u64, ..Leaves::new(depth, list).found(at) }
}

/// The leaves met in the neighbour cell: the companion's answer, and the part as its range of indices.
pub fn met_of(depth: u32, list: &[u32], from: u32, d: [i32; 3]) -> (Answer, std::ops::Range<usize>) {
    if let Some(a) = refusal(depth, &[list]) {
        return (a, 0..0);
    }
    let a = neighbour_of(depth, from, d);
    if a.number != 0 {
        return (a, 0..0);
    }
    let (start, end) = interval(depth, a.place as u32).unwrap();
    let spans: Vec<(u64, u64)> = list.iter().map(|c| interval(depth, *c).unwrap()).collect();
    let met: Vec<usize> = (0..list.len()).filter(|i| spans[*i].0 < end && start < spans[*i].1).collect();
    let part = match met.first() {
        Some(first) => *first..*first + met.len(),
        None => {
            let before = spans.iter().filter(|s| s.0 < start).count();
            before..before
        }
    };
    (answer(0, part.start as u64, 0), part)
}

// ---- join, intersection, difference

#[derive(Clone, Copy, PartialEq, Eq, Debug)]
pub enum Op {
    Join,
    Meet,
    Less,
}

/// The voxels of both sets' runs that the operation takes: between any two ends of runs the colours do not change.
pub fn combined(op: Op, a: &Runs, b: &Runs) -> Runs {
    let mut ends: Vec<u64> = a.iter().chain(b).flat_map(|r| [r.0, r.1]).collect();
    ends.sort();
    ends.dedup();
    let takes = |v| match op {
        Op::Join => has(a, v) || has(b, v),
        Op::Meet => has(a, v) && has(b, v),
        Op::Less => has(a, v) && !has(b, v),
    };
    union(ends.windows(2).filter(|w| takes(w[0])).map(|w| (w[0], w[1])).collect())
}

/// A result for a buffer with so much room: 8 and nothing, or success and the codes or bytes.
pub fn result<T>(room: usize, needed: Vec<T>) -> (Answer, Vec<T>) {
    if needed.len() > room {
        (answer(8, needed.len() as u64, 0), Vec::new())
    } else {
        (answer(0, needed.len() as u64, 0), needed)
    }
}

/// A list, a text, or a refusal.
pub type Said<T> = Result<Vec<T>, Answer>;

/// The answer in n words for a buffer of that room, and what is written there.
pub fn told<T: Clone>(n: usize, room: usize, want: &Said<T>) -> Wrote<T> {
    if n < 8 {
        return Ok((None, Vec::new()));
    }
    let (answer, written) = match want {
        Ok(needed) => result(room, needed.clone()),
        Err(refused) => (*refused, Vec::new()),
    };
    Ok((Some(answer), written))
}

pub fn set_of(op: Op, depth: u32, a: &[u32], b: &[u32], room: usize) -> (Answer, Vec<u32>) {
    if let Some(refused) = refusal(depth, &[a, b]) {
        return (refused, Vec::new());
    }
    result(room, good_list(depth, &combined(op, &black(depth, a), &black(depth, b))))
}

// ---- moves

/// The cell's displaced voxels as intervals, or none where one leaves the root. A cell moved by a multiple of its side is a cell; any other goes by its children.
fn displaced(depth: u32, c: Cell, d: [i64; 3], out: &mut Vec<(u64, u64)>) {
    let s = side(depth, c.level) as i64;
    if d.iter().all(|x| x % s == 0) {
        let to: Vec<u32> = (0..3).map(|i| (c.corner[i] as i64 + d[i]) as u32).collect();
        let corner = [to[0], to[1], to[2]];
        out.push(interval(depth, code(depth, Cell { corner, level: c.level })).unwrap());
        return;
    }
    for label in 0..8u32 {
        let mut corner = c.corner;
        for (axis, x) in corner.iter_mut().enumerate() {
            *x += (label >> axis & 1) * side(depth, c.level + 1);
        }
        displaced(depth, Cell { corner, level: c.level + 1 }, d, out);
    }
}

/// A move by whole voxels of a good list.
pub fn shift_of(depth: u32, list: &[u32], d: [i64; 3], room: usize) -> (Answer, Vec<u32>) {
    let root = 1i64 << depth;
    let mut pieces = Vec::new();
    for (i, c) in list.iter().enumerate() {
        let leaf = cell(depth, *c).unwrap();
        let s = side(depth, leaf.level) as i64;
        let stays = (0..3).all(|a| leaf.corner[a] as i64 + d[a] >= 0 && leaf.corner[a] as i64 + s + d[a] <= root);
        if !stays {
            return (answer(7, i as u64, 1), Vec::new());
        }
    }
    for c in list {
        displaced(depth, cell(depth, *c).unwrap(), d, &mut pieces);
    }
    result(room, good_list(depth, &union(pieces)))
}

pub fn move_of(depth: u32, list: &[u32], d: [i32; 3], room: usize) -> (Answer, Vec<u32>) {
    if let Some(refused) = refusal(depth, &[list]) {
        return (refused, Vec::new());
    }
    shift_of(depth, list, [d[0] as i64, d[1] as i64, d[2] as i64], room)
}

/// The whole number nearest to d x 2^s, a half going away from zero, over the exact value of d, taken from the bits of the float; none outside signed 32 bits.
pub fn nearest(d: f64, s: u32) -> Option<i32> {
    let bits = d.to_bits();
    let exponent = (bits >> 52 & 0x7ff) as i32;
    let fraction = bits & ((1 << 52) - 1);
    if exponent == 0x7ff {
        return None;
    }
    // the size of d x 2^s is mantissa x 2^power
    let (mantissa, power) = if exponent == 0 { (fraction, -1074) } else { (fraction | 1 << 52, exponent - 1075) };
    let power = power + s as i32;
    let size: u128 = if power > 60 {
        return None;
    } else if power >= 0 {
        (mantissa as u128) << power
    } else if power < -60 {
        0
    } else {
        // the whole voxels, and one more where the rest is at least a half
        let rest = mantissa & ((1u64 << -power) - 1);
        (mantissa >> -power) as u128 + (rest >= 1u64 << (-power - 1)) as u128
    };
    let n = if bits >> 63 == 1 { -(size as i128) } else { size as i128 };
    i32::try_from(n).ok()
}

/// A move in metres as whole voxels, or its refusal.
pub fn whole(d: [f64; 3], s: u32) -> Result<[i32; 3], Answer> {
    if s > 10 {
        return Err(answer(5, 3, 0));
    }
    let mut whole = [0; 3];
    for axis in 0..3 {
        whole[axis] = nearest(d[axis], s).ok_or(answer(5, axis as u64, 0))?;
    }
    Ok(whole)
}

pub fn metres_of(depth: u32, list: &[u32], d: [f64; 3], s: u32, room: usize) -> (Answer, Vec<u32>) {
    if let Some(refused) = refusal(depth, &[list]) {
        return (refused, Vec::new());
    }
    match whole(d, s) {
        Err(refused) => (refused, Vec::new()),
        Ok(d) => shift_of(depth, list, d.map(i64::from), room),
    }
}

// ---- stored blocks

/// The two sums over the words 0 to 125 of a block.
pub fn sums(words: &[u32]) -> [u32; 2] {
    words[..126].iter().fold([1, 0], |[a, b], w| {
        let a = (a as u64 + *w as u64) as u32;
        [a, (b as u64 + a as u64) as u32]
    })
}

/// The words of a file: a row of 128 for each block.
pub fn file_words(depth: u32, list: &[u32]) -> Vec<Vec<u32>> {
    let parts: Vec<&[u32]> = if list.is_empty() { vec![&[]] } else { list.chunks(122).collect() };
    let n = parts.len() as u32;
    let block = |(i, codes): (usize, &&[u32])| {
        let mut words = vec![i as u32, n, depth, codes.len() as u32];
        words.extend_from_slice(codes);
        words.resize(126, 0);
        let check = sums(&words);
        words.extend_from_slice(&check);
        words
    };
    parts.iter().enumerate().map(block).collect()
}

pub fn bytes_of(blocks: &[Vec<u32>]) -> Vec<u8> {
    blocks.iter().flatten().flat_map(|w| w.to_le_bytes()).collect()
}

/// The blocks of a file, or the place that number 9 names.
pub fn sound_blocks(bytes: &[u8]) -> Result<Vec<Vec<u32>>, u64> {
    let n = bytes.len() / 512;
    if n == 0 || bytes.len() % 512 != 0 {
        return Err(n as u64);
    }
    let word = |b: &[u8]| b.iter().rev().fold(0u32, |x, y| x << 8 | *y as u32);
    let blocks: Vec<Vec<u32>> = bytes.chunks(512).map(|b| b.chunks(4).map(word).collect()).collect();
    for (i, b) in blocks.iter().enumerate() {
        let k = b[3] as usize;
        let counts = if i + 1 < n { 122..=122 } else { (n > 1) as usize..=122 };
        let right = b[0] as usize == i
            && b[1] as usize == n
            && b[2] <= DEEPEST
            && b[2] == blocks[0][2]
            && counts.contains(&k)
            && b[4 + k..126].iter().all(|w| *w == 0)
            && b[126..] == sums(b);
        if !right {
            return Err(i as u64);
        }
    }
    Ok(blocks)
}

/// The depth and the list that sound blocks hold.
pub fn stored_list(blocks: &[Vec<u32>]) -> (u32, Vec<u32>) {
    (blocks[0][2], blocks.iter().flat_map(|b| b[4..4 + b[3] as usize].to_vec()).collect())
}

pub fn block_check_of(bytes: &[u8]) -> Answer {
    match sound_blocks(bytes) {
        Err(place) => answer(9, place, 0),
        Ok(blocks) => answer(0, stored_list(&blocks).1.len() as u64, 0),
    }
}

pub fn stored_volume_of(bytes: &[u8]) -> Answer {
    match sound_blocks(bytes) {
        Err(place) => answer(9, place, 0),
        Ok(blocks) => {
            let (depth, list) = stored_list(&blocks);
            volume_of(depth, &list)
        }
    }
}

pub fn read_of(bytes: &[u8], room: usize) -> (Answer, Vec<u32>) {
    let blocks = match sound_blocks(bytes) {
        Err(place) => return (answer(9, place, 0), Vec::new()),
        Ok(blocks) => blocks,
    };
    let (depth, list) = stored_list(&blocks);
    if let Some(refused) = refusal(depth, &[&list]) {
        return (refused, Vec::new());
    }
    let (mut told, codes) = result(room, list);
    if told.number == 0 {
        told.beside[0] = depth as u64;
    }
    (told, codes)
}

pub fn write_of(depth: u32, list: &[u32], room: usize) -> (Answer, Vec<u8>) {
    if let Some(refused) = refusal(depth, &[list]) {
        return (refused, Vec::new());
    }
    result(room, bytes_of(&file_words(depth, list)))
}

// ---- the text of a listing

/// The listing of a good list: the first line, then a path a line.
pub fn listing(depth: u32, list: &[u32]) -> String {
    let mut text = format!("depth {} leaves {} volume {}\n", depth, list.len(), volume(&black(depth, list)));
    for code in list {
        let path: String = labels(depth, *code).unwrap().iter().map(|l| l.to_string()).collect();
        text += &format!("r{path}\n");
    }
    text
}

/// The line of a refusal.
pub fn refused_line(number: u64, place: u64) -> String {
    format!("refused {number} {place}\n")
}

pub fn list_text_of(depth: u32, list: &[u32], room: usize) -> (Answer, Vec<u8>) {
    if let Some(refused) = refusal(depth, &[list]) {
        return (refused, Vec::new());
    }
    result(room, listing(depth, list).into_bytes())
}

pub fn refused_text_of(number: u32, place: u64, room: usize) -> (Answer, Vec<u8>) {
    result(room, refused_line(number as u64, place).into_bytes())
}

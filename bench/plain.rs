//! The same jobs in plain Rust: the same refusals in the same order, counting before writing, nothing written beyond the result.

#[derive(Clone, Copy, PartialEq, Eq, Debug)]
pub struct Answer {
    pub number: u32,
    pub place: u64,
    pub list: u32,
}

pub fn told(number: u32, place: u64, list: u32) -> Answer {
    Answer { number, place, list }
}

fn proper(depth: u32, code: u32) -> bool {
    let zeros = code.leading_zeros();
    zeros < 32 && (31 - zeros) % 3 == 0 && (31 - zeros) / 3 <= depth
}

pub fn width(depth: u32, code: u32) -> u32 {
    1 << (3 * depth + code.leading_zeros() - 31)
}

pub fn start(depth: u32, code: u32) -> u32 {
    code * width(depth, code) - (1 << (3 * depth))
}

/// One step along the axis whose bits the mask has; none where it leaves the root.
fn step(mask: u32, code: u32, d: i32) -> Option<u32> {
    let (one, border) = match d {
        0 => return Some(code),
        1 => (1, mask),
        _ => (mask, 0),
    };
    let sum = (code | !mask).wrapping_add(one);
    (code & mask != border).then_some(sum & mask | code & !mask)
}

/// Called as the archive's is, not put in the loop's place.
#[inline(never)]
pub fn neighbour(depth: u32, code: u32, d: [i32; 3]) -> Answer {
    if depth > 10 {
        return told(1, 0, 0);
    }
    if !proper(depth, code) {
        return told(6, 0, 0);
    }
    if d == [0; 3] || d.iter().any(|z| !(-1..=1).contains(z)) {
        return told(6, 1, 0);
    }
    let ones = ((1 << (31 - code.leading_zeros())) - 1) / 7;
    let there = (0..3).try_fold(code, |at, axis| step(ones << axis, at, d[axis]));
    there.map_or(told(7, 0, 0), |m| told(0, m as u64, 0))
}

/// The first fault, or the number of voxels.
fn judged(depth: u32, codes: impl Iterator<Item = u32>) -> Result<u32, (u32, u64)> {
    let (mut last, mut past, mut run, mut sum) = (0, 0, 0, 0);
    for (i, code) in codes.enumerate() {
        if !proper(depth, code) {
            return Err((2, i as u64));
        }
        let from = start(depth, code);
        if from < past {
            return Err((3, i as u64));
        }
        run = if code % 8 == 0 {
            1
        } else if run > 0 && code - 1 == last {
            run + 1
        } else {
            0
        };
        if run == 8 {
            return Err((4, i as u64));
        }
        let w = width(depth, code);
        last = code;
        past = from + w;
        sum += w;
    }
    Ok(sum)
}

pub fn refused(depth: u32, lists: &[&[u32]]) -> Option<Answer> {
    if depth > 10 {
        return Some(told(1, 0, 0));
    }
    lists.iter().enumerate().find_map(|(k, list)| judged(depth, list.iter().copied()).err().map(|(number, place)| told(number, place, k as u32 + 1)))
}

pub fn check(depth: u32, list: &[u32]) -> Answer {
    refused(depth, &[list]).unwrap_or(told(0, list.len() as u64, 0))
}

pub fn volume(depth: u32, list: &[u32]) -> Answer {
    if depth > 10 {
        return told(1, 0, 0);
    }
    match judged(depth, list.iter().copied()) {
        Err((number, place)) => told(number, place, 1),
        Ok(sum) => told(0, sum as u64, 0),
    }
}

/// What a lookup tells: the answer, and the level beside it.
#[derive(Clone, Copy, PartialEq, Eq, Debug)]
pub struct Finding {
    pub answer: Answer,
    pub level: u32,
}

/// How many labels of two voxel numbers come after the first that differs.
fn part_at(a: u32, b: u32) -> u32 {
    (31 - (a ^ b).leading_zeros()) / 3
}

/// The colour of voxel v of a good list, and the level of its cell: the leaf that holds it, or the largest cell that has neither the last voxel of the leaf before
/// it nor the first of the leaf after it.
fn found(depth: u32, list: &[u32], v: u32) -> (bool, u32) {
    let after = list.partition_point(|code| start(depth, *code) <= v);
    let mut levels = depth;
    if after > 0 {
        let code = list[after - 1];
        let last = start(depth, code) + width(depth, code) - 1;
        if v <= last {
            return (true, (31 - code.leading_zeros()) / 3);
        }
        levels = part_at(v, last);
    }
    if let Some(code) = list.get(after) {
        levels = levels.min(part_at(v, start(depth, *code)));
    }
    (false, depth - levels)
}

/// Called as the archive's is, not put in the loop's place.
#[inline(never)]
pub fn lookup(depth: u32, list: &[u32], at: [u32; 3]) -> Finding {
    if let Some(answer) = refused(depth, &[list]) {
        return Finding { answer, level: 0 };
    }
    if at.iter().any(|x| *x >= 1 << depth) {
        return Finding { answer: told(6, 0, 0), level: 0 };
    }
    let (black, level) = found(depth, list, interleaved(depth, at));
    Finding { answer: told(0, black as u64, 0), level }
}

/// The pending black run, and the codes written before it.
pub struct Emitter<'a> {
    depth: u32,
    from: u32,
    to: u32,
    at: usize,
    out: Option<&'a mut [u32]>,
}

impl<'a> Emitter<'a> {
    pub fn new(depth: u32, out: Option<&'a mut [u32]>) -> Emitter<'a> {
        Emitter { depth, from: 0, to: 0, at: 0, out }
    }

    fn flush(&mut self) {
        let mut p = self.from;
        while p < self.to {
            let mut w = 1;
            while w <= (self.to - p) / 8 && p % (w * 8) == 0 {
                w *= 8;
            }
            if let Some(out) = &mut self.out {
                out[self.at] = ((1 << (3 * self.depth)) + p) / w;
            }
            self.at += 1;
            p += w;
        }
    }

    pub fn black(&mut self, from: u32, to: u32) {
        if self.to != from {
            self.flush();
            self.from = from;
        }
        self.to = to;
    }

    pub fn finish(mut self) -> usize {
        self.flush();
        self.at
    }
}

#[derive(Clone, Copy)]
pub enum Op {
    Join,
    Meet,
    Less,
}

struct Cursor<'a> {
    depth: u32,
    list: &'a [u32],
    at: usize,
    from: u32,
    to: u32,
}

impl Cursor<'_> {
    fn load(&mut self) {
        match self.list.get(self.at) {
            None => {
                self.from = 1 << (3 * self.depth);
                self.to = self.from;
            }
            Some(&code) => {
                self.from = start(self.depth, code);
                self.to = self.from + width(self.depth, code);
            }
        }
    }

    fn pass(&mut self, next: u32) {
        if self.to <= next {
            self.at += 1;
            self.load();
        }
    }
}

fn sweep(op: Op, depth: u32, a: &[u32], b: &[u32], out: Option<&mut [u32]>) -> usize {
    let full = 1 << (3 * depth);
    let mut e = Emitter::new(depth, out);
    let mut x = Cursor { depth, list: a, at: 0, from: 0, to: 0 };
    let mut y = Cursor { depth, list: b, at: 0, from: 0, to: 0 };
    x.load();
    y.load();
    let mut v = x.from.min(y.from);
    while v < full {
        let (p, q) = (x.from <= v, y.from <= v);
        let next = (if p { x.to } else { x.from }).min(if q { y.to } else { y.from });
        let black = match op {
            Op::Join => p || q,
            Op::Meet => p && q,
            Op::Less => p && !q,
        };
        if black {
            e.black(v, next);
        }
        x.pass(next);
        y.pass(next);
        v = next.max(x.from.min(y.from));
    }
    e.finish()
}

pub fn set(op: Op, depth: u32, a: &[u32], b: &[u32], out: &mut [u32]) -> Answer {
    if let Some(r) = refused(depth, &[a, b]) {
        return r;
    }
    let need = sweep(op, depth, a, b, None);
    if out.len() < need {
        return told(8, need as u64, 0);
    }
    told(0, sweep(op, depth, a, b, Some(out)) as u64, 0)
}

// ---- the index ranges of cells: which leaves of a good list meet a cell with k levels left

type Slot = (u32, u32);

type Slots = [Slot; 8];

struct Leaves<'a> {
    depth: u32,
    list: &'a [u32],
}

impl Leaves<'_> {
    fn all(&self) -> Slot {
        (0, self.list.len() as u32)
    }

    /// Whether the leaf at place i is smaller than a cell with k levels left.
    fn smaller(&self, k: u32, i: u32) -> bool {
        width(self.depth, self.list[i as usize]) < 1 << (3 * k)
    }

    fn first_from(&self, v: u32, lo: u32, hi: u32) -> u32 {
        lo + self.list[lo as usize..hi as usize].partition_point(|c| start(self.depth, *c) < v) as u32
    }

    /// The ranges of a cell's eight children, k levels left under each. Inlined in each descent: a call costs a move 5 %.
    #[inline(always)]
    fn split(&self, k: u32, (lo, hi): Slot) -> Slots {
        if lo == hi || !self.smaller(k + 1, lo) {
            return [(lo, hi); 8];
        }
        let mut v = start(self.depth, self.list[lo as usize]) >> (3 * k + 3) << (3 * k + 3);
        let mut parts = [(0, 0); 8];
        let mut i = lo;
        for part in &mut parts {
            v += 1 << (3 * k);
            let e = self.first_from(v, i, hi);
            *part = (i, e);
            i = e;
        }
        parts
    }
}

// ---- moves: descent through target cells, each with the index ranges of its up to eight source cells

struct Move<'a> {
    leaves: Leaves<'a>,
    /// The labels that each target path is added to, to give its source.
    shift: u32,
    /// The axes that can carry below each level.
    need: [u32; 12],
    visited: u64,
}

impl Move<'_> {
    /// Whether all needed slots are white, or all black.
    fn colour(&self, k: u32, f: u32, slots: &Slots) -> Option<bool> {
        let mut found = None;
        for q in 0..8 {
            if q & !f != 0 {
                continue;
            }
            let (lo, hi) = slots[q as usize];
            let black = lo < hi;
            if black && self.leaves.smaller(k, lo) || found == Some(!black) {
                return None;
            }
            found = Some(black);
        }
        found
    }

    fn copy(&self, k: u32, (lo, hi): Slot, from: u32, e: &mut Emitter) {
        if lo == hi {
            return;
        }
        if !self.leaves.smaller(k, lo) {
            e.black(from, from + (1 << (3 * k)));
            return;
        }
        let Leaves { depth, list } = self.leaves;
        let base = start(depth, list[lo as usize]) >> (3 * k) << (3 * k);
        for &code in &list[lo as usize..hi as usize] {
            let v = from + (start(depth, code) - base);
            e.black(v, v + width(depth, code));
        }
    }

    fn descend(&mut self, k: u32, from: u32, slots: &Slots, e: &mut Emitter) {
        self.visited += 1;
        let f = self.need[k as usize];
        if f == 0 {
            self.copy(k, slots[0], from, e);
            return;
        }
        match self.colour(k, f, slots) {
            Some(false) => {}
            Some(true) => e.black(from, from + (1 << (3 * k))),
            None => {
                let mut parts = [[(0, 0); 8]; 8];
                for q in 0..8u32 {
                    if q & !f == 0 {
                        parts[q as usize] = self.leaves.split(k - 1, slots[q as usize]);
                    }
                }
                let h = self.shift >> (3 * (k - 1)) & 7;
                for m in 0..8u32 {
                    let mut child = [(0, 0); 8];
                    for q in 0..8u32 {
                        let carry = h & m | h & q | m & q;
                        child[q as usize] = parts[carry as usize][(h ^ m ^ q) as usize];
                    }
                    self.descend(k - 1, from + (m << (3 * (k - 1))), &child, e);
                }
            }
        }
    }
}

pub fn interleaved(depth: u32, at: [u32; 3]) -> u32 {
    (0..depth).map(|bit| (0..3).map(|axis| (at[axis] >> bit & 1) << (3 * bit + axis as u32)).sum::<u32>()).sum()
}

pub fn coordinate(depth: u32, v: u32, axis: u32) -> i64 {
    (0..depth).map(|bit| ((v >> (3 * bit + axis) & 1) << bit) as i64).sum()
}

/// One pass: the number of leaves, and the target cells visited.
pub fn displaced(depth: u32, list: &[u32], d: [i32; 3], out: Option<&mut [u32]>) -> (usize, u64) {
    let mask = (1u32 << depth) - 1;
    let back = |axis: usize| 0u32.wrapping_sub(d[axis] as u32) & mask;
    let shift = interleaved(depth, [back(0), back(1), back(2)]);
    let mut need = [0; 12];
    for k in 0..depth as usize {
        need[k + 1] = need[k] | shift >> (3 * k) & 7;
    }
    let mut m = Move { leaves: Leaves { depth, list }, shift, need, visited: 0 };
    let mut e = Emitter::new(depth, out);
    m.descend(depth, 0, &[m.leaves.all(); 8], &mut e);
    let visited = m.visited;
    (e.finish(), visited)
}

pub fn shift(depth: u32, list: &[u32], d: [i32; 3], out: &mut [u32]) -> Answer {
    if let Some(r) = refused(depth, &[list]) {
        return r;
    }
    for (i, &code) in list.iter().enumerate() {
        let v = start(depth, code);
        let side = 1i64 << ((3 * depth + code.leading_zeros() - 31) / 3);
        for axis in 0..3 {
            let x = coordinate(depth, v, axis as u32) + d[axis] as i64;
            if x < 0 || x + side > 1 << depth {
                return told(7, i as u64, 1);
            }
        }
    }
    let need = displaced(depth, list, d, None).0;
    if out.len() < need {
        return told(8, need as u64, 0);
    }
    told(0, displaced(depth, list, d, Some(out)).0 as u64, 0)
}

// ---- quarter turns: descent through target cells, each with the index range of its one source cell

struct Turn<'a> {
    leaves: Leaves<'a>,
    /// The label that each label comes from.
    source: [usize; 8],
    at: usize,
    out: &'a mut [u32],
}

impl Turn<'_> {
    /// A turned leaf is a leaf, so that each is written where the descent meets it.
    fn cell(&mut self, k: u32, code: u32, (lo, hi): Slot) {
        if lo == hi {
            return;
        }
        if !self.leaves.smaller(k, lo) {
            self.out[self.at] = code;
            self.at += 1;
            return;
        }
        let parts = self.leaves.split(k - 1, (lo, hi));
        for m in 0..8 {
            self.cell(k - 1, 8 * code + m as u32, parts[self.source[m]]);
        }
    }
}

/// The label that one turn takes to m: its x is the y of m, its y is not the x of m.
fn before_turn(m: usize) -> usize {
    m >> 1 & 1 | (!m & 1) << 1 | m & 4
}

/// The number of leaves stays, so that nothing is counted before it is written.
pub fn turn(depth: u32, list: &[u32], turns: u32, out: &mut [u32]) -> Answer {
    if let Some(r) = refused(depth, &[list]) {
        return r;
    }
    if turns > 3 {
        return told(6, 1, 0);
    }
    if out.len() < list.len() {
        return told(8, list.len() as u64, 0);
    }
    let source = [0, 1, 2, 3, 4, 5, 6, 7].map(|m| (0..turns).fold(m, |m, _| before_turn(m)));
    let mut t = Turn { leaves: Leaves { depth, list }, source, at: 0, out };
    t.cell(depth, 1, t.leaves.all());
    told(0, t.at as u64, 0)
}

// ---- stored blocks

pub fn write(depth: u32, list: &[u32], bytes: &mut [u8]) -> Answer {
    if let Some(r) = refused(depth, &[list]) {
        return r;
    }
    let n = ((list.len() + 121) / 122).max(1);
    if bytes.len() < 512 * n {
        return told(8, 512 * n as u64, 0);
    }
    for i in 0..n {
        let codes = &list[(122 * i).min(list.len())..(122 * i + 122).min(list.len())];
        let (mut a, mut b) = (1u32, 0u32);
        let block = &mut bytes[512 * i..512 * i + 512];
        let mut put = |w: usize, x: u32| block[4 * w..4 * w + 4].copy_from_slice(&x.to_le_bytes());
        for w in 0..126 {
            let x = match w {
                0 => i as u32,
                1 => n as u32,
                2 => depth,
                3 => codes.len() as u32,
                _ => codes.get(w - 4).copied().unwrap_or(0),
            };
            a = a.wrapping_add(x);
            b = b.wrapping_add(a);
            put(w, x);
        }
        put(126, a);
        put(127, b);
    }
    told(0, 512 * n as u64, 0)
}

/// The words of a block.
fn words(block: &[u8]) -> [u32; 128] {
    let mut words = [0; 128];
    for (word, b) in words.iter_mut().zip(block.chunks_exact(4)) {
        *word = u32::from_le_bytes([b[0], b[1], b[2], b[3]]);
    }
    words
}

fn sound(words: &[u32; 128], i: usize, n: usize, depth: u32) -> bool {
    let k = words[3] as usize;
    let right = if i + 1 < n { k == 122 } else { k <= 122 && (k > 0 || n == 1) };
    if words[0] as usize != i || words[1] as usize != n || words[2] > 10 || words[2] != depth || !right {
        return false;
    }
    let (mut a, mut b) = (1u32, 0u32);
    for w in &words[..126] {
        a = a.wrapping_add(*w);
        b = b.wrapping_add(a);
    }
    words[4 + k..126].iter().all(|w| *w == 0) && words[126] == a && words[127] == b
}

/// The codes of a sound file, block by block.
fn codes(bytes: &[u8]) -> impl Iterator<Item = u32> + '_ {
    bytes.chunks_exact(512).flat_map(|block| {
        let words = words(block);
        (0..words[3] as usize).map(move |j| words[4 + j])
    })
}

pub fn read(bytes: &[u8], out: &mut [u32]) -> (Answer, u32) {
    let n = bytes.len() / 512;
    if n == 0 || bytes.len() % 512 != 0 {
        return (told(9, n as u64, 0), 0);
    }
    let depth = words(bytes)[2];
    if let Some(i) = bytes.chunks_exact(512).enumerate().position(|(i, block)| !sound(&words(block), i, n, depth)) {
        return (told(9, i as u64, 0), 0);
    }
    let k = 122 * (n - 1) + words(&bytes[512 * (n - 1)..])[3] as usize;
    // the codes are judged where they stand, before anything is written
    if let Err((number, place)) = judged(depth, codes(bytes)) {
        return (told(number, place, 1), 0);
    }
    if out.len() < k {
        return (told(8, k as u64, 0), 0);
    }
    for (place, code) in out.iter_mut().zip(codes(bytes)) {
        *place = code;
    }
    (told(0, k as u64, 0), depth)
}

// ---- DF text

/// The text written before, cell by cell.
struct Speller<'a> {
    leaves: Leaves<'a>,
    at: usize,
    bytes: Option<&'a mut [u8]>,
}

impl Speller<'_> {
    fn put(&mut self, byte: u8) {
        if let Some(bytes) = &mut self.bytes {
            bytes[self.at] = byte;
        }
        self.at += 1;
    }

    fn cell(&mut self, k: u32, (lo, hi): Slot) {
        if lo == hi {
            self.put(b'W');
        } else if !self.leaves.smaller(k, lo) {
            self.put(b'B');
        } else {
            self.put(b'(');
            for part in self.leaves.split(k - 1, (lo, hi)) {
                self.cell(k - 1, part);
            }
        }
    }
}

/// One pass: the number of bytes.
fn spelled<'a>(depth: u32, list: &'a [u32], bytes: Option<&'a mut [u8]>) -> usize {
    let mut s = Speller { leaves: Leaves { depth, list }, at: 0, bytes };
    s.cell(depth, s.leaves.all());
    s.at
}

pub fn df_write(depth: u32, list: &[u32], bytes: &mut [u8]) -> Answer {
    if let Some(r) = refused(depth, &[list]) {
        return r;
    }
    let need = spelled(depth, list, None);
    if bytes.len() < need {
        return told(8, need as u64, 0);
    }
    told(0, spelled(depth, list, Some(bytes)) as u64, 0)
}

/// The place of the next byte; the black leaves before it are the emitter's.
struct Reader<'a> {
    text: &'a [u8],
    at: usize,
    e: Emitter<'a>,
}

impl Reader<'_> {
    /// The byte that the next cell begins with, or the place of the wrong byte.
    fn cell(&mut self, k: u32, from: u32) -> Result<u8, usize> {
        let head = *self.text.get(self.at).ok_or(self.at)?;
        match head {
            b'W' => {}
            b'B' => self.e.black(from, from + (1 << (3 * k))),
            b'(' if k > 0 => return self.children(k - 1, from),
            _ => return Err(self.at),
        }
        self.at += 1;
        Ok(head)
    }

    /// Where the children are eight equal leaves, the last of them is wrong.
    fn children(&mut self, k: u32, from: u32) -> Result<u8, usize> {
        self.at += 1;
        let first = self.cell(k, from)?;
        let mut equal = first != b'(';
        for m in 1..8 {
            equal &= self.cell(k, from + (m << (3 * k)))? == first;
        }
        if equal {
            return Err(self.at - 1);
        }
        Ok(b'(')
    }
}

/// One pass: 10 with the place of the wrong byte, or the number of leaves.
fn parsed<'a>(depth: u32, text: &'a [u8], out: Option<&'a mut [u32]>) -> Answer {
    let mut r = Reader { text, at: 0, e: Emitter::new(depth, out) };
    match r.cell(depth, 0) {
        Err(place) => told(10, place as u64, 0),
        Ok(_) if r.at < text.len() => told(10, r.at as u64, 0),
        Ok(_) => told(0, r.e.finish() as u64, 0),
    }
}

pub fn df_read(depth: u32, text: &[u8], out: &mut [u32]) -> Answer {
    if depth > 10 {
        return told(1, 0, 0);
    }
    let counted = parsed(depth, text, None);
    if counted.number != 0 {
        return counted;
    }
    if (out.len() as u64) < counted.place {
        return told(8, counted.place, 0);
    }
    parsed(depth, text, Some(out))
}

//! The plain engine, one bit a voxel: ticket 5. What a call should leave is worked out voxel by voxel, over coordinates. Then the two engines stand side by side, by
//! the calls alone.
use crate::levels;
use crate::link::{self, answer, found, given, Answer, Told, Wrote};
use crate::lists;
use crate::lookups;
use crate::model::{self, told, Op, Said};
use crate::moves;
use crate::run::Run;
use crate::sets;
use std::collections::BTreeSet;

/// Depths that this engine refuses; the list engine takes two of them.
const TOO_DEEP: [u32; 4] = [7, 10, 11, u32::MAX];

/// Black voxels by their numbers.
type Voxels = BTreeSet<u64>;

/// Eight voxels to a byte, and one byte for a root of one voxel.
fn bytes(depth: u32) -> usize {
    ((1usize << (3 * depth)) / 8).max(1)
}

/// A bit for each voxel in the order of their numbers, the lowest of a byte first. No other bit is 1.
fn bits(depth: u32, black: &Voxels) -> Vec<u8> {
    let mut bits = vec![0; bytes(depth)];
    for v in black {
        bits[(v / 8) as usize] |= 1 << (v % 8);
    }
    bits
}

/// The voxels whose bit is 1. What is not a voxel's bit says nothing.
fn shown(depth: u32, bits: &[u8]) -> Voxels {
    (0..1 << (3 * depth)).filter(|v| bits[(v / 8) as usize] >> (v % 8) & 1 == 1).collect()
}

fn listed(depth: u32, list: &[u32]) -> Voxels {
    model::black(depth, list).into_iter().flat_map(|r| r.0..r.1).collect()
}

/// The good list of what the bits show.
fn list_of(depth: u32, bits: &[u8]) -> Vec<u32> {
    model::good_list(depth, &model::union(shown(depth, bits).into_iter().map(|v| (v, v + 1)).collect()))
}

/// Where each voxel goes, or the first that leaves the root.
fn displaced(depth: u32, black: &Voxels, d: [i32; 3]) -> Result<Voxels, u64> {
    let goes = |v: &u64| {
        let at = model::voxel(depth, *v);
        let to = [0, 1, 2].map(|axis| at[axis] as i64 + d[axis] as i64);
        let stays = to.iter().all(|x| (0..1 << depth).contains(x));
        stays.then(|| model::number(depth, to.map(|x| x as u32))).ok_or(*v)
    };
    black.iter().map(goes).collect()
}

/// A move in whole voxels, or in metres with the edge number.
#[derive(Clone, Copy, Debug)]
enum Way {
    Voxels([i32; 3]),
    Metres([f64; 3], u32),
}

impl Way {
    fn whole(self) -> Result<[i32; 3], Answer> {
        match self {
            Way::Voxels(d) => Ok(d),
            Way::Metres(d, s) => model::whole(d, s),
        }
    }

    fn of_bits(self, n: usize, room: usize, depth: u32, bits: &[u8]) -> Wrote<u8> {
        match self {
            Way::Voxels(d) => link::bits_shift(n, room, depth, bits, d),
            Way::Metres(d, s) => link::bits_shift_metres(n, room, depth, bits, d, s),
        }
    }

    fn of_list(self, n: usize, room: usize, depth: u32, list: &[u32]) -> Wrote<u32> {
        match self {
            Way::Voxels(d) => link::shift(n, room, depth, list, d),
            Way::Metres(d, s) => link::shift_metres(n, room, depth, list, d, s),
        }
    }
}

// ---- what each call should leave: its refusals in their order, then its result

fn not_too_deep(depth: u32) -> Result<(), Answer> {
    if depth > 6 {
        return Err(answer(1, 0, 0));
    }
    Ok(())
}

/// A bit buffer, read or written, of so many bytes.
fn long_enough(depth: u32, len: usize) -> Result<(), Answer> {
    if len < bytes(depth) {
        return Err(answer(8, bytes(depth) as u64, 0));
    }
    Ok(())
}

fn from_of(depth: u32, list: &[u32]) -> Said<u8> {
    not_too_deep(depth)?;
    model::refusal(depth, &[list]).map_or(Ok(()), Err)?;
    Ok(bits(depth, &listed(depth, list)))
}

fn to_of(depth: u32, bits: &[u8]) -> Said<u32> {
    not_too_deep(depth)?;
    long_enough(depth, bits.len())?;
    Ok(list_of(depth, bits))
}

fn set_of(op: Op, depth: u32, a: &[u8], b: &[u8]) -> Said<u8> {
    not_too_deep(depth)?;
    long_enough(depth, a.len())?;
    long_enough(depth, b.len())?;
    let (a, b) = (shown(depth, a), shown(depth, b));
    let made = match op {
        Op::Join => &a | &b,
        Op::Meet => &a & &b,
        Op::Less => &a - &b,
    };
    Ok(bits(depth, &made))
}

fn move_of(depth: u32, from: &[u8], way: Way, room: usize) -> Said<u8> {
    not_too_deep(depth)?;
    let d = way.whole()?;
    long_enough(depth, from.len())?;
    long_enough(depth, room)?;
    match displaced(depth, &shown(depth, from), d) {
        Ok(black) => Ok(bits(depth, &black)),
        Err(v) => Err(answer(7, v, 1)),
    }
}

/// Whether the voxel's bit is 1.
fn is_one(depth: u32, bits: &[u8], at: [u32; 3]) -> bool {
    let v = model::number(depth, at);
    bits[(v / 8) as usize] >> (v % 8) & 1 == 1
}

/// The level by the bits of each cell that holds the voxel.
fn lookup_of(depth: u32, bits: &[u8], at: [u32; 3]) -> Result<Answer, Answer> {
    not_too_deep(depth)?;
    if at.iter().any(|x| *x >= 1 << depth) {
        return Err(answer(6, 0, 0));
    }
    long_enough(depth, bits.len())?;
    Ok(found(is_one(depth, bits, at), levels::by_voxels(depth, at, |u| is_one(depth, bits, u))))
}

// ---- each call against that

fn from(run: &mut Run, n: usize, room: usize, depth: u32, list: &[u32]) {
    let want = told(n, room, &from_of(depth, list));
    run.same(|| format!("to bits {depth} {list:?}, room {room}, {n} words"), link::bits_from(n, room, depth, list), want);
}

fn to(run: &mut Run, n: usize, room: usize, depth: u32, bits: &[u8]) {
    let want = told(n, room, &to_of(depth, bits));
    run.same(|| format!("to a list {depth} {bits:?}, room {room}, {n} words"), link::bits_to(n, room, depth, bits), want);
}

fn set(run: &mut Run, op: Op, n: usize, room: usize, depth: u32, a: &[u8], b: &[u8]) {
    let want = told(n, room, &set_of(op, depth, a, b));
    run.same(|| format!("{op:?} of bits {depth} {a:?} {b:?}, room {room}, {n} words"), link::bits_set(op, n, room, depth, a, b), want);
}

fn moved(run: &mut Run, n: usize, room: usize, depth: u32, bits: &[u8], way: Way) {
    let want = told(n, room, &move_of(depth, bits, way, room));
    run.same(|| format!("move bits {depth} {bits:?} {way:?}, room {room}, {n} words"), way.of_bits(n, room, depth, bits), want);
}

fn lookup(run: &mut Run, n: usize, depth: u32, bits: &[u8], at: [u32; 3]) {
    let want = lookup_of(depth, bits, at).unwrap_or_else(|refused| refused);
    let want = if n < 8 { None } else { Some(want) };
    run.same(|| format!("look up in bits {depth} {bits:?} {at:?}, {n} words"), link::bits_lookup(n, depth, bits, at), Ok(want));
}

// ---- the two engines side by side, by the calls alone

/// Some ground in both forms.
struct Ground {
    depth: u32,
    bits: Vec<u8>,
    list: Vec<u32>,
}

fn ground(depth: u32, bits: Vec<u8>) -> Ground {
    Ground { depth, list: list_of(depth, &bits), bits }
}

/// Room for every list of the depth.
fn room(depth: u32) -> usize {
    1 << (3 * depth)
}

/// A job done with the bits by the one engine and with the list by the other.
impl Ground {
    /// The plain engine's answer in the list engine's words: the list of its bits, and the leaf of the voxel that leaves.
    fn in_leaves(&self, plain: Wrote<u8>) -> Said<u32> {
        match given(plain) {
            Ok(bits) => given(link::bits_to(8, room(self.depth), self.depth, &bits)),
            Err(a) if a.number == 7 => {
                let holds = |code: &u32| model::interval(self.depth, *code).map_or(false, |(start, end)| (start..end).contains(&a.place));
                Err(Answer { place: self.list.iter().position(holds).map_or(u64::MAX, |i| i as u64), ..a })
            }
            Err(a) => Err(a),
        }
    }

    /// Bits to the list and back are the bits, the spare ones 0; the list to bits and back is the list.
    fn there_and_back(&self, run: &mut Run) {
        let Ground { depth, ref bits, ref list } = *self;
        let to_list = |bits: &[u8]| given(link::bits_to(8, room(depth), depth, bits));
        let to_bits = |list: &[u32]| given(link::bits_from(8, bytes(depth), depth, list));
        let voxels = if depth == 0 { 0x01 } else { 0xff };
        let kept = bits.iter().map(|byte| byte & voxels).collect();
        run.same(|| format!("to a list and back {depth} {bits:?}"), to_list(bits).and_then(|list| to_bits(&list)), Ok(kept));
        run.same(|| format!("to bits and back {depth} {list:?}"), to_bits(list).and_then(|bits| to_list(&bits)), Ok(list.clone()));
    }

    fn set_by_both(&self, run: &mut Run, op: Op, other: &Ground) {
        let (depth, a, b) = (self.depth, &self.list, &other.list);
        let plain = link::bits_set(op, 8, bytes(depth), depth, &self.bits, &other.bits);
        run.same(|| format!("{op:?} {depth} {a:?} {b:?} by both engines"), self.in_leaves(plain), given(link::set(op, 8, room(depth), depth, a, b)));
    }

    fn moved_by_both(&self, run: &mut Run, way: Way) {
        let Ground { depth, ref bits, ref list } = *self;
        let plain = way.of_bits(8, bytes(depth), depth, bits);
        run.same(|| format!("move {depth} {list:?} {way:?} by both engines"), self.in_leaves(plain), given(way.of_list(8, room(depth), depth, list)));
    }

    fn looked_up_by_both(&self, run: &mut Run, at: [u32; 3]) {
        let Ground { depth, ref bits, ref list } = *self;
        run.same(|| format!("look up {depth} {list:?} {at:?} by both engines"), link::bits_lookup(8, depth, bits, at), link::lookup(8, depth, list, at));
    }

    /// The planner's law in the bits. A voxel outside the root has no cell.
    fn planned(&self, run: &mut Run, at: [u32; 3]) {
        let Ground { depth, ref bits, .. } = *self;
        if at.iter().any(|x| *x >= 1 << depth) {
            return;
        }
        let look = |u| link::bits_lookup(8, depth, bits, u);
        let other = |level| levels::voxels(depth, at, level).find(|u| is_one(depth, bits, *u) != is_one(depth, bits, at));
        lookups::planned(run, || format!("look up in bits {depth} {bits:?}"), depth, at, look, other);
    }
}

// ---- answers by hand

/// Which bit is whose, and where voxels go.
fn settled(run: &mut Run) {
    fn by_hand<T: Clone + PartialEq + std::fmt::Debug>(run: &mut Run, what: &str, got: Wrote<T>, want: Said<T>) {
        run.same(|| format!("by hand, {what}"), got, told(8, usize::MAX, &want));
    }
    // r0 is voxel 0, r3 and r7 are 3 and 7
    by_hand(run, "r0 r3 r7 to bits", link::bits_from(8, 1, 1, &[8, 11, 15]), Ok(vec![0b1000_1001]));
    by_hand(run, "r0 r3 r7 from bits", link::bits_to(8, 3, 1, &[0b1000_1001]), Ok(vec![8, 11, 15]));
    // r07 is voxel 7, r1 the voxels 8 to 15
    by_hand(run, "r07 r1 to bits", link::bits_from(8, 8, 2, &[71, 9]), Ok(vec![0x80, 0xff, 0, 0, 0, 0, 0, 0]));
    by_hand(run, "r07 r1 from bits", link::bits_to(8, 2, 2, &[0x80, 0xff, 0, 0, 0, 0, 0, 0]), Ok(vec![71, 9]));
    for byte in 0..=255 {
        by_hand(run, "one voxel", link::bits_to(8, 1, 0, &[byte]), Ok(if byte % 2 == 1 { vec![1] } else { vec![] }));
    }
    by_hand(run, "the root of one voxel", link::bits_from(8, 1, 0, &[1]), Ok(vec![1]));
    by_hand(run, "no voxel", link::bits_from(8, 1, 0, &[]), Ok(vec![0]));
    let pair = |op| link::bits_set(op, 8, 1, 1, &[0b0011_0101], &[0b0000_1111]);
    by_hand(run, "join", pair(Op::Join), Ok(vec![0b0011_1111]));
    by_hand(run, "intersection", pair(Op::Meet), Ok(vec![0b0000_0101]));
    by_hand(run, "difference", pair(Op::Less), Ok(vec![0b0011_0000]));

    // r057 is voxel 47, at 3, 1, 3; r075 is 61, r275 is 189
    let alone = |v: u64| bits(3, &Voxels::from([v]));
    by_hand(run, "r057 to r075", link::bits_shift(8, 64, 3, &alone(47), [0, 1, 0]), Ok(alone(61)));
    by_hand(run, "r057 to r275", link::bits_shift(8, 64, 3, &alone(47), [0, 5, 0]), Ok(alone(189)));
    by_hand(run, "r057 leaves", link::bits_shift(8, 64, 3, &alone(47), [0, 7, 0]), Err(answer(7, 47, 1)));
    by_hand(run, "half a voxel forth", link::bits_shift_metres(8, 64, 3, &alone(47), [0.0, 0.0625, 0.0], 3), Ok(alone(61)));
    by_hand(run, "half a voxel back", link::bits_shift_metres(8, 64, 3, &alone(61), [0.0, -0.0625, 0.0], 3), Ok(alone(47)));
    // of the eight voxels of r0 those of even number stay: the first that leaves is 1, and its leaf the first of the list
    by_hand(run, "half of r0 leaves", link::bits_shift(8, 8, 2, &[0xff, 0, 0, 0, 0, 0, 0, 0], [3, 0, 0]), Err(answer(7, 1, 1)));
    by_hand(run, "r0 leaves", link::shift(8, 8, 2, &[8], [3, 0, 0]), Err(answer(7, 0, 1)));
    // no voxel is black, so that none leaves
    for d in [[i32::MAX; 3], [i32::MIN; 3]] {
        by_hand(run, "nothing moved far", link::bits_shift(8, 8, 2, &[0; 8], d), Ok(vec![0; 8]));
    }
}

/// Which refusal comes before which: each is met with those after it wrong too.
fn refused(run: &mut Run) {
    fn told_of<T>(wrote: Wrote<T>) -> Told {
        wrote.map(|(answer, _)| answer)
    }
    let mut refuses = |what: &str, depth: u32, got: Told, number: u64, place: u64, list: u64| {
        run.same(|| format!("by hand, {what} at depth {depth}"), got, Ok(Some(answer(number, place, list))));
    };
    let nowhere = [f64::NAN; 3];
    for depth in TOO_DEEP {
        // with nothing else wrong at depth 7, whose bits are so many, and with all else wrong
        for (len, list, d, m, s, at) in [(1 << 18, &[1], [0; 3], [0.0; 3], 0, [0; 3]), (0, &[7], [i32::MAX; 3], nowhere, 11, [u32::MAX; 3])] {
            let full = vec![0xff; len];
            refuses("to bits", depth, told_of(link::bits_from(8, len, depth, list)), 1, 0, 0);
            refuses("to a list", depth, told_of(link::bits_to(8, len, depth, &full)), 1, 0, 0);
            for op in sets::OPS {
                refuses("a set of bits", depth, told_of(link::bits_set(op, 8, len, depth, &full, &full)), 1, 0, 0);
            }
            refuses("a move of bits", depth, told_of(link::bits_shift(8, len, depth, &full, d)), 1, 0, 0);
            refuses("a move by metres", depth, told_of(link::bits_shift_metres(8, len, depth, &full, m, s)), 1, 0, 0);
            refuses("a lookup", depth, link::bits_lookup(8, depth, &full, at), 1, 0, 0);
        }
    }
    for depth in 0..=6 {
        let need = bytes(depth);
        let full = vec![0xff; need];
        let far = [1 << depth, 0, 0];
        for short in [need - 1, 0] {
            let cut = &full[..short];
            refuses("no code", depth, told_of(link::bits_from(8, short, depth, &[1 << 31])), 2, 0, 1);
            refuses("a leaf twice", depth, told_of(link::bits_from(8, short, depth, &[1, 1])), 3, 1, 1);
            if depth > 0 {
                refuses("eight siblings", depth, told_of(link::bits_from(8, short, depth, &[8, 9, 10, 11, 12, 13, 14, 15])), 4, 7, 1);
            }
            for list in [&[1u32] as &[u32], &[]] {
                refuses("short for a list's bits", depth, told_of(link::bits_from(8, short, depth, list)), 8, need as u64, 0);
            }
            refuses("short bits, no room for the list", depth, told_of(link::bits_to(8, 0, depth, cut)), 8, need as u64, 0);
            for op in sets::OPS {
                for (a, b, room) in [(cut, &full[..], need), (&full[..], cut, need), (&full[..], &full[..], short), (cut, cut, short)] {
                    refuses("a short buffer of three", depth, told_of(link::bits_set(op, 8, room, depth, a, b)), 8, need as u64, 0);
                }
            }
            for (from, room) in [(cut, need), (&full[..], short), (cut, short)] {
                for (place, m) in [(0, nowhere), (1, [0.0, f64::INFINITY, f64::NAN]), (2, [0.0, 0.0, 1e300])] {
                    refuses("no whole move", depth, told_of(link::bits_shift_metres(8, room, depth, from, m, 10)), 5, place, 0);
                    refuses("no edge number", depth, told_of(link::bits_shift_metres(8, room, depth, from, m, 11)), 5, 3, 0);
                }
                refuses("a short buffer, and leaving", depth, told_of(link::bits_shift(8, room, depth, from, far)), 8, need as u64, 0);
                refuses("the same by metres", depth, told_of(link::bits_shift_metres(8, room, depth, from, far.map(f64::from), 0)), 8, need as u64, 0);
            }
            refuses("no voxel, short bits", depth, link::bits_lookup(8, depth, cut, [0, 0, 1 << depth]), 6, 0, 0);
            refuses("a voxel, short bits", depth, link::bits_lookup(8, depth, cut, [0; 3]), 8, need as u64, 0);
        }
        refuses("no room for the root", depth, told_of(link::bits_to(8, 0, depth, &full)), 8, 1, 0);
        refuses("the root leaves", depth, told_of(link::bits_shift(8, need, depth, &full, far)), 7, 0, 1);
        refuses("the root leaves by metres", depth, told_of(link::bits_shift_metres(8, need, depth, &full, far.map(f64::from), 0)), 7, 0, 1);
    }
}

// ---- ground of every kind

/// Lengths of a bit buffer: just enough, one byte short, none, and longer; for a large root one of them.
fn lengths(run: &mut Run, depth: u32) -> Vec<usize> {
    let need = bytes(depth);
    if depth < 4 {
        vec![need, need - 1, 0, need + 5]
    } else {
        vec![run.one_of(&[need, need, need - 1, 0, need + 5, need + 5])]
    }
}

/// Each length of a buffer that is read, with each of one that is written.
fn rooms(run: &mut Run, depth: u32) -> Vec<(usize, usize)> {
    let (read, written) = (lengths(run, depth), lengths(run, depth));
    read.iter().flat_map(|len| written.iter().map(move |room| (*len, *room))).collect()
}

/// The bits in a buffer of that length: cut, or with noise after them, which no call may read.
fn lent(run: &mut Run, bits: &[u8], len: usize) -> Vec<u8> {
    let mut buffer = bits.to_vec();
    buffer.resize_with(len, || run.next() as u8);
    buffer
}

/// Voxels at random, half of them, few or many; or some whole cells. At depth 0 the spare bits are noise.
fn some(run: &mut Run, depth: u32) -> Vec<u8> {
    let mut noise = || -> Vec<u8> { (0..bytes(depth)).map(|_| run.next() as u8).collect() };
    let (a, b, c) = (noise(), noise(), noise());
    match run.below(4) {
        0 => a,
        1 => (0..a.len()).map(|i| a[i] & b[i] & c[i]).collect(),
        2 => (0..a.len()).map(|i| a[i] | b[i] | c[i]).collect(),
        _ => bits(depth, &listed(depth, &lists::good(run, depth, 8))),
    }
}

/// Some voxels of the middle of the root, which a move by up to a quarter of its side leaves in it.
fn middle(run: &mut Run, depth: u32) -> Vec<u8> {
    let quarter = (1 << depth) / 4;
    let inside = |v: &u64| model::voxel(depth, *v).iter().all(|x| (quarter..3 * quarter).contains(x));
    bits(depth, &shown(depth, &some(run, depth)).into_iter().filter(inside).collect())
}

/// Each call with buffers of many lengths, and by both engines.
impl Ground {
    fn forms(&self, run: &mut Run, n: usize) {
        let Ground { depth, ref bits, ref list } = *self;
        for room in lengths(run, depth) {
            from(run, n, room, depth, list);
        }
        for len in lengths(run, depth) {
            let bits = lent(run, bits, len);
            for room in [list.len(), list.len().saturating_sub(1), 0, list.len() + 3] {
                to(run, n, room, depth, &bits);
            }
        }
        self.there_and_back(run);
    }

    fn sets(&self, run: &mut Run, n: usize, other: &Ground) {
        let (depth, whole) = (self.depth, bytes(self.depth));
        for op in sets::OPS {
            for (len, room) in rooms(run, depth) {
                for (x, y) in [(len, whole), (whole, len), (len, len)] {
                    let (a, b) = (lent(run, &self.bits, x), lent(run, &other.bits, y));
                    set(run, op, n, room, depth, &a, &b);
                }
            }
            self.set_by_both(run, op, other);
        }
    }

    fn moves(&self, run: &mut Run, n: usize, way: Way) {
        for (len, room) in rooms(run, self.depth) {
            let bits = lent(run, &self.bits, len);
            moved(run, n, room, self.depth, &bits, way);
        }
        self.moved_by_both(run, way);
    }

    fn lookups(&self, run: &mut Run, n: usize, at: [u32; 3]) {
        for len in lengths(run, self.depth) {
            let bits = lent(run, &self.bits, len);
            lookup(run, n, self.depth, &bits, at);
        }
        self.looked_up_by_both(run, at);
    }
}

/// Every voxel of the root, and some outside of it along each axis.
fn places(depth: u32) -> Vec<[u32; 3]> {
    let outside = |axis: usize| [1 << depth, 1 << 31, u32::MAX].map(|x| [0, 1, 2].map(|a| if a == axis { x } else { 0 }));
    (0..1 << (3 * depth)).map(|v| model::voxel(depth, v)).chain((0..3).flat_map(outside)).collect()
}

/// Every move of the ground, and every voxel.
fn whole(run: &mut Run, one: &Ground) {
    for d in moves::every(one.depth) {
        moved(run, 8, bytes(one.depth), one.depth, &one.bits, Way::Voxels(d));
        one.moved_by_both(run, Way::Voxels(d));
    }
    for at in places(one.depth) {
        one.lookups(run, 8, at);
        one.planned(run, at);
    }
}

/// Every voxel of the ground in bits and by both engines; here and there the planner's law.
fn everywhere(run: &mut Run, one: &Ground) {
    for at in places(one.depth) {
        lookup(run, 8, one.depth, &one.bits, at);
        one.looked_up_by_both(run, at);
        if run.below(16) == 0 {
            one.planned(run, at);
        }
    }
}

/// Every set of voxels of depths 0 and 1, of depth 0 with every value of the spare bits: its forms, its moves, its voxels, and each pair.
fn every(run: &mut Run) {
    for depth in 0..2 {
        let all: Vec<Ground> = (0..=255).map(|byte| ground(depth, vec![byte])).collect();
        for one in &all {
            one.forms(run, 8);
            whole(run, one);
        }
        // at depth 0 white and black with the spare bits 0 and 1 are enough for the second of a pair
        let others: Vec<&Ground> = all.iter().filter(|one| depth == 1 || [0x00, 0x01, 0xfe, 0xff].contains(&one.bits[0])).collect();
        for (a, b) in all.iter().flat_map(|a| others.iter().map(move |b| (a, *b))) {
            for op in sets::OPS {
                set(run, op, 8, 1, depth, &a.bits, &b.bits);
                a.set_by_both(run, op, b);
            }
        }
    }
}

/// Any depth from 2 on, a large one seldom.
fn some_depth(run: &mut Run) -> u32 {
    match run.below(100) {
        0..=44 => 2,
        45..=74 => 3,
        75..=89 => 4,
        90..=96 => 5,
        _ => 6,
    }
}

/// Each call on ground of that depth.
fn about(run: &mut Run, n: usize, depth: u32) {
    let (bits, other, inner) = (some(run, depth), some(run, depth), middle(run, depth));
    let (one, other, inner) = (ground(depth, bits), ground(depth, other), ground(depth, inner));
    one.forms(run, n);
    one.sets(run, n, &other);
    let side = 1 << depth;
    for _ in 0..8 {
        let far = run.one_of(&[side, side, side, 2 * side, 1 << 32]);
        let at = [0; 3].map(|_: u32| run.below(far) as u32);
        one.lookups(run, n, at);
        one.planned(run, at);
    }
    let d = moves::displacement(run, depth);
    one.moves(run, n, Way::Voxels(d));
    let near = [0; 3].map(|_: u32| run.below(side / 2 + 1) as i32 - side as i32 / 4);
    inner.moves(run, n, Way::Voxels(near));
    // by metres: at the edges of the rule; and by half a voxel less than the near move, which comes to the same
    let s = run.one_of(&[0, 1, 3, 9, 10, 10, 11, u32::MAX]);
    let m = [0; 3].map(|_: u32| moves::coordinate(run, s));
    one.moves(run, n, Way::Metres(m, s));
    let s = run.below(11) as u32;
    inner.moves(run, n, Way::Metres(near.map(|x| (2 * x - x.signum()) as f64 / (2u64 << s) as f64), s));
}

pub fn all(run: &mut Run) {
    settled(run);
    refused(run);
    every(run);
    for _ in 0..4 {
        let (bits, inner) = (some(run, 2), middle(run, 2));
        whole(run, &ground(2, bits));
        whole(run, &ground(2, inner));
    }
    for _ in 0..run.cases / 40 {
        for depth in [2, 3] {
            let bits = some(run, depth);
            everywhere(run, &ground(depth, bits));
        }
    }
    // each depth for certain, then at random
    for depth in 2..=6 {
        about(run, 8, depth);
    }
    for _ in 0..run.cases / 5 {
        let n = run.one_of(&[8, 8, 8, 9, 7, 0]);
        let depth = some_depth(run);
        about(run, n, depth);
    }
    // lists whole and damaged
    for _ in 0..run.cases {
        let depth = run.one_of(&[0, 1, 2, 2, 3, 3, 4, 7, 10, 11, u32::MAX]);
        let n = run.one_of(&[8, 8, 8, 9, 7, 0]);
        let most = run.one_of(&[0, 1, 5, 20]);
        let list = if run.below(2) == 0 { lists::damaged(run, depth.min(10), most) } else { lists::good(run, depth.min(10), most) };
        for room in lengths(run, depth.min(6)) {
            from(run, n, room, depth, &list);
        }
    }
}

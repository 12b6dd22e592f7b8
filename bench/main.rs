//! Each public job against a plain Rust program that does the same, on the same inputs, in one run: medians in microseconds, and their ratio.
//!
//!     bench            the table
//!     bench lookups    its rows of lookups alone
//!     bench bits       its rows of the plain engine alone
//!     bench visited    target cells visited per output leaf, for each shape and move
mod bits;
mod ours;
mod plain;
mod shapes;

use plain::{Answer, Finding, Op};
use shapes::{Shape, Step, BITS_DEPTH, DEPTH, LEAVES};
use std::time::Instant;

const MOVES: [[i32; 3]; 4] = [[1, 0, 0], [1, 1, 1], [2, 2, 2], [256, 0, 0]];

/// An answer that no compiler leaves out.
fn kept(answer: Answer) {
    unsafe { std::ptr::read_volatile(&answer) };
}

/// The time of one run of a job, in microseconds.
fn time(job: &mut impl FnMut() -> Answer) -> f64 {
    let begun = Instant::now();
    kept(job());
    begun.elapsed().as_secs_f64() * 1e6
}

fn median(mut times: Vec<f64>) -> f64 {
    times.sort_by(|a, b| a.total_cmp(b));
    times[times.len() / 2]
}

/// One row: both do the job on what is named, agree, and are timed by turns, so that a machine that changes its pace changes it for both.
fn row(name: &str, job: &str, runs: usize, mut ours: impl FnMut() -> Answer, mut plain: impl FnMut() -> Answer) {
    assert_eq!(ours(), plain(), "{name} {job}");
    let (a, b): (Vec<f64>, Vec<f64>) = (0..runs).map(|_| (time(&mut ours), time(&mut plain))).unzip();
    let (a, b) = (median(a), median(b));
    println!("| {name} | {job} | {a:.0} | {b:.0} | {:.2} |", a / b);
}

/// The neighbours of all cells: how many are refused, and the sum of the others' codes.
fn all_neighbours(cells: &[Step], one: impl Fn(u32, u32, [i32; 3]) -> Answer) -> Answer {
    let mut sum = Answer { number: 0, place: 0, list: 0 };
    for s in cells {
        let r = one(DEPTH, s.code, s.d);
        sum.number += (r.number != 0) as u32;
        sum.place += r.place;
    }
    sum
}

/// The lookups of all voxels: how many are refused, how many are black, and the sum of the levels.
fn all_lookups(list: &[u32], voxels: &[[u32; 3]], one: impl Fn(u32, &[u32], [u32; 3]) -> Finding) -> Answer {
    let mut sum = Answer { number: 0, place: 0, list: 0 };
    for at in voxels {
        let r = one(DEPTH, list, *at);
        sum.number += (r.answer.number != 0) as u32;
        sum.place += r.answer.place;
        sum.list += r.level;
    }
    sum
}

/// Ten thousand lookups in a shape's list, each of which judges the whole list.
fn lookups(s: &Shape) {
    let (list, voxels) = (&s.first, shapes::sought(&s.first));
    let found: Vec<Finding> = voxels.iter().map(|at| ours::lookup(DEPTH, list, *at)).collect();
    assert!(voxels.iter().zip(&found).all(|(at, f)| plain::lookup(DEPTH, list, *at) == *f), "{} looked up", s.name);
    let black = found.iter().filter(|f| f.answer.place == 1).count();
    assert!(0 < black && black < found.len(), "{}: voxels of both colours", s.name);
    row(s.name, "ten thousand lookups", 5, || all_lookups(list, &voxels, ours::lookup), || all_lookups(list, &voxels, plain::lookup));
}

fn head() {
    println!("| shape | job | proved, us | plain Rust, us | ratio |\n|---|---|---|---|---|");
}

/// The plain engine: one bit a voxel, at its greatest depth.
fn on_bits() {
    let mut out = vec![0u8; 1 << 15];
    let mut twin = out.clone();
    let mut room = vec![0u32; 1 << 18];
    let mut other = room.clone();
    for shapes::Bits { name, first, second } in shapes::all_bits() {
        row(name, "to a list", 31, || ours::bits_to(BITS_DEPTH, &first, &mut room), || bits::to(BITS_DEPTH, &first, &mut other));
        assert!(room == other, "{name} as a list");
        let list = &room[..bits::to(BITS_DEPTH, &first, &mut other).place as usize];
        row(name, "from the list", 31, || ours::bits_from(BITS_DEPTH, list, &mut out), || bits::from(BITS_DEPTH, list, &mut twin));
        assert!(out == first && twin == first, "{name} from its list");
        for (job, op) in [("join", Op::Join), ("intersection", Op::Meet), ("difference", Op::Less)] {
            row(name, job, 31, || ours::bits_set(op, BITS_DEPTH, &first, &second, &mut out), || bits::set(op, BITS_DEPTH, &first, &second, &mut twin));
            assert!(out == twin, "{name} {job}");
        }
        for d in [[1, 0, 0], [1, 1, 1]] {
            let job = format!("move by {d:?}");
            row(name, &job, 31, || ours::bits_shift(BITS_DEPTH, &first, d, &mut out), || bits::shift(BITS_DEPTH, &first, d, &mut twin));
            assert!(out == twin, "{name} {job}");
        }
    }
}

fn table() {
    head();
    let mut room = vec![0u32; 1 << 20];
    let mut other = vec![0u32; 1 << 20];
    // 16,384 codes take 135 blocks
    let mut file = vec![0u8; 135 * 512];
    let mut copy = file.clone();
    let cells = shapes::steps();
    row("cells", "a million neighbours", 31, || all_neighbours(&cells, ours::neighbour), || all_neighbours(&cells, plain::neighbour));
    for s in shapes::all() {
        row(s.name, "check", 301, || ours::check(DEPTH, &s.first), || plain::check(DEPTH, &s.first));
        row(s.name, "volume", 301, || ours::volume(DEPTH, &s.first), || plain::volume(DEPTH, &s.first));
        lookups(&s);
        for (name, op) in [("join", Op::Join), ("intersection", Op::Meet), ("difference", Op::Less)] {
            row(s.name, name, 101, || ours::set(op, DEPTH, &s.first, &s.second, &mut room), || plain::set(op, DEPTH, &s.first, &s.second, &mut other));
        }
        for d in MOVES {
            let name = format!("move by {d:?}");
            row(s.name, &name, 11, || ours::shift(DEPTH, &s.first, d, &mut room), || plain::shift(DEPTH, &s.first, d, &mut other));
        }
        row(s.name, "turn by 1", 101, || ours::turn(DEPTH, &s.first, 1, &mut room), || plain::turn(DEPTH, &s.first, 1, &mut other));
        assert!(room[..LEAVES] == other[..LEAVES], "{} turned", s.name);
        row(s.name, "write", 101, || ours::write(DEPTH, &s.first, &mut file), || plain::write(DEPTH, &s.first, &mut copy));
        assert_eq!(file, copy, "{} stored", s.name);
        row(s.name, "read", 101, || ours::read(&file, &mut room), || plain::read(&file, &mut other).0);
        // with no room the answer is the number of bytes
        let mut text = vec![0u8; plain::df_write(DEPTH, &s.first, &mut []).place as usize];
        let mut twin = text.clone();
        row(s.name, "df write", 101, || ours::df_write(DEPTH, &s.first, &mut text), || plain::df_write(DEPTH, &s.first, &mut twin));
        assert_eq!(text, twin, "{} spelled", s.name);
        row(s.name, "df read", 101, || ours::df_read(DEPTH, &text, &mut room), || plain::df_read(DEPTH, &text, &mut other));
        assert!(room[..LEAVES] == s.first[..] && other[..LEAVES] == s.first[..], "{} read again", s.name);
    }
    on_bits();
}

fn visited() {
    println!("| shape | move | leaves out | cells visited | per leaf |\n|---|---|---|---|---|");
    for s in shapes::all() {
        for d in MOVES {
            let (leaves, cells) = plain::displaced(DEPTH, &s.first, d, None);
            println!("| {} | {d:?} | {leaves} | {cells} | {:.2} |", s.name, cells as f64 / leaves as f64);
        }
    }
}

fn main() {
    match std::env::args().nth(1).as_deref() {
        None => table(),
        Some("lookups") => {
            head();
            shapes::all().iter().for_each(lookups);
        }
        Some("bits") => {
            head();
            on_bits();
        }
        Some("visited") => visited(),
        Some(_) => println!("bench [lookups | bits | visited]"),
    }
}

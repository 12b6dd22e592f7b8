//! The archives' calls, made safe, and their answers read. A slice passes as a pointer and a length.

use crate::model::{Op, Said};

#[link(name = "probe", kind = "static")]
extern "C" {
    fn probe_place(depth: u32, code: u32, answer: *mut u64, len: usize);
    fn probe_code(depth: u32, x: u32, y: u32, z: u32, level: u32, answer: *mut u64, len: usize);
    fn probe_neighbour(depth: u32, code: u32, dx: i32, dy: i32, dz: i32, answer: *mut u64, len: usize);
    fn probe_check(depth: u32, list: *const u32, list_len: usize, answer: *mut u64, len: usize);
    fn probe_volume(depth: u32, list: *const u32, list_len: usize, answer: *mut u64, len: usize);
    fn probe_lookup(depth: u32, list: *const u32, list_len: usize, x: u32, y: u32, z: u32, answer: *mut u64, len: usize);
    fn probe_met(
        depth: u32,
        list: *const u32,
        list_len: usize,
        code: u32,
        dx: i32,
        dy: i32,
        dz: i32,
        part: *mut u32,
        part_len: usize,
        answer: *mut u64,
        len: usize,
    );
    fn probe_join(depth: u32, a: *const u32, a_len: usize, b: *const u32, b_len: usize, out: *mut u32, room: usize, answer: *mut u64, len: usize);
    fn probe_meet(depth: u32, a: *const u32, a_len: usize, b: *const u32, b_len: usize, out: *mut u32, room: usize, answer: *mut u64, len: usize);
    fn probe_move(depth: u32, list: *const u32, list_len: usize, dx: i32, dy: i32, dz: i32, out: *mut u32, room: usize, answer: *mut u64, len: usize);
    fn probe_move_metres(
        depth: u32,
        list: *const u32,
        list_len: usize,
        x: f64,
        y: f64,
        z: f64,
        s: u32,
        out: *mut u32,
        room: usize,
        answer: *mut u64,
        len: usize,
    );
    fn probe_turn(depth: u32, list: *const u32, list_len: usize, turns: u32, out: *mut u32, room: usize, answer: *mut u64, len: usize);
    fn probe_write(depth: u32, list: *const u32, list_len: usize, bytes: *mut u8, room: usize, answer: *mut u64, len: usize);
    fn probe_list_text(depth: u32, list: *const u32, list_len: usize, bytes: *mut u8, room: usize, answer: *mut u64, len: usize);
    fn probe_refused_text(number: u32, place: u64, bytes: *mut u8, room: usize, answer: *mut u64, len: usize);
    fn probe_read(bytes: *const u8, bytes_len: usize, out: *mut u32, room: usize, answer: *mut u64, len: usize);
    fn probe_block_check(bytes: *const u8, bytes_len: usize, answer: *mut u64, len: usize);
    fn probe_stored_volume(bytes: *const u8, bytes_len: usize, answer: *mut u64, len: usize);
    fn probe_df_read(depth: u32, text: *const u8, text_len: usize, out: *mut u32, room: usize, answer: *mut u64, len: usize);
    fn probe_df_write(depth: u32, list: *const u32, list_len: usize, bytes: *mut u8, room: usize, answer: *mut u64, len: usize);
    fn probe_less(depth: u32, a: *const u32, a_len: usize, b: *const u32, b_len: usize, out: *mut u32, room: usize, answer: *mut u64, len: usize);
    fn probe_bits_from(depth: u32, list: *const u32, list_len: usize, bits: *mut u8, room: usize, answer: *mut u64, len: usize);
    fn probe_bits_to(depth: u32, bits: *const u8, bits_len: usize, out: *mut u32, room: usize, answer: *mut u64, len: usize);
    fn probe_bits_move(depth: u32, bits: *const u8, bits_len: usize, dx: i32, dy: i32, dz: i32, out: *mut u8, room: usize, answer: *mut u64, len: usize);
    fn probe_bits_move_metres(
        depth: u32,
        bits: *const u8,
        bits_len: usize,
        x: f64,
        y: f64,
        z: f64,
        s: u32,
        out: *mut u8,
        room: usize,
        answer: *mut u64,
        len: usize,
    );
    fn probe_bits_join(depth: u32, a: *const u8, a_len: usize, b: *const u8, b_len: usize, out: *mut u8, room: usize, answer: *mut u64, len: usize);
    fn probe_bits_meet(depth: u32, a: *const u8, a_len: usize, b: *const u8, b_len: usize, out: *mut u8, room: usize, answer: *mut u64, len: usize);
    fn probe_bits_less(depth: u32, a: *const u8, a_len: usize, b: *const u8, b_len: usize, out: *mut u8, room: usize, answer: *mut u64, len: usize);
    fn probe_bits_lookup(depth: u32, bits: *const u8, bits_len: usize, x: u32, y: u32, z: u32, answer: *mut u64, len: usize);
}

#[link(name = "cab", kind = "static")]
extern "C" {
    fn cab_neighbour(depth: u32, code: u32, dx: i32, dy: i32, dz: i32) -> u64;
    fn cab_check_blocks(bytes: *const u8, len: usize) -> u64;
    fn cab_stored_volume(bytes: *const u8, len: usize) -> u64;
}

/// Number, place, list, and what comes beside the place.
#[derive(Clone, Copy, PartialEq, Eq, Debug)]
pub struct Answer {
    pub number: u64,
    pub place: u64,
    pub list: u64,
    pub beside: [u64; 4],
}

pub fn answer(number: u64, place: u64, list: u64) -> Answer {
    Answer { number, place, list, beside: [0; 4] }
}

/// What a lookup tells of a voxel: 1 or 0 for its colour, and the level as the last word beside it.
pub fn found(black: bool, level: u32) -> Answer {
    Answer { beside: [0, 0, 0, level as u64], ..answer(0, black as u64, 0) }
}

const GUARD: u64 = 0xa5a5_5a5a_c3c3_3c3c;

/// Calls `f` with an answer buffer of n words between guards, and tells the answer, or what went wrong with the buffer.
/// With fewer than 8 words nothing may change.
fn told(n: usize, f: impl FnOnce(*mut u64, usize)) -> Result<Option<Answer>, String> {
    let mut words = vec![GUARD; n + 8];
    f(words[4..].as_mut_ptr(), n);
    if words[..4].iter().chain(&words[4 + n..]).any(|w| *w != GUARD) {
        return Err("a word beside the answer buffer changed".to_string());
    }
    let a = &words[4..4 + n];
    if n < 8 {
        if a.iter().any(|w| *w != GUARD) {
            return Err("a short answer buffer changed".to_string());
        }
        return Ok(None);
    }
    if a[7..].iter().any(|w| *w != 0) {
        return Err("the rest of the answer buffer is not 0".to_string());
    }
    Ok(Some(Answer { number: a[0], place: a[1], list: a[2], beside: [a[3], a[4], a[5], a[6]] }))
}

pub type Told = Result<Option<Answer>, String>;

pub fn place(n: usize, depth: u32, code: u32) -> Told {
    told(n, |p, len| unsafe { probe_place(depth, code, p, len) })
}

pub fn code(n: usize, depth: u32, x: u32, y: u32, z: u32, level: u32) -> Told {
    told(n, |p, len| unsafe { probe_code(depth, x, y, z, level, p, len) })
}

pub fn neighbour(n: usize, depth: u32, code: u32, d: [i32; 3]) -> Told {
    told(n, |p, len| unsafe { probe_neighbour(depth, code, d[0], d[1], d[2], p, len) })
}

pub fn packed_neighbour(depth: u32, code: u32, d: [i32; 3]) -> u64 {
    unsafe { cab_neighbour(depth, code, d[0], d[1], d[2]) }
}

pub fn check(n: usize, depth: u32, list: &[u32]) -> Told {
    told(n, |p, len| unsafe { probe_check(depth, list.as_ptr(), list.len(), p, len) })
}

pub fn volume(n: usize, depth: u32, list: &[u32]) -> Told {
    told(n, |p, len| unsafe { probe_volume(depth, list.as_ptr(), list.len(), p, len) })
}

pub fn lookup(n: usize, depth: u32, list: &[u32], at: [u32; 3]) -> Told {
    told(n, |p, len| unsafe { probe_lookup(depth, list.as_ptr(), list.len(), at[0], at[1], at[2], p, len) })
}

const WORD_GUARD: u32 = 0x5a3c_a5c3;
const BYTE_GUARD: u8 = 0xc5;

/// What a call wrote at the front of a buffer of `room` elements between guards: the call tells how many at the front may have changed.
fn written<T: Copy + PartialEq>(guard: T, room: usize, call: impl FnOnce(*mut T) -> Result<usize, String>) -> Result<Vec<T>, String> {
    let mut lent = vec![guard; room + 8];
    let front = call(lent[4..].as_mut_ptr())?.min(room);
    if lent[..4].iter().chain(&lent[4 + front..]).any(|w| *w != guard) {
        return Err("the buffer beyond what is written changed".to_string());
    }
    Ok(lent[4..4 + front].to_vec())
}

/// An answer, and what a call wrote.
pub type Wrote<T> = Result<(Option<Answer>, Vec<T>), String>;

/// What a call gives, or its refusal.
pub fn given<T>(wrote: Wrote<T>) -> Said<T> {
    match wrote.expect("a call that keeps what it was lent") {
        (Some(answer), made) if answer.number == 0 => Ok(made),
        (answer, _) => Err(answer.unwrap()),
    }
}

/// The answer and the codes of the returned part, as many as the room takes.
pub fn met(n: usize, room: usize, depth: u32, list: &[u32], code: u32, d: [i32; 3]) -> Wrote<u32> {
    let mut found = None;
    let part = written(WORD_GUARD, room, |out| {
        found = told(n, |p, len| unsafe { probe_met(depth, list.as_ptr(), list.len(), code, d[0], d[1], d[2], out, room, p, len) })?;
        Ok(found.map_or(0, |a| a.beside[0] as usize))
    })?;
    Ok((found, part))
}

/// A call that writes: the answer, and the front of the buffer that it says is written.
fn wrote<T: Copy + PartialEq>(guard: T, n: usize, room: usize, call: impl FnOnce(*mut T, *mut u64, usize)) -> Wrote<T> {
    let mut found = None;
    let codes = written(guard, room, |out| {
        found = told(n, |p, len| call(out, p, len))?;
        Ok(found.map_or(0, |a| if a.number == 0 { a.place as usize } else { 0 }))
    })?;
    Ok((found, codes))
}

pub fn set(op: Op, n: usize, room: usize, depth: u32, a: &[u32], b: &[u32]) -> Wrote<u32> {
    let call = match op {
        Op::Join => probe_join,
        Op::Meet => probe_meet,
        Op::Less => probe_less,
    };
    wrote(WORD_GUARD, n, room, |out, p, len| unsafe { call(depth, a.as_ptr(), a.len(), b.as_ptr(), b.len(), out, room, p, len) })
}

pub fn shift(n: usize, room: usize, depth: u32, list: &[u32], d: [i32; 3]) -> Wrote<u32> {
    wrote(WORD_GUARD, n, room, |out, p, len| unsafe { probe_move(depth, list.as_ptr(), list.len(), d[0], d[1], d[2], out, room, p, len) })
}

pub fn shift_metres(n: usize, room: usize, depth: u32, list: &[u32], d: [f64; 3], s: u32) -> Wrote<u32> {
    wrote(WORD_GUARD, n, room, |out, p, len| unsafe { probe_move_metres(depth, list.as_ptr(), list.len(), d[0], d[1], d[2], s, out, room, p, len) })
}

pub fn write(n: usize, room: usize, depth: u32, list: &[u32]) -> Wrote<u8> {
    wrote(BYTE_GUARD, n, room, |out, p, len| unsafe { probe_write(depth, list.as_ptr(), list.len(), out, room, p, len) })
}

pub fn list_text(n: usize, room: usize, depth: u32, list: &[u32]) -> Wrote<u8> {
    wrote(BYTE_GUARD, n, room, |out, p, len| unsafe { probe_list_text(depth, list.as_ptr(), list.len(), out, room, p, len) })
}

pub fn refused_text(n: usize, room: usize, number: u32, place: u64) -> Wrote<u8> {
    wrote(BYTE_GUARD, n, room, |out, p, len| unsafe { probe_refused_text(number, place, out, room, p, len) })
}

pub fn read(n: usize, room: usize, bytes: &[u8]) -> Wrote<u32> {
    wrote(WORD_GUARD, n, room, |out, p, len| unsafe { probe_read(bytes.as_ptr(), bytes.len(), out, room, p, len) })
}

/// A call on what is lent to be read: a copy, which must stay as it is.
fn lent<T: Copy + PartialEq, R>(from: &[T], call: impl FnOnce(*const T) -> Result<R, String>) -> Result<R, String> {
    let mut copy = from.to_vec();
    let got = call(copy.as_mut_ptr())?;
    if copy != from {
        return Err("what was lent to be read changed".to_string());
    }
    Ok(got)
}

pub fn df_read(n: usize, room: usize, depth: u32, text: &[u8]) -> Wrote<u32> {
    lent(text, |t| wrote(WORD_GUARD, n, room, |out, p, len| unsafe { probe_df_read(depth, t, text.len(), out, room, p, len) }))
}

pub fn df_write(n: usize, room: usize, depth: u32, list: &[u32]) -> Wrote<u8> {
    lent(list, |l| wrote(BYTE_GUARD, n, room, |out, p, len| unsafe { probe_df_write(depth, l, list.len(), out, room, p, len) }))
}

pub fn turn(n: usize, room: usize, depth: u32, list: &[u32], turns: u32) -> Wrote<u32> {
    lent(list, |l| wrote(WORD_GUARD, n, room, |out, p, len| unsafe { probe_turn(depth, l, list.len(), turns, out, room, p, len) }))
}

pub fn bits_from(n: usize, room: usize, depth: u32, list: &[u32]) -> Wrote<u8> {
    lent(list, |l| wrote(BYTE_GUARD, n, room, |out, p, len| unsafe { probe_bits_from(depth, l, list.len(), out, room, p, len) }))
}

pub fn bits_to(n: usize, room: usize, depth: u32, bits: &[u8]) -> Wrote<u32> {
    lent(bits, |b| wrote(WORD_GUARD, n, room, |out, p, len| unsafe { probe_bits_to(depth, b, bits.len(), out, room, p, len) }))
}

pub fn bits_shift(n: usize, room: usize, depth: u32, bits: &[u8], d: [i32; 3]) -> Wrote<u8> {
    lent(bits, |b| wrote(BYTE_GUARD, n, room, |out, p, len| unsafe { probe_bits_move(depth, b, bits.len(), d[0], d[1], d[2], out, room, p, len) }))
}

pub fn bits_shift_metres(n: usize, room: usize, depth: u32, bits: &[u8], d: [f64; 3], s: u32) -> Wrote<u8> {
    lent(bits, |b| wrote(BYTE_GUARD, n, room, |out, p, len| unsafe { probe_bits_move_metres(depth, b, bits.len(), d[0], d[1], d[2], s, out, room, p, len) }))
}

pub fn bits_set(op: Op, n: usize, room: usize, depth: u32, a: &[u8], b: &[u8]) -> Wrote<u8> {
    let call = match op {
        Op::Join => probe_bits_join,
        Op::Meet => probe_bits_meet,
        Op::Less => probe_bits_less,
    };
    lent(a, |x| lent(b, |y| wrote(BYTE_GUARD, n, room, |out, p, len| unsafe { call(depth, x, a.len(), y, b.len(), out, room, p, len) })))
}

pub fn bits_lookup(n: usize, depth: u32, bits: &[u8], at: [u32; 3]) -> Told {
    lent(bits, |b| told(n, |p, len| unsafe { probe_bits_lookup(depth, b, bits.len(), at[0], at[1], at[2], p, len) }))
}

pub fn block_check(n: usize, bytes: &[u8]) -> Told {
    told(n, |p, len| unsafe { probe_block_check(bytes.as_ptr(), bytes.len(), p, len) })
}

pub fn stored_volume(n: usize, bytes: &[u8]) -> Told {
    told(n, |p, len| unsafe { probe_stored_volume(bytes.as_ptr(), bytes.len(), p, len) })
}

pub fn packed_check(bytes: &[u8]) -> u64 {
    unsafe { cab_check_blocks(bytes.as_ptr(), bytes.len()) }
}

pub fn packed_volume(bytes: &[u8]) -> u64 {
    unsafe { cab_stored_volume(bytes.as_ptr(), bytes.len()) }
}

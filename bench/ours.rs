//! The proved calls, through the archive.
use crate::plain::{Answer, Finding, Op};

#[link(name = "probe", kind = "static")]
extern "C" {
    fn probe_check(depth: u32, list: *const u32, list_len: usize, answer: *mut u64, len: usize);
    fn probe_volume(depth: u32, list: *const u32, list_len: usize, answer: *mut u64, len: usize);
    fn probe_lookup(depth: u32, list: *const u32, list_len: usize, x: u32, y: u32, z: u32, answer: *mut u64, len: usize);
    fn probe_join(depth: u32, a: *const u32, a_len: usize, b: *const u32, b_len: usize, out: *mut u32, room: usize, answer: *mut u64, len: usize);
    fn probe_meet(depth: u32, a: *const u32, a_len: usize, b: *const u32, b_len: usize, out: *mut u32, room: usize, answer: *mut u64, len: usize);
    fn probe_less(depth: u32, a: *const u32, a_len: usize, b: *const u32, b_len: usize, out: *mut u32, room: usize, answer: *mut u64, len: usize);
    fn probe_write(depth: u32, list: *const u32, list_len: usize, bytes: *mut u8, room: usize, answer: *mut u64, len: usize);
    fn probe_read(bytes: *const u8, bytes_len: usize, out: *mut u32, room: usize, answer: *mut u64, len: usize);
    fn probe_df_read(depth: u32, text: *const u8, text_len: usize, out: *mut u32, room: usize, answer: *mut u64, len: usize);
    fn probe_df_write(depth: u32, list: *const u32, list_len: usize, bytes: *mut u8, room: usize, answer: *mut u64, len: usize);
    fn probe_move(depth: u32, list: *const u32, list_len: usize, dx: i32, dy: i32, dz: i32, out: *mut u32, room: usize, answer: *mut u64, len: usize);
    fn probe_turn(depth: u32, list: *const u32, list_len: usize, turns: u32, out: *mut u32, room: usize, answer: *mut u64, len: usize);
    fn probe_bits_from(depth: u32, list: *const u32, list_len: usize, bits: *mut u8, room: usize, answer: *mut u64, len: usize);
    fn probe_bits_to(depth: u32, bits: *const u8, bits_len: usize, out: *mut u32, room: usize, answer: *mut u64, len: usize);
    fn probe_bits_move(depth: u32, bits: *const u8, bits_len: usize, dx: i32, dy: i32, dz: i32, out: *mut u8, room: usize, answer: *mut u64, len: usize);
    fn probe_bits_join(depth: u32, a: *const u8, a_len: usize, b: *const u8, b_len: usize, out: *mut u8, room: usize, answer: *mut u64, len: usize);
    fn probe_bits_meet(depth: u32, a: *const u8, a_len: usize, b: *const u8, b_len: usize, out: *mut u8, room: usize, answer: *mut u64, len: usize);
    fn probe_bits_less(depth: u32, a: *const u8, a_len: usize, b: *const u8, b_len: usize, out: *mut u8, room: usize, answer: *mut u64, len: usize);
}

#[link(name = "cab", kind = "static")]
extern "C" {
    fn cab_neighbour(depth: u32, code: u32, dx: i32, dy: i32, dz: i32) -> u64;
}

/// Number, place and list out of the answer's words, and the level, which a lookup has there.
fn found(call: impl FnOnce(*mut u64, usize)) -> Finding {
    let mut words = [0u64; 8];
    call(words.as_mut_ptr(), words.len());
    Finding { answer: Answer { number: words[0] as u32, place: words[1], list: words[2] as u32 }, level: words[6] as u32 }
}

fn told(call: impl FnOnce(*mut u64, usize)) -> Answer {
    found(call).answer
}

/// The call for C, which packs the number and the place.
pub fn neighbour(depth: u32, code: u32, d: [i32; 3]) -> Answer {
    let packed = unsafe { cab_neighbour(depth, code, d[0], d[1], d[2]) };
    Answer { number: (packed >> 32) as u32, place: packed & u32::MAX as u64, list: 0 }
}

pub fn check(depth: u32, list: &[u32]) -> Answer {
    told(|p, n| unsafe { probe_check(depth, list.as_ptr(), list.len(), p, n) })
}

pub fn volume(depth: u32, list: &[u32]) -> Answer {
    told(|p, n| unsafe { probe_volume(depth, list.as_ptr(), list.len(), p, n) })
}

pub fn lookup(depth: u32, list: &[u32], at: [u32; 3]) -> Finding {
    found(|p, n| unsafe { probe_lookup(depth, list.as_ptr(), list.len(), at[0], at[1], at[2], p, n) })
}

pub fn set(op: Op, depth: u32, a: &[u32], b: &[u32], out: &mut [u32]) -> Answer {
    let call = match op {
        Op::Join => probe_join,
        Op::Meet => probe_meet,
        Op::Less => probe_less,
    };
    told(|p, n| unsafe { call(depth, a.as_ptr(), a.len(), b.as_ptr(), b.len(), out.as_mut_ptr(), out.len(), p, n) })
}

pub fn shift(depth: u32, list: &[u32], d: [i32; 3], out: &mut [u32]) -> Answer {
    told(|p, n| unsafe { probe_move(depth, list.as_ptr(), list.len(), d[0], d[1], d[2], out.as_mut_ptr(), out.len(), p, n) })
}

pub fn turn(depth: u32, list: &[u32], turns: u32, out: &mut [u32]) -> Answer {
    told(|p, n| unsafe { probe_turn(depth, list.as_ptr(), list.len(), turns, out.as_mut_ptr(), out.len(), p, n) })
}

pub fn write(depth: u32, list: &[u32], bytes: &mut [u8]) -> Answer {
    told(|p, n| unsafe { probe_write(depth, list.as_ptr(), list.len(), bytes.as_mut_ptr(), bytes.len(), p, n) })
}

pub fn read(bytes: &[u8], out: &mut [u32]) -> Answer {
    told(|p, n| unsafe { probe_read(bytes.as_ptr(), bytes.len(), out.as_mut_ptr(), out.len(), p, n) })
}

pub fn df_write(depth: u32, list: &[u32], bytes: &mut [u8]) -> Answer {
    told(|p, n| unsafe { probe_df_write(depth, list.as_ptr(), list.len(), bytes.as_mut_ptr(), bytes.len(), p, n) })
}

pub fn df_read(depth: u32, text: &[u8], out: &mut [u32]) -> Answer {
    told(|p, n| unsafe { probe_df_read(depth, text.as_ptr(), text.len(), out.as_mut_ptr(), out.len(), p, n) })
}

pub fn bits_from(depth: u32, list: &[u32], bits: &mut [u8]) -> Answer {
    told(|p, n| unsafe { probe_bits_from(depth, list.as_ptr(), list.len(), bits.as_mut_ptr(), bits.len(), p, n) })
}

pub fn bits_to(depth: u32, bits: &[u8], out: &mut [u32]) -> Answer {
    told(|p, n| unsafe { probe_bits_to(depth, bits.as_ptr(), bits.len(), out.as_mut_ptr(), out.len(), p, n) })
}

pub fn bits_shift(depth: u32, bits: &[u8], d: [i32; 3], out: &mut [u8]) -> Answer {
    told(|p, n| unsafe { probe_bits_move(depth, bits.as_ptr(), bits.len(), d[0], d[1], d[2], out.as_mut_ptr(), out.len(), p, n) })
}

pub fn bits_set(op: Op, depth: u32, a: &[u8], b: &[u8], out: &mut [u8]) -> Answer {
    let call = match op {
        Op::Join => probe_bits_join,
        Op::Meet => probe_bits_meet,
        Op::Less => probe_bits_less,
    };
    told(|p, n| unsafe { call(depth, a.as_ptr(), a.len(), b.as_ptr(), b.len(), out.as_mut_ptr(), out.len(), p, n) })
}

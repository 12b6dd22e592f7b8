//! Stored blocks: write, read, check and volume, whole and damaged.
use crate::link;
use crate::lists;
use crate::model;
use crate::run::Run;

/// Everything about the bytes of a file.
fn about(run: &mut Run, n: usize, bytes: &[u8]) {
    let told = |a| if n < 8 { None } else { Some(a) };
    let name = format!("a file of {} bytes", bytes.len());
    let (check, volume) = (model::block_check_of(bytes), model::stored_volume_of(bytes));
    run.same(|| format!("block check of {name}"), link::block_check(n, bytes), Ok(told(check)));
    run.same(|| format!("stored volume of {name}"), link::stored_volume(n, bytes), Ok(told(volume)));
    run.same(|| format!("cab_check_blocks of {name}"), link::packed_check(bytes), model::packed(check));
    run.same(|| format!("cab_stored_volume of {name}"), link::packed_volume(bytes), model::packed(volume));
    let need = model::block_check_of(bytes).place as usize;
    for room in [need.min(1 << 16), need.saturating_sub(1).min(1 << 16), 0, need.min(1 << 16) + 5] {
        let (answer, codes) = model::read_of(bytes, room);
        let want = if n < 8 { (None, Vec::new()) } else { (Some(answer), codes) };
        run.same(|| format!("read of {name}, room {room}"), link::read(n, room, bytes), Ok(want));
    }
}

fn written(run: &mut Run, n: usize, depth: u32, list: &[u32]) {
    let need = 512 * ((list.len() + 121) / 122).max(1);
    for room in [need, need - 1, 0, need + 700] {
        let (answer, bytes) = model::write_of(depth, list, room);
        let want = if n < 8 { (None, Vec::new()) } else { (Some(answer), bytes) };
        run.same(|| format!("write {depth} {list:?}, room {room}"), link::write(n, room, depth, list), Ok(want));
    }
}

/// A word of some block changed, with the check as it was or made right again: each kind of wrong word.
fn damaged(run: &mut Run, depth: u32, list: &[u32]) -> Vec<u8> {
    let mut blocks = model::file_words(depth, list);
    let i = run.below(blocks.len() as u64) as usize;
    let last = blocks.len() - 1;
    match run.below(8) {
        0 => blocks.swap(0, last),
        1 => blocks.push(blocks[i].clone()),
        2 => {
            blocks.remove(i);
        }
        _ => {
            let word = run.one_of(&[0, 1, 2, 3, 3, 4, 5, 60, 124, 125, 126, 127]);
            let old = blocks[i][word];
            blocks[i][word] = match run.below(6) {
                0 => old.wrapping_add(1),
                1 => old.wrapping_sub(1),
                2 => run.one_of(&[0, 1, 10, 11, 121, 122, 123, u32::MAX]),
                3 => old ^ 1 << run.below(32),
                4 => run.next() as u32,
                _ => 0,
            };
        }
    }
    for b in &mut blocks {
        if run.below(2) == 0 {
            let check = model::sums(b);
            b[126..].copy_from_slice(&check);
        }
    }
    model::bytes_of(&blocks)
}

pub fn all(run: &mut Run) {
    // every bit of a small file, and of one of two blocks at every seventh bit
    let small = model::bytes_of(&model::file_words(3, &[559]));
    let codes: Vec<u32> = (0..150).map(|i| (1 << 30) + 2 * i).collect();
    let two = model::bytes_of(&model::file_words(10, &codes));
    for (bytes, step) in [(small, 1), (two, 7)] {
        about(run, 8, &bytes);
        for bit in (0..8 * bytes.len()).step_by(step) {
            let mut flipped = bytes.clone();
            flipped[bit / 8] ^= 1 << (bit % 8);
            about(run, 8, &flipped);
        }
        // truncations and tails
        for cut in 0..bytes.len() + 1 {
            if cut % 64 == 0 || cut % 512 < 2 || cut % 512 == 511 {
                about(run, 8, &bytes[..cut]);
            }
        }
        let mut longer = bytes.clone();
        longer.push(0);
        about(run, 8, &longer);
    }
    // lists whose counts stand around whole blocks
    for leaves in [0usize, 1, 121, 122, 123, 243, 244, 245, 366] {
        let list: Vec<u32> = (0..leaves as u32).map(|i| (1 << 30) + 3 * i).collect();
        written(run, 8, 10, &list);
        about(run, 8, &model::bytes_of(&model::file_words(10, &list)));
    }
    for _ in 0..run.cases {
        let depth = run.one_of(&[0, 1, 3, 10, 10, 11, u32::MAX]);
        let most = run.one_of(&[0, 1, 5, 60]);
        let n = run.one_of(&[8, 8, 8, 9, 7, 0]);
        let list = if run.below(3) == 0 { lists::damaged(run, depth.min(10), most) } else { lists::good(run, depth.min(10), most) };
        written(run, n, depth, &list);
        // a file may hold any codes and any depth: they are judged when it is read
        about(run, n, &model::bytes_of(&model::file_words(depth, &list)));
        let bytes = damaged(run, depth, &list);
        about(run, n, &bytes);
    }
}

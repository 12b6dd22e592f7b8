//! The calls that give a text: the listing of a list, and the line of a refusal.
use crate::link;
use crate::lists;
use crate::model;
use crate::run::Run;

/// A buffer that just takes so many bytes, one byte short, empty, and larger.
fn rooms(need: usize) -> [usize; 4] {
    [need, need.saturating_sub(1), 0, need + 9]
}

fn listed(run: &mut Run, n: usize, depth: u32, list: &[u32]) {
    let need = model::list_text_of(depth, list, usize::MAX).1.len();
    for room in rooms(need) {
        let (answer, text) = model::list_text_of(depth, list, room);
        let want = if n < 8 { (None, Vec::new()) } else { (Some(answer), text) };
        run.same(|| format!("list_text {depth} {list:?} room {room}, {n} words"), link::list_text(n, room, depth, list), Ok(want));
    }
}

fn refused(run: &mut Run, n: usize, number: u32, place: u64) {
    let need = model::refused_text_of(number, place, usize::MAX).1.len();
    for room in rooms(need) {
        let (answer, text) = model::refused_text_of(number, place, room);
        let want = if n < 8 { (None, Vec::new()) } else { (Some(answer), text) };
        run.same(|| format!("refused_text {number} {place} room {room}, {n} words"), link::refused_text(n, room, number, place), Ok(want));
    }
}

/// A number of any count of digits, ends of ranges of digits among them.
fn number(run: &mut Run) -> u64 {
    let power = 10u64.pow(run.below(20) as u32);
    match run.below(4) {
        0 => power,
        1 => power - 1,
        2 => run.next() % power,
        _ => run.next(),
    }
}

pub fn all(run: &mut Run) {
    // document 01's listing, and its bytes as they are written there
    let said = |text: &str| Ok((Some(link::answer(0, text.len() as u64, 0)), text.as_bytes().to_vec()));
    run.same(|| "document 01's listing".to_string(), link::list_text(8, 40, 3, &[559]), said("depth 3 leaves 1 volume 1\nr057\n"));
    run.same(|| "the line of a refusal".to_string(), link::refused_text(8, 40, 9, 0), said("refused 9 0\n"));
    // the empty list, the root, the first and the last voxel, each refusal of a list, each depth that is refused
    for depth in 0..13 {
        for list in [vec![], vec![1], vec![8], vec![15], vec![1 << 30], vec![u32::MAX >> 1], vec![7], vec![9, 8], vec![8, 9, 10, 11, 12, 13, 14, 15]] {
            listed(run, 8, depth, &list);
        }
    }
    // the ends of ranges of digits, the least numbers and the greatest
    for number in [0, 1, 9, 10, 99, 100, 999_999_999, 1_000_000_000, u32::MAX - 1, u32::MAX] {
        for place in [0, 1, 9, 10, 99, 100, u32::MAX as u64, 1 << 32, 9_999_999_999_999_999_999, 10_000_000_000_000_000_000, u64::MAX - 1, u64::MAX] {
            refused(run, 8, number, place);
        }
    }
    // leaf counts of one, two, three and four digits
    for leaves in [9, 10, 99, 100, 999, 1000] {
        let list: Vec<u32> = (0..leaves).map(|i| (1 << 30) + 3 * i).collect();
        listed(run, 8, 10, &list);
    }
    for _ in 0..run.cases {
        let depth = run.one_of(&[0, 1, 2, 3, 5, 10, 10, 10, 11, u32::MAX]);
        let most = run.one_of(&[0, 1, 5, 40]);
        let n = run.one_of(&[8, 8, 8, 9, 7, 0]);
        let list = if run.below(3) == 0 { lists::damaged(run, depth.min(10), most) } else { lists::good(run, depth.min(10), most) };
        listed(run, n, depth, &list);
        let (told, place) = (number(run) as u32, number(run));
        refused(run, n, told, place);
    }
}

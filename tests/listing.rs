//! The listing program, run as a process: what it prints for each kind of input.
use crate::lists;
use crate::model;
use crate::run::Run;
use std::io::Write;
use std::process::{Command, Stdio};

/// What the program prints for these bytes on its standard input. `LISTING` is the command, the emulator's name before the program's where there is one.
fn printed(bytes: &[u8]) -> String {
    let command = std::env::var("LISTING").expect("LISTING, the listing program's command");
    let mut words = command.split_whitespace();
    let mut child = Command::new(words.next().expect("a program"))
        .args(words)
        .stdin(Stdio::piped())
        .stdout(Stdio::piped())
        .spawn()
        .expect("the listing program");
    // the program stops reading at 65,537 bytes, and a longer input may then find its end closed
    let _ = child.stdin.take().unwrap().write_all(bytes);
    String::from_utf8(child.wait_with_output().unwrap().stdout).unwrap()
}

/// What document 01 says it prints.
fn listing(bytes: &[u8]) -> String {
    if bytes.len() > 65_536 {
        return "too long\n".to_string();
    }
    let volume = model::stored_volume_of(bytes);
    if volume.number != 0 {
        return model::refused_line(volume.number, volume.place);
    }
    let (depth, list) = model::stored_list(&model::sound_blocks(bytes).unwrap());
    model::listing(depth, &list)
}

fn about(run: &mut Run, bytes: &[u8]) {
    run.same(|| format!("listing of {} bytes", bytes.len()), printed(bytes), listing(bytes));
}

pub fn all(run: &mut Run) {
    let file = |depth, list: &[u32]| model::bytes_of(&model::file_words(depth, list));
    // document 01's example, the empty list, the root, nothing, a file cut short
    run.same(|| "document 01's listing".to_string(), printed(&file(3, &[559])), "depth 3 leaves 1 volume 1\nr057\n".to_string());
    for bytes in [file(3, &[559]), file(3, &[]), file(0, &[1]), file(10, &[1]), Vec::new(), file(3, &[559])[..511].to_vec(), file(10, &[1 << 30])[..1].to_vec()] {
        about(run, &bytes);
    }
    // each refusal of a list, and a wrong block
    for list in [vec![7], vec![9, 8], vec![8, 9, 10, 11, 12, 13, 14, 15]] {
        about(run, &file(3, &list));
    }
    let mut wrong = file(3, &[559]);
    wrong[511] ^= 1;
    about(run, &wrong);
    // the longest file that is taken, one block more, one byte more, and much more
    let full: Vec<u32> = (0..128 * 122).map(|i| (1 << 30) + 5 * i).collect();
    let longest = file(10, &full);
    about(run, &longest);
    let next: Vec<u32> = (0..128 * 122 + 1).map(|i| (1 << 30) + 5 * i).collect();
    about(run, &file(10, &next));
    for extra in [1, 512, 100_000] {
        let mut longer = longest.clone();
        longer.resize(longest.len() + extra, 0);
        about(run, &longer);
    }
    for _ in 0..30 {
        let depth = run.one_of(&[0, 1, 3, 10, 10]);
        let list = if run.below(3) == 0 { lists::damaged(run, depth, 20) } else { lists::good(run, depth, 20) };
        about(run, &file(depth, &list));
    }
}

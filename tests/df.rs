//! DF text: reading and writing. What is acceptable is decided twice and without a parser: at depths 0 to 2 by the list of all texts, at any depth by trees that
//! are put together from a text's end.
use crate::link;
use crate::lists;
use crate::model::{self, told, Runs, Said};
use crate::run::Run;
use std::collections::{BTreeMap, BTreeSet};

fn letter(black: bool) -> u8 {
    if black {
        b'B'
    } else {
        b'W'
    }
}

/// What is said of a text whose first wrong byte is known, and whose black voxels where it is acceptable.
fn said(depth: u32, text: &[u8], wrong: Option<usize>, black: Option<Runs>) -> Said<u32> {
    match (wrong, black) {
        (Some(i), _) => Err(link::answer(10, i as u64, 0)),
        (None, None) => Err(link::answer(10, text.len() as u64, 0)),
        (None, Some(runs)) => Ok(model::good_list(depth, &runs)),
    }
}

// ---- depths 0 to 2: all texts of depths 0 and 1, and rows of those of depth 1

/// Every acceptable text of a depth, each with its black voxels as bits; and everything that one of them begins with.
struct Texts {
    all: BTreeMap<Vec<u8>, u64>,
    begun: BTreeSet<Vec<u8>>,
}

impl Texts {
    fn new(depth: u32) -> Texts {
        let mut all = BTreeMap::from([(b"B".to_vec(), (1 << 8u64.pow(depth)) - 1), (b"W".to_vec(), 0)]);
        if depth == 1 {
            all.extend((1..255).map(|set| ([b'('].into_iter().chain((0..8).map(|v| letter(set >> v & 1 == 1))).collect(), set)));
        }
        let begun = all.keys().flat_map(|t| (0..=t.len()).map(move |n| t[..n].to_vec())).collect();
        Texts { all, begun }
    }
}

/// The texts of depths 0 and 1.
struct Small {
    of: [Texts; 2],
}

impl Small {
    /// After "(": up to eight whole texts of depth 1, and what stands after them. No text begins another, so they are found by looking them up.
    fn row<'a>(&self, text: &'a [u8]) -> Option<(Vec<&'a [u8]>, &'a [u8])> {
        let mut rest = text.strip_prefix(b"(")?;
        let mut row = Vec::new();
        while row.len() < 8 {
            match (1..=rest.len().min(9)).find(|n| self.of[1].all.contains_key(&rest[..*n])) {
                None => break,
                Some(n) => {
                    row.push(&rest[..n]);
                    rest = &rest[n..];
                }
            }
        }
        Some((row, rest))
    }

    /// Eight texts, not one leaf eight times, and nothing after them.
    fn whole(row: &[&[u8]], rest: &[u8]) -> bool {
        let leaf = row.first().map_or(false, |t| t.len() == 1);
        row.len() == 8 && rest.is_empty() && !(leaf && row.iter().all(|t| *t == row[0]))
    }

    fn begins(&self, depth: u32, text: &[u8]) -> bool {
        if depth < 2 {
            return self.of[depth as usize].begun.contains(text);
        }
        match self.row(text) {
            None => self.of[0].begun.contains(text),
            Some((row, rest)) if row.len() < 8 => self.of[1].begun.contains(rest),
            Some((row, rest)) => Small::whole(&row, rest),
        }
    }

    /// The black voxels of an acceptable text, as bits.
    fn black(&self, depth: u32, text: &[u8]) -> Option<u64> {
        if depth < 2 {
            return self.of[depth as usize].all.get(text).copied();
        }
        match self.row(text) {
            None => self.of[0].all.get(text).map(|b| if *b == 0 { 0 } else { u64::MAX }),
            Some((row, rest)) if Small::whole(&row, rest) => Some(row.iter().rev().fold(0, |bits, t| bits << 8 | self.of[1].all[*t])),
            Some(_) => None,
        }
    }

    fn said(&self, depth: u32, text: &[u8]) -> Said<u32> {
        let wrong = (0..text.len()).find(|i| !self.begins(depth, &text[..=*i]));
        let runs = |bits: u64| model::union((0..64).filter(|v| bits >> v & 1 == 1).map(|v| (v, v + 1)).collect());
        said(depth, text, wrong, self.black(depth, text).map(runs))
    }
}

// ---- any depth: trees

enum Tree {
    Leaf(bool),
    /// How many levels stand under it, and its children.
    Gray(u32, Vec<Tree>),
}

impl Tree {
    fn levels(&self) -> u32 {
        match self {
            Tree::Leaf(_) => 0,
            Tree::Gray(levels, _) => *levels,
        }
    }

    fn is_leaf(&self, black: bool) -> bool {
        matches!(self, Tree::Leaf(b) if *b == black)
    }

    /// The tree of an acceptable text. From the last byte on, a letter is one piece more, and a "(" takes eight pieces and gives one.
    fn new(depth: u32, text: &[u8]) -> Option<Tree> {
        let mut pieces = Vec::new();
        for byte in text.iter().rev() {
            let piece = match byte {
                b'B' => Tree::Leaf(true),
                b'W' => Tree::Leaf(false),
                b'(' if pieces.len() >= 8 => {
                    let children: Vec<Tree> = pieces.drain(pieces.len() - 8..).rev().collect();
                    let levels = 1 + children.iter().map(Tree::levels).max().unwrap();
                    if levels > depth || [true, false].iter().any(|b| children.iter().all(|c| c.is_leaf(*b))) {
                        return None;
                    }
                    Tree::Gray(levels, children)
                }
                _ => return None,
            };
            pieces.push(piece);
        }
        let root = pieces.pop();
        if pieces.is_empty() {
            root
        } else {
            None
        }
    }

    /// The black voxels of a tree in the cell of voxels `start` up to `start + span`.
    fn black(&self, start: u64, span: u64, pieces: &mut Vec<(u64, u64)>) {
        match self {
            Tree::Leaf(true) => pieces.push((start, start + span)),
            Tree::Leaf(false) => {}
            Tree::Gray(_, children) => {
                for (m, child) in children.iter().enumerate() {
                    child.black(start + m as u64 * (span / 8), span / 8, pieces);
                }
            }
        }
    }
}

/// Whether an acceptable text begins so. Where one does, so does one whose missing cells are leaves; and of the cells that are open only the innermost can have
/// leaves alone, so one of three ways to fill them serves.
fn begins(depth: u32, text: &[u8]) -> bool {
    let opened = text.iter().filter(|b| **b == b'(').count();
    // a cell is missing at first; "(" is a cell and opens eight
    let missing = match (1 + 8 * opened).checked_sub(text.len()) {
        None => return false,
        Some(n) => n,
    };
    [(&b""[..], b'W'), (b"", b'B'), (b"B", b'W')].iter().any(|(first, fill)| {
        let mut filled = [text, first].concat();
        filled.resize(filled.len().max(text.len() + missing), *fill);
        Tree::new(depth, &filled).is_some()
    })
}

/// What begins acceptably does so with fewer bytes too: the first wrong byte is found by halving.
fn by_trees(depth: u32, text: &[u8]) -> Said<u32> {
    let (mut right, mut over) = (0, text.len() + 1);
    while over - right > 1 {
        let half = (right + over) / 2;
        if begins(depth, &text[..half]) {
            right = half;
        } else {
            over = half;
        }
    }
    let wrong = if right < text.len() { Some(right) } else { None };
    let runs = |tree: Tree| {
        let mut pieces = Vec::new();
        tree.black(0, 1 << (3 * depth), &mut pieces);
        model::union(pieces)
    };
    said(depth, text, wrong, Tree::new(depth, text).map(runs))
}

// ---- the text of a set of voxels

/// How many voxels of each cell are black says what stands for it.
fn spelled(depth: u32, runs: &Runs) -> Vec<u8> {
    fn cell(runs: &[(u64, u64)], start: u64, span: u64, text: &mut Vec<u8>) {
        let end = start + span;
        let met = &runs[runs.partition_point(|r| r.1 <= start)..runs.partition_point(|r| r.0 < end)];
        let black: u64 = met.iter().map(|r| r.1.min(end) - r.0.max(start)).sum();
        if black == 0 || black == span {
            text.push(letter(black > 0));
            return;
        }
        text.push(b'(');
        for child in 0..8 {
            cell(met, start + child * (span / 8), span / 8, text);
        }
    }
    let mut text = Vec::new();
    cell(runs, 0, 1 << (3 * depth), &mut text);
    text
}

// ---- the calls against them

/// A buffer that just takes the result, one place short, empty, and larger; for a refusal one of any size.
fn rooms<T>(want: &Said<T>) -> Vec<usize> {
    match want {
        Ok(result) => vec![result.len(), result.len().saturating_sub(1), 0, result.len() + 5],
        Err(_) => vec![5],
    }
}

fn read(run: &mut Run, n: usize, depth: u32, text: &[u8], want: &Said<u32>) {
    for room in rooms(want) {
        let what = || format!("df_read {depth} {}, room {room}, {n} words", String::from_utf8_lossy(text));
        run.same(what, link::df_read(n, room, depth, text), told(n, room, want));
    }
}

/// A text, read.
fn about(run: &mut Run, small: &Small, n: usize, depth: u32, text: &[u8]) {
    let want = if depth > model::DEEPEST { Err(link::answer(1, 0, 0)) } else { by_trees(depth, text) };
    if depth <= 2 {
        assert_eq!(small.said(depth, text), want, "the two ways to decide {depth} {}", String::from_utf8_lossy(text));
    }
    read(run, n, depth, text, &want);
}

/// The text with each of these bytes at each place, instead of the one there and at the end, the three of a text before it too; the text without each byte, and
/// cut there.
fn changed(run: &mut Run, small: &Small, depth: u32, text: &[u8], bytes: impl Iterator<Item = u8>) {
    about(run, small, 8, depth, text);
    for byte in bytes {
        for i in 0..=text.len() {
            about(run, small, 8, depth, &[&text[..i], &[byte], text.get(i + 1..).unwrap_or(&[])].concat());
            if b"(BW".contains(&byte) {
                about(run, small, 8, depth, &[&text[..i], &[byte], &text[i..]].concat());
            }
        }
    }
    for i in 0..text.len() {
        about(run, small, 8, depth, &text[..i]);
        about(run, small, 8, depth, &[&text[..i], &text[i + 1..]].concat());
    }
}

fn write(run: &mut Run, n: usize, depth: u32, list: &[u32]) {
    let want = match model::refusal(depth, &[list]) {
        Some(refused) => Err(refused),
        None => Ok(spelled(depth, &model::black(depth, list))),
    };
    for room in rooms(&want) {
        run.same(|| format!("df_write {depth} {list:?}, room {room}, {n} words"), link::df_write(n, room, depth, list), told(n, room, &want));
    }
    // the text of a good list gives the list again
    if let Ok(text) = want {
        read(run, n, depth, &text, &Ok(list.to_vec()));
    }
}

/// So many gray cells, each in the child m of the one around it, the other children of one colour; the innermost holds `inner` there.
fn nested(levels: usize, m: usize, colour: u8, inner: &[u8]) -> Vec<u8> {
    (0..levels).fold(inner.to_vec(), |text, _| [b"(", &vec![colour; m][..], &text, &vec![colour; 7 - m]].concat())
}

/// The text of a random tree, whose root is gray with so many chances of eight and any cell under it with one; it may have eight equal leaves under a gray cell.
fn random(run: &mut Run, levels: u32, chances: u64, text: &mut Vec<u8>) {
    let leaf = letter(run.below(2) == 0);
    if levels == 0 || run.below(8) >= chances {
        text.push(leaf);
        return;
    }
    text.push(b'(');
    if run.below(12) == 0 {
        text.extend([leaf; 8]);
        return;
    }
    for _ in 0..8 {
        random(run, levels - 1, 1, text);
    }
}

/// The text with one byte changed, left out or put in, cut short, or with something after it.
fn damaged(run: &mut Run, text: &[u8]) -> Vec<u8> {
    let mut text = text.to_vec();
    let at = run.below(text.len() as u64 + 1) as usize;
    let byte = run.one_of(&[b'(', b'(', b'B', b'W', b'w', b')', 0, 255]);
    match run.below(6) {
        0 if at < text.len() => text[at] = byte,
        1 if at < text.len() => text[at] = if text[at] == b'B' { b'W' } else { b'B' },
        2 if at < text.len() => {
            text.remove(at);
        }
        3 => text.truncate(at),
        4 => text.push(byte),
        _ => text.insert(at, byte),
    }
    text
}

/// The texts that the ticket settles, as they are written there.
fn settled(run: &mut Run) {
    for depth in 0..=model::DEEPEST {
        for (list, text) in [(vec![], b"W"), (vec![1], b"B")] {
            run.same(|| format!("the text of {list:?}"), link::df_write(8, 1, depth, &list), told(8, 1, &Ok(text.to_vec())));
            run.same(|| format!("the list of {text:?}"), link::df_read(8, 1, depth, text), told(8, 1, &Ok(list)));
        }
        run.same(|| "the empty text".to_string(), link::df_read(8, 1, depth, b""), told(8, 1, &Err(link::answer(10, 0, 0))));
    }
    run.same(|| "the text of [r0]".to_string(), link::df_write(8, 9, 1, &[8]), told(8, 9, &Ok(b"(BWWWWWWW".to_vec())));
}

/// Every string of four bytes up to a length; at depth 1 all that acceptable texts begin with, and each of the four after it.
fn strings(run: &mut Run, small: &Small) {
    let longer = |text: &Vec<u8>| [b'(', b'B', b'W', b'x'].map(|b| [&text[..], &[b]].concat());
    for (depth, longest) in [(0, 4), (1, 7), (2, 7), (3, 6), (10, 6)] {
        let mut strings = vec![Vec::new()];
        about(run, small, 8, depth, b"");
        for _ in 0..longest {
            strings = strings.iter().flat_map(longer).collect();
            for text in &strings {
                about(run, small, 8, depth, text);
            }
        }
    }
    for text in small.of[1].begun.iter().flat_map(longer) {
        about(run, small, 8, 1, &text);
    }
}

/// Texts with one fault at every place.
fn faults(run: &mut Run, small: &Small) {
    changed(run, small, 0, b"B", 0..=255);
    changed(run, small, 1, b"(BWWWWWWW", 0..=255);
    changed(run, small, 2, b"(BBBBBBB(BBBWBBBB", 0..=255);
    changed(run, small, 3, b"(W(WWWWWWW(BBBBBBBWWWWWWB", 0..=255);
    for depth in 1..=model::DEEPEST {
        for m in [0, 7] {
            changed(run, small, depth, &nested(depth as usize, m, b'W', b"B"), b"(BWw)\x00".iter().copied());
        }
    }
    // anything after a root
    for depth in 0..=model::DEEPEST {
        for byte in 0..=255 {
            about(run, small, 8, depth, &[b'B', byte]);
        }
        about(run, small, 8, depth, b"WW");
        about(run, small, 8, depth, &[nested(depth as usize, 3, b'B', b"W"), b"B".to_vec()].concat());
    }
    // a great many cells opened
    about(run, small, 8, model::DEEPEST, &[b'('; 5000]);
}

/// Gray cells below the depth, and over eight equal leaves, at every depth and level, with the places of the wrong bytes counted by hand.
fn places(run: &mut Run, small: &Small) {
    let wrong = |run: &mut Run, depth: usize, text: &[u8], place: usize| {
        about(run, small, 8, depth as u32, text);
        let want = Err(link::answer(10, place as u64, 0));
        run.same(|| format!("the wrong byte of {depth} {}", String::from_utf8_lossy(text)), link::df_read(8, 9, depth as u32, text), told(8, 9, &want));
    };
    for depth in 0..=model::DEEPEST as usize {
        for (m, colour) in (0..8).flat_map(|m| [(m, b'B'), (m, b'W')]) {
            wrong(run, depth, &nested(depth, m, colour, b"(BWWWWWWW"), depth * (m + 1));
            for level in 0..depth {
                let equal = [&b"("[..], &[colour; 8]].concat();
                wrong(run, depth, &nested(level, m, colour, &equal), level * (m + 1) + 8);
                // eight equal gray cells are right, if they are not too low
                let gray = nested(1, m, b'W', b"B").repeat(8);
                about(run, small, 8, depth as u32, &nested(level, m, colour, &[b"(", &gray[..]].concat()));
            }
        }
    }
}

/// Every set of depth 1, every list of up to two codes from 0 to 17 at depths 0 to 2, each refusal of a list at every depth, and depths that are refused.
fn small_lists(run: &mut Run) {
    for list in lists::every(1) {
        write(run, 8, 1, &list);
    }
    for depth in 0..3 {
        for a in 0..18 {
            write(run, 8, depth, &[a]);
            for b in 0..18 {
                write(run, 8, depth, &[a, b]);
            }
        }
    }
    for depth in (0..13).chain([u32::MAX]) {
        for list in lists::FEW {
            write(run, 8, depth, list);
        }
    }
}

pub fn all(run: &mut Run) {
    let small = &Small { of: [Texts::new(0), Texts::new(1)] };
    settled(run);
    strings(run, small);
    faults(run, small);
    places(run, small);
    small_lists(run);
    for depth in [11, 12, u32::MAX] {
        for text in [&b""[..], b"B", b"x", b"(BWWWWWWW"] {
            about(run, small, 8, depth, text);
        }
    }
    for _ in 0..run.cases {
        let depth = run.one_of(&[0, 1, 2, 2, 3, 5, 10, 10, 11, u32::MAX]);
        let n = run.one_of(&[8, 8, 8, 9, 7, 0]);
        // any bytes; trees, one level too deep now and then, whole and damaged
        let bytes = run.one_of(&[&b"(BW"[..], b"((BBWW)", b"(BWx", b"BBBBBBBW("]);
        let any: Vec<u8> = (0..run.below(40)).map(|_| run.one_of(bytes)).collect();
        about(run, small, n, depth, &any);
        let levels = depth.min(10) + (run.below(6) == 0) as u32;
        let mut text = Vec::new();
        random(run, levels, 7, &mut text);
        about(run, small, n, depth, &text);
        let text = damaged(run, &text);
        about(run, small, n, depth, &text);
        let most = run.one_of(&[0, 1, 5, 20]);
        let list = if run.below(3) == 0 { lists::damaged(run, depth.min(10), most) } else { lists::good(run, depth.min(10), most) };
        write(run, n, depth, &list);
    }
    // records of many voxels at depth 10, and their texts damaged
    for voxels in [100, 200, 300] {
        let list = model::good_list(10, &model::union((0..voxels).map(|_| run.below(1 << 30)).map(|v| (v, v + 1)).collect()));
        write(run, 8, 10, &list);
        let text = spelled(10, &model::black(10, &list));
        for _ in 0..3 {
            let text = damaged(run, &text);
            about(run, small, 8, 10, &text);
        }
    }
}

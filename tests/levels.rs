//! The level of the largest cell of one colour that holds a voxel: ticket 6. It is decided twice, and the two ways share no code: over the voxels of a cell, by
//! coordinates, and over the leaves of a list, by voxel numbers.
use crate::link::{found, Answer};
use crate::model::{self, Cell};

// ---- over voxels

/// The voxels of the cell of that level that holds a voxel: along each axis those with the same quotient by its side.
pub fn voxels(depth: u32, at: [u32; 3], level: u32) -> impl Iterator<Item = [u32; 3]> {
    let side = 1 << (depth - level);
    let along = move |axis: usize| (0..side).map(move |x| at[axis] / side * side + x);
    along(2).flat_map(move |z| along(1).flat_map(move |y| along(0).map(move |x| [x, y, z])))
}

/// From the root down, the first level at which every voxel of the voxel's cell has its colour.
pub fn by_voxels(depth: u32, at: [u32; 3], is_black: impl Fn([u32; 3]) -> bool) -> u32 {
    let black = is_black(at);
    let of_one_colour = |level: &u32| voxels(depth, at, *level).all(|u| is_black(u) == black);
    (0..=depth).find(of_one_colour).expect("a voxel has one colour")
}

/// The colour of each voxel of a small root, by coordinates.
pub struct Painting {
    depth: u32,
    black: Vec<bool>,
}

impl Painting {
    /// The cubes of the leaves painted.
    pub fn new(depth: u32, list: &[u32]) -> Painting {
        let mut painting = Painting { depth, black: vec![false; 1 << (3 * depth)] };
        for code in list {
            let Cell { corner, level } = model::cell(depth, *code).unwrap();
            for at in voxels(depth, corner, level) {
                let i = painting.index(at);
                painting.black[i] = true;
            }
        }
        painting
    }

    fn index(&self, [x, y, z]: [u32; 3]) -> usize {
        ((z << self.depth | y) << self.depth | x) as usize
    }

    /// What a lookup should tell.
    pub fn found(&self, at: [u32; 3]) -> Answer {
        let is_black = |u| self.black[self.index(u)];
        found(is_black(at), by_voxels(self.depth, at, is_black))
    }
}

// ---- over leaves

/// The voxels of a leaf as an interval of voxel numbers, and its level.
struct Leaf {
    start: u64,
    end: u64,
    level: u32,
}

/// The leaves of a good list, in their order.
pub struct Leaves {
    depth: u32,
    leaves: Vec<Leaf>,
}

impl Leaves {
    /// The codes of level k are the numbers from 8^k on, 8^k of them.
    pub fn new(depth: u32, list: &[u32]) -> Leaves {
        let leaf = |code: &u32| {
            let level = (0..=depth).find(|k| code >> (3 * k) == 1).expect("a proper code");
            let span = 1 << (3 * (depth - level));
            let start = (*code as u64 - (1 << (3 * level))) * span;
            Leaf { start, end: start + span, level }
        };
        Leaves { depth, leaves: list.iter().map(leaf).collect() }
    }

    /// The first leaf that ends after a voxel, if there is one.
    fn next(&self, v: u64) -> Option<&Leaf> {
        self.leaves.get(self.leaves.partition_point(|leaf| leaf.end <= v))
    }

    /// The level of the leaf that holds a voxel; of a white one, from the root down, the first level at which its cell meets no leaf.
    fn level(&self, v: u64) -> (bool, u32) {
        if let Some(leaf) = self.next(v).filter(|leaf| leaf.start <= v) {
            return (true, leaf.level);
        }
        let meets_none = |level: &u32| {
            let span = 1 << (3 * (self.depth - level));
            let from = v / span * span;
            self.next(from).map_or(true, |leaf| from + span <= leaf.start)
        };
        (false, (0..=self.depth).find(meets_none).expect("a white voxel meets no leaf"))
    }

    /// What a lookup should tell.
    pub fn found(&self, at: [u32; 3]) -> Answer {
        let (black, level) = self.level(model::number(self.depth, at));
        found(black, level)
    }
}

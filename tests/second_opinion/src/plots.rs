//! Numbers by chance, repeatable, kinds of ground, and spacings.

use crate::surface::Spacings;

/// splitmix64
pub struct Chance(pub u64);

impl Chance {
    pub fn next(&mut self) -> u64 {
        self.0 = self.0.wrapping_add(0x9e37_79b9_7f4a_7c15);
        let mut z = self.0;
        z = (z ^ (z >> 30)).wrapping_mul(0xbf58_476d_1ce4_e5b9);
        z = (z ^ (z >> 27)).wrapping_mul(0x94d0_49bb_1331_11eb);
        z ^ (z >> 31)
    }

    /// From 0 to n - 1.
    pub fn below(&mut self, n: usize) -> usize {
        (self.next() % n as u64) as usize
    }

    /// From low to high.
    pub fn within(&mut self, low: i32, high: i32) -> i32 {
        low + self.below((high - low + 1) as usize) as i32
    }

    /// So many numbers from 0 to n - 1, no two alike.
    pub fn some(&mut self, count: usize, n: usize) -> Vec<usize> {
        let mut all: Vec<usize> = (0..n).collect();
        for i in 0..count {
            let other = i + self.below(n - i);
            all.swap(i, other);
        }
        all.truncate(count);
        all
    }

    pub fn one_in(&mut self, n: usize) -> bool {
        self.below(n) == 0
    }

    pub fn of<T: Copy>(&mut self, list: &[T]) -> T {
        list[self.below(list.len())]
    }

    pub fn bytes(&mut self, n: usize) -> Vec<u8> {
        (0..n).map(|_| self.next() as u8).collect()
    }

    pub fn shorts(&mut self, n: usize) -> Vec<u16> {
        (0..n).map(|_| self.next() as u16).collect()
    }
}

pub const GROUNDS: [&str; 10] = [
    "few heights",
    "up to ten",
    "random",
    "flat",
    "near level",
    "checkerboard",
    "smooth",
    "extremes",
    "spiral",
    "upward spiral",
];

pub fn ground(kind: &str, rows: usize, columns: usize, chance: &mut Chance) -> Vec<i32> {
    let posts = rows * columns;
    match kind {
        "few heights" => {
            let most = chance.within(1, 4);
            (0..posts).map(|_| chance.within(0, most)).collect()
        }
        // By spacings of 3 and 4, or such, some slopes of these are equal.
        "up to ten" => (0..posts).map(|_| chance.within(0, 10)).collect(),
        "random" => (0..posts).map(|_| chance.within(-1_000_000, 1_000_000)).collect(),
        "flat" => vec![chance.within(-1_000_000, 1_000_000); posts],
        "near level" => {
            (0..posts).map(|_| if chance.one_in(8) { chance.within(-1, 1) } else { 0 }).collect()
        }
        "checkerboard" => {
            let (low, high) = (chance.within(-5, 5), chance.within(-5, 5));
            (0..posts)
                .map(|p| if (p / columns + p % columns) % 2 == 1 { high } else { low })
                .collect()
        }
        "smooth" => {
            let wave = |chance: &mut Chance| {
                let scale = |c: &mut Chance| c.within(-300, 300) as f64 / 1000.0;
                (scale(chance), scale(chance), chance.within(0, 600) as f64 / 100.0)
            };
            let waves = [wave(chance), wave(chance), wave(chance)];
            let size = chance.of(&[3.0, 40.0, 5000.0, 300_000.0]);
            let height = |p: usize| {
                let (r, c) = ((p / columns) as f64, (p % columns) as f64);
                let sum: f64 = waves.iter().map(|(a, b, o)| (a * r + b * c + o).sin()).sum();
                (size * sum) as i32
            };
            (0..posts).map(height).collect()
        }
        "extremes" => (0..posts).map(|_| chance.of(&[-1_000_000, 1_000_000, 0, 999_999])).collect(),
        "spiral" => spiral(rows, columns),
        "upward spiral" => spiral(rows, columns).iter().map(|h| -h).collect(),
        _ => panic!("no such ground: {kind}"),
    }
}

/// Spacings by chance, of every sort: alike; with a diagonal that is a whole number, so that
/// its slope can be that of a side; at the bounds; and any.
pub fn any_spacings(chance: &mut Chance) -> Spacings {
    let (along_row, along_column) = match chance.below(4) {
        0 => chance.of(&[(1, 1), (100, 100), (1000, 1000)]),
        1 => chance.of(&[(3, 4), (4, 3), (12, 5), (600, 800), (800, 600)]),
        2 => chance.of(&[(1, 1000), (1000, 1), (999, 1000), (1, 2), (2, 1)]),
        _ => (1 + chance.below(1000) as u32, 1 + chance.below(1000) as u32),
    };
    Spacings { along_row, along_column }
}

/// Tenths to add to a height, halves among them.
pub const UNEVEN: [i32; 6] = [-5, -4, 0, 4, 5, 6];

/// Heights in tenths, one of these added to each as far as the range goes.
pub fn in_tenths(heights: &[i32], added: &[i32], chance: &mut Chance) -> Vec<i32> {
    let tenths = |h: &i32| (10 * h + chance.of(added)).clamp(-10_000_000, 10_000_000);
    heights.iter().map(tenths).collect()
}

/// Rows, columns and heights of a plot with sides from 2 to `most`, of each ground
/// in turn.
pub fn any_plot(turn: usize, most: usize, chance: &mut Chance) -> (usize, usize, Vec<i32>) {
    let (rows, columns) = (2 + chance.below(most - 1), 2 + chance.below(most - 1));
    (rows, columns, ground(GROUNDS[turn % GROUNDS.len()], rows, columns, chance))
}

/// A path one post wide that falls from the outside to the middle, with a high
/// wall between its windings.
fn spiral(rows: usize, columns: usize) -> Vec<i32> {
    const WALL: i32 = 900_000;
    let mut heights = vec![WALL; rows * columns];
    let open = |h: &[i32], r: i32, c: i32| {
        // Inside the border and not yet part of the path.
        r >= 1
            && c >= 1
            && r < rows as i32 - 1
            && c < columns as i32 - 1
            && h[r as usize * columns + c as usize] == WALL
    };
    let (mut r, mut c, mut dr, mut dc) = (1, 1, 0, 1);
    let mut height = 800_000;
    let mut turns = 0;
    while open(&heights, r, c) {
        heights[r as usize * columns + c as usize] = height;
        height -= 10;
        // Go on while the post ahead is free and the one beyond it is no path.
        let free = |dr: i32, dc: i32| {
            let beyond = (r + 2 * dr, c + 2 * dc);
            let path = beyond.0 >= 0
                && beyond.1 >= 0
                && beyond.0 < rows as i32
                && beyond.1 < columns as i32
                && heights[beyond.0 as usize * columns + beyond.1 as usize] != WALL;
            open(&heights, r + dr, c + dc) && !path
        };
        if !free(dr, dc) {
            (dr, dc) = (dc, -dr);
            turns += 1;
            if turns > 1000 || !free(dr, dc) {
                break;
            }
        }
        r += dr;
        c += dc;
    }
    heights
}

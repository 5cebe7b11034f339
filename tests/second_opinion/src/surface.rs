//! The surface network of docs/SPECIFICATION.md, said as plainly as possible and not fast:
//! order, edges by either rule, ring, runs, marks, slopes, walks, lines, dales and hills.

use std::cmp::Ordering;

pub const VIRTUAL_PIT: usize = 65535;

/// The two directions in the height order.
#[derive(Clone, Copy, PartialEq, Eq, Debug)]
pub enum Way {
    Down,
    Up,
}

/// Which diagonal cuts a cell: the one through its lowest post, or through its highest.
#[derive(Clone, Copy, PartialEq, Eq, Debug)]
pub enum Rule {
    Lowest = 1,
    Highest = 2,
}

pub const RULES: [Rule; 2] = [Rule::Lowest, Rule::Highest];

/// The ring's places, clockwise from north: row and column steps.
const PLACES: [(i32, i32); 8] =
    [(-1, 0), (-1, 1), (0, 1), (1, 1), (1, 0), (1, -1), (0, -1), (-1, -1)];
const NORTH: usize = 0;
const EAST: usize = 2;
const SOUTH: usize = 4;
const WEST: usize = 6;

/// Centimetres between neighbours in one row and between neighbours in one column.
#[derive(Clone, Copy, PartialEq, Eq, Debug, Default)]
pub struct Spacings {
    pub along_row: u32,
    pub along_column: u32,
}

impl Spacings {
    pub const fn of(along_row: u32, along_column: u32) -> Spacings {
        Spacings { along_row, along_column }
    }
}

/// The square of a slope, as a fraction: of the heights' difference, and of the edge's length.
struct Slope {
    difference: u128,
    length: u128,
}

impl Slope {
    fn compare(&self, other: &Slope) -> Ordering {
        (self.difference * other.length).cmp(&(other.difference * self.length))
    }
}

#[derive(Clone, Copy)]
pub struct Plot<'a> {
    pub rule: Rule,
    pub rows: usize,
    pub columns: usize,
    pub heights: &'a [i32],
}

impl Plot<'_> {
    pub fn posts(&self) -> usize {
        self.rows * self.columns
    }

    /// The post so many rows and columns away, if there is one.
    fn at(&self, post: usize, rows: i32, columns: i32) -> Option<usize> {
        let row = (post / self.columns) as i32 + rows;
        let column = (post % self.columns) as i32 + columns;
        let inside =
            0 <= row && row < self.rows as i32 && 0 <= column && column < self.columns as i32;
        inside.then(|| row as usize * self.columns + column as usize)
    }

    /// The posts that touch a post by side or corner.
    pub fn touching(&self, post: usize) -> Vec<usize> {
        PLACES.iter().filter_map(|&(r, c)| self.at(post, r, c)).collect()
    }

    /// Is p below q in the height order? Equal heights are ordered as driven, to and fro: the
    /// lower row is below, within an even row the lower column, within an odd one the higher.
    pub fn below(&self, p: usize, q: usize) -> bool {
        if p == VIRTUAL_PIT || q == VIRTUAL_PIT {
            return p == VIRTUAL_PIT && q != VIRTUAL_PIT;
        }
        if self.heights[p] != self.heights[q] {
            return self.heights[p] < self.heights[q];
        }
        let [(row, column), (other_row, other_column)] =
            [p, q].map(|post| (post / self.columns, post % self.columns));
        if row != other_row {
            row < other_row
        } else if row % 2 == 0 {
            column < other_column
        } else {
            column > other_column
        }
    }

    /// Is it a move this way from p to q?
    pub fn moves(&self, way: Way, p: usize, q: usize) -> bool {
        match way {
            Way::Down => self.below(q, p),
            Way::Up => self.below(p, q),
        }
    }

    /// The lowest, or the highest.
    pub fn extreme(&self, way: Way, vertices: &[usize]) -> usize {
        let mut best = vertices[0];
        for &v in vertices {
            if self.moves(way, best, v) {
                best = v;
            }
        }
        best
    }

    /// The neighbour at a place of the ring, the virtual pit left out.
    fn neighbour(&self, post: usize, place: usize) -> Option<usize> {
        let (r, c) = PLACES[place];
        let other = self.at(post, r, c)?;
        if r == 0 || c == 0 {
            return Some(other);
        }
        // The cell that has both at opposite corners is cut through one of them, or not.
        let cell = [post, self.at(post, r, 0)?, self.at(post, 0, c)?, other];
        let through = match self.rule {
            Rule::Lowest => self.extreme(Way::Down, &cell),
            Rule::Highest => self.extreme(Way::Up, &cell),
        };
        (through == post || through == other).then_some(other)
    }

    /// Where the virtual pit stands on the ring, if the post is on the border.
    fn pit_place(&self, post: usize) -> Option<usize> {
        let (row, column) = (post / self.columns, post % self.columns);
        if row == 0 {
            Some(NORTH)
        } else if column == self.columns - 1 {
            Some(EAST)
        } else if row == self.rows - 1 {
            Some(SOUTH)
        } else if column == 0 {
            Some(WEST)
        } else {
            None
        }
    }

    /// What stands at each place of the ring.
    fn places(&self, post: usize) -> [Option<usize>; 8] {
        let pit = self.pit_place(post);
        std::array::from_fn(|place| match pit {
            Some(at) if at == place => Some(VIRTUAL_PIT),
            _ => self.neighbour(post, place),
        })
    }

    pub fn ring(&self, post: usize) -> Vec<usize> {
        self.places(post).into_iter().flatten().collect()
    }

    /// For each place of the ring, is the member there below the post? An absent one carries
    /// the sign of the last member before it; N is never absent.
    pub fn signs(&self, post: usize) -> [bool; 8] {
        let mut last = None;
        self.places(post).map(|place| {
            last = place.map(|member| self.below(member, post)).or(last);
            last.expect("a member at N")
        })
    }

    /// How a member of the ring stands to the post: 1 above by height, 2 above by tie,
    /// 3 below by height, 4 below by tie. The virtual pit has no height to be equal.
    pub fn stands(&self, member: usize, post: usize) -> u8 {
        let tie = member != VIRTUAL_PIT && self.heights[member] == self.heights[post];
        match (self.below(member, post), tie) {
            (false, false) => 1,
            (false, true) => 2,
            (true, false) => 3,
            (true, true) => 4,
        }
    }

    /// The runs of one sort, in the order of their numbers.
    pub fn runs(&self, post: usize, way: Way) -> Vec<Vec<usize>> {
        let ring = self.ring(post);
        let of_sort = |v: usize| self.below(v, post) == (way == Way::Down);
        if ring.iter().all(|&v| of_sort(v)) {
            return vec![ring];
        }
        let mut runs = Vec::new();
        for i in 0..ring.len() {
            let before = ring[(i + ring.len() - 1) % ring.len()];
            if of_sort(ring[i]) && !of_sort(before) {
                let mut run = Vec::new();
                let mut j = i;
                while of_sort(ring[j]) {
                    run.push(ring[j]);
                    j = (j + 1) % ring.len();
                }
                runs.push(run);
            }
        }
        runs
    }

    pub fn mark(&self, post: usize) -> u8 {
        let lower = self.runs(post, Way::Down).len();
        let upper = self.runs(post, Way::Up).len();
        match (lower, upper) {
            (_, 0) => 1,
            (0, _) => 2,
            (1, _) => 0,
            (k, _) => k as u8 + 1,
        }
    }

    pub fn marks(&self) -> Vec<u8> {
        (0..self.posts()).map(|p| self.mark(p)).collect()
    }

    pub fn is_saddle(&self, post: usize) -> bool {
        self.mark(post) >= 3
    }

    /// The slope between two posts, by Pythagoras.
    fn slope(&self, p: usize, q: usize, spacings: Spacings) -> Slope {
        let rows = (p / self.columns).abs_diff(q / self.columns) as u128;
        let columns = (p % self.columns).abs_diff(q % self.columns) as u128;
        let across = columns * spacings.along_row as u128;
        let along = rows * spacings.along_column as u128;
        let difference = self.heights[p].abs_diff(self.heights[q]) as u128;
        Slope { difference: difference.pow(2), length: across.pow(2) + along.pow(2) }
    }

    /// The steepest of these members of a post's ring, which are all this way from it: the
    /// virtual pit if it is one of them; of equal slopes the one that is furthest this way.
    fn steepest(&self, post: usize, way: Way, members: &[usize], spacings: Spacings) -> usize {
        if members.contains(&VIRTUAL_PIT) {
            return VIRTUAL_PIT;
        }
        let slopes: Vec<Slope> =
            members.iter().map(|&member| self.slope(post, member, spacings)).collect();
        let greatest = slopes.iter().max_by(|a, b| a.compare(b)).expect("a member");
        let equal =
            members.iter().zip(&slopes).filter(|(_, slope)| slope.compare(greatest).is_eq());
        let steepest: Vec<usize> = equal.map(|(&member, _)| member).collect();
        self.extreme(way, &steepest)
    }

    /// Next down or next up.
    pub fn next(&self, post: usize, way: Way, spacings: Spacings) -> usize {
        let mut members = self.ring(post);
        members.retain(|&member| self.moves(way, post, member));
        if members.is_empty() {
            return post;
        }
        self.steepest(post, way, &members, spacings)
    }

    /// The line of a saddle along one run.
    pub fn line(&self, post: usize, way: Way, run: &[usize], spacings: Spacings) -> Vec<usize> {
        let mut line = vec![post, self.steepest(post, way, run, spacings)];
        loop {
            let last = *line.last().unwrap();
            if last == VIRTUAL_PIT {
                return line;
            }
            match self.next(last, way, spacings) {
                next if next == last => return line,
                next => line.push(next),
            }
        }
    }

    /// For each post the end of its walk: its dale, or its hill.
    pub fn ends(&self, way: Way, spacings: Spacings) -> Vec<usize> {
        let next: Vec<usize> = (0..self.posts()).map(|p| self.next(p, way, spacings)).collect();
        let end_of = |mut p: usize| {
            while p != VIRTUAL_PIT && next[p] != p {
                p = next[p];
            }
            p
        };
        (0..self.posts()).map(end_of).collect()
    }
}

/// Lower runs and mark by the changes of side round eight signs: the index is one less half
/// of them, 1 at a peak or pit, 0 at an ordinary post, and at a saddle less than that by its
/// multiplicity.
pub fn by_changes(signs: [bool; 8]) -> (u32, u8) {
    let changes = (0..8).filter(|&i| signs[i] != signs[(i + 1) % 8]).count();
    match 1 - changes as i32 / 2 {
        1 if signs[0] => (1, 1),
        1 => (0, 2),
        0 => (1, 0),
        index => (1 + index.unsigned_abs(), 2 + index.unsigned_abs() as u8),
    }
}

/// Peaks, pits with the virtual pit, saddles by multiplicity.
pub fn counts(marks: &[u8]) -> [u32; 3] {
    let of = |mark: u8| marks.iter().filter(|&&m| m == mark).count() as u32;
    [of(1), of(2) + 1, of(3) + 2 * of(4) + 3 * of(5)]
}

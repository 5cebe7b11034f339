//! Every call as docs/SPECIFICATION.md tells it: the refusals, then the answer. A
//! list is handed in as lent and comes back as the call must leave it.

use crate::bodies;
use crate::sheet;
use crate::surface::{counts, Plot, Rule, Spacings, Way, VIRTUAL_PIT};

/// Number and place.
pub type Refusal = (u32, u32);

const HEIGHT: i64 = 1_000_000;
const TENTHS: i64 = 10_000_000;

fn outside(value: i32, bound: i64) -> bool {
    (value as i64) < -bound || (value as i64) > bound
}

fn row_1(rows: u32, columns: u32) -> Result<(), Refusal> {
    let good = 2..=120;
    if good.contains(&rows) && good.contains(&columns) {
        Ok(())
    } else {
        Err((1, 0))
    }
}

fn row_15(spacings: Spacings) -> Result<(), Refusal> {
    let good = 1..=1000;
    if good.contains(&spacings.along_row) && good.contains(&spacings.along_column) {
        Ok(())
    } else {
        Err((15, 0))
    }
}

fn row_2(rows: u32, columns: u32, heights: &[i32]) -> Result<(), Refusal> {
    if heights.len() == rows as usize * columns as usize {
        Ok(())
    } else {
        Err((2, 0))
    }
}

fn row_3(length: usize, size: usize) -> Result<(), Refusal> {
    if length == size {
        Ok(())
    } else {
        Err((3, 0))
    }
}

fn row_4(heights: &[i32], bound: i64) -> Result<(), Refusal> {
    match heights.iter().position(|&h| outside(h, bound)) {
        None => Ok(()),
        Some(post) => Err((4, post as u32)),
    }
}

fn row_5(post: u32, plot: &Plot) -> Result<(), Refusal> {
    if (post as usize) < plot.posts() {
        Ok(())
    } else {
        Err((5, 0))
    }
}

fn row_6(height: i32) -> Result<(), Refusal> {
    if outside(height, HEIGHT) {
        Err((6, 0))
    } else {
        Ok(())
    }
}

/// A plot as it is lent, with its sheet, before anything of it is judged.
#[derive(Clone, Copy)]
pub struct Given<'a> {
    pub sheet: &'a [u8],
    pub rows: u32,
    pub columns: u32,
    pub heights: &'a [i32],
}

impl<'a> Given<'a> {
    /// The sheet's rule, which is judged before anything else; then the sides are.
    fn rule(&self) -> Result<Rule, Refusal> {
        let rule = sheet::read(self.sheet)?.rule;
        row_1(self.rows, self.columns)?;
        Ok(rule)
    }

    fn by_rule(&self, rule: Rule) -> Result<Plot<'a>, Refusal> {
        let Given { rows, columns, heights, .. } = *self;
        row_2(rows, columns, heights)?;
        Ok(Plot { rule, rows: rows as usize, columns: columns as usize, heights })
    }

    fn plot(&self) -> Result<Plot<'a>, Refusal> {
        self.by_rule(self.rule()?)
    }

    /// The plot of a call that takes spacings.
    fn spaced(&self, spacings: Spacings) -> Result<Plot<'a>, Refusal> {
        let rule = self.rule()?;
        row_15(spacings)?;
        self.by_rule(rule)
    }
}

/// Code, place and the values, which are 0 after a refusal.
fn answer<const N: usize>(outcome: Result<Vec<u32>, Refusal>) -> [u32; N] {
    let mut answer = [0; N];
    match outcome {
        Ok(values) => answer[2..].copy_from_slice(&values),
        Err((code, place)) => (answer[0], answer[1]) = (code, place),
    }
    answer
}

pub fn settings(sheet: &[u8], name: &mut [u8]) -> [u32; 4] {
    answer((|| {
        let settings = sheet::read(sheet)?;
        row_3(name.len(), 32)?;
        let (front, after) = name.split_at_mut(settings.name.len());
        front.copy_from_slice(&settings.name);
        after.fill(0);
        Ok(vec![settings.rule as u32, settings.name.len() as u32])
    })())
}

pub fn survey(given: Given, marks: &mut [u8]) -> [u32; 5] {
    answer((|| {
        let plot = given.plot()?;
        row_3(marks.len(), plot.posts())?;
        row_4(plot.heights, HEIGHT)?;
        marks.copy_from_slice(&plot.marks());
        Ok(counts(marks).to_vec())
    })())
}

pub fn reshoot(
    sheet: &[u8],
    rows: u32,
    columns: u32,
    heights: &mut [i32],
    marks: &mut [u8],
    post: u32,
    height: i32,
) -> [u32; 2] {
    answer((|| {
        let old = Given { sheet, rows, columns, heights }.plot()?;
        row_3(marks.len(), old.posts())?;
        row_4(heights, HEIGHT)?;
        row_5(post, &old)?;
        row_6(height)?;
        heights[post as usize] = height;
        let new = Given { sheet, rows, columns, heights }.plot()?;
        marks[post as usize] = new.mark(post as usize);
        for p in new.touching(post as usize) {
            marks[p] = new.mark(p);
        }
        Ok(vec![])
    })())
}

/// The counts of the plot as it is, and of the plot with the height put in.
pub fn trial(given: Given, post: u32, height: i32) -> [u32; 8] {
    answer((|| {
        let now = given.plot()?;
        row_4(now.heights, HEIGHT)?;
        row_5(post, &now)?;
        row_6(height)?;
        let mut heights = now.heights.to_vec();
        heights[post as usize] = height;
        let then = Plot { heights: &heights, ..now };
        Ok([now, then].map(|plot| counts(&plot.marks())).concat())
    })())
}

pub fn ring(given: Given, post: u32, list: &mut [u8]) -> [u32; 4] {
    answer((|| {
        let plot = given.plot()?;
        row_3(list.len(), 8)?;
        row_4(plot.heights, HEIGHT)?;
        row_5(post, &plot)?;
        let post = post as usize;
        list.fill(0);
        for (byte, member) in list.iter_mut().zip(plot.ring(post)) {
            *byte = plot.stands(member, post);
        }
        let k = plot.runs(post, Way::Down).len();
        Ok(vec![k as u32, plot.mark(post) as u32])
    })())
}

pub fn next(way: Way, given: Given, spacings: Spacings, post: u32) -> [u32; 3] {
    answer((|| {
        let plot = given.spaced(spacings)?;
        row_4(plot.heights, HEIGHT)?;
        row_5(post, &plot)?;
        Ok(vec![plot.next(post as usize, way, spacings) as u32])
    })())
}

pub fn line(
    way: Way,
    given: Given,
    spacings: Spacings,
    post: u32,
    run: u32,
    list: &mut [u16],
) -> [u32; 3] {
    answer((|| {
        let plot = given.spaced(spacings)?;
        row_4(plot.heights, HEIGHT)?;
        row_5(post, &plot)?;
        if !plot.is_saddle(post as usize) {
            return Err((7, 0));
        }
        let runs = plot.runs(post as usize, way);
        let members = runs.get(run as usize).ok_or((8, 0))?;
        let line = plot.line(post as usize, way, members, spacings);
        if line.len() > list.len() {
            return Err((9, 0));
        }
        for (entry, &vertex) in list.iter_mut().zip(&line) {
            *entry = vertex as u16;
        }
        Ok(vec![line.len() as u32])
    })())
}

pub fn dales_and_hills(
    given: Given,
    spacings: Spacings,
    dales: &mut [u16],
    hills: &mut [u16],
) -> [u32; 2] {
    answer((|| {
        let plot = given.spaced(spacings)?;
        row_3(dales.len(), plot.posts())?;
        row_3(hills.len(), plot.posts())?;
        row_4(plot.heights, HEIGHT)?;
        for (list, way) in [(dales, Way::Down), (hills, Way::Up)] {
            for (entry, end) in list.iter_mut().zip(plot.ends(way, spacings)) {
                *entry = end as u16;
            }
        }
        Ok(vec![])
    })())
}

pub fn joins_and_splits(given: Given, joins: &mut [u8], splits: &mut [u8]) -> [u32; 2] {
    answer((|| {
        let plot = given.plot()?;
        row_3(joins.len(), plot.posts())?;
        row_3(splits.len(), plot.posts())?;
        row_4(plot.heights, HEIGHT)?;
        let told = bodies::joins_and_splits(&plot);
        joins.copy_from_slice(&told[0]);
        splits.copy_from_slice(&told[1]);
        Ok(vec![])
    })())
}

/// Tenths to whole millimetres: the nearest, and of two as near the even one.
fn rounded(tenths: i32) -> i32 {
    let about = tenths / 10; // less than 1 off
    (about - 1..=about + 1).min_by_key(|mm| ((10 * mm - tenths).abs(), mm & 1)).unwrap()
}

/// The spacings that a file has, and its bytes after them; before them stand the version, the
/// count and the sides, which are there.
fn spacings_of(file: &[u8]) -> Result<(Spacings, &[u8]), Refusal> {
    match (file[0], &file[7..]) {
        (1, heights) => Ok((FILED_1, heights)),
        (2, [a, b, c, d, heights @ ..]) => {
            let [along_row, along_column] = [[*a, *b], [*c, *d]].map(u16::from_be_bytes);
            Ok((Spacings::of(along_row as u32, along_column as u32), heights))
        }
        (2, _) => Err((10, 0)),
        _ => Err((11, 0)),
    }
}

pub fn read_survey(file: &[u8], heights: &mut [i32]) -> [u32; 6] {
    answer((|| {
        if file.len() < 7 {
            return Err((10, 0));
        }
        let (spacings, filed) = spacings_of(file)?;
        let (rows, columns) = (file[5] as u32, file[6] as u32);
        row_1(rows, columns)?;
        row_15(spacings)?;
        let stated = u32::from_be_bytes(file[1..5].try_into().unwrap()) as usize;
        let posts = (rows * columns) as usize;
        let before_heights = if file[0] == 1 { 2 } else { 6 };
        if stated != file.len() - 5 || stated != before_heights + 4 * posts {
            return Err((12, 0));
        }
        row_3(heights.len(), posts)?;
        let tenths: Vec<i32> =
            filed.chunks(4).map(|bytes| i32::from_be_bytes(bytes.try_into().unwrap())).collect();
        row_4(&tenths, TENTHS)?;
        for (height, &tenth) in heights.iter_mut().zip(&tenths) {
            *height = rounded(tenth);
        }
        Ok(vec![rows, columns, spacings.along_row, spacings.along_column])
    })())
}

/// What the spacings of a file of version 1 are read as.
pub const FILED_1: Spacings = Spacings::of(100, 100);

/// A survey file of version 2 with these tenths, fit or not.
pub fn file_of(rows: u8, columns: u8, spacings: Spacings, tenths: &[i32]) -> Vec<u8> {
    let [along_row, along_column] =
        [spacings.along_row, spacings.along_column].map(|s| (s as u16).to_be_bytes());
    of_version(2, &[&[rows, columns], &along_row[..], &along_column].concat(), tenths)
}

/// The same of version 1.
pub fn file_1_of(rows: u8, columns: u8, tenths: &[i32]) -> Vec<u8> {
    of_version(1, &[rows, columns], tenths)
}

/// A file with these bytes between its count and its tenths.
fn of_version(version: u8, between: &[u8], tenths: &[i32]) -> Vec<u8> {
    let mut file = vec![version];
    file.extend((between.len() as u32 + 4 * tenths.len() as u32).to_be_bytes());
    file.extend(between);
    for tenth in tenths {
        file.extend(tenth.to_be_bytes());
    }
    file
}

pub fn write_survey(
    rows: u32,
    columns: u32,
    spacings: Spacings,
    heights: &[i32],
    file: &mut [u8],
) -> [u32; 2] {
    answer((|| {
        row_1(rows, columns)?;
        row_15(spacings)?;
        row_2(rows, columns, heights)?;
        row_3(file.len(), 11 + 4 * heights.len())?;
        row_4(heights, HEIGHT)?;
        let tenths: Vec<i32> = heights.iter().map(|h| h * 10).collect();
        file.copy_from_slice(&file_of(rows as u8, columns as u8, spacings, &tenths));
        Ok(vec![])
    })())
}

/// Is each set of members with one name in one piece along edges, and does the
/// named vertex belong to it? The virtual pit is a member of its own dale.
pub fn in_one_piece(plot: &Plot, names: &[u16], way: Way) -> bool {
    let name_of = |v: usize| if v == VIRTUAL_PIT { VIRTUAL_PIT } else { names[v] as usize };
    let allowed = |v: usize| way == Way::Down || v != VIRTUAL_PIT;
    // Edges both ways, so that the virtual pit's are found too.
    let mut edges = vec![Vec::new(); plot.posts() + 1];
    let slot = |v: usize| if v == VIRTUAL_PIT { plot.posts() } else { v };
    for p in 0..plot.posts() {
        for q in plot.ring(p) {
            edges[p].push(q);
            if q == VIRTUAL_PIT {
                edges[slot(q)].push(p);
            }
        }
    }
    let mut reached = vec![false; plot.posts() + 1];
    for p in 0..plot.posts() {
        let root = name_of(p);
        if root != VIRTUAL_PIT && root >= plot.posts() || !allowed(root) || name_of(root) != root {
            return false;
        }
        let mut open = vec![root];
        while let Some(v) = open.pop() {
            if std::mem::replace(&mut reached[slot(v)], true) {
                continue;
            }
            open.extend(edges[slot(v)].iter().filter(|&&q| allowed(q) && name_of(q) == root));
        }
        if !reached[p] {
            return false;
        }
    }
    true
}

//! Water takes the steepest edge: slopes that are equal or all but equal, drops and spacings at
//! their bounds, spacings that mean the same and spacings told apart.

use super::whole_plots::{by_each, every_plot, whole_plot};
use super::{good, WAYS};
use crate::call::{Call, Kind};
use crate::plots::{any_plot, any_spacings, Chance};
use crate::surface::{Plot, Rule, Spacings, Way, RULES, VIRTUAL_PIT};
use crate::tester::{law, Outcome, Tester};

pub fn all(t: &mut Tester, chance: &mut Chance, times: usize) {
    told_apart(t);
    equal_slopes(t, chance);
    close_slopes(t, chance);
    extremes(t, chance);
    scaled(t, chance, 300 * times);
    transposed(t, chance, 300 * times);
}

/// Row and column steps.
type Steps = (i32, i32);

/// The places round a post, in post order.
const AROUND: [Steps; 8] = [(-1, -1), (-1, 0), (-1, 1), (0, -1), (0, 1), (1, -1), (1, 0), (1, 1)];

/// The answer and the lists afterwards, the spacings left out.
fn outcome(t: &Tester, call: &Call, spacings: Spacings) -> Result<(Vec<u32>, Call), String> {
    let (answer, left) = t.agree(&Call { spacings, ..call.clone() })?;
    Ok((answer, Call { spacings: Spacings::default(), ..left }))
}

/// The spacings exchanged give every call that takes them another outcome: post 5 is a saddle
/// with a run of the posts 6 and 9. Upside down by the other rule it has the same edges.
fn told_apart(t: &mut Tester) {
    t.group("spacings told apart by every call");
    let turn = [9, 17, 16, 15, 18, 10, 4, 14, 19, 5, 12, 13];
    let upside_down = turn.map(|height| -height);
    for (kind, rule, heights) in [
        (Kind::NextDown, Rule::Lowest, &turn),
        (Kind::Thalweg, Rule::Lowest, &turn),
        (Kind::NextUp, Rule::Highest, &upside_down),
        (Kind::Ridge, Rule::Highest, &upside_down),
        (Kind::DalesAndHills, Rule::Lowest, &turn),
        (Kind::WriteSurvey, Rule::Lowest, &turn),
    ] {
        let plot = Plot { rule, rows: 3, columns: 4, heights };
        let call = Call { post: 5, ..good(kind, &plot, &mut Chance(1)) };
        let [one, other] = [(200, 100), (100, 200)].map(|(along_row, along_column)| {
            outcome(t, &call, Spacings { along_row, along_column })
        });
        t.case(one.and_then(|one| law(one != other?, "the outcomes differ", &call)));
    }
}

/// All plots of a post and those round it in which every edge at the post falls or rises at
/// one slope, or is level: spacings of 3 and 4, so that a diagonal is 5. The post stands in an
/// odd row, and in an even one.
fn equal_slopes(t: &mut Tester, chance: &mut Chance) {
    t.group("equal slopes along rows, columns and diagonals");
    for (rows, along_row, along_column) in [(3, 3, 4), (4, 4, 3)] {
        let spacings = Spacings { along_row, along_column };
        for signs in every_plot(1, 8, 3) {
            let signs: Vec<i32> = signs.iter().map(|sign| sign - 1).collect();
            for rule in RULES {
                t.case(one_slope(t, rule, rows, spacings, &signs, chance));
            }
        }
    }
}

/// The length of an edge where the spacings are 3 and 4.
fn length((rows, columns): Steps, spacings: Spacings) -> i32 {
    match (rows, columns) {
        (0, _) => spacings.along_row as i32,
        (_, 0) => spacings.along_column as i32,
        _ => 5,
    }
}

/// A plot of three columns with these signs round the last post that is on no border. A
/// sloping edge is steeper than a level one, and among edges of one slope the order decides.
fn one_slope(
    t: &Tester,
    rule: Rule,
    rows: usize,
    spacings: Spacings,
    signs: &[i32],
    chance: &mut Chance,
) -> Outcome {
    let post = 3 * rows - 5;
    let mut heights = vec![0; 3 * rows];
    for (&steps, sign) in AROUND.iter().zip(signs) {
        heights[beside(post, 3, steps)] = sign * length(steps, spacings);
    }
    let plot = Plot { rule, rows, columns: 3, heights: &heights };
    for (way, next, line) in WAYS {
        let first = |members: &[usize]| {
            let sloping = members.iter().copied().filter(|&member| heights[member] != 0);
            let sloping: Vec<usize> = sloping.collect();
            plot.extreme(way, if sloping.is_empty() { members } else { &sloping })
        };
        let runs = plot.runs(post, way);
        let members = runs.concat();
        let expected = if members.is_empty() { post } else { first(&members) };
        let call = Call { post: post as u32, spacings, ..good(next, &plot, chance) };
        let (answer, _) = t.agree(&call)?;
        law(answer[2] as usize == expected, "next by equal slopes", &call)?;
        if !plot.is_saddle(post) {
            continue;
        }
        for (run, members) in runs.iter().enumerate() {
            let call = Call { post: post as u32, spacings, ..good(line, &plot, chance) };
            let call = Call { run: run as u32, ..call };
            let (_, left) = t.agree(&call)?;
            law(left.line[1] as usize == first(members), "a line by equal slopes", &call)?;
        }
    }
    Ok(())
}

/// The post so many rows and columns away.
fn beside(post: usize, columns: usize, (rows, steps): Steps) -> usize {
    (post as i32 + rows * columns as i32 + steps) as usize
}

/// The spacing of a side and the other one, a drop along the side and one along a diagonal,
/// and whether the diagonal is the steeper: the squares, multiplied out, have more than the 53
/// bits of a float and differ by 1, in the last by 4.
const CLOSE: [(u32, u32, i32, i32, bool); 6] = [
    (115, 72, 1_119_533, 1_320_852, false),
    (999, 2, 499_001, 499_002, false),
    (689, 236, 1_418_928, 1_499_857, true),
    (317, 504, 915_492, 1_719_517, true),
    (257, 199, 439_452, 555_793, true),
    (998, 2, 996_005, 996_007, false),
];

/// Two edges from the middle of a plot that are all but equally steep: where they lead, and how
/// far down, or up.
struct Close {
    spacings: Spacings,
    side: (Steps, i32),
    corner: (Steps, i32),
    steeper: Steps,
}

fn close_slopes(t: &mut Tester, chance: &mut Chance) {
    t.group("slopes that are all but equal");
    for (length, other, side_drop, corner_drop, diagonal) in CLOSE {
        for corner in [(-1, -1), (-1, 1), (1, -1), (1, 1)] {
            for (spacings, side) in [
                (Spacings::of(length, other), (0, corner.1)),
                (Spacings::of(other, length), (corner.0, 0)),
            ] {
                let steeper = if diagonal { corner } else { side };
                let (side, corner) = ((side, side_drop), (corner, corner_drop));
                let close = Close { spacings, side, corner, steeper };
                for (way, next, line) in WAYS {
                    t.case(close.steps(t, way, next, chance));
                    t.case(close.lines(t, way, line, chance));
                    t.case(close.parts(t, way, chance));
                }
            }
        }
    }
}

impl Close {
    /// Of three by three posts, the others a millimetre off: the next post.
    fn steps(&self, t: &Tester, way: Way, next: Kind, chance: &mut Chance) -> Outcome {
        let heights = self.heights(way, 3, 1_000_000, &[]);
        for rule in RULES {
            let plot = Plot { rule, rows: 3, columns: 3, heights: &heights };
            let call = Call { post: 4, spacings: self.spacings, ..good(next, &plot, chance) };
            let (answer, _) = t.agree(&call)?;
            let expected = beside(4, 3, self.steeper);
            law(answer[2] as usize == expected, "the steeper of two that are close", &call)?;
        }
        Ok(())
    }

    /// The same of a saddle's line: the posts across from the side are a millimetre the other
    /// way, and the rule is the one that joins the corner.
    fn lines(&self, t: &Tester, way: Way, line: Kind, chance: &mut Chance) -> Outcome {
        let (rows, columns) = self.side.0;
        let across = [((columns, rows), -1), ((-columns, -rows), -1)];
        let heights = self.heights(way, 3, 999_999, &across);
        let rule = match way {
            Way::Down => Rule::Lowest,
            Way::Up => Rule::Highest,
        };
        let plot = Plot { rule, rows: 3, columns: 3, heights: &heights };
        let [side, corner] = [self.side, self.corner].map(|(steps, _)| beside(4, 3, steps));
        let runs = plot.runs(4, way);
        let run = runs.iter().position(|run| run.contains(&side) && run.contains(&corner));
        let run = run.ok_or("no run of side and corner")? as u32;
        let call = Call { post: 4, run, spacings: self.spacings, ..good(line, &plot, chance) };
        let (answer, left) = t.agree(&call)?;
        let expected = beside(4, 3, self.steeper);
        law(answer[0] == 0 && left.line[1] as usize == expected, "the steeper of two", &call)
    }

    /// The same of dales and hills: the corner is a pit, or a peak, and from the side it goes on
    /// to the border. The rule is the one that parts the corner from the border there.
    fn parts(&self, t: &Tester, way: Way, chance: &mut Chance) -> Outcome {
        let (rows, columns) = self.side.0;
        let beyond = (2 * rows, 2 * columns);
        let heights = self.heights(way, 5, 1_000_000, &[(beyond, 2_000_000)]);
        let rule = match way {
            Way::Down => Rule::Highest,
            Way::Up => Rule::Lowest,
        };
        let plot = Plot { rule, rows: 5, columns: 5, heights: &heights };
        let call = good(Kind::DalesAndHills, &plot, chance);
        let call = Call { spacings: self.spacings, ..call };
        let (_, left) = t.agree(&call)?;
        let (end, by_side) = match way {
            Way::Down => (left.dales[12], VIRTUAL_PIT),
            Way::Up => (left.hills[12], beside(12, 5, beyond)),
        };
        let by_corner = beside(12, 5, self.corner.0);
        let expected = if self.steeper == self.corner.0 { by_corner } else { by_side };
        law(end as usize == expected, "the end by the steeper of two", &call)
    }

    /// Heights of a square plot round a middle one: the two and those so far this way, the
    /// others a millimetre.
    fn heights(&self, way: Way, width: usize, middle: i32, those: &[(Steps, i32)]) -> Vec<i32> {
        let post = width * width / 2;
        let mut heights = vec![middle - 1; width * width];
        heights[post] = middle;
        for &(steps, drop) in [self.side, self.corner].iter().chain(those) {
            heights[beside(post, width, steps)] = middle - drop;
        }
        if way == Way::Up {
            heights.iter_mut().for_each(|height| *height = -*height);
        }
        heights
    }
}

/// All plots of 3 by 3 posts at the two ends of the range, by spacings at the ends of theirs.
fn extremes(t: &mut Tester, chance: &mut Chance) {
    t.group("drops and spacings at the bounds");
    let all = [(1, 1), (1, 1000), (1000, 1), (999, 1000), (1000, 1000)];
    let all = all.map(|(along_row, along_column)| Spacings { along_row, along_column });
    for ends in every_plot(3, 3, 2) {
        let heights: Vec<i32> = ends.iter().map(|end| 2_000_000 * end - 1_000_000).collect();
        for rule in RULES {
            let plot = Plot { rule, rows: 3, columns: 3, heights: &heights };
            t.case(by_each(t, &plot, &all, 9, chance));
        }
    }
}

const BY_SLOPES: [Kind; 5] =
    [Kind::NextDown, Kind::NextUp, Kind::Thalweg, Kind::Ridge, Kind::DalesAndHills];

/// Both spacings so many times as long mean the same.
fn scaled(t: &mut Tester, chance: &mut Chance, times: usize) {
    t.group("spacings in one proportion, one outcome");
    for i in 0..times {
        let (rows, columns, heights) = any_plot(i, 8, chance);
        let plot = Plot { rule: RULES[i % 2], rows, columns, heights: &heights };
        let one = Spacings::of(1 + chance.below(50) as u32, 1 + chance.below(50) as u32);
        let by = 2 + chance.below(19) as u32;
        let other = Spacings::of(by * one.along_row, by * one.along_column);
        for kind in BY_SLOPES {
            let call = good(kind, &plot, chance);
            t.case(outcome(t, &call, one).and_then(|one| {
                law(one == outcome(t, &call, other)?, "one proportion, one outcome", &call)
            }));
        }
    }
}

/// Rows taken for columns, and the spacings exchanged, mean the same where no two heights are
/// equal.
fn transposed(t: &mut Tester, chance: &mut Chance, times: usize) {
    t.group("rows for columns, with the spacings exchanged");
    for i in 0..times {
        let (rows, columns) = (2 + chance.below(9), 2 + chance.below(9));
        let order = chance.some(rows * columns, rows * columns);
        let heights: Vec<i32> = order.iter().map(|&place| 3 * place as i32).collect();
        let plot = Plot { rule: RULES[i % 2], rows, columns, heights: &heights };
        t.case(one_transposed(t, &plot, chance));
    }
}

fn one_transposed(t: &Tester, plot: &Plot, chance: &mut Chance) -> Outcome {
    let (rows, columns) = (plot.columns, plot.rows);
    let there = |v: usize| match v {
        VIRTUAL_PIT => VIRTUAL_PIT,
        post => post % plot.columns * plot.rows + post / plot.columns,
    };
    let mut heights = vec![0; plot.posts()];
    for (post, &height) in plot.heights.iter().enumerate() {
        heights[there(post)] = height;
    }
    let other = Plot { rows, columns, heights: &heights, ..*plot };
    let spacings = any_spacings(chance);
    let exchanged = Spacings::of(spacings.along_column, spacings.along_row);
    let call = Call { spacings, ..good(Kind::DalesAndHills, plot, chance) };
    let (_, left) = t.agree(&call)?;
    let call = Call { spacings: exchanged, ..good(Kind::DalesAndHills, &other, chance) };
    let (_, right) = t.agree(&call)?;
    for (post, names) in left.dales.iter().zip(&left.hills).enumerate() {
        let (dale, hill) = (there(*names.0 as usize), there(*names.1 as usize));
        let others = (right.dales[there(post)] as usize, right.hills[there(post)] as usize);
        law((dale, hill) == others, "dales and hills of rows for columns", &left)?;
    }
    whole_plot(t, plot, 5, chance)
}

//! Trials of re-shoots: plots as drawn by hand, and trials beside the re-shoots and surveys that
//! they tell of.

use super::good;
use super::whole_plots::every_plot;
use crate::call::{Call, Kind};
use crate::plots::{any_plot, ground, Chance, GROUNDS};
use crate::sheet::sheet_of;
use crate::surface::{counts, Plot, RULES};
use crate::tester::{law, Outcome, Tester};

pub fn all(t: &mut Tester, chance: &mut Chance, times: usize) {
    if !t.asks(Kind::Trial) {
        return;
    }
    exhaustive(t, chance);
    by_chance(t, chance, 1000 * times);
    round_a_post(t, chance, 1000 * times);
    large(t, chance, times);
}

/// A plot, rows of heights in lines, a height that is tried at a post, and by each rule the six
/// counts: peaks, pits and saddles now, and as they would be.
pub struct Tried {
    pub heights: &'static str,
    pub post: u32,
    pub height: i32,
    pub by_rule: [[u32; 6]; 2],
}

const FLAT: &str = "
    0 0
    0 0";

const CROSSED: &str = "
    5 0
    0 5";

const STAR: &str = "
    0 2 0
    2 1 2
    0 2 0";

const HOLLOW: &str = "
    1 1 1
    1 0 1
    1 1 1";

/// By rule 2 the middle keeps four corners from being peaks.
const TOPS: &str = "
    3 1 3
    1 4 1
    3 1 3";

/// By rule 1 the middle keeps four corners from being pits.
const CORNERS: &str = "
    9 9 9 9 9
    9 1 5 1 9
    9 5 0 5 9
    9 1 5 1 9
    9 9 9 9 9";

/// By rule 2 four pits beside the middle.
const WELLS: &str = "
    9 9 9 9 9
    9 8 1 8 9
    9 1 5 1 9
    9 8 1 8 9
    9 9 9 9 9";

/// Of the middle of star by rule 1 and of tops by rule 2 peaks move by three, of corners by rule 1
/// and of wells by rule 2 pits do. No trial moves one of them by more.
const TRIED: [Tried; 14] = [
    Tried { heights: FLAT, post: 0, height: 0, by_rule: [[1, 1, 0, 1, 1, 0]; 2] },
    Tried { heights: FLAT, post: 2, height: -1, by_rule: [[1, 1, 0, 1, 1, 0]; 2] },
    of(CROSSED, 0, 0, [[2, 1, 1, 1, 1, 0], [1, 1, 0, 1, 1, 0]]),
    of(CROSSED, 1, 9, [[2, 1, 1, 1, 1, 0], [1, 1, 0, 1, 1, 0]]),
    of(STAR, 4, 3, [[4, 1, 3, 1, 1, 0], [1, 2, 1, 1, 1, 0]]),
    of(STAR, 4, -1, [[4, 1, 3, 4, 2, 4], [1, 2, 1, 1, 2, 1]]),
    of(STAR, 4, 2, [[4, 1, 3, 2, 1, 1], [1, 2, 1, 1, 1, 0]]),
    of(STAR, 1, 0, [[4, 1, 3, 3, 1, 2], [1, 2, 1, 1, 1, 0]]),
    of(HOLLOW, 4, 1, [[1, 2, 1, 1, 1, 0], [1, 2, 1, 1, 1, 0]]),
    of(HOLLOW, 4, 2, [[1, 2, 1, 2, 1, 1], [1, 2, 1, 1, 1, 0]]),
    of(HOLLOW, 8, 0, [[1, 2, 1, 2, 2, 2], [1, 2, 1, 1, 2, 1]]),
    of(TOPS, 4, 0, [[5, 1, 4, 4, 2, 4], [1, 1, 0, 4, 2, 4]]),
    of(CORNERS, 12, 6, [[1, 2, 1, 2, 5, 5], [1, 6, 5, 2, 5, 5]]),
    of(WELLS, 12, 0, [[2, 2, 2, 1, 2, 1], [1, 5, 4, 1, 2, 1]]),
];

const fn of(heights: &'static str, post: u32, height: i32, by_rule: [[u32; 6]; 2]) -> Tried {
    Tried { heights, post, height, by_rule }
}

pub fn as_drawn(t: &mut Tester) {
    t.group("trials as drawn");
    tried(t, &TRIED);
}

/// Trials with their counts, by both rules. Put back, they give them the other way round.
pub fn tried(t: &mut Tester, trials: &[Tried]) {
    for trial in trials {
        for (rule, counts) in (1..).zip(trial.by_rule) {
            let call = trial.call(rule);
            let mut heights = call.heights.clone();
            let height = std::mem::replace(&mut heights[trial.post as usize], trial.height);
            let back = Call { heights, height, ..call.clone() };
            let [now, then] = [&counts[..3], &counts[3..]];
            for (call, counts) in [(call, [now, then]), (back, [then, now])] {
                t.case(t.agree(&call).and_then(|(answer, _)| {
                    law(answer[..2] == [0, 0], "accepted", &call)?;
                    law(answer[2..] == counts.concat(), "the counts", &call)?;
                    bounded(&answer, &call)
                }));
            }
        }
    }
}

impl Tried {
    fn call(&self, rule: u8) -> Call {
        let heights: Vec<i32> =
            self.heights.split_whitespace().map(|height| height.parse().unwrap()).collect();
        let rows = self.heights.lines().filter(|line| !line.is_empty()).count() as u32;
        let (sheet, columns) = (sheet_of(&[(1, &[rule])]), heights.len() as u32 / rows);
        let (kind, post, height) = (Kind::Trial, self.post, self.height);
        Call { kind, sheet, rows, columns, heights, post, height, ..Call::default() }
    }
}

/// Peaks and pits move by at most five each, and saddles by the two together, so by ten. In fact
/// no move is greater than three, and of saddles than four. By rule 1 a peak is a post above its
/// four sides, so that a new height can take peaks from these alone, and where it takes all four
/// it is a peak itself. A pit is a post below all eight round it; of the eight four corners at
/// most can be pits, and a height that is below these four is a pit itself. By rule 2 peaks and
/// pits change places.
fn bounded(answer: &[u32], call: &Call) -> Outcome {
    let [peaks, pits, saddles] = [2, 3, 4].map(|i| answer[i + 3] as i32 - answer[i] as i32);
    law(peaks.abs() <= 5, "peaks move by at most five", call)?;
    law(pits.abs() <= 5, "pits move by at most five", call)?;
    law(saddles == peaks + pits, "saddles move by the two together", call)?;
    law(saddles.abs() <= 10, "saddles move by at most ten", call)?;
    law(peaks.abs().max(pits.abs()) <= 3 && saddles.abs() <= 4, "no move is so great", call)
}

/// A trial, the re-shoot that it tells of, and surveys before it, whose marks are handed in, and
/// after: the counts are those of the surveys, and only marks of the post and of those that touch
/// it differ.
fn beside(t: &Tester, plot: &Plot, marks: &[u8], trial: &Call, chance: &mut Chance) -> Outcome {
    let (answer, _) = t.agree(trial)?;
    law(answer[0] == 0, "a trial is accepted", trial)?;
    bounded(&answer, trial)?;
    law(answer[2..5] == counts(marks), "the counts of a survey before", trial)?;
    let Call { post, height, .. } = *trial;
    let reshoot = Call { post, height, ..good(Kind::Reshoot, plot, chance) };
    let (reshot, left) = t.agree(&Call { marks: marks.to_vec(), ..reshoot })?;
    law(reshot == [0, 0], "its re-shoot is accepted", trial)?;
    let (fresh, after) =
        t.agree(&good(Kind::Survey, &Plot { heights: &left.heights, ..*plot }, chance))?;
    law(answer[5..] == fresh[2..], "the counts of a survey after", trial)?;
    law(answer[5..] == counts(&left.marks), "the counts of the marks after", trial)?;
    let post = post as usize;
    let near = plot.touching(post);
    let far = (0..plot.posts()).filter(|&p| p != post && !near.contains(&p));
    let mut kept = far.map(|p| marks[p] == after.marks[p]);
    law(kept.all(|same| same), "only marks about the post differ", trial)
}

/// The trials of these posts and heights in one plot, which is surveyed once.
fn each(t: &Tester, plot: &Plot, shots: &[(usize, i32)], chance: &mut Chance) -> Outcome {
    let (answer, left) = t.agree(&good(Kind::Survey, plot, chance))?;
    law(answer[0] == 0, "a survey is accepted", &left)?;
    let trial = good(Kind::Trial, plot, chance);
    shots.iter().try_for_each(|&(post, height)| {
        let trial = Call { post: post as u32, height, ..trial.clone() };
        beside(t, plot, &left.marks, &trial, chance)
    })
}

/// Every plot of a size over so many heights, every post, every height from below all to above.
fn exhaustive(t: &mut Tester, chance: &mut Chance) {
    for (rows, columns, levels) in [(2, 2, 3), (2, 3, 2), (3, 2, 2), (3, 3, 2), (2, 4, 2)] {
        t.group(&format!("trials: all of plots {rows} by {columns} over {levels} heights"));
        let shots: Vec<(usize, i32)> =
            (0..rows * columns).flat_map(|p| (-1..=levels).map(move |h| (p, h))).collect();
        for heights in every_plot(rows, columns, levels) {
            for rule in RULES {
                let plot = Plot { rule, rows, columns, heights: &heights };
                t.case(each(t, &plot, &shots, chance));
            }
        }
    }
}

/// A post, and a height for it: at the bounds, about that of another post, which may touch it,
/// or its own.
fn any_shot(plot: &Plot, chance: &mut Chance) -> (usize, i32) {
    let post = chance.below(plot.posts());
    let beside = chance.of(&plot.touching(post));
    let height = match chance.below(6) {
        0 => chance.of(&[-1_000_000, 1_000_000]),
        1 => plot.heights[post],
        2 => plot.heights[chance.below(plot.posts())],
        _ => plot.heights[beside] + chance.within(-1, 1),
    };
    (post, height.clamp(-1_000_000, 1_000_000))
}

fn by_chance(t: &mut Tester, chance: &mut Chance, times: usize) {
    t.group("trials: plots up to 12 by 12 by chance");
    for i in 0..times {
        let (rows, columns, heights) = any_plot(i, 12, chance);
        let plot = Plot { rule: RULES[i % 2], rows, columns, heights: &heights };
        let shots = [(); 4].map(|()| any_shot(&plot, chance));
        t.case(each(t, &plot, &shots, chance));
    }
}

/// Five by five posts with the one in the middle tried: the border is high, low or any, and of the
/// eight round the middle the corners are often alike, and the sides, so that many marks turn. The
/// greatest moves are seen by both rules, both ways.
fn round_a_post(t: &mut Tester, chance: &mut Chance, times: usize) {
    t.group("trials: the middle of plots 5 by 5");
    for rule in RULES {
        let mut seen = [[0; 2]; 2];
        for _ in 0..times {
            let heights = about_a_post(chance);
            let plot = Plot { rule, rows: 5, columns: 5, heights: &heights };
            let height = chance.within(-1, 6);
            t.case(each(t, &plot, &[(12, height)], chance));
            let trial = Call { post: 12, height, ..good(Kind::Trial, &plot, chance) };
            let answer = trial.clone().by_opinion();
            for (i, most) in seen.iter_mut().enumerate() {
                let moved = answer[5 + i] as i32 - answer[2 + i] as i32;
                *most = [most[0].min(moved), most[1].max(moved)];
            }
        }
        let why = format!("the greatest moves of peaks and of pits are {seen:?}");
        t.case(if seen == [[-3, 3]; 2] { Ok(()) } else { Err(why) });
    }
}

fn about_a_post(chance: &mut Chance) -> Vec<i32> {
    let (border, alike) = (chance.below(3), chance.below(4));
    let (corner, side) = (chance.within(0, 5), chance.within(0, 5));
    let height = |p: usize| {
        let (row, column) = (p / 5, p % 5);
        if [row, column].iter().any(|place| [0, 4].contains(place)) {
            return [9, -9, chance.within(0, 5)][border];
        }
        match (row + column) % 2 {
            _ if p == 12 || chance.one_in(8) => chance.within(0, 5),
            0 if alike != 1 => corner,
            1 if alike != 2 => side,
            _ => chance.within(0, 5),
        }
    };
    (0..25).map(height).collect()
}

/// The corners, and a post between each two of them.
fn on_border(plot: &Plot) -> [usize; 8] {
    let (columns, last) = (plot.columns, plot.posts() - 1);
    let (west, south) = (plot.rows / 2 * columns, last + 1 - columns);
    [0, columns / 2, columns - 1, west + columns - 1, last, south + columns / 2, south, west]
}

/// Large plots and strips: the border, and any posts.
fn large(t: &mut Tester, chance: &mut Chance, times: usize) {
    t.group("trials: large plots and strips");
    for kind in GROUNDS {
        for i in 0..2 * times {
            let mut sizes = vec![(2, 120), (120, 2), (3, 120), (120, 3)];
            sizes.push((2 + chance.below(60), 2 + chance.below(60)));
            for (rows, columns) in sizes {
                let heights = ground(kind, rows, columns, chance);
                let plot = Plot { rule: RULES[i % 2], rows, columns, heights: &heights };
                let mut shots = vec![any_shot(&plot, chance), any_shot(&plot, chance)];
                shots.extend(on_border(&plot).map(|post| (post, any_shot(&plot, chance).1)));
                t.case(each(t, &plot, &shots, chance));
            }
            let heights = ground(kind, 120, 120, chance);
            let plot = Plot { rule: RULES[i % 2], rows: 120, columns: 120, heights: &heights };
            let shot = any_shot(&plot, chance);
            t.case(each(t, &plot, &[shot], chance));
        }
    }
}

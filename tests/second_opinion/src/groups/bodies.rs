//! Joins and splits: plots as drawn by hand, the two searches side by side, bodies that wind
//! about, and plots whose posts stand to each other alike.

use super::good;
use super::whole_plots::joins_and_splits;
use crate::bodies::{paced, plain};
use crate::call::{Call, Kind};
use crate::plots::{any_plot, ground, Chance, GROUNDS};
use crate::sheet::sheet_of;
use crate::surface::{Plot, RULES};
use crate::tester::{law, Outcome, Tester};

pub fn all(t: &mut Tester, chance: &mut Chance, times: usize) {
    if !t.asks(Kind::JoinsAndSplits) {
        return;
    }
    searches(t, chance, times);
    winding(t, chance, times);
    alike(t, chance, 300 * times);
}

/// A plot, rows of heights in lines, and by each rule its joins and its splits: a digit for each
/// post, rows parted by blanks.
pub struct Drawn {
    pub heights: &'static str,
    pub by_rule: [[&'static str; 2]; 2],
}

const FLAT: Drawn = Drawn {
    heights: "
        0 0
        0 0",
    by_rule: [["00 00", "00 00"], ["00 00", "00 00"]],
};

/// By rule 1 the lower neighbours of post 2 are post 1 and the virtual pit, in one body.
const CROSSED: Drawn = Drawn {
    heights: "
        5 0
        0 5",
    by_rule: [["00 00", "00 10"], ["00 00", "00 00"]],
};

/// By rule 1 the middle joins four tops and no lower ground: its four corners are on the border.
/// By rule 2 it is a pit, which post 1 joins to what is outside.
const STAR: Drawn = Drawn {
    heights: "
        0 2 0
        2 1 2
        0 2 0",
    by_rule: [["000 000 000", "000 030 000"], ["010 000 000", "000 000 000"]],
};

const HOLLOW: Drawn = Drawn {
    heights: "
        1 1 1
        1 0 1
        1 1 1",
    by_rule: [["100 000 000", "000 000 000"], ["010 000 000", "000 000 000"]],
};

const RUNS: Drawn = Drawn {
    heights: "
        0 3 9
        2 5 7
        6 8 1",
    by_rule: [["000 000 000", "000 010 000"], ["000 000 000", "000 001 000"]],
};

/// A ridge in the shape of a ring. Each of its four passes has two lower runs, one inside and one
/// outside; at the lowest pass these are two bodies, at the others one, which goes round by it.
const CRATER: Drawn = Drawn {
    heights: "
        0 1 2 1 0
        1 9 7 9 1
        2 8 3 8 2
        1 9 5 9 1
        0 1 2 1 0",
    by_rule: [
        ["00000 00000 00000 00100 00000", "00000 00100 01010 00000 00000"],
        ["00000 00000 00000 00100 00000", "00000 00100 01010 00000 00000"],
    ],
};

/// By rule 2 the middle joins four pits.
const WELLS: Drawn = Drawn {
    heights: "
        9 9 9 9 9
        9 8 1 8 9
        9 1 5 1 9
        9 8 1 8 9
        9 9 9 9 9",
    by_rule: [
        ["10000 00000 00000 00000 00000", "00000 00000 00000 00100 00000"],
        ["01000 00000 00300 00000 00000", "00000 00000 00000 00000 00000"],
    ],
};

/// The same cut by a ditch: by rule 2 the middle joins two pits and what is outside, where two of
/// its lower runs lie, and the high ground on both sides.
const DITCH: Drawn = Drawn {
    heights: "
        9 9 0 9 9
        9 8 1 8 9
        9 1 5 1 9
        9 8 1 8 9
        9 9 0 9 9",
    by_rule: [
        ["00000 00000 00000 00000 00000", "10000 00000 00000 00200 00000"],
        ["00000 00000 00200 00000 00000", "00000 00000 00100 00000 00000"],
    ],
};

const DRAWN: [Drawn; 8] = [FLAT, CROSSED, STAR, HOLLOW, RUNS, CRATER, WELLS, DITCH];

pub fn as_drawn(t: &mut Tester) {
    t.group("joins and splits as drawn");
    drawn(t, &DRAWN);
}

/// Plots with their joins and splits, by both rules.
pub fn drawn(t: &mut Tester, plots: &[Drawn]) {
    for plot in plots {
        for (rule, maps) in (1..).zip(plot.by_rule) {
            let call = plot.call(rule);
            let [joins, splits] = maps.map(digits);
            t.case(t.agree(&call).and_then(|(answer, left)| {
                law(answer == [0, 0], "accepted", &call)?;
                law(left.joins == joins, "the joins", &call)?;
                law(left.splits == splits, "the splits", &call)
            }));
        }
    }
}

impl Drawn {
    fn call(&self, rule: u8) -> Call {
        let heights: Vec<i32> =
            self.heights.split_whitespace().map(|height| height.parse().unwrap()).collect();
        let (posts, kind) = (heights.len(), Kind::JoinsAndSplits);
        let rows = self.heights.lines().filter(|line| !line.is_empty()).count();
        let (sheet, columns) = (sheet_of(&[(1, &[rule])]), (posts / rows) as u32);
        let (rows, joins, splits) = (rows as u32, vec![9; posts], vec![9; posts]);
        Call { kind, sheet, rows, columns, heights, joins, splits, ..Call::default() }
    }
}

fn digits(map: &str) -> Vec<u8> {
    map.bytes().filter(|sign| *sign != b' ').map(|digit| digit - b'0').collect()
}

/// The search of whole bodies and the one that stops early tell the same, and so does the library.
fn searches(t: &mut Tester, chance: &mut Chance, times: usize) {
    t.group("joins and splits by both searches");
    for (rows, columns) in [(20, 20), (2, 70), (70, 2), (3, 60), (13, 31)] {
        for kind in GROUNDS {
            for _ in 0..times {
                let heights = ground(kind, rows, columns, chance);
                for rule in RULES {
                    let plot = Plot { rule, rows, columns, heights: &heights };
                    t.case(by_both(t, &plot, chance));
                }
            }
        }
    }
}

fn by_both(t: &Tester, plot: &Plot, chance: &mut Chance) -> Outcome {
    let call = good(Kind::JoinsAndSplits, plot, chance);
    let (_, left) = t.agree(&call)?;
    let told = plain(plot);
    law(told == [left.joins, left.splits], "by the search of whole bodies", &call)?;
    law(told == paced(plot), "by both searches", &call)
}

/// Ground on which bodies are long and lie about each other.
fn winding(t: &mut Tester, chance: &mut Chance, times: usize) {
    t.group("joins and splits of bodies that wind about");
    for (rows, columns) in [(9, 9), (15, 40), (41, 14), (120, 120)] {
        for height in [rings, combs, stairs] {
            for _ in 0..times {
                let heights: Vec<i32> = (0..rows * columns)
                    .map(|p| height(p / columns, p % columns, rows, columns, chance))
                    .collect();
                let upside_down: Vec<i32> = heights.iter().map(|height| -height).collect();
                for (rule, heights) in
                    [&heights, &upside_down].map(|h| RULES.map(|r| (r, h))).concat()
                {
                    let plot = Plot { rule, rows, columns, heights };
                    t.case(joins_and_splits(t, &plot, chance));
                }
            }
        }
    }
}

/// Ridges about each other, with passes here and there.
fn rings(row: usize, column: usize, rows: usize, columns: usize, chance: &mut Chance) -> i32 {
    let inside = row.min(column).min(rows - 1 - row).min(columns - 1 - column);
    match (inside % 2, chance.one_in(9)) {
        (0, _) => chance.within(0, 2) - inside as i32,
        (_, true) => chance.within(3, 900),
        _ => chance.within(901, 1000),
    }
}

/// Ridges side by side, joined in turn at one end or the other, each higher than the one before.
fn combs(row: usize, column: usize, rows: usize, columns: usize, _: &mut Chance) -> i32 {
    let end = if column % 4 == 1 { rows - 2 } else { 1 };
    match column % 2 {
        0 if column + 1 < columns => 5000 + column as i32,
        _ if row == end => 4000 - column as i32,
        _ => -(row as i32),
    }
}

/// Peaks one by one along the rows, each higher than those before, on ground that rises so too.
fn stairs(row: usize, column: usize, _: usize, columns: usize, _: &mut Chance) -> i32 {
    let post = (row * columns + column) as i32;
    match (row % 2, column % 2) {
        (0, 0) => 20_000 + post,
        _ => post,
    }
}

/// Joins and splits go by the order of the heights alone; and where no two are equal, a plot that
/// is mirrored, or whose rows are taken for columns, has the same at the same posts.
fn alike(t: &mut Tester, chance: &mut Chance, times: usize) {
    t.group("joins and splits of plots alike");
    for i in 0..times {
        let (rows, columns, heights) = any_plot(i, 12, chance);
        let plot = Plot { rule: RULES[i % 2], rows, columns, heights: &heights };
        t.case(spread(t, &plot, chance));
        let order = chance.some(rows * columns, rows * columns);
        let heights: Vec<i32> = order.iter().map(|&place| place as i32).collect();
        t.case(turned(t, &Plot { heights: &heights, ..plot }, chance));
    }
}

/// Other heights in the same order, equal ones equal.
fn spread(t: &Tester, plot: &Plot, chance: &mut Chance) -> Outcome {
    let mut levels = plot.heights.to_vec();
    levels.sort();
    levels.dedup();
    let level = |height: i32| levels.binary_search(&height).unwrap() as i32;
    let last = levels.len() as i32 - 1;
    let (top, step) = (chance.of(&[1_000_000, 65_536, 1024, 0]), chance.of(&[1, 2, 2047, 2048]));
    let from_top: Vec<i32> = plot.heights.iter().map(|&h| top - step * (last - level(h))).collect();
    let all: Vec<i32> =
        plot.heights.iter().map(|&h| level(h) * (2_000_000 / last.max(1)) - 1_000_000).collect();
    let one = bodies(t, plot, chance)?;
    for heights in [from_top, all] {
        let other = bodies(t, &Plot { heights: &heights, ..*plot }, chance)?;
        law(one.joins == other.joins && one.splits == other.splits, "other heights", &other)?;
    }
    Ok(())
}

/// The same plot as seen from elsewhere.
fn turned(t: &Tester, plot: &Plot, chance: &mut Chance) -> Outcome {
    let one = bodies(t, plot, chance)?;
    for turn in ["rows in reverse", "columns in reverse", "rows for columns"] {
        let there = |post: usize| {
            let (row, column) = (post / plot.columns, post % plot.columns);
            match turn {
                "rows in reverse" => (plot.rows - 1 - row) * plot.columns + column,
                "columns in reverse" => row * plot.columns + plot.columns - 1 - column,
                _ => column * plot.rows + row,
            }
        };
        let mut heights = vec![0; plot.posts()];
        for (post, &height) in plot.heights.iter().enumerate() {
            heights[there(post)] = height;
        }
        let mut seen = Plot { heights: &heights, ..*plot };
        if turn == "rows for columns" {
            (seen.rows, seen.columns) = (plot.columns, plot.rows);
        }
        let other = bodies(t, &seen, chance)?;
        let of = |call: &Call, post: usize| (call.joins[post], call.splits[post]);
        let same = |post: usize| of(&one, post) == of(&other, there(post));
        law((0..plot.posts()).all(same), turn, &one)?;
    }
    Ok(())
}

/// The call as it leaves its lists.
fn bodies(t: &Tester, plot: &Plot, chance: &mut Chance) -> Result<Call, String> {
    let (answer, left) = t.agree(&good(Kind::JoinsAndSplits, plot, chance))?;
    law(answer == [0, 0], "joins and splits are accepted", &left)?;
    Ok(left)
}

//! Whole plots: every plot of a few small sizes, and larger ones by chance.

use super::{good, WAYS};
use crate::call::{Call, Kind};
use crate::opinion::in_one_piece;
use crate::plots::{any_plot, any_spacings, ground, Chance, GROUNDS};
use crate::surface::{by_changes, counts, Plot, Rule, Spacings, Way, RULES, VIRTUAL_PIT};
use crate::tester::{law, Outcome, Tester};

/// Everything about one plot, by any spacings. Of a plot with more than `most` posts only
/// so many, by chance, are asked for their rings, their next posts and their lines. Joins and
/// splits of a plot with more than 1,000 posts are asked for by the call after this one.
pub fn whole_plot(t: &Tester, plot: &Plot, most: usize, chance: &mut Chance) -> Outcome {
    let spacings = any_spacings(chance);
    by_each(t, plot, &[spacings], most, chance)
}

/// The joins and splits of a plot beside its survey.
pub fn joins_and_splits(t: &Tester, plot: &Plot, chance: &mut Chance) -> Outcome {
    let marks = survey(t, plot, chance)?;
    bodies(t, plot, &marks, chance)
}

/// Everything about one plot, by each of these spacings.
pub fn by_each(
    t: &Tester,
    plot: &Plot,
    all: &[Spacings],
    most: usize,
    chance: &mut Chance,
) -> Outcome {
    let posts = plot.posts();
    let marks = survey(t, plot, chance)?;
    let asked = if posts > most { chance.some(most, posts) } else { (0..posts).collect() };
    rings(t, plot, &marks, &asked, chance)?;
    if posts <= 1000 && t.asks(Kind::JoinsAndSplits) {
        bodies(t, plot, &marks, chance)?;
    }
    all.iter().try_for_each(|&spacings| spaced(t, plot, spacings, &marks, &asked, chance))
}

/// What depends on spacings: the parting, and of those that are asked the next posts and
/// the lines.
fn spaced(
    t: &Tester,
    plot: &Plot,
    spacings: Spacings,
    marks: &[u8],
    asked: &[usize],
    chance: &mut Chance,
) -> Outcome {
    let parted = parting(t, plot, spacings, marks, chance)?;
    for ((way, next, line), names) in WAYS.into_iter().zip([&parted.dales, &parted.hills]) {
        let call = Call { spacings, ..good(next, plot, chance) };
        let steps = next_posts(t, plot, way, call, asked)?;
        if asked.len() == plot.posts() {
            walks_end_at(names, &steps, &parted)?;
        }
        let call = Call { spacings, ..good(line, plot, chance) };
        for &post in asked {
            let call = Call { post: post as u32, ..call.clone() };
            lines_of(t, plot, way, call, marks[post])?;
        }
    }
    Ok(())
}

/// The marks of a survey, in balance, and as the changes of side round the rings say.
fn survey(t: &Tester, plot: &Plot, chance: &mut Chance) -> Result<Vec<u8>, String> {
    let call = good(Kind::Survey, plot, chance);
    let (answer, left) = t.agree(&call)?;
    law(answer[0] == 0, "a survey is accepted", &call)?;
    law(answer[2] + answer[3] == answer[4] + 2, "peaks + pits - saddles = 2", &call)?;
    let told = (0..plot.posts()).map(|post| by_changes(plot.signs(post)).1);
    law(told.eq(left.marks.iter().copied()), "marks by the changes of side", &call)?;
    Ok(left.marks)
}

/// The ring of each that is asked is the grounds of the survey's mark.
fn rings(t: &Tester, plot: &Plot, marks: &[u8], asked: &[usize], chance: &mut Chance) -> Outcome {
    let mut call = good(Kind::Ring, plot, chance);
    let mut seen = [0; 5];
    for &post in asked {
        call.post = post as u32;
        let (answer, left) = t.agree(&call)?;
        let (codes, after) = left.ring.split_at(plot.ring(post).len());
        law(answer[0] == 0, "a ring is accepted", &call)?;
        law(codes.iter().all(|code| (1..=4).contains(code)), "a code for each member", &call)?;
        law(after.iter().all(|&byte| byte == 0), "zeros after the last member", &call)?;
        law(answer[2] == lower_runs(codes), "k is the number of lower runs", &call)?;
        law(answer[3] == marks[post] as u32, "the mark is the survey's", &call)?;
        for &code in codes {
            seen[code as usize] += 1;
        }
    }
    let all = asked.len() == plot.posts();
    law(!all || from_both_ends(plot, seen), "every edge is seen from both its ends", &call)
}

/// The joins and splits: none where there is no saddle, and of a saddle as many of both as its
/// mark says. They make one less than the pits, and one less than the peaks.
fn bodies(t: &Tester, plot: &Plot, marks: &[u8], chance: &mut Chance) -> Outcome {
    let call = good(Kind::JoinsAndSplits, plot, chance);
    let (answer, left) = t.agree(&call)?;
    law(answer[0] == 0, "joins and splits are accepted", &call)?;
    let both = left.joins.iter().zip(&left.splits).map(|(joins, splits)| joins + splits);
    let told = marks.iter().map(|mark| mark.saturating_sub(2));
    law(both.eq(told), "joins and splits of a post are its multiplicity", &call)?;
    let sum = |list: &[u8]| list.iter().map(|&entry| entry as u32).sum::<u32>();
    let [peaks, pits, saddles] = counts(marks);
    let (joins, splits) = (sum(&left.joins), sum(&left.splits));
    law(joins == pits - 1, "the joins make one less than the pits", &call)?;
    law(splits == peaks - 1, "the splits make one less than the peaks", &call)?;
    law(joins + splits == saddles, "both make the saddles", &call)
}

/// How often each code is seen in a whole plot: an edge between posts once as above and
/// once as below, both times by height or both by tie; the virtual pit from the border.
fn from_both_ends(plot: &Plot, seen: [usize; 5]) -> bool {
    let (rows, columns) = (plot.rows, plot.columns);
    let sides = rows * (columns - 1) + (rows - 1) * columns;
    let diagonals = (rows - 1) * (columns - 1);
    let border = 2 * (rows + columns) - 4;
    seen[1] + seen[2] == sides + diagonals && seen[3] == seen[1] + border && seen[4] == seen[2]
}

/// The lower runs of codes read as a circle.
fn lower_runs(codes: &[u8]) -> u32 {
    let below = |i: usize| codes[i % codes.len()] >= 3;
    let starts = (0..codes.len()).filter(|&i| !below(i) && below(i + 1)).count() as u32;
    if starts == 0 && below(0) {
        1
    } else {
        starts
    }
}

/// The dales and hills, named by the marked pits and peaks, each in one piece.
fn parting(
    t: &Tester,
    plot: &Plot,
    spacings: Spacings,
    marks: &[u8],
    chance: &mut Chance,
) -> Result<Call, String> {
    let call = Call { spacings, ..good(Kind::DalesAndHills, plot, chance) };
    let (answer, left) = t.agree(&call)?;
    law(answer[0] == 0, "dales and hills are accepted", &call)?;
    for (names, mark, way) in [(&left.dales, 2, Way::Down), (&left.hills, 1, Way::Up)] {
        let mut named: Vec<usize> = names.iter().map(|&v| v as usize).collect();
        named.sort();
        named.dedup();
        let mut ends: Vec<usize> = (0..plot.posts()).filter(|&p| marks[p] == mark).collect();
        if way == Way::Down {
            ends.push(VIRTUAL_PIT);
        }
        law(named == ends, "names are exactly the pits or peaks", &call)?;
        law(in_one_piece(plot, names, way), "dales and hills are in one piece", &call)?;
    }
    Ok(left)
}

/// The next post of each that is asked.
fn next_posts(
    t: &Tester,
    plot: &Plot,
    way: Way,
    mut call: Call,
    asked: &[usize],
) -> Result<Vec<usize>, String> {
    let mut steps = Vec::new();
    for &post in asked {
        call.post = post as u32;
        let (answer, _) = t.agree(&call)?;
        let then = answer[2] as usize;
        law(plot.moves(way, post, then) || then == post, "a step falls or rises", &call)?;
        steps.push(then);
    }
    Ok(steps)
}

/// Walks by the steps of all posts end at the posts' dales or hills.
fn walks_end_at(names: &[u16], steps: &[usize], parted: &Call) -> Outcome {
    for (post, &name) in names.iter().enumerate() {
        let mut end = post;
        while end != VIRTUAL_PIT && steps[end] != end {
            end = steps[end];
        }
        law(end == name as usize, "the walk ends at the name", parted)?;
    }
    Ok(())
}

/// Every run of one post and one beyond, into lists of three lengths.
fn lines_of(t: &Tester, plot: &Plot, way: Way, mut call: Call, mark: u8) -> Outcome {
    let room = call.line.clone();
    if mark < 3 {
        let (answer, _) = t.agree(&call)?;
        return law(answer[0] == 7, "no line of a post that is no saddle", &call);
    }
    let runs = mark as u32 - 1;
    for run in 0..runs {
        call.run = run;
        call.line = room.clone();
        let (answer, left) = t.agree(&call)?;
        law(answer[0] == 0, "every run of a saddle has a line", &call)?;
        let count = answer[2] as usize;
        let line: Vec<usize> = left.line[..count].iter().map(|&v| v as usize).collect();
        for pair in line.windows(2) {
            let moves = plot.moves(way, pair[0], pair[1]);
            law(moves, "a line falls or rises at every step", &call)?;
        }
        let end = line[count - 1];
        let wanted = if way == Way::Down { 2 } else { 1 };
        law(
            end == VIRTUAL_PIT && way == Way::Down || plot.mark(end) == wanted,
            "a line ends at a pit or peak",
            &call,
        )?;
        for length in [count - 1, count, count + 1] {
            call.line = room.iter().copied().cycle().take(length).collect();
            let (answer, _) = t.agree(&call)?;
            law((answer[0] == 9) == (length < count), "refusal 9 by the list's length", &call)?;
        }
    }
    call.run = runs;
    let (answer, _) = t.agree(&call)?;
    law(answer[0] == 8, "no line of a run beyond the last", &call)
}

/// Every plot of a size over so many heights.
pub fn every_plot(rows: usize, columns: usize, levels: i32) -> impl Iterator<Item = Vec<i32>> {
    let posts = (rows * columns) as u32;
    (0..levels.pow(posts)).map(move |n| (0..posts).map(|p| n / levels.pow(p) % levels).collect())
}

/// Equal spacings, and such that a drop of one along the shorter side is as steep as one of
/// two along the longer.
const EACH: [[Spacings; 2]; 2] =
    [[Spacings::of(100, 100), Spacings::of(1, 2)], [Spacings::of(100, 100), Spacings::of(2, 1)]];

/// Every plot of a size over so many heights, by each rule and two spacings. Three rows have a
/// post off the border in an odd row, four also one in an even row; few heights make many
/// ties.
pub fn exhaustive(t: &mut Tester, chance: &mut Chance, long: bool) {
    let mut sizes =
        vec![(2, 2, 4), (2, 3, 4), (3, 2, 4), (3, 3, 3), (2, 4, 2), (4, 2, 2), (4, 3, 2)];
    if long {
        sizes.extend([(3, 3, 4), (3, 4, 2), (4, 4, 2), (2, 4, 3), (4, 2, 3)]);
    }
    for (rows, columns, levels) in sizes {
        t.group(&format!("all plots {rows} by {columns} over {levels} heights"));
        for heights in every_plot(rows, columns, levels) {
            for rule in RULES {
                let plot = Plot { rule, rows, columns, heights: &heights };
                let spacings = chance.of(&EACH);
                t.case(by_each(t, &plot, &spacings, plot.posts(), chance));
            }
        }
    }
}

pub fn small_random(t: &mut Tester, chance: &mut Chance, times: usize) {
    t.group("plots up to 12 by 12 by chance");
    for i in 0..times {
        let (rows, columns, heights) = any_plot(i, 12, chance);
        let plot = Plot { rule: RULES[i % 2], rows, columns, heights: &heights };
        t.case(whole_plot(t, &plot, 40, chance));
    }
}

pub fn large_random(t: &mut Tester, chance: &mut Chance, times: usize) {
    t.group("large plots and strips");
    for i in 0..times {
        for kind in GROUNDS {
            let mut sizes = vec![(120, 120), (2, 120), (120, 2), (3, 120), (120, 3)];
            sizes.extend([(); 4].map(|()| (2 + chance.below(119), 2 + chance.below(119))));
            for (rows, columns) in sizes {
                let heights = ground(kind, rows, columns, chance);
                let plot = Plot { rule: RULES[i % 2], rows, columns, heights: &heights };
                t.case(whole_plot(t, &plot, 30, chance));
                // These take long.
                if i < times / 3 && t.asks(Kind::JoinsAndSplits) {
                    t.case(joins_and_splits(t, &plot, chance));
                }
            }
        }
    }
}

/// Larger plots with every post's walk and every saddle's lines.
pub fn every_post(t: &mut Tester, chance: &mut Chance, long: bool) {
    t.group("every post and line of larger plots");
    let mut sizes = vec![(30, 30), (2, 120), (120, 2)];
    if long {
        sizes.push((120, 120));
    }
    for (rows, columns) in sizes {
        for kind in GROUNDS {
            let heights = ground(kind, rows, columns, chance);
            for rule in RULES {
                let plot = Plot { rule, rows, columns, heights: &heights };
                t.case(whole_plot(t, &plot, plot.posts(), chance));
            }
        }
    }
    // The spirals are what they are meant to be: long walks.
    for (kind, way) in [("spiral", Way::Down), ("upward spiral", Way::Up)] {
        let heights = ground(kind, 120, 120, chance);
        for rule in RULES {
            let plot = Plot { rule, rows: 120, columns: 120, heights: &heights };
            let steps = walk(&plot, 121, way, any_spacings(chance));
            t.case(if steps > 6000 { Ok(()) } else { Err(format!("{kind}: {steps} steps")) });
        }
    }
}

/// The steps of a walk to its end.
fn walk(plot: &Plot, mut post: usize, way: Way, spacings: Spacings) -> usize {
    let mut steps = 0;
    while post != VIRTUAL_PIT && plot.next(post, way, spacings) != post {
        post = plot.next(post, way, spacings);
        steps += 1;
    }
    steps
}

/// What one rule cuts, the other cuts in the plot turned upside down.
pub fn upside_down(t: &mut Tester, chance: &mut Chance, times: usize) {
    t.group("plots upside down by the other rule");
    // With an even number of rows the drive ends on the side where it starts.
    for (rows, columns, levels) in [(3, 3, 3), (4, 3, 2)] {
        for heights in every_plot(rows, columns, levels) {
            let plot = Plot { rule: Rule::Highest, rows, columns, heights: &heights };
            t.case(turned(t, &plot, chance));
        }
    }
    for i in 0..times {
        let (rows, columns, heights) = any_plot(i, 12, chance);
        let plot = Plot { rule: Rule::Highest, rows, columns, heights: &heights };
        t.case(turned(t, &plot, chance));
    }
}

/// The plot beside itself with its heights negated and driven from its end to its start, so
/// that ties turn too, by the first rule: off the border, where no ring has the virtual pit,
/// peaks and pits change places and saddles stay what they are, as do next down and next up.
fn turned(t: &Tester, plot: &Plot, chance: &mut Chance) -> Outcome {
    let there = |post: usize| driven(plot, plot.posts() - 1 - driven(plot, post));
    let heights: Vec<i32> = (0..plot.posts()).map(|post| -plot.heights[there(post)]).collect();
    let other = Plot { rule: Rule::Lowest, heights: &heights, ..*plot };
    let (marks, others) = (survey(t, plot, chance)?, survey(t, &other, chance)?);
    let spacings = any_spacings(chance);
    for post in (0..plot.posts()).filter(|&post| !plot.ring(post).contains(&VIRTUAL_PIT)) {
        let mark = match others[there(post)] {
            1 => 2,
            2 => 1,
            mark => mark,
        };
        for (one, another) in [(Kind::NextDown, Kind::NextUp), (Kind::NextUp, Kind::NextDown)] {
            let call = Call { post: post as u32, spacings, ..good(one, plot, chance) };
            let post_there = there(post) as u32;
            let turned = Call { post: post_there, spacings, ..good(another, &other, chance) };
            let (next, other) = (t.agree(&call)?.0[2], t.agree(&turned)?.0[2]);
            law(marks[post] == mark, "a mark upside down", &call)?;
            law(there(next as usize) == other as usize, "a step upside down", &call)?;
        }
    }
    Ok(())
}

/// How many posts are driven before this one; so also the post before which so many are.
fn driven(plot: &Plot, post: usize) -> usize {
    let (row, column) = (post / plot.columns, post % plot.columns);
    let before = if row % 2 == 0 { column } else { plot.columns - 1 - column };
    row * plot.columns + before
}

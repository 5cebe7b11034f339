//! Every pattern of signs that a ring can have, and that the changes of side round it tell
//! the mark.

use super::good;
use crate::call::{Call, Kind};
use crate::plots::Chance;
use crate::surface::{by_changes, Plot, RULES};
use crate::tester::{law, Outcome, Tester};
use std::collections::BTreeMap;

/// Rows and columns of a plot, a post that touches all its others, and how many patterns the
/// post's ring has over all orders of the heights, by either rule. The posts are one off the
/// border, one at each side and one at each corner, so that the ring of any post of any plot
/// has a pattern of one of them. By one rule three of the four pairs of signs are met at a
/// side and the corner after it: 3 * 3 * 3 * 3 off the border.
const RINGS: [(usize, usize, usize, usize); 9] = [
    (3, 3, 4, 81),
    (2, 3, 1, 18),
    (3, 2, 3, 18),
    (2, 3, 4, 18),
    (3, 2, 2, 18),
    (2, 2, 0, 6),
    (2, 2, 1, 6),
    (2, 2, 3, 6),
    (2, 2, 2, 6),
];

pub fn patterns(t: &mut Tester, chance: &mut Chance) {
    t.group("every pattern of signs round a post");
    for (rows, columns, post, count) in RINGS {
        for rule in RULES {
            let shape = Plot { rule, rows, columns, heights: &[] };
            let mut told = 0;
            for (signs, plots) in patterns_of(shape, post) {
                for heights in plots {
                    let plot = Plot { heights: &heights, ..shape };
                    t.case(told_by_changes(t, &plot, post, by_changes(signs), chance));
                }
                told += 1;
            }
            let place = format!("{rule:?}, {rows} by {columns}, post {post}");
            t.case(match told == count {
                true => Ok(()),
                false => Err(format!("{told} patterns, should be {count}: {place}")),
            });
        }
    }
}

/// Each pattern of the post's ring, with the first and the last order of heights that has it.
fn patterns_of(shape: Plot, post: usize) -> BTreeMap<[bool; 8], [Vec<i32>; 2]> {
    let mut heights: Vec<i32> = (0..shape.posts() as i32).collect();
    let mut found = BTreeMap::new();
    loop {
        let signs = Plot { heights: &heights, ..shape }.signs(post);
        let first_and_last = found.entry(signs).or_insert_with(|| [heights.clone(), vec![]]);
        first_and_last[1].clone_from(&heights);
        if !next_order(&mut heights) {
            return found;
        }
    }
}

/// Puts the heights in the order that follows theirs in the dictionary, if there is one.
fn next_order(heights: &mut [i32]) -> bool {
    let Some(at) = (1..heights.len()).rev().find(|&i| heights[i - 1] < heights[i]) else {
        return false;
    };
    let higher = (at..heights.len()).rev().find(|&i| heights[i] > heights[at - 1]).unwrap();
    heights.swap(at - 1, higher);
    heights[at..].reverse();
    true
}

/// The library's survey, ring and re-shoot of any post tell the post's mark, and the ring its
/// k, as the changes do.
fn told_by_changes(
    t: &Tester,
    plot: &Plot,
    post: usize,
    (k, mark): (u32, u8),
    chance: &mut Chance,
) -> Outcome {
    let call = good(Kind::Survey, plot, chance);
    let (_, left) = t.agree(&call)?;
    law(left.marks[post] == mark, "a survey by the changes of side", &call)?;
    let call = Call { post: post as u32, ..good(Kind::Ring, plot, chance) };
    let (answer, _) = t.agree(&call)?;
    law(answer == [0, 0, k, mark as u32], "a ring by the changes of side", &call)?;
    for (shot, &height) in plot.heights.iter().enumerate() {
        let mut heights = plot.heights.to_vec();
        heights[shot] = chance.within(-1, heights.len() as i32);
        let before = Plot { heights: &heights, ..*plot };
        let call = good(Kind::Reshoot, &before, chance);
        let call = Call { post: shot as u32, height, ..call };
        let (_, left) = t.agree(&call)?;
        law(left.marks[post] == mark, "a re-shoot by the changes of side", &call)?;
    }
    Ok(())
}

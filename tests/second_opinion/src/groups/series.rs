//! Series of re-shoots.

use super::refusals::spoil;
use super::whole_plots::whole_plot;
use super::{good, shows_mark};
use crate::call::{Call, Kind};
use crate::plots::{any_plot, ground, Chance, GROUNDS};
use crate::samples::any_meaning;
use crate::surface::{counts, Plot, RULES};
use crate::tester::{law, Outcome, Tester};

/// Re-shoots after a survey, good and bad mixed, each with any sheet that means the rule,
/// the bad ones also with others. After each the heights are the plain list, the marks
/// those of a fresh survey of it, and a ring shows one of them.
fn one_series(t: &Tester, shape: Plot, length: usize, chance: &mut Chance) -> Outcome {
    let kind = chance.of(&GROUNDS);
    let mut plain = ground(kind, shape.rows, shape.columns, chance);
    let (_, mut lists) =
        t.agree(&good(Kind::Survey, &Plot { heights: &plain, ..shape }, chance))?;
    let start = chance.below(shape.posts());
    let near = chance.one_in(2).then_some(start);
    let mut accepted = 0;
    for _ in 0..length {
        let call = good(Kind::Reshoot, &Plot { heights: &lists.heights, ..shape }, chance);
        let mut call = Call { marks: lists.marks, ..about(near, call, chance) };
        if chance.one_in(2) {
            call.height = plain[chance.below(plain.len())];
        }
        let bad = chance.one_in(3);
        if bad {
            spoil_values(&mut call, chance);
        } else {
            plain[call.post as usize] = call.height;
            accepted += 1;
        }
        let (answer, left) = t.agree(&call)?;
        law((answer[0] == 0) != bad, "accepted or turned away", &call)?;
        let plot = Plot { heights: &plain, ..shape };
        as_surveyed(&left, &plot, &call)?;
        shows_mark(t, &about(near, good(Kind::Ring, &plot, chance), chance), &left.marks)?;
        lists = left;
    }
    let plot = Plot { heights: &lists.heights, ..shape };
    let (answer, left) = t.agree(&good(Kind::Survey, &plot, chance))?;
    law(answer[0] == 0 && left.marks == lists.marks, "a survey at the end", &lists)?;
    law(length < 20 || accepted > 0, "some are accepted", &lists)?;
    whole_plot(t, &plot, 20, chance)
}

/// What a re-shoot left is what a survey of the plain list would be.
fn as_surveyed(left: &Call, plain: &Plot, call: &Call) -> Outcome {
    law(left.heights == plain.heights, "the heights are the plain list", call)?;
    law(left.marks == plain.marks(), "the marks are those of a fresh survey", call)?;
    let [peaks, pits, saddles] = counts(&left.marks);
    law(peaks + pits == saddles + 2, "the balance after a series", call)
}

/// The call about one post, if there is one to stay near, so that the blocks overlap.
fn about(near: Option<usize>, mut call: Call, chance: &mut Chance) -> Call {
    if let Some(start) = near {
        let post = start + chance.below(3) * call.columns as usize + chance.below(3);
        call.post = (post % call.heights.len()) as u32;
    }
    call
}

/// Makes a re-shoot bad in anything but its two lists.
fn spoil_values(call: &mut Call, chance: &mut Chance) {
    if chance.one_in(3) {
        // It is refused for something else, and may mean the other rule.
        call.sheet = any_meaning(chance.of(&RULES), chance);
    }
    match chance.below(7) {
        0 => drop(spoil(call, 1, chance)),
        1 => drop(spoil(call, 5, chance)),
        2 => drop(spoil(call, 6, chance)),
        3 => drop(spoil(call, 13, chance)),
        4 => drop(spoil(call, 14, chance)),
        5 => call.rows = if call.rows == 120 { 119 } else { call.rows + 1 },
        _ => (call.rows, call.height) = (chance.next() as u32 | 128, chance.next() as i32),
    }
}

pub fn series(t: &mut Tester, chance: &mut Chance, times: usize) {
    t.group("series of re-shoots");
    for rule in RULES {
        let heights = &[];
        for i in 0..30 * times {
            let (rows, columns) = (2 + chance.below(9), 2 + chance.below(9));
            let length = if i == 0 { 0 } else { 200 };
            t.case(one_series(t, Plot { rule, rows, columns, heights }, length, chance));
        }
        for (rows, columns) in [(120, 120), (2, 120), (120, 2), (2, 2)] {
            t.case(one_series(t, Plot { rule, rows, columns, heights }, 50, chance));
        }
    }
}

pub fn never_surveyed(t: &mut Tester, chance: &mut Chance, times: usize) {
    t.group("re-shoots with marks that were never a survey's");
    for i in 0..times {
        let (rows, columns, heights) = any_plot(i, 8, chance);
        let plot = Plot { rule: RULES[i % 2], rows, columns, heights: &heights };
        t.case(t.agree(&good(Kind::Reshoot, &plot, chance)).map(drop));
    }
}

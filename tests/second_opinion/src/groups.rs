//! What is tried.

mod bench_plots;
mod bodies;
mod bounds;
mod files;
pub mod lister;
mod patterns;
mod refusals;
mod series;
mod sheets;
mod slopes;
mod ties;
mod trials;
mod whole_plots;

use crate::call::{Call, Kind};
use crate::plots::{any_spacings, Chance};
use crate::samples::any_meaning;
use crate::surface::{Plot, Way};
use crate::tester::{law, Outcome, Tester};

pub fn all(t: &mut Tester, chance: &mut Chance, long: bool) {
    let times = if long { 20 } else { 1 };
    ties::ties(t);
    bench_plots::bench_plots(t);
    bodies::as_drawn(t);
    trials::as_drawn(t);
    refusals::refusals(t, chance, 12 * times);
    refusals::ring_lists(t, chance);
    refusals::trial_as_reshoot(t, chance, 12 * times);
    bounds::sides(t, chance);
    bounds::spacings(t, chance);
    bounds::heights(t, chance);
    bounds::posts_and_runs(t, chance);
    bounds::lengths(t, chance);
    bounds::other_shape(t, chance);
    sheets::all(t, chance, times);
    files::round_trip(t, chance, 300 * times);
    files::every_tenth(t);
    files::every_filed_height(t);
    files::every_version(t);
    files::every_damage(t);
    files::damaged_by_chance(t, chance, 3000 * times);
    slopes::all(t, chance, times);
    bodies::all(t, chance, times);
    trials::all(t, chance, times);
    series::never_surveyed(t, chance, 2000 * times);
    whole_plots::small_random(t, chance, 4000 * times);
    series::series(t, chance, times);
    patterns::patterns(t, chance);
    whole_plots::exhaustive(t, chance, long);
    whole_plots::upside_down(t, chance, 1000 * times);
    whole_plots::every_post(t, chance, long);
    whole_plots::large_random(t, chance, 10 * times);
}

const WAYS: [(Way, Kind, Kind); 2] =
    [(Way::Down, Kind::NextDown, Kind::Thalweg), (Way::Up, Kind::NextUp, Kind::Ridge)];

/// A call of a kind that is accepted, with any sheet that means the plot's rule, any spacings,
/// and lists of their right size and any content. A line call takes the first saddle, if there is one.
fn good(kind: Kind, plot: &Plot, chance: &mut Chance) -> Call {
    let posts = plot.posts();
    let mut call = Call { kind, heights: plot.heights.to_vec(), ..Call::default() };
    (call.rows, call.columns) = (plot.rows as u32, plot.columns as u32);
    if kind.takes_sheet() {
        call.sheet = any_meaning(plot.rule, chance);
    }
    if kind.takes_spacings() {
        call.spacings = any_spacings(chance);
    }
    match kind {
        Kind::Settings => return sheets::settings(call.sheet, chance),
        Kind::Survey => call.marks = chance.bytes(posts),
        Kind::Reshoot => {
            call.marks = chance.bytes(posts);
            call.post = chance.below(posts) as u32;
            call.height = chance.within(-3, 3);
        }
        Kind::Trial => {
            call.post = chance.below(posts) as u32;
            call.height = chance.within(-3, 3);
        }
        Kind::Ring => {
            call.post = chance.below(posts) as u32;
            call.ring = chance.bytes(8);
        }
        Kind::NextDown | Kind::NextUp => call.post = chance.below(posts) as u32,
        Kind::Thalweg | Kind::Ridge => {
            call.post = (0..posts).find(|&p| plot.is_saddle(p)).unwrap_or(0) as u32;
            call.line = chance.shorts(posts + 1);
        }
        Kind::DalesAndHills => {
            call.dales = chance.shorts(posts);
            call.hills = chance.shorts(posts);
        }
        Kind::JoinsAndSplits => {
            call.joins = chance.bytes(posts);
            call.splits = chance.bytes(posts);
        }
        Kind::ReadSurvey => return files::filed(plot, chance),
        Kind::WriteSurvey => call.file = chance.bytes(11 + 4 * posts),
    }
    call
}

/// A ring shows the mark that these have at its post.
fn shows_mark(t: &Tester, ring: &Call, marks: &[u8]) -> Outcome {
    let (answer, _) = t.agree(ring)?;
    let mark = marks[ring.post as usize] as u32;
    law(answer[0] == 0 && answer[3] == mark, "the mark shown is the one in the list", ring)
}

//! Survey files.

use super::good;
use crate::call::{Call, Kind};
use crate::opinion::{file_1_of, file_of, FILED_1};
use crate::plots::{any_spacings, ground, in_tenths, Chance, GROUNDS, UNEVEN};
use crate::sheet::DEFAULT_RULE;
use crate::surface::{Plot, Spacings};
use crate::tester::{law, Outcome, Tester};

pub fn read(file: Vec<u8>, room: usize) -> Call {
    Call { kind: Kind::ReadSurvey, file, heights: vec![77; room], ..Call::default() }
}

/// A file that is accepted, of either version: the plot's heights, with tenths added.
pub fn filed(plot: &Plot, chance: &mut Chance) -> Call {
    let tenths = in_tenths(plot.heights, &UNEVEN, chance);
    let heights = chance.shorts(plot.posts()).iter().map(|&h| h as i32).collect();
    Call { heights, ..read(any_file(plot.rows as u8, plot.columns as u8, &tenths, chance), 0) }
}

/// A file of either version, with any spacings.
pub fn any_file(rows: u8, columns: u8, tenths: &[i32], chance: &mut Chance) -> Vec<u8> {
    match chance.below(3) {
        0 => file_1_of(rows, columns, tenths),
        _ => file_of(rows, columns, any_spacings(chance), tenths),
    }
}

/// Where the heights of a file begin.
pub fn header(file: &[u8]) -> usize {
    match file[0] {
        1 => 7,
        _ => 11,
    }
}

pub fn round_trip(t: &mut Tester, chance: &mut Chance, times: usize) {
    t.group("files: round trip");
    for i in 0..times {
        let (rows, columns) = match i {
            0 => (120, 120),
            1 => (2, 120),
            2 => (120, 2),
            _ => (2 + chance.below(20), 2 + chance.below(20)),
        };
        let heights = ground(GROUNDS[i % GROUNDS.len()], rows, columns, chance);
        let plot = Plot { rule: DEFAULT_RULE, rows, columns, heights: &heights };
        t.case(one_round_trip(t, &plot, chance));
    }
}

/// A file read, what it held written, and that read back. One of version 1 has its spacings.
fn one_round_trip(t: &Tester, plot: &Plot, chance: &mut Chance) -> Outcome {
    let (first, held) = t.agree(&good(Kind::ReadSurvey, plot, chance))?;
    let spacings = Spacings::of(first[4], first[5]);
    law(held.file[0] == 2 || spacings == FILED_1, "the spacings of version 1", &held)?;
    let plot = Plot { heights: &held.heights, ..*plot };
    let write = Call { spacings, ..good(Kind::WriteSurvey, &plot, chance) };
    let (_, written) = t.agree(&write)?;
    law(written.file[0] == 2, "version 2 is written", &written)?;
    let (answer, back) = t.agree(&read(written.file, held.heights.len()))?;
    law(answer == first, "the sides and the spacings come back", &back)?;
    law(back.heights == held.heights, "the heights come back", &back)
}

pub fn every_tenth(t: &mut Tester) {
    t.group("files: tenths at each post, and the bounds");
    let bounds = [1, -1].iter().flat_map(|sign| (9_999_980..=10_000_020).map(move |t| sign * t));
    let extremes = [i32::MAX, i32::MIN, i32::MAX - 1, i32::MIN + 1];
    for tenths in (-50..=50).chain(bounds).chain(extremes) {
        for post in 0..4 {
            let mut list = [103, 114, -115, 126];
            list[post] = tenths;
            for file in [file_1_of(2, 2, &list), file_of(2, 2, Spacings::of(7, 1000), &list)] {
                let call = read(file, 4);
                t.case(t.agree(&call).and_then(|(answer, _)| {
                    let fits = (-10_000_000..=10_000_000).contains(&tenths);
                    law((answer[0] == 0) == fits, "the range of a filed height", &call)
                }));
            }
        }
    }
}

/// Every filed height that is in range, a file of the largest size at a time.
pub fn every_filed_height(t: &mut Tester) {
    t.group("files: every filed height");
    for (i, start) in (-10_000_000..=10_000_000).step_by(14_400).enumerate() {
        // The last file begins earlier, to be full.
        let start = start.min(10_000_001 - 14_400);
        let tenths: Vec<i32> = (start..start + 14_400).collect();
        let file = match i % 2 {
            0 => file_1_of(120, 120, &tenths),
            _ => file_of(120, 120, Spacings::of(1000, 1), &tenths),
        };
        let outcome = t.agree(&read(file, 14_400));
        t.case(outcome.and_then(|(_, left)| {
            match tenths.iter().zip(&left.heights).find(|(&t, &h)| !is_rounded(t, h)) {
                None => Ok(()),
                Some((tenths, height)) => Err(format!("{tenths} tenths read as {height}")),
            }
        }));
    }
}

/// The height is within 5 of the tenths, and even where it is 5 away. By floating point
/// it is the same.
fn is_rounded(tenths: i32, height: i32) -> bool {
    let away = (10 * height - tenths).abs();
    let by_float = (tenths as f64 / 10.0).round_ties_even();
    (away < 5 || away == 5 && height % 2 == 0) && height as f64 == by_float
}

/// Every version over files of every length: the version is looked at as soon as there are 7
/// bytes, and only one that is known asks for more.
pub fn every_version(t: &mut Tester) {
    t.group("files: every version and length");
    let whole = file_of(2, 2, Spacings::of(3, 4), &[10, 20, 30, 40]);
    for version in 0..=255 {
        for length in 0..=whole.len() {
            let mut file = whole[..length].to_vec();
            if let Some(first) = file.first_mut() {
                *first = version;
            }
            let code = match (version, length) {
                (_, 0..=6) => 10,
                (1, _) => 12,
                (2, 7..=10) => 10,
                (2, 27) => 0,
                (2, _) => 12,
                _ => 11,
            };
            let call = read(file, 4);
            t.case(
                t.agree(&call)
                    .and_then(|(answer, _)| law(answer[0] == code, &format!("code {code}"), &call)),
            );
        }
    }
}

pub fn every_damage(t: &mut Tester) {
    t.group("files: each byte damaged, each prefix, one byte more");
    for (rows, columns) in [(2, 2), (3, 2)] {
        let posts = (rows * columns) as usize;
        let tenths: Vec<i32> = (0..posts as i32).map(|i| 1234 * i - 2000).collect();
        damages(t, &file_1_of(rows, columns, &tenths), posts);
        damages(t, &file_of(rows, columns, Spacings::of(259, 1000), &tenths), posts);
    }
}

fn damages(t: &mut Tester, whole: &[u8], posts: usize) {
    for at in 0..whole.len() {
        for change in 1..=255 {
            let mut file = whole.to_vec();
            file[at] ^= change;
            t.case(t.agree(&read(file, posts)).and_then(|(answer, left)| {
                law(at >= 7 || answer[0] != 0, "a damaged header is refused", &left)?;
                let spacing = (7..header(whole)).contains(&at);
                law(!spacing || matches!(answer[0], 0 | 15), "a damaged spacing", &left)
            }));
        }
    }
    for length in 0..=whole.len() + 1 {
        let mut file = whole.to_vec();
        file.resize(length, 0);
        for room in [0, posts - 1, posts, posts + 1] {
            let call = read(file.clone(), room);
            let good = length == whole.len() && room == posts;
            t.case(t.agree(&call).and_then(|(answer, _)| {
                law((answer[0] == 0) == good, "only the whole file is accepted", &call)?;
                let short = length < header(whole);
                law((answer[0] == 10) == short, "a header cut short", &call)
            }));
        }
    }
}

pub fn damaged_by_chance(t: &mut Tester, chance: &mut Chance, times: usize) {
    t.group("files: damaged by chance");
    for _ in 0..times {
        let (rows, columns) = (2 + chance.below(6), 2 + chance.below(6));
        let tenths: Vec<i32> =
            (0..rows * columns).map(|_| chance.within(-10_000_000, 10_000_000)).collect();
        let mut file = any_file(rows as u8, columns as u8, &tenths, chance);
        for _ in 0..chance.below(4) {
            let at = chance.below(file.len());
            file[at] = chance.next() as u8;
        }
        match chance.below(8) {
            0 => file.truncate(chance.below(file.len())),
            1 => file.extend(chance.bytes(3)),
            2 => file = chance.bytes(60),
            _ => {}
        }
        let room = if chance.one_in(8) { chance.below(50) } else { rows * columns };
        t.case(t.agree(&read(file, room)).map(drop));
    }
}

//! Every call with every set of refusals at once.

use super::files::header;
use super::good;
use crate::call::{Call, Kind, KINDS};
use crate::plots::{ground, Chance};
use crate::samples::{spoil_frame, BAD_ENTRIES};
use crate::sheet::sheet_of;
use crate::surface::{Plot, Spacings, RULES};
use crate::tester::{law, Outcome, Tester};

/// Row 10 once more: a file of version 2 under 11 bytes.
const SHORT_2: u32 = 210;

/// The rows of the table that a call has a use for, the first that holds wins.
fn table(kind: Kind) -> &'static [u32] {
    match kind {
        Kind::Settings => &[13, 14, 3],
        Kind::Survey | Kind::JoinsAndSplits => &[13, 14, 1, 2, 3, 4],
        Kind::DalesAndHills => &[13, 14, 1, 15, 2, 3, 4],
        Kind::Reshoot => &[13, 14, 1, 2, 3, 4, 5, 6],
        Kind::Trial => &[13, 14, 1, 2, 4, 5, 6],
        Kind::Ring => &[13, 14, 1, 2, 3, 4, 5],
        Kind::NextDown | Kind::NextUp => &[13, 14, 1, 15, 2, 4, 5],
        Kind::Thalweg | Kind::Ridge => &[13, 14, 1, 15, 2, 4, 5, 7, 8, 9],
        Kind::ReadSurvey => &[10, 11, SHORT_2, 1, 15, 12, 3, 4],
        Kind::WriteSurvey => &[1, 15, 2, 3, 4],
    }
}

/// The number that a row of the table is answered with.
fn code(row: u32) -> u32 {
    match row {
        SHORT_2 => 10,
        code => code,
    }
}

const BAD_SIDES: [u32; 8] = [0, 1, 121, 122, 255, 65536, 1 << 31, u32::MAX];
const BAD_SPACINGS: [u32; 6] = [0, 1001, 1002, 65535, 65536, u32::MAX];
const BAD_HEIGHTS: [i32; 5] = [1_000_001, -1_000_001, i32::MAX, i32::MIN, 5_000_000];

/// Another length than n for a list.
fn resize<T: Copy + Default>(list: &mut Vec<T>, chance: &mut Chance) {
    let n = list.len();
    let length = chance.of(&[0, 1, n - 1, n + 1, n + 2, 2 * n]);
    list.resize(if length == n { n + 1 } else { length }, T::default());
}

/// Makes a row of the table hold, and gives the place it must be refused with.
pub fn spoil(call: &mut Call, row: u32, chance: &mut Chance) -> u32 {
    let posts = call.heights.len() as u32;
    match row {
        1 => spoil_sides(call, chance),
        2 => resize(&mut call.heights, chance),
        3 => spoil_lists(call, chance),
        4 => return spoil_heights(call, chance),
        5 => call.post = chance.of(&[posts, posts + 1, 65535, 65536, 1 << 31, u32::MAX]),
        6 => call.height = chance.of(&BAD_HEIGHTS),
        7 => {
            let (rows, columns) = (call.rows as usize, call.columns as usize);
            let rule = call.rule().unwrap();
            let plot = Plot { rule, rows, columns, heights: &call.heights };
            let others: Vec<usize> = (0..plot.posts()).filter(|&p| !plot.is_saddle(p)).collect();
            call.post = chance.of(&others) as u32;
        }
        8 => call.run += chance.of(&[4, 5, 1 << 16, u32::MAX - 4]),
        9 => {
            let count = call.clone().by_opinion()[2] as usize;
            call.line.truncate(chance.of(&[0, 1, count - 1]));
        }
        10 => call.file.truncate(chance.below(7)),
        SHORT_2 => call.file.truncate(chance.of(&[7, 8, 9, 10])),
        11 => call.file[0] = chance.of(&[0, 3, 4, 128, 255]),
        12 => spoil_count(call, chance),
        15 => spoil_spacings(call, chance),
        13 => spoil_frame(&mut call.sheet, chance),
        14 => call.sheet = sheet_of(chance.of(&BAD_ENTRIES)),
        _ => panic!("no such row: {row}"),
    }
    0
}

/// Spoils one side, or both; of a file, the byte of one.
fn spoil_sides(call: &mut Call, chance: &mut Chance) {
    if call.kind == Kind::ReadSurvey {
        let at = 5 + chance.below(2);
        call.file[at] = chance.of(&[0, 1, 121, 122, 255]);
        return;
    }
    let side = chance.of(&BAD_SIDES);
    let both = chance.one_in(3);
    if both || chance.one_in(2) {
        call.rows = side;
    } else {
        call.columns = side;
    }
    if both {
        call.columns = chance.of(&BAD_SIDES);
    }
}

/// Spoils one spacing, or both; of a file of version 2, the bytes of one.
fn spoil_spacings(call: &mut Call, chance: &mut Chance) {
    if call.kind == Kind::ReadSurvey {
        let bad: u16 = chance.of(&[0, 1001, 1024, 32768, 65535]);
        let at = chance.of(&[7, 9]);
        call.file[at..][..2].copy_from_slice(&bad.to_be_bytes());
        return;
    }
    let Spacings { along_row, along_column } = call.spacings;
    let bad = chance.of(&BAD_SPACINGS);
    call.spacings = match chance.below(3) {
        0 => Spacings::of(bad, along_column),
        1 => Spacings::of(along_row, bad),
        _ => Spacings::of(bad, chance.of(&BAD_SPACINGS)),
    };
}

/// Resizes what is lent beside the heights, or the heights that a file is read into.
fn spoil_lists(call: &mut Call, chance: &mut Chance) {
    match call.kind {
        Kind::Settings => resize(&mut call.name, chance),
        Kind::Survey | Kind::Reshoot => resize(&mut call.marks, chance),
        Kind::Ring => resize(&mut call.ring, chance),
        Kind::WriteSurvey => resize(&mut call.file, chance),
        Kind::ReadSurvey => resize(&mut call.heights, chance),
        Kind::JoinsAndSplits => resize_some(&mut call.joins, &mut call.splits, chance),
        _ => resize_some(&mut call.dales, &mut call.hills, chance),
    }
}

/// Resizes one of two lists, or both.
fn resize_some<T: Copy + Default>(one: &mut Vec<T>, other: &mut Vec<T>, chance: &mut Chance) {
    let which = chance.below(3);
    if which != 1 {
        resize(one, chance);
    }
    if which != 0 {
        resize(other, chance);
    }
}

/// Spoils two heights, or one twice, and gives the first one's place.
fn spoil_heights(call: &mut Call, chance: &mut Chance) -> u32 {
    let reading = call.kind == Kind::ReadSurvey;
    let posts =
        if reading { (call.file.len() - header(&call.file)) / 4 } else { call.heights.len() };
    let places = [chance.below(posts), chance.below(posts)];
    for place in places {
        if reading {
            let tenths = chance.of(&[10_000_001, -10_000_001, i32::MAX, i32::MIN]);
            let at = header(&call.file) + 4 * place;
            call.file[at..][..4].copy_from_slice(&tenths.to_be_bytes());
        } else {
            call.heights[place] = chance.of(&BAD_HEIGHTS);
        }
    }
    places[0].min(places[1]) as u32
}

/// Makes the stated count differ from the bytes present or from the sides.
fn spoil_count(call: &mut Call, chance: &mut Chance) {
    let mut stated = u32::from_be_bytes(call.file[1..5].try_into().unwrap());
    match chance.below(9) {
        0 => stated += 1,
        1 => stated -= 1,
        2 => stated = 0,
        3 => stated |= 1 << 31,
        4 => call.file.push(0),
        5 => drop(call.file.pop()),
        // As if it were of the other version.
        6 => stated += 4,
        7 => stated -= 4,
        _ => {
            // Stated and present agree, and the count rule is broken.
            call.file.extend([0; 4]);
            stated += 4;
        }
    }
    call.file[1..5].copy_from_slice(&stated.to_be_bytes());
}

/// For every call, every set of refusals at once, the empty one included.
pub fn refusals(t: &mut Tester, chance: &mut Chance, times: usize) {
    for kind in KINDS {
        t.group(&format!("{kind:?}: every set of refusals"));
        for rows in sets(table(kind)) {
            for _ in 0..times {
                let (call, place) = spoiled(kind, &rows, chance);
                t.case(refused(t, &call, &rows, place));
            }
        }
    }
}

/// A ring's list at lengths about its own, and posts that no plot has, in every set.
pub fn ring_lists(t: &mut Tester, chance: &mut Chance) {
    t.group("Ring: lists and posts in every set of refusals");
    for rows in sets(table(Kind::Ring)) {
        for length in [0, 7, 9] {
            for post in [65535, u32::MAX] {
                let (mut call, place) = spoiled(Kind::Ring, &rows, chance);
                if rows.contains(&3) {
                    call.ring.resize(length, 9);
                }
                if rows.contains(&5) {
                    call.post = post;
                }
                t.case(refused(t, &call, &rows, place));
            }
        }
    }
}

/// A trial is turned away just as the re-shoot is whose marks are as many as they must be: with
/// the same number and place, in every set of refusals.
pub fn trial_as_reshoot(t: &mut Tester, chance: &mut Chance, times: usize) {
    t.group("Trial: turned away as its re-shoot, in every set of refusals");
    for rows in sets(table(Kind::Trial)) {
        for _ in 0..times {
            let (trial, _) = spoiled(Kind::Trial, &rows, chance);
            t.case(turned_away_alike(t, &trial, chance));
        }
    }
}

fn turned_away_alike(t: &Tester, trial: &Call, chance: &mut Chance) -> Outcome {
    let posts = trial.rows as u64 * trial.columns as u64;
    // Sides that no plot has are told before marks are looked at.
    let marks = chance.bytes(if posts > 14_400 { 0 } else { posts as usize });
    let reshoot = Call { kind: Kind::Reshoot, marks, ..trial.clone() };
    let (answer, _) = t.agree(trial)?;
    law(answer[..2] == t.agree(&reshoot)?.0, "number and place of the re-shoot", trial)
}

/// Every set of a table's rows, the empty one included.
fn sets(table: &[u32]) -> Vec<Vec<u32>> {
    let rows_of = |set| (0..table.len()).filter(|i| set >> i & 1 == 1).map(|i| table[i]).collect();
    (0..1 << table.len()).map(rows_of).collect()
}

/// A call of which these rows hold, and the place that it must be refused with.
fn spoiled(kind: Kind, rows: &[u32], chance: &mut Chance) -> (Call, u32) {
    let mut call = with_saddle(kind, chance);
    // A file of version 1 has no spacings, and is short under 7 bytes alone.
    let version_2 = kind == Kind::ReadSurvey && rows.iter().any(|row| [15, SHORT_2].contains(row));
    while version_2 && call.file[0] == 1 {
        call = with_saddle(kind, chance);
    }
    let mut place = 0;
    // The upper rows last, so that none of the lower is undone.
    for &row in rows.iter().rev() {
        place = spoil(&mut call, row, chance);
    }
    (call, place)
}

/// Turned away by the first of these rows; accepted where there is none.
fn refused(t: &Tester, call: &Call, rows: &[u32], place: u32) -> Outcome {
    let code = rows.first().map_or(0, |&row| code(row));
    let (answer, left) = t.agree(call)?;
    law(answer[0] == code, "the upper row wins", call)?;
    law(answer[1] == place, "the place", call)?;
    if code != 0 {
        law(answer[2..].iter().all(|&v| v == 0), "other values are 0", call)?;
        law(left == *call, "no list changes", call)?;
    }
    Ok(())
}

/// A good call; a line call for any run of any saddle.
fn with_saddle(kind: Kind, chance: &mut Chance) -> Call {
    loop {
        let (rows, columns) = (2 + chance.below(6), 2 + chance.below(6));
        let heights = ground("few heights", rows, columns, chance);
        let plot = Plot { rule: chance.of(&RULES), rows, columns, heights: &heights };
        let saddles: Vec<usize> = (0..plot.posts()).filter(|&p| plot.is_saddle(p)).collect();
        if !saddles.is_empty() {
            let mut call = good(kind, &plot, chance);
            if matches!(kind, Kind::Thalweg | Kind::Ridge) {
                let saddle = chance.of(&saddles);
                call.post = saddle as u32;
                call.run = chance.below(plot.mark(saddle) as usize - 1) as u32;
            }
            return call;
        }
    }
}

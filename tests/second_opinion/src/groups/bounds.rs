//! Values and lengths at and beyond their bounds.

use super::files::{any_file, header, read};
use super::{good, shows_mark};
use crate::call::{Call, Kind, KINDS};
use crate::opinion::file_of;
use crate::plots::{ground, Chance};
use crate::sheet::sheet_of;
use crate::surface::{Plot, Rule, Spacings, RULES};
use crate::tester::{law, Outcome, Tester};

/// Every kind of call that has a plot, by every rule; a file goes by none.
fn kinds_and_rules() -> impl Iterator<Item = (Kind, Rule)> {
    let plots = KINDS.into_iter().filter(|&kind| kind != Kind::Settings);
    plots.flat_map(|kind| {
        let rules = if kind.takes_sheet() { &RULES[..] } else { &RULES[..1] };
        rules.iter().map(move |&rule| (kind, rule))
    })
}

pub fn sides(t: &mut Tester, chance: &mut Chance) {
    t.group("sides at and beyond the bounds");
    let sides = [0, 1, 2, 3, 119, 120, 121, 122, 255, 256, 65535, 65536, 1 << 31, u32::MAX];
    for (kind, rule) in kinds_and_rules() {
        for rows in sides {
            for columns in sides {
                let call = flat(kind, rule, rows, columns, chance);
                // A file has one byte for each side.
                if kind == Kind::ReadSurvey && rows.max(columns) > 255 {
                    continue;
                }
                t.case(t.agree(&call).and_then(|(answer, _)| {
                    let fits = (2..=120).contains(&rows) && (2..=120).contains(&columns);
                    let code = match kind {
                        _ if !fits => 1,
                        Kind::Thalweg | Kind::Ridge => 7,
                        _ => 0,
                    };
                    law(answer[0] == code, "sides 2 to 120 are accepted, others not", &call)
                }));
            }
        }
    }
}

/// A flat plot with as many posts as the sides' product, or what is left of it in
/// 32 or 16 bits.
fn flat(kind: Kind, rule: Rule, rows: u32, columns: u32, chance: &mut Chance) -> Call {
    let product = rows as u64 * columns as u64;
    let posts = [product, product & 0xffff_ffff, product & 0xffff, 4];
    let posts = posts.into_iter().find(|&n| n <= 15_000).unwrap() as usize;
    let heights = vec![0; posts.max(1)];
    let row = Plot { rule, rows: 1, columns: heights.len(), heights: &heights };
    let mut call = good(kind, &row, chance);
    (call.rows, call.columns, call.post) = (rows, columns, 0);
    if kind == Kind::ReadSurvey {
        call.file = any_file(rows as u8, columns as u8, &vec![0; posts], chance);
        (call.rows, call.columns) = (0, 0);
    }
    call.heights.truncate(posts);
    call.marks.truncate(posts);
    call.dales.truncate(posts);
    call.hills.truncate(posts);
    call.joins.truncate(posts);
    call.splits.truncate(posts);
    call
}

const SPACINGS: [u32; 13] =
    [0, 1, 2, 255, 256, 999, 1000, 1001, 1024, 65535, 65536, 1 << 31, u32::MAX];

pub fn spacings(t: &mut Tester, chance: &mut Chance) {
    t.group("spacings at and beyond the bounds");
    let heights = &[9, 17, 16, 15, 18, 10, 4, 14, 19, 5, 12, 13];
    let all = || SPACINGS.into_iter().flat_map(|a| SPACINGS.map(|b| Spacings::of(a, b)));
    for (kind, rule) in kinds_and_rules().filter(|(kind, _)| kind.takes_spacings()) {
        let plot = Plot { rule, rows: 3, columns: 4, heights };
        for spacings in all() {
            spaced(t, Call { spacings, ..good(kind, &plot, chance) }, spacings);
        }
    }
    // A file has two bytes for each spacing.
    for spacings in all().filter(|s| s.along_row.max(s.along_column) <= 65535) {
        spaced(t, read(file_of(3, 4, spacings, heights), 12), spacings);
    }
}

/// A call with these spacings, which is good but for them.
fn spaced(t: &mut Tester, call: Call, spacings: Spacings) {
    let fits = [spacings.along_row, spacings.along_column].iter().all(|s| (1..=1000).contains(s));
    t.case(t.agree(&call).and_then(|(answer, _)| {
        let code = if fits { 0 } else { 15 };
        law(answer[0] == code, "spacings 1 to 1,000 are accepted, others not", &call)?;
        let told = [spacings.along_row, spacings.along_column];
        let read = call.kind == Kind::ReadSurvey && fits;
        law(!read || answer[4..] == told, "the spacings of the file", &call)
    }));
}

const HEIGHTS: [i32; 12] = [
    999_999,
    1_000_000,
    1_000_001,
    -999_999,
    -1_000_000,
    -1_000_001,
    i32::MAX,
    i32::MIN,
    i32::MAX - 1,
    i32::MIN + 1,
    10_000_000,
    -10_000_000,
];

pub fn heights(t: &mut Tester, chance: &mut Chance) {
    t.group("heights at and beyond the bounds");
    let within = |h: i32| (-1_000_000..=1_000_000).contains(&h);
    for (kind, rule) in kinds_and_rules() {
        let plot = Plot { rule, rows: 3, columns: 2, heights: &[2, 0, 0, 3, 1, 0] };
        for height in HEIGHTS {
            for post in 0..6 {
                let mut call = good(kind, &plot, chance);
                if kind == Kind::ReadSurvey {
                    let tenths = height.checked_mul(10).unwrap_or(height);
                    let at = header(&call.file) + 4 * post;
                    call.file[at..][..4].copy_from_slice(&tenths.to_be_bytes());
                } else {
                    call.heights[post] = height;
                }
                t.case(t.agree(&call).and_then(|(answer, _)| {
                    let refused = answer[0] == 4 && answer[1] == post as u32;
                    law(refused != within(height), "refusal 4 at its place", &call)
                }));
            }
            if matches!(kind, Kind::Reshoot | Kind::Trial) {
                let mut call = good(kind, &plot, chance);
                call.height = height;
                t.case(t.agree(&call).and_then(|(answer, _)| {
                    law((answer[0] == 6) != within(height), "refusal 6", &call)
                }));
            }
        }
    }
}

pub fn posts_and_runs(t: &mut Tester, chance: &mut Chance) {
    t.group("posts and runs at and beyond the end");
    let kinds = [
        Kind::Reshoot,
        Kind::Trial,
        Kind::Ring,
        Kind::NextDown,
        Kind::NextUp,
        Kind::Thalweg,
        Kind::Ridge,
    ];
    for (kind, rule) in kinds.into_iter().flat_map(|kind| RULES.map(|rule| (kind, rule))) {
        for (rows, columns) in [(2, 2), (3, 4), (120, 120)] {
            let heights = ground("few heights", rows, columns, chance);
            let plot = Plot { rule, rows, columns, heights: &heights };
            let base = good(kind, &plot, chance);
            posts_of(t, &base);
            if matches!(kind, Kind::Thalweg | Kind::Ridge) {
                for run in [0, 1, 2, 3, 4, 5, 255, 256, 65535, 65536, 1 << 31, u32::MAX] {
                    t.case(t.agree(&Call { run, ..base.clone() }).map(drop));
                }
            }
        }
    }
}

/// The call for posts at the plot's end and beyond.
fn posts_of(t: &mut Tester, base: &Call) {
    let posts = base.heights.len() as u32;
    for post in [
        0,
        posts - 1,
        posts,
        posts + 1,
        65534,
        65535,
        65536,
        65536 + posts - 1,
        i32::MAX as u32,
        1 << 31,
        u32::MAX,
    ] {
        let call = Call { post, ..base.clone() };
        t.case(
            t.agree(&call).and_then(|(answer, _)| {
                law((answer[0] == 5) == (post >= posts), "refusal 5", &call)
            }),
        );
    }
}

pub fn lengths(t: &mut Tester, chance: &mut Chance) {
    t.group("lengths of lists");
    for rule in RULES {
        let star = Plot { rule, rows: 3, columns: 3, heights: &[0, 2, 0, 2, 1, 2, 0, 2, 0] };
        for kind in KINDS {
            let mut base = good(kind, &star, chance);
            if kind.takes_sheet() {
                base.sheet = sheet_of(&[(1, &[rule as u8])]);
            }
            for call in with_lengths(base) {
                t.case(t.agree(&call).map(drop));
            }
        }
    }
}

/// The call with each list that its kind lends at each length, one with another.
fn with_lengths(base: Call) -> Vec<Call> {
    let (kind, sheet, file) = (base.kind, base.sheet.len(), base.file.len());
    let mut calls = vec![base];
    if kind.takes_sheet() {
        calls = resized(calls, sheet, |call| &mut call.sheet);
    }
    if kind == Kind::Settings {
        return resized(calls, 32, |call| &mut call.name);
    }
    let calls = resized(calls, 9, |call| &mut call.heights);
    match kind {
        Kind::Survey | Kind::Reshoot => resized(calls, 9, |call| &mut call.marks),
        Kind::Ring => resized(calls, 8, |call| &mut call.ring),
        Kind::Thalweg | Kind::Ridge => resized(calls, 9, |call| &mut call.line),
        Kind::ReadSurvey | Kind::WriteSurvey => resized(calls, file, |call| &mut call.file),
        Kind::DalesAndHills => {
            let calls = resized(calls, 9, |call| &mut call.dales);
            resized(calls, 9, |call| &mut call.hills)
        }
        Kind::JoinsAndSplits => {
            let calls = resized(calls, 9, |call| &mut call.joins);
            resized(calls, 9, |call| &mut call.splits)
        }
        _ => calls,
    }
}

/// Each call with one list at every length about a size.
fn resized<T: Clone + Default>(
    calls: Vec<Call>,
    size: usize,
    list: fn(&mut Call) -> &mut Vec<T>,
) -> Vec<Call> {
    let mut all = Vec::new();
    for call in calls {
        for length in [0, 1, size - 1, size, size + 1, 2 * size] {
            let mut call = call.clone();
            list(&mut call).resize(length, T::default());
            all.push(call);
        }
    }
    all
}

/// A call remembers nothing: the same lists may be lent in another shape, and by the
/// other rule.
pub fn other_shape(t: &mut Tester, chance: &mut Chance) {
    t.group("lists lent in another shape and by the other rule");
    for (rule, other) in [(Rule::Lowest, Rule::Highest), (Rule::Highest, Rule::Lowest)] {
        for _ in 0..100 {
            let heights = ground("few heights", 4, 4, chance);
            let plot = Plot { rule, rows: 4, columns: 4, heights: &heights };
            let (_, left) = match t.agree(&good(Kind::Survey, &plot, chance)) {
                Ok(done) => done,
                Err(why) => return t.case(Err(why)),
            };
            for (rule, rows, columns) in
                [(rule, 2, 8), (rule, 8, 2), (other, 2, 8), (other, 8, 2), (other, 4, 4)]
            {
                let plot = Plot { rule, rows, columns, heights: &heights };
                t.case(lent_anew(t, &plot, &left.marks, chance));
            }
        }
    }
}

/// A re-shoot with marks that were those of another plot.
fn lent_anew(t: &Tester, plot: &Plot, marks: &[u8], chance: &mut Chance) -> Outcome {
    let call = Call { marks: marks.to_vec(), ..good(Kind::Reshoot, plot, chance) };
    let (answer, left) = t.agree(&call)?;
    law(answer[0] == 0, "another shape or rule is accepted", &call)?;
    let plot = Plot { heights: &left.heights, ..*plot };
    let ring = Call { post: call.post, ..good(Kind::Ring, &plot, chance) };
    shows_mark(t, &ring, &left.marks)
}

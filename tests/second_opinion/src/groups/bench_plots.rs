//! The plots of "Example plots" in docs/SPECIFICATION.md, by their printed values, and by
//! the second rule as drawn by hand.

use super::files::read;
use crate::call::{Call, Kind};
use crate::opinion::{file_1_of, file_of, FILED_1};
use crate::sheet::sheet_of;
use crate::surface::Spacings;
use crate::tester::{law, Tester};

const FLAT: &[i32] = &[0, 0, 0, 0];
const CROSSED: &[i32] = &[5, 0, 0, 5];
const STAR: &[i32] = &[0, 2, 0, 2, 1, 2, 0, 2, 0];
const HOLLOW: &[i32] = &[1, 1, 1, 1, 0, 1, 1, 1, 1];
const RUNS: &[i32] = &[0, 3, 9, 2, 5, 7, 6, 8, 1];

/// Rule, side, heights, then the counts and the marks.
type Survey = (u8, u32, &'static [i32], [u32; 3], &'static [u8]);
const SURVEYS: [Survey; 10] = [
    (1, 2, FLAT, [1, 1, 0], &[0, 0, 1, 0]),
    (1, 2, CROSSED, [2, 1, 1], &[1, 0, 3, 1]),
    (1, 3, STAR, [4, 1, 3], &[0, 1, 0, 1, 5, 1, 0, 1, 0]),
    (1, 3, HOLLOW, [1, 2, 1], &[3, 0, 0, 0, 2, 0, 0, 0, 1]),
    (1, 3, RUNS, [2, 1, 1], &[0, 0, 1, 0, 3, 0, 0, 1, 0]),
    (2, 2, FLAT, [1, 1, 0], &[0, 0, 1, 0]),
    (2, 2, CROSSED, [1, 1, 0], &[0, 0, 0, 1]),
    (2, 3, STAR, [1, 2, 1], &[0, 3, 0, 0, 2, 0, 0, 1, 0]),
    (2, 3, HOLLOW, [1, 2, 1], &[0, 3, 0, 0, 2, 0, 0, 0, 1]),
    (2, 3, RUNS, [2, 1, 1], &[0, 0, 1, 0, 0, 3, 0, 1, 0]),
];

/// Sheets that name no rule: none, one without entries, and a name alone. They mean rule 2, by
/// which star has one peak and a pit in its middle.
const UNNAMED: [&[u8]; 3] = [&[], &[1, 0, 0, 0, 0], &[1, 0, 0, 0, 3, 2, 1, b'a']];

/// Rule, side, heights, then for each post the codes of its ring, k and its mark.
type Rings = (u8, u32, &'static [i32], &'static [([u8; 8], u32, u32)]);
const RINGS: [Rings; 8] = [
    (
        1,
        2,
        FLAT,
        &[
            ([3, 2, 2, 2, 0, 0, 0, 0], 1, 0),
            ([3, 2, 4, 0, 0, 0, 0, 0], 1, 0),
            ([4, 4, 3, 0, 0, 0, 0, 0], 1, 1),
            ([4, 3, 2, 4, 0, 0, 0, 0], 1, 0),
        ],
    ),
    (
        1,
        2,
        CROSSED,
        &[
            ([3, 3, 3, 0, 0, 0, 0, 0], 1, 1),
            ([3, 1, 2, 1, 0, 0, 0, 0], 1, 0),
            ([1, 4, 1, 3, 0, 0, 0, 0], 2, 3),
            ([3, 3, 3, 0, 0, 0, 0, 0], 1, 1),
        ],
    ),
    (
        1,
        3,
        STAR,
        &[
            ([3, 1, 1, 1, 0, 0, 0, 0], 1, 0),
            ([3, 3, 3, 3, 0, 0, 0, 0], 1, 1),
            ([3, 1, 1, 1, 0, 0, 0, 0], 1, 0),
            ([3, 3, 3, 3, 0, 0, 0, 0], 1, 1),
            ([1, 3, 1, 3, 1, 3, 1, 3], 4, 5),
            ([3, 3, 3, 3, 0, 0, 0, 0], 1, 1),
            ([1, 1, 1, 3, 0, 0, 0, 0], 1, 0),
            ([3, 3, 3, 3, 0, 0, 0, 0], 1, 1),
            ([1, 3, 1, 1, 0, 0, 0, 0], 1, 0),
        ],
    ),
    (
        1,
        3,
        HOLLOW,
        &[
            ([3, 2, 3, 2, 0, 0, 0, 0], 2, 3),
            ([3, 2, 3, 4, 0, 0, 0, 0], 1, 0),
            ([3, 2, 3, 4, 0, 0, 0, 0], 1, 0),
            ([4, 3, 2, 3, 0, 0, 0, 0], 1, 0),
            ([1, 1, 1, 1, 1, 1, 1, 1], 0, 2),
            ([4, 3, 2, 3, 0, 0, 0, 0], 1, 0),
            ([4, 3, 2, 3, 0, 0, 0, 0], 1, 0),
            ([3, 2, 3, 4, 0, 0, 0, 0], 1, 0),
            ([4, 3, 4, 3, 0, 0, 0, 0], 1, 1),
        ],
    ),
    (
        1,
        3,
        RUNS,
        &[
            ([3, 1, 1, 1, 0, 0, 0, 0], 1, 0),
            ([3, 1, 1, 1, 3, 0, 0, 0], 1, 0),
            ([3, 3, 3, 0, 0, 0, 0, 0], 1, 1),
            ([3, 1, 1, 1, 3, 0, 0, 0], 1, 0),
            ([3, 1, 3, 1, 3, 3, 0, 0], 2, 3),
            ([1, 3, 3, 3, 3, 0, 0, 0], 1, 0),
            ([3, 1, 3, 0, 0, 0, 0, 0], 1, 0),
            ([3, 3, 3, 3, 3, 0, 0, 0], 1, 1),
            ([1, 3, 1, 1, 0, 0, 0, 0], 1, 0),
        ],
    ),
    (
        2,
        2,
        FLAT,
        &[
            ([3, 2, 2, 0, 0, 0, 0, 0], 1, 0),
            ([3, 2, 2, 4, 0, 0, 0, 0], 1, 0),
            ([4, 4, 4, 3, 0, 0, 0, 0], 1, 1),
            ([4, 3, 2, 0, 0, 0, 0, 0], 1, 0),
        ],
    ),
    (
        2,
        2,
        CROSSED,
        &[
            ([3, 3, 2, 3, 0, 0, 0, 0], 1, 0),
            ([3, 1, 1, 0, 0, 0, 0, 0], 1, 0),
            ([1, 1, 3, 0, 0, 0, 0, 0], 1, 0),
            ([3, 3, 3, 4, 0, 0, 0, 0], 1, 1),
        ],
    ),
    (
        2,
        3,
        STAR,
        &[
            ([3, 1, 1, 0, 0, 0, 0, 0], 1, 0),
            ([3, 3, 2, 3, 2, 3, 0, 0], 2, 3),
            ([3, 1, 1, 0, 0, 0, 0, 0], 1, 0),
            ([3, 4, 3, 2, 3, 3, 0, 0], 1, 0),
            ([1, 1, 1, 1, 0, 0, 0, 0], 0, 2),
            ([3, 3, 3, 2, 3, 4, 0, 0], 1, 0),
            ([1, 1, 3, 0, 0, 0, 0, 0], 1, 0),
            ([3, 4, 3, 3, 3, 4, 0, 0], 1, 1),
            ([1, 3, 1, 0, 0, 0, 0, 0], 1, 0),
        ],
    ),
];

/// Kind, rule, side, heights, post, run, the list's length, then the code and the list.
type Line = (Kind, u8, u32, &'static [i32], u32, u32, usize, u32, &'static [u16]);
const LINES: [Line; 10] = [
    (Kind::Thalweg, 1, 2, CROSSED, 2, 0, 3, 0, &[2, 1, 65535]),
    (Kind::Thalweg, 1, 2, CROSSED, 2, 0, 2, 9, &[9, 9]),
    (Kind::Ridge, 1, 3, STAR, 4, 0, 2, 0, &[4, 1]),
    (Kind::Thalweg, 1, 2, CROSSED, 2, 2, 9, 8, &[9; 9]),
    (Kind::Thalweg, 2, 2, CROSSED, 2, 0, 3, 7, &[9, 9, 9]),
    (Kind::Thalweg, 2, 3, STAR, 1, 0, 2, 0, &[1, 4]),
    (Kind::Thalweg, 2, 3, STAR, 1, 1, 2, 0, &[1, 65535]),
    (Kind::Ridge, 2, 3, STAR, 1, 0, 3, 0, &[1, 5, 7]),
    (Kind::Ridge, 2, 3, STAR, 1, 1, 3, 0, &[1, 3, 7]),
    (Kind::Ridge, 2, 3, STAR, 1, 2, 3, 8, &[9, 9, 9]),
];

/// By equal spacings the middle post drains to the east, and not to the lowest post, the last.
const SLANT: &[i32] = &[9, 9, 9, 9, 8, 2, 9, 7, 0];
/// Post 5 is a saddle with a run of the pit at 6 and of 9 on the border.
const TURN: &[i32] = &[9, 17, 16, 15, 18, 10, 4, 14, 19, 5, 12, 13];
const EQUAL: Spacings = Spacings::of(100, 100);
const WIDE: Spacings = Spacings::of(200, 100);

/// Rule, columns, heights, spacings, post, then next down and next up.
type Step = (u8, u32, &'static [i32], Spacings, u32, u32, u32);
const STEPS: [Step; 9] = [
    (1, 3, SLANT, EQUAL, 4, 5, 3),
    (2, 3, SLANT, EQUAL, 4, 5, 3),
    (1, 3, SLANT, WIDE, 4, 8, 1),
    (2, 3, SLANT, WIDE, 4, 8, 1),
    (1, 3, SLANT, Spacings::of(1000, 100), 4, 7, 1),
    (1, 3, SLANT, Spacings::of(100, 1000), 4, 5, 3),
    (1, 4, TURN, EQUAL, 5, 6, 4),
    (1, 4, TURN, WIDE, 5, 9, 1),
    (2, 4, TURN, WIDE, 5, 9, 1),
];

/// Columns, heights, spacings, post, run, then the water line by the first rule.
type Turned = (u32, &'static [i32], Spacings, u32, u32, &'static [u16]);
const TURNED: [Turned; 7] = [
    (3, SLANT, EQUAL, 0, 1, &[0, 4, 5, 65535]),
    (3, SLANT, WIDE, 0, 1, &[0, 4, 8, 65535]),
    (3, SLANT, Spacings::of(1000, 100), 0, 1, &[0, 4, 7, 65535]),
    (4, TURN, EQUAL, 5, 0, &[5, 6]),
    (4, TURN, WIDE, 5, 0, &[5, 9, 65535]),
    (4, TURN, EQUAL, 5, 1, &[5, 0, 65535]),
    (4, TURN, WIDE, 9, 1, &[9, 65535]),
];

/// Spacings, then the dales and hills of turn by the first rule: those of post 5 change.
type Parts = (Spacings, [u16; 12], [u16; 12]);
const V: u16 = 65535;
const PARTS: [Parts; 2] = [
    (EQUAL, [V, V, V, V, V, 6, 6, V, V, V, V, V], [8, 1, 1, 1, 8, 8, 1, 1, 8, 8, 1, 1]),
    (WIDE, [V, V, V, V, V, V, 6, V, V, V, V, V], [8, 1, 1, 1, 8, 1, 1, 1, 8, 8, 1, 1]),
];

/// Tenths, then the heights that they are read as.
const ROUNDINGS: [([i32; 4], [i32; 4]); 2] =
    [([4, 5, 15, -5], [0, 0, 2, 0]), ([25, -15, -25, -26], [2, -2, -2, -3])];

pub fn bench_plots(t: &mut Tester) {
    t.group("bench plots");
    surveys(t);
    unnamed(t);
    rings(t);
    lines(t);
    steepest(t);
    files(t);
}

fn square(kind: Kind, rule: u8, side: u32, heights: &[i32]) -> Call {
    let (sheet, heights) = (sheet_of(&[(1, &[rule])]), heights.to_vec());
    Call { kind, sheet, rows: side, columns: side, heights, ..Call::default() }
}

fn surveys(t: &mut Tester) {
    for (rule, side, heights, counts, marks) in SURVEYS {
        let call = square(Kind::Survey, rule, side, heights);
        let call = Call { marks: vec![9; heights.len()], ..call };
        t.case(t.agree(&call).and_then(|(answer, left)| {
            law(answer[2..] == counts, "the counts", &call)?;
            law(left.marks == marks, "the marks", &call)
        }));
    }
}

fn unnamed(t: &mut Tester) {
    for sheet in UNNAMED {
        let sheet = sheet.to_vec();
        let call = Call { sheet, marks: vec![9; 9], ..square(Kind::Survey, 1, 3, STAR) };
        t.case(t.agree(&call).and_then(|(answer, left)| {
            law(answer[2..] == [1, 2, 1], "the counts", &call)?;
            law(left.marks == [0, 3, 0, 0, 2, 0, 0, 1, 0], "the marks", &call)
        }));
        let call = Call { kind: Kind::Settings, name: vec![9; 32], ..call };
        t.case(t.agree(&call).and_then(|(answer, _)| law(answer[2] == 2, "the rule", &call)));
    }
}

fn rings(t: &mut Tester) {
    for (rule, side, heights, rings) in RINGS {
        for (post, &(codes, k, mark)) in (0..).zip(rings) {
            let call = square(Kind::Ring, rule, side, heights);
            let call = Call { post, ring: vec![9; 8], ..call };
            t.case(t.agree(&call).and_then(|(answer, left)| {
                law(left.ring == codes, "the codes", &call)?;
                law(answer == [0, 0, k, mark], "k and the mark", &call)
            }));
        }
    }
}

fn lines(t: &mut Tester) {
    for (kind, rule, side, heights, post, run, room, code, line) in LINES {
        let call = Call { spacings: EQUAL, ..square(kind, rule, side, heights) };
        let call = Call { post, run, line: vec![9; room], ..call };
        t.case(t.agree(&call).and_then(|(answer, left)| {
            law(answer[0] == code, "the code", &call)?;
            law(left.line == line, "the line", &call)
        }));
    }
}

/// A plot of three rows.
fn three_rows(kind: Kind, rule: u8, columns: u32, heights: &[i32], spacings: Spacings) -> Call {
    Call { columns, spacings, ..square(kind, rule, 3, heights) }
}

fn steepest(t: &mut Tester) {
    for (rule, columns, heights, spacings, post, down, up) in STEPS {
        for (kind, next) in [(Kind::NextDown, down), (Kind::NextUp, up)] {
            let call = Call { post, ..three_rows(kind, rule, columns, heights, spacings) };
            let outcome = t.agree(&call);
            t.case(outcome.and_then(|(answer, _)| law(answer[2] == next, "the step", &call)));
        }
    }
    for (columns, heights, spacings, post, run, line) in TURNED {
        let call = three_rows(Kind::Thalweg, 1, columns, heights, spacings);
        let call = Call { post, run, line: vec![9; line.len()], ..call };
        t.case(t.agree(&call).and_then(|(_, left)| law(left.line == line, "the line", &call)));
    }
    for (spacings, dales, hills) in PARTS {
        let call = three_rows(Kind::DalesAndHills, 1, 4, TURN, spacings);
        let call = Call { dales: vec![9; 12], hills: vec![9; 12], ..call };
        t.case(t.agree(&call).and_then(|(_, left)| {
            law(left.dales == dales && left.hills == hills, "the dales and hills", &call)
        }));
    }
}

/// Both versions, in bytes.
const FILES: [(&[u8], Spacings); 2] = [
    (&[1, 0, 0, 0, 18, 2, 2, 0, 0, 0, 50, 0, 0, 0, 0, 0, 0, 0, 0, 0, 0, 0, 50], FILED_1),
    (
        &[2, 0, 0, 0, 22, 2, 2, 0, 100, 3, 232, 0, 0, 0, 50, 0, 0, 0, 0, 0, 0, 0, 0, 0, 0, 0, 50],
        Spacings::of(100, 1000),
    ),
];

fn files(t: &mut Tester) {
    for (tenths, heights) in ROUNDINGS {
        for file in [file_1_of(2, 2, &tenths), file_of(2, 2, EQUAL, &tenths)] {
            let call = read(file, 4);
            t.case(t.agree(&call).and_then(|(answer, left)| {
                law(answer == [0, 0, 2, 2, 100, 100], "the sides and the spacings", &call)?;
                law(left.heights == heights, "the rounding", &call)
            }));
        }
    }
    for (file, spacings) in FILES {
        let call = read(file.to_vec(), 4);
        t.case(t.agree(&call).and_then(|(answer, left)| {
            let Spacings { along_row, along_column } = spacings;
            law(answer == [0, 0, 2, 2, along_row, along_column], "the answer", &call)?;
            law(left.heights == CROSSED, "the heights", &call)
        }));
    }
    let (file, spacings) = FILES[1];
    let call = Call { spacings, sheet: vec![], ..square(Kind::WriteSurvey, 1, 2, CROSSED) };
    let call = Call { file: vec![9; file.len()], ..call };
    t.case(t.agree(&call).and_then(|(_, left)| law(left.file == file, "the file", &call)));
    let call = read(vec![], 4);
    t.case(t.agree(&call).and_then(|(answer, _)| law(answer[0] == 10, "refusal 10", &call)));
}

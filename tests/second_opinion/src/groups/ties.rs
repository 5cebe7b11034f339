//! Level ground, where the drive decides: plots as drawn by hand, by both rules. Each wrong
//! order of equal heights, in all uses or in one, is told by some of them.

use super::bodies::{drawn, Drawn};
use super::trials::{tried, Tried};
use crate::call::{Call, Kind};
use crate::sheet::sheet_of;
use crate::surface::{Plot, Spacings, RULES, VIRTUAL_PIT};
use crate::tester::{law, Outcome, Tester};

/// A plot by one rule, its posts as far apart along a row as along a column. Rows of heights
/// stand in lines. Marks, next down and next up are maps: a sign for each post, rows parted by
/// blanks; an arrow shows which neighbour is next, a point the post itself. Rings have a word
/// of codes for each post. A name that is alone in dales or hills is every post's; V is the
/// virtual pit.
struct Stated {
    heights: &'static str,
    rule: u8,
    counts: [u32; 3],
    marks: &'static str,
    down: &'static str,
    up: &'static str,
    dales: &'static str,
    hills: &'static str,
    lines: &'static [Line],
    rings: &'static str,
}

/// Kind, saddle, run and the entries.
type Line = (Kind, u32, u32, &'static str);

/// Driven 0 1 3 2: post 2 is the peak.
const FLAT_2_BY_2: &str = "
    0 0
    0 0";

/// Driven 0 1 2 5 4 3.
const FLAT_2_BY_3: &str = "
    0 0 0
    0 0 0";

/// Driven 0 1 3 2 4 5.
const FLAT_3_BY_2: &str = "
    0 0
    0 0
    0 0";

/// Driven 0 1 2 5 4 3 6 7 8. With ties by post number it has the same counts, marks, dales and
/// hills: rings and next up tell, and by rule 2 next down.
const FLAT_3_BY_3: &str = "
    0 0 0
    0 0 0
    0 0 0";

/// Four level rows among slopes, open to the east in row 1, where water runs east and out. By
/// rule 1 it gets there by the post of the row before that is driven first: to the north-east
/// from the even rows 2 and 4, to the north-west from row 3.
const BAY: &str = "
    20 21 22 23 24
    36  5  5  5  3
    35  5  5  5 25
    34  5  5  5 26
    33  5  5  5 27
    32 31 30 29 28";

/// Level channels along odd rows, in which water runs east: posts 8 and 18 are pits. Post 12 is
/// a saddle between them, its lower runs having two level posts each by rule 1, of which the
/// nearer is the steeper.
const ODD_CHANNELS: &str = "
    20 21 22 23 24
    35  5  5  5 25
    34  7  6  8 26
    33  5  5  5 27
    32 31 30 29 28";

/// A level channel along an even row: water runs west, to post 11.
const EVEN_CHANNEL: &str = "
    14 13 12 11 10
    26 27 28 29 30
    25  5  5  5 31
    24 23 22 21 20";

/// The odd channels upside down: crests rise to the west, to posts 6 and 16. The upper runs of
/// post 12 have two level posts each by rule 2, of which the nearer is the steeper.
const ODD_CRESTS: &str = "
    20 19 18 17 16
     5 35 35 35 15
     6 33 34 32 14
     7 35 35 35 13
     8  9 10 11 12";

/// The even channel upside down: the crest rises to the east, to post 13.
const EVEN_CREST: &str = "
    26 27 28 29 30
    14 13 12 11 10
    15 35 35 35  9
    16 17 18 19 20";

/// Post 12 is a saddle that is level with the channel north of it: of the level posts 7 and 8
/// in its run by rule 1 the one that is driven first is taken, though the other is nearer.
const LEVEL_SADDLE: &str = "
    20 21 22 23 24
    35  5  5  5 25
    34  9  5  8 26
    33  4  3  4 27
    32 31 30 29 28";

/// The same upside down: of the level posts 16 and 17 in the run of post 12 by rule 2 the one
/// that is driven last.
const LEVEL_CREST: &str = "
    20 19 18 17 16
     5 31 32 31 15
     6 26 30 27 14
     7 30 30 30 13
     8  9 10 11 12";

/// Posts 7 and 22 stand between two pits that are as far and as low: the one that is driven
/// first is taken, in the odd row the eastern and in the even row the western.
const BETWEEN_PITS: &str = "
    20 21 22 23 24
    37  5  9  5 25
    36 40 41 42 26
    35 43 44 45 27
    34  5  9  5 28
    33 32 31 30 29";

/// The same upside down: the peak that is driven last.
const BETWEEN_PEAKS: &str = "
    25 24 23 22 21
     8 40 36 40 20
     9  5  4  3 19
    10  2  1  0 18
    11 40 36 40 17
    12 13 14 15 16";

const STATED: [Stated; 22] = [
    Stated {
        heights: FLAT_2_BY_2,
        rule: 1,
        counts: [1, 1, 0],
        marks: "00 10",
        down: "VV VV",
        up: "↓↓ .←",
        dales: "V",
        hills: "2",
        lines: &[],
        rings: "3222 324
                443 4324",
    },
    Stated {
        heights: FLAT_2_BY_2,
        rule: 2,
        counts: [1, 1, 0],
        marks: "00 10",
        down: "VV VV",
        up: "↓↙ .←",
        dales: "V",
        hills: "2",
        lines: &[],
        rings: "322 3224
                4443 432",
    },
    Stated {
        heights: FLAT_2_BY_3,
        rule: 1,
        counts: [1, 1, 0],
        marks: "000 100",
        down: "VVV VVV",
        up: "↓↓↓ .←←",
        dales: "V",
        hills: "3",
        lines: &[],
        rings: "3222 32224 324
                443 44324 4324",
    },
    Stated {
        heights: FLAT_2_BY_3,
        rule: 2,
        counts: [1, 1, 0],
        marks: "000 100",
        down: "VVV VVV",
        up: "↓↙↙ .←←",
        dales: "V",
        hills: "3",
        lines: &[],
        rings: "322 32224 3224
                4443 44432 432",
    },
    Stated {
        heights: FLAT_3_BY_2,
        rule: 1,
        counts: [1, 1, 0],
        marks: "00 00 01",
        down: "VV VV VV",
        up: "↓↓ ↓↓ →.",
        dales: "V",
        hills: "5",
        lines: &[],
        rings: "3222 324
                4423 432224
                4423 434",
    },
    Stated {
        heights: FLAT_3_BY_2,
        rule: 2,
        counts: [1, 1, 0],
        marks: "00 00 01",
        down: "VV VV VV",
        up: "↓↙ ↘↓ →.",
        dales: "V",
        hills: "5",
        lines: &[],
        rings: "322 3224
                444223 4322
                423 4344",
    },
    Stated {
        heights: FLAT_3_BY_3,
        rule: 1,
        counts: [1, 1, 0],
        marks: "000 000 001",
        down: "VVV V↖V VVV",
        up: "↓↓↓ ↓↓↓ →→.",
        dales: "V",
        hills: "8",
        lines: &[],
        rings: "3222 32224 324
                4423 442224 432224
                4423 44234 434",
    },
    Stated {
        heights: FLAT_3_BY_3,
        rule: 2,
        counts: [1, 1, 0],
        marks: "000 000 001",
        down: "VVV V↑V VVV",
        up: "↓↙↙ ↘↘↓ →→.",
        dales: "V",
        hills: "8",
        lines: &[],
        rings: "322 32224 3224
                444223 444222 4322
                423 42344 4344",
    },
    Stated {
        heights: BAY,
        rule: 1,
        counts: [2, 1, 1],
        marks: "30001 10000 00000 00000 00000 00000",
        down: "VVVVV V→→→V V↗↗↗V V↑↖↖V V↗↗↑V VVVVV",
        up: "↓→→→. .←↑↑↓ ↑←↓→↓ ↑←↓→↓ ↑←↓↓↓ ↑←←←←",
        dales: "V",
        hills: "5 4 4 4 4
                5 5 4 4 5
                5 5 5 5 5
                5 5 5 5 5
                5 5 5 5 5
                5 5 5 5 5",
        lines: &[
            (Kind::Thalweg, 0, 0, "0 V"),
            (Kind::Thalweg, 0, 1, "0 6 7 8 9 V"),
            (Kind::Ridge, 0, 0, "0 1 2 3 4"),
            (Kind::Ridge, 0, 1, "0 5"),
        ],
        rings: "3131 31333 31333 31333 333
                3333 142111 142221 132221 131111
                13333 4422211 442224 431124 3313
                13333 44211 442224 4112224 33133
                13333 4421111 442114 41114 33133
                1333 3331 33313 33313 3313",
    },
    Stated {
        heights: BAY,
        rule: 2,
        counts: [2, 1, 1],
        marks: "03001 10000 00000 00000 00000 00000",
        down: "VVVVV V→→→V V↑↑↑V V↑↑↑V V↑↑↑V VVVVV",
        up: "↓↙→→. .←↑↑↓ ↑←↙→↓ ↑←↘→↓ ↑←↓↓↙ ↑↖←←←",
        dales: "V",
        hills: "5 5 4 4 4
                5 5 4 4 5
                5 5 5 5 5
                5 5 5 5 5
                5 5 5 5 5
                5 5 5 5 5",
        lines: &[
            (Kind::Thalweg, 1, 0, "1 6 7 8 9 V"),
            (Kind::Thalweg, 1, 1, "1 V"),
            (Kind::Ridge, 1, 0, "1 2 3 4"),
            (Kind::Ridge, 1, 1, "1 5"),
        ],
        rings: "311 31313 31333 31333 3333
                333333 114221 114222 113122 1311
                13333 42211 422244 4112244 33133
                13333 4442211 444222 41122 33133
                13333 42111 421144 411144 331133
                133 333311 33331 33331 331",
    },
    Stated {
        heights: ODD_CHANNELS,
        rule: 1,
        counts: [1, 3, 2],
        marks: "30000 10020 00300 00020 00000",
        down: "VVVVV V→→.V V↑↑↑V V→→.V VVVVV",
        up: "↓→→→↓ .←↑→↓ ↑←→→↓ ↑←↓↓↓ ↑←←←←",
        dales: "V  V  V  V V
                V  8  8  8 V
                V  8  8  8 V
                V 18 18 18 V
                V  V  V  V V",
        hills: "5",
        lines: &[
            (Kind::Thalweg, 0, 0, "0 V"),
            (Kind::Thalweg, 0, 1, "0 6 7 8"),
            (Kind::Thalweg, 12, 0, "12 7 8"),
            (Kind::Thalweg, 12, 1, "12 17 18"),
            (Kind::Ridge, 12, 1, "12 11 10 5"),
        ],
        rings: "3131 31333 31333 3133 3133
                3333 141111 141121 11111121 3313
                133333 333331 331331 3133 331333
                1333 141111 141121 11111121 3313
                1333 33331 33331 3331 3313",
    },
    Stated {
        heights: ODD_CHANNELS,
        rule: 2,
        counts: [1, 3, 2],
        marks: "03000 10020 00300 00020 00000",
        down: "VVVVV V→→.V V↑↑↑V V→→.V VVVVV",
        up: "↓↙→↘↓ .←↑→↓ ↑←→→↓ ↑←↓↓↙ ↑↖←←←",
        dales: "V  V  V  V V
                V  8  8  8 V
                V  8  8  8 V
                V 18 18 18 V
                V  V  V  V V",
        hills: "5",
        lines: &[
            (Kind::Thalweg, 1, 0, "1 6 7 8"),
            (Kind::Thalweg, 1, 1, "1 V"),
            (Kind::Thalweg, 12, 0, "12 7 8"),
            (Kind::Thalweg, 12, 1, "12 17 18"),
            (Kind::Ridge, 12, 1, "12 11 10 5"),
        ],
        rings: "311 31313 31333 311333 313
                333333 11411 1141112 11112 33133
                13333 3333311 3131 3113333 33133
                13333 14111 1141121 11112 331133
                133 333311 33331 33331 331",
    },
    Stated {
        heights: EVEN_CHANNEL,
        rule: 1,
        counts: [1, 2, 1],
        marks: "00000 00000 02001 00003",
        down: "VVVVV V↓↓↓V V.←←V VVVVV",
        up: "↓↓↓↓↓ →→→→↓ ↑↑↑→. ↑←←←↑",
        dales: "V  V  V  V V
                V 11 11 11 V
                V 11 11 11 V
                V  V  V  V V",
        hills: "14",
        lines: &[
            (Kind::Thalweg, 19, 0, "19 V"),
            (Kind::Thalweg, 19, 1, "19 13 12 11"),
            (Kind::Ridge, 19, 0, "19 14"),
        ],
        rings: "331 33111 33111 33111 3111
                331333 33133 331333 331333 33133
                1333 11211111 112114 111114 3333
                1333 3331 33313 33313 1313",
    },
    Stated {
        heights: EVEN_CHANNEL,
        rule: 2,
        counts: [1, 2, 1],
        marks: "00000 00000 02001 00030",
        down: "VVVVV V↓↓↓V V.←←V VVVVV",
        up: "↓↓↓↓↓ →→→↘↓ ↗↑↑→. ↑↖←↗↑",
        dales: "V  V  V  V V
                V 11 11 11 V
                V 11 11 11 V
                V  V  V  V V",
        hills: "14",
        lines: &[
            (Kind::Thalweg, 18, 0, "18 13 12 11"),
            (Kind::Thalweg, 18, 1, "18 V"),
            (Kind::Ridge, 18, 0, "18 14"),
        ],
        rings: "3311 33111 33111 33111 311
                3133 313333 313333 3113333 33133
                113333 11211 112114 11114 333333
                133 333311 33331 31331 131",
    },
    Stated {
        heights: ODD_CRESTS,
        rule: 1,
        counts: [3, 1, 2],
        marks: "13000 01000 00300 01000 00000",
        down: "VVVVV V←↑→V V←→→V V←↓↓V VVVVV",
        up: ".↓↓↓← →.←←← →↓↓↓← →.←←← →↑↑↑↑",
        dales: "V",
        hills: "0 6 6 6 6
                6 6 6 6 6
                16 16 16 16 16
                16 16 16 16 16
                16 16 16 16 16",
        lines: &[
            (Kind::Ridge, 1, 0, "1 6"),
            (Kind::Ridge, 1, 1, "1 0"),
            (Kind::Ridge, 12, 0, "12 7 6"),
            (Kind::Ridge, 12, 1, "12 17 16"),
            (Kind::Thalweg, 12, 0, "12 13 14 V"),
        ],
        rings: "333 33131 33111 333111 331
                111113 33433 3343332 33332 13311
                31113 1111133 1313 1331111 13311
                31113 34333 3343323 33332 133311
                313 111333 11133 11133 133",
    },
    Stated {
        heights: ODD_CRESTS,
        rule: 2,
        counts: [2, 1, 1],
        marks: "00000 01000 00300 01000 00000",
        down: "VVVVV V←↑→V V←→→V V←↓↓V VVVVV",
        up: "↘↓↓↓↙ →.←←← →↓↓↓← →.←←← ↗↑↑↑↖",
        dales: "V",
        hills: "6 6 6 6 6
                6 6 6 6 6
                16 16 16 16 16
                16 16 16 16 16
                16 16 16 16 16",
        lines: &[
            (Kind::Ridge, 12, 0, "12 17 16"),
            (Kind::Ridge, 12, 1, "12 7 6"),
            (Kind::Thalweg, 12, 0, "12 13 14 V"),
            (Kind::Thalweg, 12, 1, "12 11 10 V"),
        ],
        rings: "3313 3311 33111 33111 3311
                1113 33433333 334332 333332 1331
                311113 1113 131131 131111 133111
                3113 33433333 334332 333332 1331
                3113 1133 11331 11331 1331",
    },
    Stated {
        heights: EVEN_CREST,
        rule: 1,
        counts: [3, 1, 2],
        marks: "00001 30000 00010 00031",
        down: "VVVVV V→→↘V V↑↑→V VVVVV",
        up: "→→→→. ↑↓↓↓↑ →→→.← →↑↑↑.",
        dales: "V",
        hills: "4 4 4 4 4
                4 13 13 13 4
                13 13 13 13 13
                13 13 13 13 19",
        lines: &[
            (Kind::Ridge, 5, 0, "5 0 1 2 3 4"),
            (Kind::Ridge, 5, 1, "5 10 11 12 13"),
            (Kind::Ridge, 18, 0, "18 13"),
            (Kind::Thalweg, 5, 0, "5 6 7 8 14 V"),
        ],
        rings: "3133 31333 31333 31333 333
                1313 131111 131111 1331111 13311
                331113 33233 332334 33334 131111
                313 111333 11133 13133 333",
    },
    Stated {
        heights: EVEN_CREST,
        rule: 2,
        counts: [2, 1, 1],
        marks: "00001 30000 00010 00000",
        down: "VVVVV V→→→V V↑↑→V VVVVV",
        up: "→→→→. ↘↓↓↓↑ →→→.← ↗↑↑↑↖",
        dales: "V",
        hills: "4 4 4 4 4
                13 13 13 13 4
                13 13 13 13 13
                13 13 13 13 13",
        lines: &[
            (Kind::Ridge, 5, 0, "5 0 1 2 3 4"),
            (Kind::Ridge, 5, 1, "5 11 12 13"),
            (Kind::Thalweg, 5, 1, "5 V"),
        ],
        rings: "313 31333 31333 31333 3333
                113113 113111 113111 11311 13311
                3113 323333 323343 33333343 1311
                3113 11133 11133 1133 3331",
    },
    Stated {
        heights: LEVEL_SADDLE,
        rule: 1,
        counts: [1, 3, 2],
        marks: "30000 10020 00300 00200 00000",
        down: "VVVVV V→→.V V↓↓↓V V→.←V VVVVV",
        up: "↓→→→↓ .←↑→↓ ↑←←→↓ ↑←↓↓↓ ↑←←←←",
        dales: "V  V  V  V  V
                 V  8  8  8  V
                 V 17 17 17  V
                 V 17 17 17  V
                 V  V  V  V  V",
        hills: "5",
        lines: &[
            (Kind::Thalweg, 12, 0, "12 8"),
            (Kind::Thalweg, 12, 1, "12 17"),
            (Kind::Ridge, 12, 1, "12 11 10 5"),
        ],
        rings: "3131 31333 31333 3133 3133
                3333 141111 142121 11111221 3313
                133333 333331 44131 31333 331333
                1333 131111 11111111 111113 3313
                1333 33331 3331 33313 3313",
    },
    Stated {
        heights: LEVEL_CREST,
        rule: 2,
        counts: [2, 1, 1],
        marks: "00000 00100 00300 01000 00000",
        down: "VVVVV V←↑→V V←←→V V←↓↓V VVVVV",
        up: "↘↓↓↓↙ →→.←← →↑↑↑← →.←←← ↗↑↑↑↖",
        dales: "V",
        hills: "7  7  7  7  7
                 7  7  7  7  7
                 7  7  7  7  7
                16 16 16 16 16
                16 16 16 16 16",
        lines: &[
            (Kind::Ridge, 12, 0, "12 7"),
            (Kind::Ridge, 12, 1, "12 16"),
            (Kind::Thalweg, 12, 1, "12 11 10 V"),
        ],
        rings: "3313 33111 3311 33111 3311
                1113 313333 33333333 333331 1331
                311113 11113 13223 131111 133111
                3113 34433333 434332 333332 1331
                3113 1133 11331 11331 1331",
    },
    Stated {
        heights: BETWEEN_PITS,
        rule: 1,
        counts: [2, 5, 5],
        marks: "30000 12320 30000 00013 02320 00000",
        down: "VVVVV V.→.V V↑↑↑V V↓↓↓V V.←.V VVVVV",
        up: "↓→→→↓ .↓↓↓↓ →↓↓↓← →→→.← ↑↑↑↑↓ ↑←←←←",
        dales: "V  V  V  V V
                V  6  8  8 V
                V  6  8  8 V
                V 21 21 23 V
                V 21 21 23 V
                V  V  V  V V",
        hills: " 5 18 18 18 18
                 5 18 18 18 18
                18 18 18 18 18
                18 18 18 18 18
                18 18 18 18 18
                18 18 18 18 18",
        lines: &[],
        rings: "3131 3133 313333 3133 3133
                3333 11111111 1313 11111111 3313
                13133 311133 3311133 3313 331113
                111333 3133 3133333 333333 33131
                1333 11111111 1313 11111111 3313
                1333 3331 333313 3331 3313",
    },
    Stated {
        heights: BETWEEN_PEAKS,
        rule: 2,
        counts: [4, 2, 4],
        marks: "00000 01310 30000 00023 01310 00000",
        down: "VVVVV V↓↓↓V V↓↓↓V V→→.V V↑↑↑V VVVVV",
        up: "↘↓↓↓↙ →.←.← ↗↑↑↑↖ ↘↓↓↓↙ →.→.← ↗↑↑↑↖",
        dales: "V  V  V  V V
                V 18 18 18 V
                V 18 18 18 V
                V 18 18 18 V
                V 18 18 18 V
                V  V  V  V V",
        hills: " 6  6  6  8  8
                 6  6  6  8  8
                 6  6  6  8  8
                21 21 23 23 23
                21 21 23 23 23
                21 21 23 23 23",
        lines: &[],
        rings: "3313 3311 331111 3311 3311
                1113 33333333 3131 33333333 1331
                31313 133311 1133311 1131 133331
                333113 1311 1311111 111111 13313
                3113 33333333 3131 33333333 1331
                3113 1133 111331 1133 1331",
    },
];

/// Of two passes of one height through a ridge in the shape of a ring the one that is driven first
/// joins what is inside to what is outside; then that is one body, and the other pass joins
/// high ground. In an even row the western pass is driven first.
const EVEN_PASSES: Drawn = Drawn {
    heights: "
        0 1 2 1 0
        1 9 9 9 1
        2 5 3 5 2
        1 9 9 9 1
        0 1 2 1 0",
    by_rule: [
        ["00000 00000 01000 00000 00000", "00000 00000 00010 00000 00000"],
        ["00000 00000 01000 00000 00000", "00000 00000 00010 00000 00000"],
    ],
};

/// In an odd row the eastern one.
const ODD_PASSES: Drawn = Drawn {
    heights: "
        0 1 2 1 0
        1 2 3 2 1
        1 9 9 9 1
        2 6 4 6 2
        1 9 9 9 1
        0 1 2 1 0",
    by_rule: [
        ["00000 00000 00000 00010 00000 00000", "00000 00000 00000 01000 00000 00000"],
        ["00000 00000 00000 00010 00000 00000", "00000 00000 00000 01000 00000 00000"],
    ],
};

/// Of passes in two rows the northern one, whatever their columns.
const NORTH_BEFORE_WEST: Drawn = Drawn {
    heights: "
        0 1 2 1 0
        1 9 5 9 1
        2 5 3 8 2
        1 9 8 9 1
        0 1 2 1 0",
    by_rule: [
        ["00000 00100 00000 00000 00000", "00000 00000 01010 00100 00000"],
        ["00000 00100 00000 00000 00000", "00000 00000 01010 00100 00000"],
    ],
};

const EAST_BEFORE_SOUTH: Drawn = Drawn {
    heights: "
        0 1 2 1 0
        1 9 8 9 1
        2 8 3 5 2
        1 9 5 9 1
        0 1 2 1 0",
    by_rule: [
        ["00000 00000 00010 00000 00000", "00000 00100 01000 00100 00000"],
        ["00000 00000 00010 00000 00000", "00000 00100 01000 00100 00000"],
    ],
};

/// Two hollows in a rim of one height: each is joined to what is outside where the rim is driven
/// first beside it.
const LEVEL_RIM: Drawn = Drawn {
    heights: "
        4 4 4 4 4
        4 1 4 1 4
        4 4 4 4 4",
    by_rule: [
        ["10100 00000 00000", "00000 00000 00000"],
        ["01010 00000 00000", "00000 00000 00000"],
    ],
};

/// Two tops on level ground, which joins them where it is driven last beside them.
const LEVEL_TOPS: Drawn = Drawn {
    heights: "
        1 1 1 1 1
        1 1 1 1 1
        1 4 1 4 1
        1 1 1 1 1",
    by_rule: [
        ["00000 00000 00000 00000", "00000 00000 00000 01010"],
        ["00000 00000 00000 00000", "00000 00000 00000 00100"],
    ],
};

/// Driven 0 1 2 5 4 3: what is driven last ends beside the one top, and not as another.
const LEVEL_END: Drawn = Drawn {
    heights: "
        1 0 0
        0 0 0",
    by_rule: [["000 000", "000 000"], ["000 000", "000 000"]],
};

/// Driven 0 1 2 5 4 3 6 7 8: post 3 joins the tops to what is driven after it.
const LEVEL_TURN: Drawn = Drawn {
    heights: "
        1 1 0
        0 0 0
        0 0 0",
    by_rule: [["000 000 000", "000 100 000"], ["000 000 000", "000 100 000"]],
};

const BODIES: [Drawn; 8] = [
    EVEN_PASSES,
    ODD_PASSES,
    NORTH_BEFORE_WEST,
    EAST_BEFORE_SOUTH,
    LEVEL_RIM,
    LEVEL_TOPS,
    LEVEL_END,
    LEVEL_TURN,
];

/// A level hook, driven 0 1 2 5: its one peak is post 5, and the level ground in it has a pit at
/// post 4, since posts 3 and 6 to 8 are driven later. A post that is put up beside post 7 is
/// a peak of its own.
const HOOK: &str = "
    1 1 1
    0 0 1
    0 0 0";

/// The same hook, and a top in the bottom row, which is driven 11 10 9: post 9 is a peak too, until
/// it is put lower.
const HOOK_AND_TOP: &str = "
    1 1 1
    0 0 1
    0 0 0
    0 0 1";

const TRIALS: [Tried; 3] = [
    Tried { heights: HOOK, post: 6, height: 1, by_rule: [[1, 2, 1, 2, 2, 2]; 2] },
    Tried { heights: HOOK, post: 7, height: -1, by_rule: [[1, 2, 1, 2, 1, 1]; 2] },
    Tried { heights: HOOK_AND_TOP, post: 9, height: -1, by_rule: [[3, 2, 3, 2, 2, 2]; 2] },
];

pub fn ties(t: &mut Tester) {
    t.group("ties as driven");
    for stated in &STATED {
        t.case(whole(stated));
        survey(t, stated);
        reshoots(t, stated);
        rings(t, stated);
        next_posts(t, stated);
        lines(t, stated);
        parting(t, stated);
    }
    drawn(t, &BODIES);
    tried(t, &TRIALS);
}

impl Stated {
    fn call(&self, kind: Kind) -> Call {
        let heights: Vec<i32> =
            self.heights.split_whitespace().map(|height| height.parse().unwrap()).collect();
        let rows = self.heights.lines().filter(|line| !line.is_empty()).count();
        let (sheet, columns) = (sheet_of(&[(1, &[self.rule])]), (heights.len() / rows) as u32);
        let mut call = Call { kind, sheet, rows: rows as u32, columns, heights, ..Call::default() };
        if kind.takes_spacings() {
            call.spacings = Spacings::of(100, 100);
        }
        call
    }

    fn marks(&self) -> Vec<u8> {
        signs(self.marks).map(|sign| sign as u8 - b'0').collect()
    }
}

/// A map's signs in post order.
fn signs(map: &str) -> impl Iterator<Item = char> + '_ {
    map.chars().filter(|sign| !sign.is_whitespace())
}

/// Posts written as numbers, or as V.
fn vertices(list: &str) -> Vec<u16> {
    let vertex = |word: &str| match word {
        "V" => VIRTUAL_PIT as u16,
        post => post.parse().unwrap(),
    };
    list.split_whitespace().map(vertex).collect()
}

/// Every post is spoken of.
fn whole(stated: &Stated) -> Outcome {
    let call = stated.call(Kind::Survey);
    let maps = [stated.marks, stated.down, stated.up].map(|map| signs(map).count());
    let all = [&maps[..], &[stated.rings.split_whitespace().count()]].concat();
    law(all.iter().all(|&count| count == call.heights.len()), "a sign for each post", &call)
}

fn survey(t: &mut Tester, stated: &Stated) {
    let call = stated.call(Kind::Survey);
    let call = Call { marks: vec![9; call.heights.len()], ..call };
    t.case(t.agree(&call).and_then(|(answer, left)| {
        law(answer[2..] == stated.counts, "the counts", &call)?;
        law(left.marks == stated.marks(), "the marks", &call)
    }));
}

/// From a plot that differs in one post, surveyed, to this one.
fn reshoots(t: &mut Tester, stated: &Stated) {
    let call = stated.call(Kind::Reshoot);
    for post in 0..call.heights.len() {
        let mut heights = call.heights.clone();
        heights[post] += 1;
        let before = Plot {
            rule: RULES[stated.rule as usize - 1],
            rows: call.rows as usize,
            columns: call.columns as usize,
            heights: &heights,
        };
        let marks = before.marks();
        let height = call.heights[post];
        let call = Call { heights, marks, post: post as u32, height, ..call.clone() };
        t.case(t.agree(&call).and_then(|(_, left)| {
            law(left.marks == stated.marks(), "the marks after a re-shoot", &call)
        }));
    }
}

fn rings(t: &mut Tester, stated: &Stated) {
    for (post, word) in stated.rings.split_whitespace().enumerate() {
        let call = Call { post: post as u32, ring: vec![9; 8], ..stated.call(Kind::Ring) };
        let mut codes: Vec<u8> = word.bytes().map(|digit| digit - b'0').collect();
        codes.resize(8, 0);
        t.case(t.agree(&call).and_then(|(answer, left)| {
            law(left.ring == codes, "the codes", &call)?;
            law(answer[3] == stated.marks()[post] as u32, "the mark", &call)
        }));
    }
}

fn next_posts(t: &mut Tester, stated: &Stated) {
    for (kind, map) in [(Kind::NextDown, stated.down), (Kind::NextUp, stated.up)] {
        for (post, sign) in signs(map).enumerate() {
            let call = Call { post: post as u32, ..stated.call(kind) };
            let next = shown(sign, post, call.columns as usize);
            t.case(
                t.agree(&call).and_then(|(answer, _)| {
                    law(answer[2] as usize == next, "the next post", &call)
                }),
            );
        }
    }
}

/// The vertex that a sign of a map shows.
fn shown(sign: char, post: usize, columns: usize) -> usize {
    match sign {
        'V' => VIRTUAL_PIT,
        '.' => post,
        '↑' => post - columns,
        '↗' => post - columns + 1,
        '→' => post + 1,
        '↘' => post + columns + 1,
        '↓' => post + columns,
        '↙' => post + columns - 1,
        '←' => post - 1,
        '↖' => post - columns - 1,
        _ => panic!("no such sign: {sign}"),
    }
}

fn lines(t: &mut Tester, stated: &Stated) {
    for &(kind, post, run, entries) in stated.lines {
        let line = vertices(entries);
        let call = Call { post, run, line: vec![9; line.len()], ..stated.call(kind) };
        t.case(t.agree(&call).and_then(|(answer, left)| {
            law(answer == [0, 0, line.len() as u32], "the entries", &call)?;
            law(left.line == line, "the line", &call)
        }));
    }
}

fn parting(t: &mut Tester, stated: &Stated) {
    let call = stated.call(Kind::DalesAndHills);
    let posts = call.heights.len();
    let call = Call { dales: vec![9; posts], hills: vec![9; posts], ..call };
    t.case(t.agree(&call).and_then(|(_, left)| {
        law(named(&left.dales, stated.dales), "the dales", &call)?;
        law(named(&left.hills, stated.hills), "the hills", &call)
    }));
}

/// Are these the names, one for each post or one for all?
fn named(list: &[u16], names: &str) -> bool {
    match vertices(names)[..] {
        [name] => list.iter().all(|&entry| entry == name),
        ref names => list == names,
    }
}

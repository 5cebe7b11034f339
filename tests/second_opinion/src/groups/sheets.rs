//! Settings sheets.

use super::good;
use super::refusals::spoil;
use crate::call::{Call, Kind, KINDS};
use crate::plots::{any_plot, Chance};
use crate::samples::{any_entries, spoil_frame, BAD_ENDS, BAD_ENTRIES, BAD_HEADERS, FIT};
use crate::sheet::{around, meaning, sheet_of, Entry, DEFAULT_RULE};
use crate::surface::{Plot, RULES};
use crate::tester::{law, Outcome, Tester};

pub fn all(t: &mut Tester, chance: &mut Chance, times: usize) {
    told_apart(t);
    one_outcome(t, chance, 200 * times);
    by_hand(t, chance);
    every_sheet(t, chance);
    other_headers(t, chance);
    every_value(t, chance);
    every_kind(t, chance);
    every_name_byte(t, chance);
    every_damage(t, chance);
    long_sheets(t, chance);
    by_chance(t, chance, 3000 * times);
}

/// The settings of a sheet, into a list of any content.
pub fn settings(sheet: Vec<u8>, chance: &mut Chance) -> Call {
    Call { kind: Kind::Settings, sheet, name: chance.bytes(32), ..Call::default() }
}

/// A call that tells one rule from the other.
fn on_star(kind: Kind, sheet: &[u8], chance: &mut Chance) -> Call {
    let heights = &[0, 2, 0, 2, 1, 2, 0, 2, 0];
    let star = Plot { rule: DEFAULT_RULE, rows: 3, columns: 3, heights };
    let mut call = Call { sheet: sheet.to_vec(), ..good(kind, &star, chance) };
    match kind {
        Kind::Survey | Kind::DalesAndHills | Kind::JoinsAndSplits => {}
        Kind::Reshoot | Kind::Trial => (call.post, call.height) = (4, 1),
        Kind::NextUp => call.post = 1,
        _ => call.post = 4,
    }
    call
}

/// The kinds that need diagonals.
fn kinds() -> Vec<Kind> {
    KINDS.into_iter().filter(|kind| kind.needs_diagonals()).collect()
}

/// What Settings answers. Calls of these kinds refuse the sheet likewise, or go by it.
fn tried(
    t: &Tester,
    sheet: &[u8],
    kinds: &[Kind],
    chance: &mut Chance,
) -> Result<Vec<u32>, String> {
    let call = settings(sheet.to_vec(), chance);
    let (answer, left) = t.agree(&call)?;
    let name = &left.name[..answer[3] as usize];
    law(answer[0] != 0 || sheet.ends_with(name), "a name stands at the sheet's end", &call)?;
    for &kind in kinds {
        let call = on_star(kind, sheet, chance);
        let (other, _) = t.agree(&call)?;
        let code = if other[0] < 13 { 0 } else { other[0] };
        law(code == answer[0], "every call judges a sheet alike", &call)?;
    }
    Ok(answer)
}

/// The code that Settings answers with, and a call of one kind by chance.
fn code(t: &Tester, sheet: &[u8], chance: &mut Chance) -> Result<u32, String> {
    let kind = chance.of(&kinds());
    Ok(tried(t, sheet, &[kind], chance)?[0])
}

/// One case: the sheet is answered with this code.
fn expect(t: &mut Tester, expected: u32, sheet: &[u8], chance: &mut Chance) {
    t.case(code(t, sheet, chance).and_then(|got| answered(got == expected, expected, sheet)));
}

fn answered(holds: bool, expected: u32, sheet: &[u8]) -> Outcome {
    let call = Call { kind: Kind::Settings, sheet: sheet.to_vec(), ..Call::default() };
    law(holds, &format!("code {expected}"), &call)
}

/// The rules differ on the star in every call, so that none can go by the wrong one.
fn told_apart(t: &mut Tester) {
    t.group("sheets: the rules told apart by every call");
    for kind in kinds() {
        let call = on_star(kind, &[], &mut Chance(1));
        let [one, other] = RULES.map(|rule| outcome(t, &call, &sheet_of(&[(1, &[rule as u8])])));
        t.case(one.and_then(|one| law(one != other?, "the outcomes differ", &call)));
    }
}

/// A call has one outcome by all sheets that mean one rule, also where it is refused for
/// something else: no sheet, one that names no rule, and one that names the default.
fn one_outcome(t: &mut Tester, chance: &mut Chance, times: usize) {
    t.group("sheets: one meaning, one outcome");
    for i in 0..times {
        let (rows, columns, heights) = any_plot(i, 8, chance);
        for (kind, rule) in kinds().into_iter().flat_map(|kind| RULES.map(|rule| (kind, rule))) {
            let plot = Plot { rule, rows, columns, heights: &heights };
            let mut call = good(kind, &plot, chance);
            if chance.one_in(3) {
                let row = chance.of(&[1, 2, 4]);
                spoil(&mut call, row, chance);
            }
            t.case(outcome(t, &call, &call.sheet).and_then(|one| {
                meaning(rule).iter().try_for_each(|sheet| {
                    law(outcome(t, &call, sheet)? == one, "one meaning, one outcome", &call)
                })
            }));
        }
    }
}

/// The answer and the lists afterwards by this sheet, the sheet left out.
fn outcome(t: &Tester, call: &Call, sheet: &[u8]) -> Result<(Vec<u32>, Call), String> {
    let (answer, left) = t.agree(&Call { sheet: sheet.to_vec(), ..call.clone() })?;
    Ok((answer, Call { sheet: vec![], ..left }))
}

/// Sheets by hand, by every call, and by Settings into lists of other lengths too.
fn by_hand(t: &mut Tester, chance: &mut Chance) {
    t.group("sheets: by hand, at the bounds");
    let mut all = vec![(0, vec![])];
    all.extend(FIT.map(|(_, _, entries)| (0, sheet_of(entries))));
    all.extend(BAD_HEADERS.map(|sheet| (13, sheet.to_vec())));
    all.extend(BAD_ENDS.map(|body| (13, around(body))));
    all.extend(BAD_ENTRIES.map(|entries| (14, sheet_of(entries))));
    for (code, sheet) in all {
        let outcome = tried(t, &sheet, &kinds(), chance);
        t.case(outcome.and_then(|answer| answered(answer[..2] == [code, 0], code, &sheet)));
        for room in [0, 1, 31, 33, 64] {
            let call = Call { name: chance.bytes(room), ..settings(sheet.clone(), chance) };
            t.case(t.agree(&call).and_then(|(answer, _)| {
                law(answer == [code.max(3), 0, 0, 0], "13 and 14 go before 3", &call)
            }));
        }
    }
    for (rule, name, entries) in FIT {
        let call = settings(sheet_of(entries), chance);
        t.case(t.agree(&call).and_then(|(answer, left)| {
            let wanted = [0, 0, rule as u32, name.len() as u32];
            law(answer == wanted, "the rule and the name's length", &call)?;
            law(left.name == [name, &[0; 32][name.len()..]].concat(), "the name", &call)
        }));
    }
}

/// Every list of these bytes up to a length.
fn lists(bytes: &[u8], most: usize) -> Vec<Vec<u8>> {
    let mut all = vec![vec![]];
    let mut longest = 0;
    for _ in 0..most {
        let before = longest..all.len();
        longest = all.len();
        for i in before {
            all.extend(
                bytes.iter().map(|&byte| [&all[i][..], &[byte]].concat()).collect::<Vec<_>>(),
            );
        }
    }
    all
}

/// All sheets of few bytes, and all with their count right and few bytes after it.
fn every_sheet(t: &mut Tester, chance: &mut Chance) {
    t.group("sheets: all of up to 8 bytes 0 to 3");
    // None, one without entries, and each rule.
    accepted(t, lists(&[0, 1, 2, 3], 8), 4, chance);
    t.group("sheets: all entries of up to 7 bytes 0, 1, 2, 3 and 32");
    // None, each rule, names of 1 to 3 bytes, and each rule with names of 1 and 2.
    let sheets = lists(&[0, 1, 2, 3, 32], 7).iter().map(|body| around(body)).collect();
    accepted(t, sheets, 1 + 2 + 3 + 2 * 2, chance);
}

/// Of these sheets exactly so many are accepted.
fn accepted(t: &mut Tester, sheets: Vec<Vec<u8>>, fit: usize, chance: &mut Chance) {
    let mut accepted = 0;
    for sheet in sheets {
        let outcome = code(t, &sheet, chance);
        accepted += (outcome == Ok(0)) as usize;
        t.case(outcome.map(drop));
    }
    let why = format!("{accepted} sheets are accepted, should be {fit}");
    t.case(if accepted == fit { Ok(()) } else { Err(why) });
}

fn other_headers(t: &mut Tester, chance: &mut Chance) {
    t.group("sheets: all entries of up to 4 bytes, another count or version");
    for body in lists(&[0, 1, 2, 3, 32], 4) {
        let n = body.len() as u32;
        for count in [n + 1, n.wrapping_sub(1), n + 5, n + 256, n << 24 | 1 << 31, u32::MAX] {
            let sheet = [&[1], &count.to_be_bytes()[..], &body].concat();
            expect(t, 13, &sheet, chance);
        }
        for version in [0, 2, 255] {
            let sheet = [&[version], &around(&body)[1..]].concat();
            expect(t, 13, &sheet, chance);
        }
    }
}

fn fit_or_14(fit: bool) -> u32 {
    if fit {
        0
    } else {
        14
    }
}

/// Every value and length of a rule, every length of a name, and every length stated for
/// ten bytes: after fewer than these comes no whole entry.
fn every_value(t: &mut Tester, chance: &mut Chance) {
    t.group("sheets: every value and length");
    for byte in 0..=255u8 {
        let n = byte as usize;
        let named = fit_or_14((1..=32).contains(&n));
        expect(t, fit_or_14(n == 1 || n == 2), &sheet_of(&[(1, &[byte])]), chance);
        expect(t, fit_or_14(n == 1), &sheet_of(&[(1, &vec![1; n])]), chance);
        expect(t, named, &sheet_of(&[(2, &vec![b'a'; n])]), chance);
        expect(t, named, &sheet_of(&[(1, &[1]), (2, &vec![b'~'; n])]), chance);
        let ten = around(&[&[2, byte], &[b'a'; 10][..]].concat());
        expect(t, if n == 10 { 0 } else { 13 }, &ten, chance);
    }
}

/// Every kind, alone, after a rule, and after a rule and a name.
fn every_kind(t: &mut Tester, chance: &mut Chance) {
    t.group("sheets: every kind");
    for kind in 0..=255 {
        for value in [&[][..], &[1], &[2, 2], b"a", &[b'a'; 33]] {
            let (rule, name) = (kind == 1 && value == [1], kind == 2 && value == b"a");
            expect(t, fit_or_14(rule || name), &sheet_of(&[(kind, value)]), chance);
            expect(t, fit_or_14(name), &sheet_of(&[(1, &[1]), (kind, value)]), chance);
            expect(t, 14, &sheet_of(&[(1, &[2]), (2, b"a"), (kind, value)]), chance);
        }
    }
}

/// Every byte at the front, in the middle and at the end of names.
fn every_name_byte(t: &mut Tester, chance: &mut Chance) {
    t.group("sheets: every byte in a name");
    for length in [1, 2, 3, 16, 31, 32] {
        for place in [0, length / 2, length - 1] {
            for byte in 0..=255 {
                let mut name = vec![b'x'; length];
                name[place] = byte;
                let sheet = sheet_of(&[(1, &[1]), (2, &name)]);
                expect(t, fit_or_14((32..=126).contains(&byte)), &sheet, chance);
            }
        }
    }
}

fn every_damage(t: &mut Tester, chance: &mut Chance) {
    t.group("sheets: each byte damaged, each prefix, one byte more");
    for (_, _, entries) in FIT {
        let whole = sheet_of(entries);
        for at in 0..whole.len() {
            for change in 1..=255 {
                let mut sheet = whole.clone();
                sheet[at] ^= change;
                let outcome = code(t, &sheet, chance);
                t.case(outcome.and_then(|code| answered(at >= 5 || code == 13, 13, &sheet)));
            }
        }
        for length in 0..=whole.len() + 1 {
            let mut sheet = whole.clone();
            sheet.resize(length, 0);
            let good = length == 0 || length == whole.len();
            expect(t, if good { 0 } else { 13 }, &sheet, chance);
            // The same with its count right.
            let body = sheet.get(5..).unwrap_or(&[]);
            t.case(code(t, &around(body), chance).map(drop));
        }
    }
}

/// Whole entries of unknown kinds, hundreds of bytes of them and more than 16 bits count.
fn long_sheets(t: &mut Tester, chance: &mut Chance) {
    t.group("sheets: long ones");
    for (count, length) in [(3, 200), (100, 3), (253, 0), (253, 1), (60, 255), (300, 255)] {
        let value = vec![b'a'; length];
        let unknown: Vec<Entry> = (0..count).map(|i| ((3 + i % 253) as u8, &value[..])).collect();
        for front in [&[][..], &[(1, &[2][..])], &[(1, &[3])], &[(1, &[2]), (2, b"a")]] {
            let sheet = sheet_of(&[front, &unknown].concat());
            let body = &sheet[5..];
            for (code, sheet) in [
                (14, sheet.clone()),
                (13, [&sheet[..], &[0]].concat()),
                (13, around(&body[..body.len() - 1])),
                (13, around(&[body, &[1]].concat())),
            ] {
                let outcome = tried(t, &sheet, &kinds(), chance);
                t.case(outcome.and_then(|answer| answered(answer[0] == code, code, &sheet)));
            }
        }
    }
}

/// Whole sheets, fit or not, and the same no longer whole.
fn by_chance(t: &mut Tester, chance: &mut Chance, times: usize) {
    t.group("sheets: by chance");
    for _ in 0..times {
        let mut sheet = any_entries(chance);
        let outcome = code(t, &sheet, chance);
        t.case(outcome.and_then(|code| answered(code == 0 || code == 14, 14, &sheet)));
        spoil_frame(&mut sheet, chance);
        expect(t, 13, &sheet, chance);
    }
}

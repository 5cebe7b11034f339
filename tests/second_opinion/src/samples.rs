//! Sheets to try: fit ones and refused ones by hand, and others by chance.

use crate::plots::Chance;
use crate::sheet::{sheet_of, Entry, DEFAULT_RULE};
use crate::surface::Rule;

/// A rule, a name, and the entries that say so.
pub const FIT: [(Rule, &[u8], &[Entry]); 9] = [
    (DEFAULT_RULE, b"", &[]),
    (DEFAULT_RULE, b" ", &[(2, b" ")]),
    (DEFAULT_RULE, b"~~", &[(2, b"~~")]),
    (DEFAULT_RULE, &[b'a'; 32], &[(2, &[b'a'; 32])]),
    (Rule::Lowest, b"", &[(1, &[1])]),
    (Rule::Highest, b"", &[(1, &[2])]),
    (Rule::Lowest, b"Lower field 7", &[(1, &[1]), (2, b"Lower field 7")]),
    (Rule::Highest, b"a", &[(1, &[2]), (2, b"a")]),
    (Rule::Lowest, &[b' '; 32], &[(1, &[1]), (2, &[b' '; 32])]),
];

/// Entries of which one has an unknown kind, a kind not above the one before, or a length
/// or value outside its range.
pub const BAD_ENTRIES: [&[Entry]; 34] = [
    &[(1, &[])],
    &[(1, &[0])],
    &[(1, &[3])],
    &[(1, &[255])],
    &[(1, &[1, 1])],
    &[(1, &[2, 0])],
    &[(1, &[0, 1])],
    &[(2, &[])],
    &[(2, &[b'a'; 33])],
    &[(2, &[b'a'; 255])],
    &[(2, &[31])],
    &[(2, &[127])],
    &[(2, &[128])],
    &[(2, b"\0ab")],
    &[(2, b"a\x7fb")],
    &[(2, b"ab\xff")],
    &[(0, &[])],
    &[(0, &[1])],
    &[(3, &[])],
    &[(3, &[1])],
    &[(255, b"abc")],
    &[(255, &[9; 255])],
    &[(1, &[1]), (1, &[1])],
    &[(1, &[1]), (1, &[2])],
    &[(2, b"a"), (2, b"a")],
    &[(2, b"a"), (1, &[1])],
    &[(1, &[2]), (0, &[])],
    &[(0, &[]), (1, &[2])],
    &[(1, &[0]), (2, b"a")],
    &[(1, &[2]), (2, &[])],
    &[(1, &[2]), (3, b"a")],
    &[(1, &[2]), (2, b"a"), (3, &[])],
    &[(1, &[2]), (2, b"a"), (2, b"a")],
    &[(1, &[2]), (2, b"a"), (1, &[2])],
];

/// Sheets that are too short, of another version, or with another count than their bytes.
pub const BAD_HEADERS: [&[u8]; 30] = [
    &[1],
    &[0],
    &[255],
    &[1, 0],
    &[1, 0, 0],
    &[2, 0, 0],
    &[1, 0, 0, 0],
    &[0, 0, 0, 0],
    &[1, 1, 1, 1],
    &[0, 0, 0, 0, 0],
    &[2, 0, 0, 0, 0],
    &[255, 0, 0, 0, 0],
    &[0, 0, 0, 0, 3, 1, 1, 1],
    &[2, 0, 0, 0, 3, 1, 1, 1],
    &[1, 0, 0, 0, 1],
    &[1, 0, 0, 0, 5],
    &[1, 255, 255, 255, 255],
    &[1, 0, 0, 0, 0, 0],
    &[1, 0, 0, 0, 0, 1, 1, 1],
    &[1, 0, 0, 0, 2, 1, 1, 1],
    &[1, 0, 0, 0, 4, 1, 1, 1],
    &[1, 0, 0, 0, 8, 1, 1, 1],
    &[1, 0, 0, 1, 3, 1, 1, 1],
    &[1, 0, 1, 0, 3, 1, 1, 1],
    &[1, 128, 0, 0, 3, 1, 1, 1],
    &[1, 3, 0, 0, 0, 1, 1, 1],
    &[1, 255, 255, 255, 255, 1, 1, 1],
    &[1, 0, 0, 0, 3, 1, 1, 1, 0],
    &[1, 0, 0, 0, 3, 1, 1, 1, 2, 1, b'a'],
    &[1, 0, 0, 0, 2, 3, 0, 0],
];

/// What follows a right count and does not end where an entry ends: a kind alone, a length
/// beyond the end, and these after entries that may not be there.
pub const BAD_ENDS: [&[u8]; 24] = [
    &[0],
    &[1],
    &[2],
    &[3],
    &[1, 1, 1, 2],
    &[1, 1, 2, 1],
    &[1, 1],
    &[1, 255],
    &[2, 1],
    &[3, 1],
    &[0, 255],
    &[1, 2, 1],
    &[2, 2, b'a'],
    &[2, 255, b'a'],
    &[1, 1, 1, 2, 1],
    &[1, 1, 2, 2, 3, b'a', b'b'],
    &[1, 1, 2, 2, 255, b'a', b'b'],
    &[1, 1, 3, 2, 1],
    &[1, 1, 0, 2],
    &[1, 0, 2],
    &[2, 1, 127, 3, 2, 1],
    &[2, 1, b'a', 1, 1],
    &[1, 1, 1, 1, 1, 1, 1],
    &[3, 0, 255, 1],
];

/// A sheet that means the rule, by chance.
pub fn any_meaning(rule: Rule, chance: &mut Chance) -> Vec<u8> {
    let name: Vec<u8> = (0..chance.within(1, 32)).map(|_| chance.within(32, 126) as u8).collect();
    let value = [rule as u8];
    let mut entries: Vec<Entry> = vec![];
    if rule != DEFAULT_RULE || chance.one_in(2) {
        entries.push((1, &value));
    }
    if chance.one_in(2) {
        entries.push((2, &name));
    }
    if entries.is_empty() && chance.one_in(2) {
        return vec![];
    }
    sheet_of(&entries)
}

/// A whole sheet with entries of any kind, length and value, the kinds sorted or not.
pub fn any_entries(chance: &mut Chance) -> Vec<u8> {
    let mut entries = Vec::new();
    for _ in 0..chance.below(4) {
        let length = chance.of(&[0, 1, 1, 1, 2, 31, 32, 33, 255]);
        let (low, high) = chance.of(&[(0, 3), (32, 126), (30, 128)]);
        let value: Vec<u8> = (0..length).map(|_| chance.within(low, high) as u8).collect();
        entries.push((chance.of(&[0, 1, 1, 2, 2, 3, 255]), value));
    }
    if chance.one_in(2) {
        entries.sort();
    }
    sheet_of(&entries.iter().map(|(kind, value)| (*kind, &value[..])).collect::<Vec<Entry>>())
}

/// Makes a sheet not whole, its entries fit or not.
pub fn spoil_frame(sheet: &mut Vec<u8>, chance: &mut Chance) {
    if sheet.is_empty() {
        *sheet = sheet_of(&[]);
    }
    let mut count = sheet.len() as u32 - 5;
    match chance.below(9) {
        0 => return sheet.truncate(1 + chance.below(4)),
        1 => sheet[0] = chance.of(&[0, 2, 3, 128, 255]),
        2 => count += 1,
        3 => count = count.wrapping_sub(1),
        4 => count = u32::MAX,
        5 => count ^= 1 << chance.within(8, 31),
        6 => sheet.push(0),
        7 => {
            // A kind alone.
            sheet.push(chance.of(&[0, 1, 2, 3, 255]));
            count += 1;
        }
        _ => {
            // An entry without its value.
            sheet.extend([chance.of(&[0, 1, 2, 3, 255]), chance.of(&[1, 2, 32, 255])]);
            count += 2;
        }
    }
    sheet[1..5].copy_from_slice(&count.to_be_bytes());
}

//! The settings sheet of docs/SPECIFICATION.md: its entries, then what they say.

use crate::opinion::Refusal;
use crate::surface::Rule;

/// What holds where no entry names a rule, and where there is no sheet.
pub const DEFAULT_RULE: Rule = Rule::Highest;

const RULE: u8 = 1;
const NAME: u8 = 2;

/// Kind and value. The length is the value's.
pub type Entry<'a> = (u8, &'a [u8]);

pub struct Settings {
    pub rule: Rule,
    pub name: Vec<u8>,
}

/// What a sheet says; a list without bytes is no sheet.
pub fn read(sheet: &[u8]) -> Result<Settings, Refusal> {
    let entries = if sheet.is_empty() { vec![] } else { entries(sheet).ok_or((13, 0))? };
    settings(&entries).ok_or((14, 0))
}

/// The entries, if the sheet is whole.
fn entries(sheet: &[u8]) -> Option<Vec<Entry<'_>>> {
    let (&version, after) = sheet.split_first()?;
    let (count, mut rest) = after.split_first_chunk()?;
    if version != 1 || u32::from_be_bytes(*count) as usize != rest.len() {
        return None;
    }
    let mut entries = Vec::new();
    while let Some((&kind, after)) = rest.split_first() {
        let (&length, after) = after.split_first()?;
        let (value, after) = after.split_at_checked(length as usize)?;
        entries.push((kind, value));
        rest = after;
    }
    Some(entries)
}

/// What the entries say, if each may be there.
fn settings(entries: &[Entry]) -> Option<Settings> {
    if entries.windows(2).any(|pair| pair[0].0 >= pair[1].0) {
        return None;
    }
    let mut settings = Settings { rule: DEFAULT_RULE, name: vec![] };
    for &(kind, value) in entries {
        match (kind, value) {
            (RULE, [1]) => settings.rule = Rule::Lowest,
            (RULE, [2]) => settings.rule = Rule::Highest,
            (NAME, name) if is_name(name) => settings.name = name.to_vec(),
            _ => return None,
        }
    }
    Some(settings)
}

fn is_name(bytes: &[u8]) -> bool {
    (1..=32).contains(&bytes.len()) && bytes.iter().all(|byte| (32..=126).contains(byte))
}

/// The sheet of these entries, fit or not.
pub fn sheet_of(entries: &[Entry]) -> Vec<u8> {
    let mut body = Vec::new();
    for (kind, value) in entries {
        body.extend([*kind, value.len() as u8]);
        body.extend(*value);
    }
    around(&body)
}

/// The sheet with these bytes after its count.
pub fn around(body: &[u8]) -> Vec<u8> {
    let count = (body.len() as u32).to_be_bytes();
    [&[1], &count[..], body].concat()
}

/// Sheets that mean a rule: one that names it and, of the default, no sheet and one with a
/// name alone.
pub fn meaning(rule: Rule) -> &'static [&'static [u8]] {
    const NAME_ALONE: &[u8] = &[1, 0, 0, 0, 3, 2, 1, b'a'];
    const LOWEST: [&[u8]; 3] = [&[1, 0, 0, 0, 3, 1, 1, 1], &[], NAME_ALONE];
    const HIGHEST: [&[u8]; 3] = [&[1, 0, 0, 0, 3, 1, 1, 2], &[], NAME_ALONE];
    let all = match rule {
        Rule::Lowest => &LOWEST,
        Rule::Highest => &HIGHEST,
    };
    if rule == DEFAULT_RULE {
        all
    } else {
        &all[..1]
    }
}

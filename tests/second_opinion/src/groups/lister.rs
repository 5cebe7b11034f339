//! The lister's text beside the second opinion's.

use super::files::any_file;
use crate::listing::{listing, said, Said, PLOT_SET};
use crate::opinion::{file_1_of, file_of};
use crate::plots::{ground, in_tenths, Chance, GROUNDS, UNEVEN};
use crate::samples::{any_meaning, BAD_ENDS, BAD_ENTRIES, BAD_HEADERS, FIT};
use crate::sheet::{around, sheet_of};
use crate::surface::{Spacings, RULES};
use crate::tester::{Outcome, Tester};
use std::os::unix::fs::symlink;
use std::path::{Path, PathBuf};
use std::{env, fmt, fs, io, process};

/// What lies in the lister's folder under the name of the settings.
enum Settings {
    Missing,
    File(Vec<u8>),
    /// It opens, and cannot be read.
    Folder,
    /// To itself: it cannot be opened.
    Link,
}

impl fmt::Display for Settings {
    fn fmt(&self, f: &mut fmt::Formatter) -> fmt::Result {
        match self {
            Settings::Missing => write!(f, "no settings"),
            Settings::File(bytes) => write!(f, "settings {:?}", &bytes[..bytes.len().min(64)]),
            Settings::Folder => write!(f, "a folder for settings"),
            Settings::Link => write!(f, "a link for settings"),
        }
    }
}

/// A folder of the test's own, gone after it.
struct Folder(PathBuf);

impl Folder {
    fn with(settings: &Settings) -> io::Result<Folder> {
        let folder = Folder(env::temp_dir().join(format!("second_opinion.{}", process::id())));
        // What a run that was killed may have left.
        let _ = fs::remove_dir_all(&folder.0);
        fs::create_dir(&folder.0)?;
        let file = folder.0.join(PLOT_SET);
        match settings {
            Settings::Missing => {}
            Settings::File(bytes) => fs::write(file, bytes)?,
            Settings::Folder => fs::create_dir(file)?,
            Settings::Link => symlink(PLOT_SET, file)?,
        }
        Ok(folder)
    }
}

impl Drop for Folder {
    fn drop(&mut self) {
        let _ = fs::remove_dir_all(&self.0);
    }
}

/// What the lister must say.
fn expected(settings: &Settings, input: &[u8]) -> Said {
    let printed = match settings {
        Settings::Missing => listing(&[], input),
        Settings::File(bytes) => listing(bytes, input),
        Settings::Folder | Settings::Link => {
            let told = "lister: plot.set cannot be read\n".to_string();
            return Said { printed: String::new(), told };
        }
    };
    Said { printed, told: String::new() }
}

fn agree(lister: &Path, name: &str, settings: &Settings, input: &[u8]) -> Outcome {
    let folder = Folder::with(settings).map_err(|e| format!("no folder for the lister: {e}"))?;
    let (got, expected) = (said(lister, &folder.0, input)?, expected(settings, input));
    if got == expected {
        return Ok(());
    }
    let lines = got.printed.lines().zip(expected.printed.lines());
    let line = lines.take_while(|(g, e)| g == e).count();
    let at = |text: &str| text.lines().nth(line).map(str::to_string);
    let told = got.told;
    let (got, expected) = (at(&got.printed), at(&expected.printed));
    Err(format!(
        "{name}: line {} is {got:?}, should be {expected:?}; told {told:?}; {settings}",
        line + 1
    ))
}

/// A file of such ground, of either version, one of these tenths added to each height.
fn file(kind: &str, rows: usize, columns: usize, added: &[i32], chance: &mut Chance) -> Vec<u8> {
    let heights = ground(kind, rows, columns, chance);
    any_file(rows as u8, columns as u8, &in_tenths(&heights, added, chance), chance)
}

/// No settings, or some that mean one of the rules.
fn any_settings(chance: &mut Chance) -> Settings {
    match chance.below(4) {
        0 => Settings::Missing,
        _ => Settings::File(any_meaning(chance.of(&RULES), chance)),
    }
}

pub fn lister(t: &mut Tester, lister: &str, chance: &mut Chance, times: usize) {
    let lister = &fs::canonicalize(lister).expect("--lister takes a program");
    whole_files(t, lister, chance, times);
    damaged_files(t, lister, chance, times);
    settings(t, lister, chance);
}

fn whole_files(t: &mut Tester, lister: &Path, chance: &mut Chance, times: usize) {
    for (name, added, most) in
        [("listings", &[0][..], 120), ("listings with tenths added", &UNEVEN, 50)]
    {
        t.group(name);
        for kind in GROUNDS {
            let mut sizes = vec![(2, 2), (most, most), (2, 120), (120, 2)];
            sizes.extend((0..20 * times).map(|_| (2 + chance.below(20), 2 + chance.below(20))));
            for (rows, columns) in sizes {
                let name = format!("{kind} {rows} by {columns}");
                let input = file(kind, rows, columns, added, chance);
                t.case(agree(lister, &name, &any_settings(chance), &input));
            }
        }
    }
}

fn damaged_files(t: &mut Tester, lister: &Path, chance: &mut Chance, times: usize) {
    t.group("listings of damaged files");
    let tenths = in_tenths(&ground("few heights", 4, 5, chance), &UNEVEN, chance);
    let files = [file_1_of(4, 5, &tenths), file_of(4, 5, Spacings::of(3, 4), &tenths)];
    for good in &files {
        for length in 0..=good.len() {
            t.case(agree(lister, "cut short", &any_settings(chance), &good[..length]));
        }
    }
    for i in 0..200 * times {
        let mut bad = files[i % 2].clone();
        for _ in 0..1 + chance.below(2) {
            let at = chance.below(bad.len());
            bad[at] = chance.next() as u8;
        }
        t.case(agree(lister, "changed bytes", &any_settings(chance), &bad));
    }
    // The largest files, and longer ones: all that is read is too long.
    let flat = [0; 14_400];
    for large in [file_1_of(120, 120, &flat), file_of(120, 120, Spacings::of(1, 1000), &flat)] {
        for more in [0, 1, 2, 4, 5, 6, 100_000] {
            let long = [&large[..], &chance.bytes(more)].concat();
            t.case(agree(lister, "too long", &any_settings(chance), &long));
        }
    }
}

/// Settings of every sort, with files that are listed and files that are refused.
fn settings(t: &mut Tester, lister: &Path, chance: &mut Chance) {
    t.group("listings by settings");
    let star = file_of(3, 3, Spacings::of(100, 100), &[0, 20, 0, 20, 10, 20, 0, 20, 0]);
    let mut out_of_range = star.clone();
    out_of_range[11] = 127;
    let mut spacing = star.clone();
    spacing[7] = 127;
    let large = file("few heights", 120, 120, &[0], chance);
    let inputs = [
        &star[..],
        &[],
        &star[..20],
        &[3; 7],
        &[2; 7],
        &[1, 0, 0, 0, 0, 1, 1],
        &spacing,
        &out_of_range,
        &large,
    ];
    let mut all: Vec<Vec<u8>> = FIT.iter().map(|fit| sheet_of(fit.2)).collect();
    all.extend(BAD_HEADERS.map(<[u8]>::to_vec));
    all.extend(BAD_ENDS.map(around));
    all.extend(BAD_ENTRIES.map(sheet_of));
    all.extend(long_settings(chance));
    all.push(vec![]);
    let files = all.into_iter().map(Settings::File);
    for settings in files.chain([Settings::Missing, Settings::Folder, Settings::Link]) {
        for input in inputs {
            t.case(agree(lister, "settings", &settings, input));
        }
    }
}

/// The longest settings that are accepted, and longer ones, of which the first 43 bytes are
/// judged: these may be a whole sheet, the name too long, whatever follows.
fn long_settings(chance: &mut Chance) -> Vec<Vec<u8>> {
    let longest = sheet_of(&[(1, &[1]), (2, &[b'a'; 32])]);
    let of_43 = sheet_of(&[(1, &[2]), (2, &[b'a'; 33])]);
    let of_44 = sheet_of(&[(1, &[2]), (2, &[b'a'; 32]), (3, &[])]);
    let mut all = vec![longest.clone(), of_43.clone(), of_44];
    for more in [1, 2, 1000, 100_000] {
        all.push([&longest[..], &chance.bytes(more)].concat());
        all.push([&of_43[..], &chance.bytes(more)].concat());
    }
    all
}

//! What the lister must print, and the lister itself, run on a file.

use crate::opinion::read_survey;
use crate::sheet;
use crate::surface::{counts, Plot, Spacings, Way, VIRTUAL_PIT};
use std::fmt::Write as _;
use std::fs::File;
use std::io::{self, ErrorKind, Read as _, Write as _};
use std::path::Path;
use std::process::{Command, Stdio};

/// The lister reads no more of its input than this, nor of the settings.
const INPUT: usize = 57_612;
const SETTINGS: usize = 43;

/// The file of the settings, in the folder where the lister runs.
pub const PLOT_SET: &str = "plot.set";

/// The settings where this runs: none if there is no such file.
pub fn plot_set() -> io::Result<Vec<u8>> {
    let mut settings = Vec::new();
    match File::open(PLOT_SET) {
        Err(error) if error.kind() == ErrorKind::NotFound => Ok(0),
        file => file?.take(SETTINGS as u64).read_to_end(&mut settings),
    }?;
    Ok(settings)
}

/// The listing of a file, by the settings.
pub fn listing(settings: &[u8], input: &[u8]) -> String {
    let rule = match sheet::read(&settings[..settings.len().min(SETTINGS)]) {
        Ok(settings) => settings.rule,
        Err((code, place)) => return format!("E {code} {place}\n"),
    };
    let file = &input[..input.len().min(INPUT)];
    let (rows, columns) = match file {
        [_, _, _, _, _, rows, columns, ..] => (*rows as usize, *columns as usize),
        _ => (0, 0),
    };
    let mut heights = vec![0; rows * columns];
    let [code, place, _, _, along_row, along_column] = read_survey(file, &mut heights);
    if code != 0 {
        return format!("E {code} {place}\n");
    }
    let spacings = Spacings { along_row, along_column };
    let plot = Plot { rule, rows, columns, heights: &heights };
    let [peaks, pits, saddles] = counts(&plot.marks());
    let mut text = format!("N {rows} {columns} {peaks} {pits} {saddles}\n");
    for saddle in (0..plot.posts()).filter(|&p| plot.is_saddle(p)) {
        for (letter, way) in [('T', Way::Down), ('R', Way::Up)] {
            for (number, run) in plot.runs(saddle, way).iter().enumerate() {
                // The lister takes its ends from dales and hills; here each line is walked.
                let line = plot.line(saddle, way, run, spacings);
                let end = match line[line.len() - 1] {
                    VIRTUAL_PIT => "V".to_string(),
                    post => post.to_string(),
                };
                writeln!(text, "{letter} {saddle} {number} {end}").unwrap();
            }
        }
    }
    text
}

/// What a program says on standard output and on standard error.
#[derive(PartialEq)]
pub struct Said {
    pub printed: String,
    pub told: String,
}

/// What it says for this input in a folder; where it tells nothing, it must have ended well.
pub fn said(lister: &Path, folder: &Path, input: &[u8]) -> Result<Said, String> {
    let name = lister.display();
    let mut child = Command::new(lister)
        .current_dir(folder)
        .stdin(Stdio::piped())
        .stdout(Stdio::piped())
        .stderr(Stdio::piped())
        .spawn()
        .map_err(|e| format!("{name}: {e}"))?;
    let mut stdin = child.stdin.take().unwrap();
    let output = std::thread::scope(|scope| {
        // The lister may stop reading early; that is no failure.
        scope.spawn(move || {
            let _ = stdin.write_all(input);
        });
        child.wait_with_output()
    });
    let output = output.map_err(|e| format!("{name}: {e}"))?;
    let told = String::from_utf8_lossy(&output.stderr).into_owned();
    if told.is_empty() && !output.status.success() {
        return Err(format!("{name} ended with {}", output.status));
    }
    let printed = String::from_utf8(output.stdout).map_err(|e| e.to_string())?;
    Ok(Said { printed, told })
}

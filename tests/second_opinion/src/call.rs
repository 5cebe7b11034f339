//! One call with all its arguments, and the lists as lent or as left.

use crate::opinion::{self, Given};
use crate::sheet;
use crate::surface::{Rule, Spacings, Way};
use std::fmt;

#[derive(Clone, Copy, PartialEq, Eq, Debug, Default)]
pub enum Kind {
    Settings,
    #[default]
    Survey,
    Reshoot,
    Trial,
    Ring,
    NextDown,
    NextUp,
    Thalweg,
    Ridge,
    DalesAndHills,
    JoinsAndSplits,
    ReadSurvey,
    WriteSurvey,
}

pub const KINDS: [Kind; 13] = [
    Kind::Settings,
    Kind::Survey,
    Kind::Reshoot,
    Kind::Trial,
    Kind::Ring,
    Kind::NextDown,
    Kind::NextUp,
    Kind::Thalweg,
    Kind::Ridge,
    Kind::DalesAndHills,
    Kind::JoinsAndSplits,
    Kind::ReadSurvey,
    Kind::WriteSurvey,
];

impl Kind {
    pub fn needs_diagonals(self) -> bool {
        !matches!(self, Kind::Settings | Kind::ReadSurvey | Kind::WriteSurvey)
    }

    pub fn takes_sheet(self) -> bool {
        self == Kind::Settings || self.needs_diagonals()
    }

    pub fn takes_spacings(self) -> bool {
        matches!(
            self,
            Kind::NextDown
                | Kind::NextUp
                | Kind::Thalweg
                | Kind::Ridge
                | Kind::DalesAndHills
                | Kind::WriteSurvey
        )
    }
}

/// Arguments that a kind has no use for stay empty or 0.
#[derive(Clone, PartialEq, Default)]
pub struct Call {
    pub kind: Kind,
    pub sheet: Vec<u8>,
    pub name: Vec<u8>,
    pub rows: u32,
    pub columns: u32,
    pub spacings: Spacings,
    pub heights: Vec<i32>,
    pub marks: Vec<u8>,
    pub post: u32,
    pub height: i32,
    pub ring: Vec<u8>,
    pub run: u32,
    pub line: Vec<u16>,
    pub dales: Vec<u16>,
    pub hills: Vec<u16>,
    pub joins: Vec<u8>,
    pub splits: Vec<u8>,
    pub file: Vec<u8>,
}

impl Call {
    /// The answer by docs/SPECIFICATION.md; the lists become what the call must leave.
    pub fn by_opinion(&mut self) -> Vec<u32> {
        let Call { kind, rows, columns, spacings, post, height, run, .. } = *self;
        let Call { sheet, name, heights, marks, ring, line, file, .. } = self;
        let Call { dales, hills, joins, splits, .. } = self;
        let given = Given { sheet, rows, columns, heights };
        match kind {
            Kind::Settings => opinion::settings(sheet, name).to_vec(),
            Kind::Survey => opinion::survey(given, marks).to_vec(),
            Kind::Reshoot => {
                opinion::reshoot(sheet, rows, columns, heights, marks, post, height).to_vec()
            }
            Kind::Trial => opinion::trial(given, post, height).to_vec(),
            Kind::Ring => opinion::ring(given, post, ring).to_vec(),
            Kind::NextDown => opinion::next(Way::Down, given, spacings, post).to_vec(),
            Kind::NextUp => opinion::next(Way::Up, given, spacings, post).to_vec(),
            Kind::Thalweg => opinion::line(Way::Down, given, spacings, post, run, line).to_vec(),
            Kind::Ridge => opinion::line(Way::Up, given, spacings, post, run, line).to_vec(),
            Kind::DalesAndHills => opinion::dales_and_hills(given, spacings, dales, hills).to_vec(),
            Kind::JoinsAndSplits => opinion::joins_and_splits(given, joins, splits).to_vec(),
            Kind::ReadSurvey => opinion::read_survey(file, heights).to_vec(),
            Kind::WriteSurvey => {
                opinion::write_survey(rows, columns, spacings, heights, file).to_vec()
            }
        }
    }

    /// Is a list lent that has no entries?
    pub fn lends_empty(&self) -> bool {
        self.kind.takes_sheet() && self.sheet.is_empty()
            || self.kind != Kind::Settings && self.heights.is_empty()
            || match self.kind {
                Kind::Settings => self.name.is_empty(),
                Kind::Survey | Kind::Reshoot => self.marks.is_empty(),
                Kind::Ring => self.ring.is_empty(),
                Kind::Trial | Kind::NextDown | Kind::NextUp => false,
                Kind::Thalweg | Kind::Ridge => self.line.is_empty(),
                Kind::DalesAndHills => self.dales.is_empty() || self.hills.is_empty(),
                Kind::JoinsAndSplits => self.joins.is_empty() || self.splits.is_empty(),
                Kind::ReadSurvey | Kind::WriteSurvey => self.file.is_empty(),
            }
    }

    /// The rule that the call goes by, if it needs one and its sheet is accepted.
    pub fn rule(&self) -> Option<Rule> {
        let read = self.kind.needs_diagonals().then(|| sheet::read(&self.sheet));
        Some(read?.ok()?.rule)
    }

    /// The lists that differ from another call's, each with its first difference.
    pub fn differences(&self, other: &Call) -> String {
        fn first<T: PartialEq + fmt::Debug>(name: &str, a: &[T], b: &[T]) -> String {
            match (0..a.len()).find(|&i| a[i] != b[i]) {
                None => String::new(),
                Some(i) => format!("\n  {name}[{i}] is {:?}, should be {:?}", a[i], b[i]),
            }
        }
        first("sheet", &self.sheet, &other.sheet)
            + &first("name", &self.name, &other.name)
            + &first("heights", &self.heights, &other.heights)
            + &first("marks", &self.marks, &other.marks)
            + &first("ring", &self.ring, &other.ring)
            + &first("line", &self.line, &other.line)
            + &first("dales", &self.dales, &other.dales)
            + &first("hills", &self.hills, &other.hills)
            + &first("joins", &self.joins, &other.joins)
            + &first("splits", &self.splits, &other.splits)
            + &first("file", &self.file, &other.file)
    }
}

/// The arguments; a large plot, sheet or file is told by its beginning.
impl fmt::Display for Call {
    fn fmt(&self, f: &mut fmt::Formatter) -> fmt::Result {
        write!(
            f,
            "{:?}, rows {}, columns {}, along row {}, along column {}, post {}, height {}, run {}; \
             lengths: sheet {}, name {}, heights {}, marks {}, ring {}, line {}, dales {}, \
             hills {}, joins {}, splits {}, file {}",
            self.kind,
            self.rows,
            self.columns,
            self.spacings.along_row,
            self.spacings.along_column,
            self.post,
            self.height,
            self.run,
            self.sheet.len(),
            self.name.len(),
            self.heights.len(),
            self.marks.len(),
            self.ring.len(),
            self.line.len(),
            self.dales.len(),
            self.hills.len(),
            self.joins.len(),
            self.splits.len(),
            self.file.len()
        )?;
        let width = (self.columns as usize).clamp(1, 120);
        for row in self.heights.chunks(width).take(20) {
            write!(f, "\n   ")?;
            for height in &row[..row.len().min(20)] {
                write!(f, " {height}")?;
            }
        }
        for (name, bytes) in [("sheet", &self.sheet), ("file", &self.file)] {
            if !bytes.is_empty() {
                write!(f, "\n    {name} {:?}", &bytes[..bytes.len().min(64)])?;
            }
        }
        Ok(())
    }
}

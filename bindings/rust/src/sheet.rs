//! The monthly sheet: counts over a row of traces.
use crate::{face, Refusal};
use core::fmt;

const PLACES: usize = 2048;

/// How many files a [`Sheet`] counts at most.
pub const MOST_FILES: usize = 1000;

/// Room that every sheet's text has, for [`Sheet::text`].
pub const SHEET_TEXT: usize = 326_464;

/// A side of a search.
#[derive(Clone, Copy, Debug, PartialEq, Eq, Hash)]
pub enum Side {
    /// The search from z along dz.
    Dual,
    /// The search from s along ds.
    Primal,
}

/// The largest count of tests on a side, and the first record that has it.
#[derive(Clone, Copy, Debug, PartialEq, Eq, Hash)]
pub struct Most {
    /// The count.
    pub tests: u64,
    /// The number of its file, from 1.
    pub file: u64,
    /// The record's offset in it.
    pub at: u64,
}

/// Counts over a row of files, numbered from 1 as they are added: records, steps by binary exponent, and the largest count of tests, for
/// each side. It holds its rows itself, some 34 KB.
///
/// ```
/// # use spindle::{Cone, Recorder, Sheet, Side, SHEET_TEXT};
/// # let mut bytes = [0; 400];
/// # let mut recorder = Recorder::create(&mut bytes)?;
/// # let (mut dual, mut primal) = ([0.0; 3], [0.0; 3]);
/// # let (dz, ds, z, s) = ([0.5, -2.0, 0.25], [0.25, -4.0, 0.5], [-1.0, 0.5, 1.0], [-1.0, 0.5, 1.0]);
/// # let (_, found) = recorder.step_length(&Cone::exponential(), &dz, &ds, &z, &s, &mut dual, &mut primal, 1.0)?;
/// # let file = recorder.bytes();
/// let mut month = Sheet::new();
/// month.add(file)?;
/// month.add(&file[..file.len() - 1])?;                     // a broken one is skipped, and keeps its number
/// assert_eq!((month.files(), month.records(), month.skipped(2)), (2, 1, true));
/// assert_eq!(month.most(Side::Primal).map(|most| most.tests), Some(found.tests.into()));
///
/// let mut text = [0; SHEET_TEXT];
/// assert!(month.text(&mut text)?.starts_with("skipped file 2\ndual records 1\n"));
/// # Ok::<(), spindle::Refusal>(())
/// ```
#[derive(Clone)]
pub struct Sheet {
    totals: face::Totals,
    dual: [u64; PLACES],
    primal: [u64; PLACES],
    skipped: [u8; MOST_FILES],
}

impl Sheet {
    /// The sheet of no files.
    pub const fn new() -> Self {
        let none = face::Largest { size: 0, file: 0, at: 0 };
        let totals = face::Totals { code: 0, files: 0, records: 0, dual: none, primal: none };
        Sheet { totals, dual: [0; PLACES], primal: [0; PLACES], skipped: [0; MOST_FILES] }
    }

    /// Counts one file more, by its bytes. One that is no trace, or above 65,536 bytes, is skipped: it keeps its number, and nothing of it
    /// is counted.
    ///
    /// [`Refusal::NoRoom`] where 1,000 files are there already; then nothing changed.
    pub fn add(&mut self, file: &[u8]) -> Result<(), Refusal> {
        let totals = unsafe {
            face::spindle_sheet_add(
                self.totals,
                self.dual.as_mut_ptr(),
                PLACES,
                self.primal.as_mut_ptr(),
                PLACES,
                self.skipped.as_mut_ptr(),
                MOST_FILES,
                file.as_ptr(),
                file.len(),
            )
        };
        self.become_(totals)
    }

    /// Adds another sheet, whose files stand behind this one's: their numbers move up by this one's file count, and on a tie the earlier
    /// largest stays.
    ///
    /// [`Refusal::NoRoom`] where there would be more than 1,000 files; then nothing changed.
    pub fn join(&mut self, second: &Sheet) -> Result<(), Refusal> {
        let totals = unsafe {
            face::spindle_sheet_join(
                self.totals,
                self.dual.as_mut_ptr(),
                PLACES,
                self.primal.as_mut_ptr(),
                PLACES,
                self.skipped.as_mut_ptr(),
                MOST_FILES,
                second.totals,
                second.dual.as_ptr(),
                PLACES,
                second.primal.as_ptr(),
                PLACES,
                second.skipped.as_ptr(),
                MOST_FILES,
            )
        };
        self.become_(totals)
    }

    fn become_(&mut self, totals: face::Totals) -> Result<(), Refusal> {
        Refusal::check(totals.code)?;
        self.totals = totals;
        Ok(())
    }

    /// How many files were added, skipped ones too.
    pub fn files(&self) -> u32 {
        self.totals.files
    }

    /// How many records were counted.
    pub fn records(&self) -> u64 {
        self.totals.records
    }

    /// Whether the file of this number, from 1, was skipped.
    pub fn skipped(&self, file: u32) -> bool {
        file != 0 && self.skipped.get(file as usize - 1).is_some_and(|flag| *flag != 0)
    }

    fn row(&self, side: Side) -> &[u64; PLACES] {
        match side {
            Side::Dual => &self.dual,
            Side::Primal => &self.primal,
        }
    }

    /// How many steps of a side are zero.
    pub fn zero(&self, side: Side) -> u64 {
        self.row(side)[0]
    }

    /// How many steps of a side are subnormal.
    pub fn subnormal(&self, side: Side) -> u64 {
        self.row(side)[1]
    }

    /// How many steps of a side have this binary exponent; 0 for one that no normal number has.
    pub fn exponent(&self, side: Side, exponent: i32) -> u64 {
        match exponent {
            -1022..=1023 => self.row(side)[(exponent + 1024) as usize],
            _ => 0,
        }
    }

    /// The largest count of tests of a side, if there are records.
    pub fn most(&self, side: Side) -> Option<Most> {
        let largest = match side {
            Side::Dual => self.totals.dual,
            Side::Primal => self.totals.primal,
        };
        Some(Most { tests: largest.size.checked_sub(1)?, file: largest.file, at: largest.at })
    }

    /// The lines that the program `sheet` prints, at the front of `text`; behind them it is left alone.
    ///
    /// [`Refusal::NoRoom`] where `text` has fewer than [`SHEET_TEXT`] bytes.
    pub fn text<'b>(&self, text: &'b mut [u8]) -> Result<&'b str, Refusal> {
        let printed = unsafe {
            face::spindle_sheet_text(
                text.as_mut_ptr(),
                text.len(),
                self.totals,
                self.dual.as_ptr(),
                PLACES,
                self.primal.as_ptr(),
                PLACES,
                self.skipped.as_ptr(),
                MOST_FILES,
            )
        };
        Refusal::check(printed.code)?;
        let text: &'b [u8] = text;
        let lines = text.get(..printed.length as usize).unwrap_or(text);
        // ASCII, by the contract
        Ok(core::str::from_utf8(lines).unwrap_or_default())
    }
}

impl Default for Sheet {
    fn default() -> Self {
        Sheet::new()
    }
}

impl fmt::Debug for Sheet {
    fn fmt(&self, f: &mut fmt::Formatter<'_>) -> fmt::Result {
        f.debug_struct("Sheet")
            .field("files", &self.files())
            .field("records", &self.records())
            .field("dual", &self.most(Side::Dual))
            .field("primal", &self.most(Side::Primal))
            .finish_non_exhaustive()
    }
}

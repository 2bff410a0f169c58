//! A table of lines that grows behind those of a valid sheet.

use reference::builder::SheetBuilder;
use reference::generate::random::Random;
use reference::layout::ENOUGH_DISTANCES;
use reference::sheet::{check, Extent};

/// Lower and upper.
pub type Bounds = (u32, u32);

/// A sheet whose lines are being added; every line's extent is kept, so that
/// operands and bounds of time can be chosen that leave a sample.
pub struct Table {
    sheet: SheetBuilder,
    samples: usize,
    extents: Vec<Extent>,
}

impl Table {
    /// The table of a valid sheet, to be continued.
    ///
    /// # Panics
    ///
    /// If the sheet is not valid.
    pub fn resume(words: &[u32]) -> Self {
        let sheet = check(words, ENOUGH_DISTANCES).expect("a valid sheet");
        let extents = sheet.lines.iter().map(|line| line.extent).collect();
        Table { sheet: SheetBuilder::resume(words), samples: sheet.head.samples, extents }
    }

    /// The words of the whole sheet.
    pub fn words(self) -> Vec<u32> {
        self.sheet.end()
    }

    /// One of the lines so far.
    pub fn any(&self, random: &mut Random) -> u32 {
        random.below(self.extents.len()) as u32
    }

    /// One of the lines so far that has a sample in common with all of these,
    /// which have one in common themselves.
    pub fn any_with(&self, random: &mut Random, lines: &[u32]) -> u32 {
        let common = self.common(lines);
        let fits = |line: &u32| !common.common(self.extents[*line as usize]).is_empty();
        let fitting: Vec<u32> = (0..self.extents.len() as u32).filter(fits).collect();
        random.pick(&fitting)
    }

    /// Bounds of time for lines that have so many samples in common that even
    /// two such windows fit.
    pub fn times(&self, random: &mut Random, lines: &[u32]) -> Bounds {
        let upper = random.field(0, (self.common(lines).length() as u32 - 1) / 2);
        (random.field(0, upper), upper)
    }

    /// Bounds of time for lines that have so many samples in common that one such
    /// window fits.
    pub fn window(&self, random: &mut Random, lines: &[u32]) -> Bounds {
        let upper = random.field(0, self.common(lines).length() as u32 - 1);
        (random.field(0, upper), upper)
    }

    /// Code 0.
    pub fn truth(&mut self) -> u32 {
        self.add(0, (0, 0), None, Extent::whole(self.samples))
    }

    /// What holds nowhere and never.
    pub fn falsehood(&mut self) -> u32 {
        let truth = self.truth();
        self.not(truth)
    }

    /// Code 3.
    pub fn not(&mut self, left: u32) -> u32 {
        let extent = self.common(&[left]);
        self.add(3, (left, 0), None, extent)
    }

    /// Codes 4 and 8.
    pub fn join(&mut self, code: u32, left: u32, right: u32) -> u32 {
        let extent = self.common(&[left, right]);
        self.add(code, (left, right), None, extent)
    }

    /// Code 5.
    pub fn until(&mut self, left: u32, right: u32, bounds: Bounds) -> u32 {
        let extent = self.common(&[left, right]).ends_sooner(bounds.1);
        self.add(5, (left, right), Some(bounds), extent)
    }

    /// Codes 9 and 10.
    pub fn ahead(&mut self, code: u32, left: u32, bounds: Bounds) -> u32 {
        let extent = self.common(&[left]).ends_sooner(bounds.1);
        self.add(code, (left, 0), Some(bounds), extent)
    }

    /// Code 12.
    pub fn since(&mut self, left: u32, right: u32, bounds: Bounds) -> u32 {
        let extent = self.common(&[left, right]).begins_later(bounds.1);
        self.add(12, (left, right), Some(bounds), extent)
    }

    /// Codes 13 and 14.
    pub fn back(&mut self, code: u32, left: u32, bounds: Bounds) -> u32 {
        let extent = self.common(&[left]).begins_later(bounds.1);
        self.add(code, (left, 0), Some(bounds), extent)
    }

    /// Codes 6 and 11.
    pub fn around(&mut self, code: u32, left: u32, bounds: Bounds) -> u32 {
        let extent = self.common(&[left]);
        self.add(code, (left, 0), Some(bounds), extent)
    }

    /// Codes 7 and 15.
    pub fn surround(&mut self, code: u32, left: u32, right: u32, bounds: Bounds) -> u32 {
        let extent = self.common(&[left, right]);
        self.add(code, (left, right), Some(bounds), extent)
    }

    fn common(&self, lines: &[u32]) -> Extent {
        let extents = lines.iter().map(|&line| self.extents[line as usize]);
        extents.fold(Extent::whole(self.samples), Extent::common)
    }

    /// Adds a line and gives its number.
    fn add(
        &mut self,
        code: u32,
        operands: (u32, u32),
        bounds: Option<Bounds>,
        extent: Extent,
    ) -> u32 {
        let sheet = std::mem::take(&mut self.sheet).line(code, operands.0, operands.1);
        self.sheet = match bounds {
            Some((lower, upper)) => sheet.bounds(lower, upper),
            None => sheet,
        };
        self.extents.push(extent);
        self.extents.len() as u32 - 1
    }
}

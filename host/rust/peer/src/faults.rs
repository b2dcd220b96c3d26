//! The faults of rows 7 to 9 that were found on one line.

#[derive(Clone, Copy, Debug, Default)]
pub struct Faults {
    /// Row 7.
    pub name: bool,
    /// Row 8, as kinds that don't fit inside a body.
    pub fit: bool,
    /// Row 8 otherwise.
    pub rule: bool,
    /// Row 9.
    pub limit: bool,
}

/// Is the fitting of kinds inside bodies judged? The marking machine's domain leaves it out.
#[derive(Clone, Copy, Debug, PartialEq, Eq)]
pub enum Fits {
    Judged,
    LeftOut,
}

impl Faults {
    pub fn none(&self) -> bool {
        !(self.name || self.fit || self.rule || self.limit)
    }

    /// The lowest number that applies.
    pub fn lowest(&self, fits: Fits) -> Option<u32> {
        if self.name {
            Some(7)
        } else if self.rule || (self.fit && fits == Fits::Judged) {
            Some(8)
        } else if self.limit {
            Some(9)
        } else {
            None
        }
    }
}

//! Which of the two audits.

/// What becomes of the free segments but the final one.
#[derive(Clone, Copy, Debug, PartialEq, Eq)]
pub enum Mode {
    /// The audit: they are compared with the gaps.
    Compared,
    /// The audit of a salvaged file: they are read, and not compared.
    Apart,
}

impl Mode {
    pub const BOTH: [Mode; 2] = [Mode::Compared, Mode::Apart];
}

use crate::Refusal;

/// The version of a block file. Others may come.
#[derive(Clone, Copy, Debug, Eq, Hash, Ord, PartialEq, PartialOrd)]
#[non_exhaustive]
pub enum Version {
    /// A token may cost nothing.
    One = 1,
    /// Every token but eof costs at least 1.
    Two = 2,
}

impl Version {
    /// The documents' number, 1 or 2.
    pub fn number(self) -> u16 {
        self as u16
    }
}

impl TryFrom<u16> for Version {
    type Error = Refusal;

    /// The version with that number.
    ///
    /// # Errors
    ///
    /// Refusal 26 for a number that is not a version's.
    fn try_from(number: u16) -> Result<Version, Refusal> {
        match number {
            1 => Ok(Version::One),
            2 => Ok(Version::Two),
            _ => Err(Refusal::Version),
        }
    }
}

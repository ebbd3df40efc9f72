//! A unit's bytes, read.
use crate::{calls, Code, Refusal};

/// Coding parameters, a unit's extension of type 1.
///
/// ```
/// use lipvezor::{Code, Codeword, Record, Unit};
///
/// # fn main() -> Result<(), lipvezor::Refusal> {
/// let unit = Codeword::encode(Record::new(Code::C2, 3), [0; 2048 * 3])?.unit(1)?;
/// let coding = Unit::read(&unit)?.coding.expect("our units have them");
/// assert_eq!((coding.w, coding.k, coding.n, coding.seed), (3, 2048, 3072, 0));
/// assert_eq!(coding.code(), Some(Code::C2));
/// # Ok(())
/// # }
/// ```
#[non_exhaustive]
#[derive(Clone, Copy, Debug, PartialEq, Eq, Hash)]
pub struct Parameters {
    /// Bytes of a symbol.
    pub w: usize,
    /// Information symbols.
    pub k: usize,
    /// Symbols of a block.
    pub n: usize,
    /// The seed, 0 in our units.
    pub seed: usize,
}

impl Parameters {
    /// The code with this k and n.
    #[must_use]
    pub fn code(self) -> Option<Code> {
        Code::of(self.k, self.n)
    }
}

/// What a unit's bytes say by themselves, whatever block they are of. They do not say the block's fill.
///
/// ```
/// use lipvezor::{Code, Refusal, Unit};
///
/// # fn main() -> Result<(), Refusal> {
/// let bytes = [0x12, 1, 0, 5, 0, 7, 1, 6, 2, 0x84, 0, 0x86, 0, 0, 0xAA, 0x55];
/// let unit = Unit::read(&bytes)?;
/// assert_eq!((unit.protocol, unit.count, unit.lwc, unit.lsc), (1, 1, 5, 7));
/// assert_eq!(unit.symbol, [0xAA, 0x55]);
///
/// let coding = unit.coding.expect("its coding parameters came");
/// assert_eq!((coding.w, coding.k, coding.n, coding.seed), (2, 512, 768, 0));
/// assert_eq!(coding.code(), Some(Code::C1));
///
/// assert_eq!(Unit::read(&bytes[..10]), Err(Refusal::Extension));
/// # Ok(())
/// # }
/// ```
#[non_exhaustive]
#[derive(Clone, Copy, Debug, PartialEq, Eq, Hash)]
pub struct Unit<'a> {
    /// Protocol ID.
    pub protocol: usize,
    /// Number of extensions.
    pub count: usize,
    /// The symbol's number in its block, from 1.
    pub lwc: usize,
    /// The block's number.
    pub lsc: usize,
    /// The symbol.
    pub symbol: &'a [u8],
    /// The coding parameters, if any came.
    pub coding: Option<Parameters>,
}

impl<'a> Unit<'a> {
    /// Reads a unit's bytes, without its CRC-32. [`Block::take`](crate::Block::take) reads units too: this is for seeing which block a unit is
    /// of.
    ///
    /// Refusals: header; extension, number, extension kind, by the first byte that can't be accepted.
    ///
    /// # Panics
    ///
    /// As [`Record::new`](crate::Record::new), if the archive is of another version.
    #[inline]
    pub fn read(unit: &'a [u8]) -> Result<Unit<'a>, Refusal> {
        calls::read(unit)
    }
}

/// As [`Unit::read`].
impl<'a> TryFrom<&'a [u8]> for Unit<'a> {
    type Error = Refusal;

    fn try_from(unit: &'a [u8]) -> Result<Unit<'a>, Refusal> {
        Unit::read(unit)
    }
}

#[cfg(test)]
mod tests {
    use super::*;

    const BYTES: [u8; 16] = [0x12, 1, 0, 5, 0, 7, 1, 6, 2, 0x84, 0, 0x86, 0, 0, 0xAA, 0x55];

    #[test]
    fn the_symbol_is_a_part_of_the_unit() {
        let unit = Unit::try_from(&BYTES[..]).unwrap();
        assert_eq!(unit.symbol.as_ptr_range(), BYTES[14..].as_ptr_range());
        assert_eq!(unit.coding, Some(Parameters { w: 2, k: 512, n: 768, seed: 0 }));
        assert_eq!(Unit::read(&BYTES[..14]).unwrap().symbol, []);
    }

    #[test]
    fn a_unit_without_type_1_has_no_coding_parameters() {
        let unit = Unit::read(&[0x10, 1, 0, 1, 0, 7, 9, 1, 0xAB, 0x55]).unwrap();
        assert_eq!((unit.coding, unit.symbol), (None, &[0x55][..]));
    }

    #[test]
    fn parameters_of_no_code_are_read() {
        let mut bytes = BYTES;
        bytes[12] = 1;
        let coding = Unit::read(&bytes).unwrap().coding.unwrap();
        assert_eq!((coding.n, coding.code()), (769, None));
    }
}

//! Why a call is turned down.
use core::fmt;

/// Why a call was turned down; it has then changed nothing that it was lent. Where several apply, the first in the order of
/// [`Refusal::ALL`] is answered, which is not the order of their numbers. The extensions of a unit are read byte by byte, and the first byte that
/// can't be accepted decides between extension, number and extension kind.
///
/// ```
/// use lipvezor::{Block, Code, Record, Refusal};
///
/// let refusal = Block::open(Record::new(Code::C1, 0)).unwrap_err();
/// assert_eq!(refusal, Refusal::Width);
/// assert_eq!(refusal.number(), 2);
/// assert_eq!(refusal.to_string(), "refused 2, width: W is 0 or above 1024");
/// assert_eq!(Refusal::from_number(2), Some(Refusal::Width));
/// assert_eq!(Refusal::try_from(255).unwrap_err().to_string(), "255 is no refusal's number");
/// ```
///
/// A number in a unit is read in its shortest form alone:
///
/// ```
/// use lipvezor::{Refusal, Unit};
///
/// // an extension of type 9 with one value byte, its length in one byte
/// let unit = [0x10, 1, 0, 1, 0, 7, 9, 0x01, 0xAB, 0x55];
/// assert_eq!(Unit::read(&unit)?.symbol, [0x55]);
/// // a relay rewrote the length 01 as 80 01
/// let rewritten = [0x10, 1, 0, 1, 0, 7, 9, 0x80, 0x01, 0xAB, 0x55];
/// assert_eq!(Unit::read(&rewritten), Err(Refusal::Number));
/// # Ok::<(), Refusal>(())
/// ```
#[derive(Clone, Copy, Debug, PartialEq, Eq, Hash)]
#[non_exhaustive]
#[repr(u8)]
pub enum Refusal {
    /// The code's number is not 1, 2, 4, 5, 7 or 8.
    Code = 1,
    /// W is 0 or above 1,024.
    Width = 2,
    /// LSC is 0 or above 65,534, or the protocol ID is above 7.
    Label = 3,
    /// A block, work, information, parity or output buffer isn't exactly its size.
    Length = 4,
    /// A unit of under 6 bytes, of another version than 1, with the reserved bit set, or without extensions.
    Header = 5,
    /// A unit's bytes end early: before an extension's type, within its length, or before the end of its value.
    Extension = 6,
    /// No type 1, or not the block's W, k, n and seed 0.
    Parameters = 7,
    /// The unit's LSC or protocol ID isn't the block's.
    Foreign = 8,
    /// LWC is 0 or above n.
    Position = 9,
    /// The symbol isn't W bytes.
    Symbol = 10,
    /// A mark above 2: at the unit's position (take), anywhere (close).
    Mark = 11,
    /// Heard there before with other bytes.
    Conflict = 12,
    /// The fill is 0 or above the code's k.
    Fill = 13,
    /// An LWC above the block's fill, up to k: no unit is sent for it.
    Idle = 14,
    /// W is below 5, and tiles are to be packed: a row has no place for a tile byte.
    Narrow = 15,
    /// The length of a tile is 0, or the lengths don't add up to the tiles' bytes.
    Tiles = 16,
    /// The tiles need more rows than the fill.
    Overfull = 17,
    /// An SDNV in a unit's extensions that is too long, too large or not in its shortest form.
    Number = 19,
    /// An extension of type 0 or 255, a second one of type 1, or one of type 1 whose value isn't exactly four numbers.
    ExtensionKind = 20,
}

impl Refusal {
    /// All of them, in the order in which they are tried. Extension, number and extension kind share one place.
    pub const ALL: &'static [Refusal] = &[
        Refusal::Code,
        Refusal::Width,
        Refusal::Narrow,
        Refusal::Label,
        Refusal::Fill,
        Refusal::Length,
        Refusal::Tiles,
        Refusal::Overfull,
        Refusal::Header,
        Refusal::Extension,
        Refusal::Number,
        Refusal::ExtensionKind,
        Refusal::Parameters,
        Refusal::Foreign,
        Refusal::Position,
        Refusal::Idle,
        Refusal::Symbol,
        Refusal::Mark,
        Refusal::Conflict,
    ];

    /// Its number, as in the C header.
    #[must_use]
    pub const fn number(self) -> u8 {
        self as u8
    }

    /// The refusal of a number; `None` if it is no refusal's.
    #[must_use]
    pub fn from_number(number: u8) -> Option<Refusal> {
        Refusal::ALL.iter().copied().find(|refusal| refusal.number() == number)
    }

    /// Why, in a few words: those of `lipvezor_refusal_text` in the C header.
    #[must_use]
    pub const fn text(self) -> &'static str {
        match self {
            Refusal::Code => "code: the number is not 1, 2, 4, 5, 7 or 8",
            Refusal::Width => "width: W is 0 or above 1024",
            Refusal::Narrow => "narrow: W is below 5",
            Refusal::Label => "label: LSC is 0 or above 65534, or the protocol ID is above 7",
            Refusal::Fill => "fill: 0 or above k",
            Refusal::Length => "length: a buffer isn't exactly its size",
            Refusal::Tiles => "tiles: a length is 0, or the lengths don't add up to the bytes",
            Refusal::Overfull => "overfull: the tiles need more rows than the fill",
            Refusal::Header => "header: under 6 bytes, version not 1, reserved bit set, or no extensions",
            Refusal::Extension => "extension: the unit's bytes end early",
            Refusal::Number => "number: an SDNV too long, too large or not in its shortest form",
            Refusal::ExtensionKind => "extension kind: type 0 or 255, a second type 1, or type 1 not exactly four numbers",
            Refusal::Parameters => "parameters: none, or not the block's W, k, n and seed 0",
            Refusal::Foreign => "foreign: the unit's LSC or protocol ID isn't the block's",
            Refusal::Position => "position: LWC is 0 or above n",
            Refusal::Idle => "idle: LWC is above the block's fill and not above k",
            Refusal::Symbol => "symbol: not W bytes",
            Refusal::Mark => "mark: above 2",
            Refusal::Conflict => "conflict: heard there before with other bytes",
        }
    }
}

/// `refused 2, width: W is 0 or above 1024`.
impl fmt::Display for Refusal {
    fn fmt(&self, f: &mut fmt::Formatter<'_>) -> fmt::Result {
        write!(f, "refused {}, {}", self.number(), self.text())
    }
}

impl core::error::Error for Refusal {}

impl TryFrom<u8> for Refusal {
    type Error = UnknownRefusal;

    fn try_from(number: u8) -> Result<Refusal, UnknownRefusal> {
        Refusal::from_number(number).ok_or(UnknownRefusal(number))
    }
}

impl From<Refusal> for u8 {
    fn from(refusal: Refusal) -> u8 {
        refusal.number()
    }
}

/// A number that is no refusal's, from `Refusal::try_from`.
///
/// ```
/// use lipvezor::Refusal;
///
/// assert_eq!(Refusal::try_from(0).unwrap_err().number(), 0);
/// ```
#[derive(Clone, Copy, Debug, PartialEq, Eq, Hash)]
pub struct UnknownRefusal(u8);

impl UnknownRefusal {
    /// The number.
    #[must_use]
    pub const fn number(self) -> u8 {
        self.0
    }
}

impl fmt::Display for UnknownRefusal {
    fn fmt(&self, f: &mut fmt::Formatter<'_>) -> fmt::Result {
        write!(f, "{} is no refusal's number", self.0)
    }
}

impl core::error::Error for UnknownRefusal {}

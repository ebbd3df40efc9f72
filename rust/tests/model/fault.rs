//! The errors seen elsewhere, wrong readings of extensions, wrong writings of units, wrong showings, wrong short blocks and wrong packings. The model
//! can be given each on purpose.

#[derive(Clone, Copy, Debug, Default, PartialEq, Eq)]
pub enum Fault {
    #[default]
    None,
    /// More than m missing: ambiguous, nothing tried.
    GivesUpAboveM,
    /// An undetermined symbol stays zero, counts as filled, and the verdict is whole.
    ZeroSaidWhole,
    /// Undetermined symbols are looked for before failing equations.
    AmbiguousFirst,
    /// p_(j - 1) of check row 0 is p_(m - 1).
    Row0JoinedToLast,
    /// LWC k is p_0, k + 1 is p_1, and so on.
    LwcKAsParity,
    /// Leading zero groups of a number are read.
    LeadingZerosRead,
    /// `80` is refused inside a number, too.
    ZeroInsideRefused,
    /// A number whose fifth byte isn't its last: 6.
    TooLongSaid6,
    /// A number cut off after four bytes: 19.
    CutAfterFourSaid19,
    /// A number cut off by the end of type 1's value: 6.
    CutByValueSaid6,
    /// A second type 1 is read, then refused.
    SecondType1Read,
    /// A fifth number is read, then refused.
    FifthNumberRead,
    /// A symbol of two bytes or more is written from its second byte on, and its last byte again.
    SymbolFromSecondByte,
    /// The last byte of an odd width isn't written.
    OddWidthCut,
    /// The length of type 1's value is written one too large.
    ValueLengthOneMore,
    /// Show looks at the LWC before the lengths.
    PositionBeforeLength,
    /// Show copies as much of the symbol as the output holds.
    ShownToAnyOutput,
    /// Idle symbols may be any for close.
    IdleUnknown,
    /// Close counts idle positions as left.
    IdleCountedAsLeft,
    /// Close takes the symbol of an idle position with mark 1 as heard.
    IdleMarkBelieved,
    /// Positions fill to k are idle.
    PositionKIdle,
    /// Positions fill - 1 to k - 1 are idle.
    LastSentIdle,
    /// 13 is tried after 4.
    FillAfterLength,
    /// 14 is tried after 10.
    IdleAfterSymbol,
    /// A row's next is counted from 0: it is the row's own LWC.
    NextFromZero,
    /// The last row of a tile has the next tile's first row as its next.
    NextTileChained,
    /// A tile's last row, if it is full, has a next, and an empty row follows.
    FullLastRowGoesOn,
    /// A row says the count of its whole tile.
    CountOfTile,
    /// What a row's payload doesn't use stays as it was.
    PaddingLeft,
    /// Rows that no tile uses stay as they were.
    UnusedRowsLeft,
    /// Lengths are added modulo 2^64.
    SumWraps,
    /// A tile may have no bytes; it then has no row.
    EmptyTileTaken,
    /// 17 is for more bytes than all payloads have.
    OverfullByBytes,
    /// 17 is tried before 16.
    OverfullFirst,
    /// 15 is tried after 13 and 4.
    NarrowAfterFill,
}

impl Fault {
    /// The five errors seen.
    pub const SEEN: [Fault; 5] =
        [Fault::GivesUpAboveM, Fault::ZeroSaidWhole, Fault::AmbiguousFirst, Fault::Row0JoinedToLast, Fault::LwcKAsParity];

    /// The wrong readings.
    pub const MISREAD: [Fault; 7] = [
        Fault::LeadingZerosRead,
        Fault::ZeroInsideRefused,
        Fault::TooLongSaid6,
        Fault::CutAfterFourSaid19,
        Fault::CutByValueSaid6,
        Fault::SecondType1Read,
        Fault::FifthNumberRead,
    ];

    /// The wrong writings.
    pub const MISWRITTEN: [Fault; 3] = [Fault::SymbolFromSecondByte, Fault::OddWidthCut, Fault::ValueLengthOneMore];

    /// The wrong showings.
    pub const MISSHOWN: [Fault; 2] = [Fault::PositionBeforeLength, Fault::ShownToAnyOutput];

    /// The wrong packings.
    pub const MISPACKED: [Fault; 11] = [
        Fault::NextFromZero,
        Fault::NextTileChained,
        Fault::FullLastRowGoesOn,
        Fault::CountOfTile,
        Fault::PaddingLeft,
        Fault::UnusedRowsLeft,
        Fault::SumWraps,
        Fault::EmptyTileTaken,
        Fault::OverfullByBytes,
        Fault::OverfullFirst,
        Fault::NarrowAfterFill,
    ];
}

//! Each error seen elsewhere, each wrong reading of extensions, each wrong writing of units, each wrong showing, each wrong short block and each
//! wrong packing, put into the model, is found by the comparisons; without one they find nothing.
mod compare;
mod model;

use compare::fills::{self, Told};
use compare::random::Random;
use compare::{all_strings, encode, suite, tiles, unit_forms, units, Difference, Stats};
use model::{codes, Code, Fault};
use std::thread;

/// What a comparison with a fault in the model finds.
type Outcome = Result<Stats, Difference>;

/// A comparison is run once, or on each code.
enum Run {
    Once(fn(Fault) -> Outcome),
    EachCode(fn(&'static Code, Fault) -> Outcome),
}

/// A comparison by its name.
struct Comparison {
    name: &'static str,
    run: Run,
    finds: &'static [Fault],
}

/// For the errors seen.
static COMPARISONS: [Comparison; 4] = [
    Comparison { name: "blocks", run: Run::EachCode(|code, fault| suite::chosen_blocks(code, fault, 1)), finds: &Fault::SEEN },
    Comparison {
        name: "encode",
        run: Run::EachCode(|code, fault| encode::compare(code, 3, 50, fault, &mut random())),
        finds: &[Fault::Row0JoinedToLast],
    },
    Comparison {
        name: "written units",
        run: Run::EachCode(|code, fault| units::written(code, fault, &mut random())),
        finds: &[Fault::LwcKAsParity],
    },
    Comparison {
        name: "shown symbols",
        run: Run::EachCode(|code, fault| units::shown(code, 3, code.k, fault, &mut random())),
        finds: &[Fault::LwcKAsParity],
    },
];

/// For the wrong readings.
static READINGS: [Comparison; 6] = [
    Comparison {
        name: "altered units",
        run: Run::Once(|fault| unit_forms::altered(fault, &mut random())),
        finds: &[
            Fault::LeadingZerosRead,
            Fault::ZeroInsideRefused,
            Fault::TooLongSaid6,
            Fault::CutByValueSaid6,
            Fault::SecondType1Read,
            Fault::FifthNumberRead,
        ],
    },
    Comparison {
        name: "forms of numbers",
        run: Run::Once(|fault| unit_forms::numbers(fault, &mut random())),
        finds: &[Fault::LeadingZerosRead, Fault::ZeroInsideRefused, Fault::TooLongSaid6, Fault::CutAfterFourSaid19, Fault::CutByValueSaid6],
    },
    Comparison {
        name: "forms of coding parameters",
        run: Run::Once(|fault| unit_forms::values(fault, &mut random())),
        finds: &[Fault::LeadingZerosRead, Fault::CutByValueSaid6],
    },
    Comparison {
        name: "random units",
        run: Run::Once(|fault| unit_forms::random_units(20_000, fault, &mut random())),
        finds: &Fault::MISREAD,
    },
    Comparison {
        name: "edge bytes as coding parameters",
        run: Run::Once(all_strings::coding_values),
        finds: &[
            Fault::LeadingZerosRead,
            Fault::ZeroInsideRefused,
            Fault::TooLongSaid6,
            Fault::CutAfterFourSaid19,
            Fault::CutByValueSaid6,
            Fault::FifthNumberRead,
        ],
    },
    Comparison { name: "edge bytes as lengths", run: Run::Once(all_strings::lengths), finds: &Fault::MISREAD },
];

/// For the wrong writings.
static WRITINGS: [Comparison; 1] = [Comparison {
    name: "written units",
    run: Run::EachCode(|code, fault| units::written(code, fault, &mut random())),
    finds: &Fault::MISWRITTEN,
}];

/// For the wrong showings.
static SHOWINGS: [Comparison; 2] = [
    Comparison {
        name: "shown symbols",
        run: Run::EachCode(|code, fault| units::shown(code, 3, code.k, fault, &mut random())),
        finds: &Fault::MISSHOWN,
    },
    Comparison {
        name: "shown symbols of one byte",
        run: Run::EachCode(|code, fault| units::shown(code, 1, code.k, fault, &mut random())),
        finds: &Fault::MISSHOWN,
    },
];

/// For the wrong short blocks.
static SHORT: [Comparison; 9] = [
    Comparison {
        name: "written units of short blocks",
        run: Run::EachCode(|code, fault| units::written_short(code, fault, &mut random())),
        finds: &[Fault::PositionKIdle, Fault::LastSentIdle],
    },
    Comparison {
        name: "shown symbols of short blocks",
        run: Run::EachCode(|code, fault| units::shown(code, 3, code.k / 2, fault, &mut random())),
        finds: &[Fault::PositionKIdle, Fault::LastSentIdle],
    },
    Comparison {
        name: "fills of pack",
        run: Run::EachCode(|code, fault| fills::compare(Told::Pack, code, 1, fault, &mut random())),
        finds: &[Fault::FillAfterLength],
    },
    Comparison {
        name: "fills of encode",
        run: Run::EachCode(|code, fault| fills::compare(Told::Encode, code, 1, fault, &mut random())),
        finds: &[Fault::FillAfterLength],
    },
    Comparison {
        name: "fills of show",
        run: Run::EachCode(|code, fault| fills::compare(Told::Show, code, 1, fault, &mut random())),
        finds: &[Fault::PositionKIdle, Fault::LastSentIdle, Fault::FillAfterLength],
    },
    Comparison {
        name: "fills of write",
        run: Run::EachCode(|code, fault| fills::compare(Told::Write, code, 1, fault, &mut random())),
        finds: &[Fault::PositionKIdle, Fault::LastSentIdle, Fault::FillAfterLength, Fault::IdleAfterSymbol],
    },
    Comparison {
        name: "fills of open",
        run: Run::EachCode(|code, fault| fills::compare(Told::Open, code, 1, fault, &mut random())),
        finds: &[Fault::FillAfterLength],
    },
    Comparison {
        name: "fills of take",
        run: Run::EachCode(|code, fault| fills::compare(Told::Take, code, 1, fault, &mut random())),
        finds: &[Fault::PositionKIdle, Fault::LastSentIdle, Fault::FillAfterLength, Fault::IdleAfterSymbol],
    },
    Comparison {
        name: "fills of close",
        run: Run::EachCode(|code, fault| fills::compare(Told::Close, code, 1, fault, &mut random())),
        finds: &[
            Fault::FillAfterLength,
            Fault::IdleUnknown,
            Fault::IdleCountedAsLeft,
            Fault::IdleMarkBelieved,
            Fault::PositionKIdle,
            Fault::LastSentIdle,
        ],
    },
];

/// For those of them that close is about. `blocks.rs` has these comparisons without a fault.
static SHORT_BLOCKS: [Comparison; 1] = [Comparison {
    name: "short blocks closed once",
    run: Run::EachCode(|code, fault| suite::short_closes(code, fault, 1)),
    finds: &[Fault::IdleUnknown, Fault::IdleCountedAsLeft, Fault::IdleMarkBelieved, Fault::PositionKIdle, Fault::LastSentIdle],
}];

/// For those of them that a list of calls shows.
static SHORT_LISTS: [Comparison; 1] = [Comparison {
    name: "lists of calls on short blocks",
    run: Run::EachCode(|code, fault| suite::short_lists(code, fault, 1)),
    finds: &[Fault::IdleUnknown, Fault::IdleCountedAsLeft, Fault::PositionKIdle, Fault::LastSentIdle, Fault::IdleAfterSymbol],
}];

/// For the wrong packings. `tiles.rs` has these comparisons without a fault.
static PACKINGS: [Comparison; 2] = [
    Comparison { name: "chosen tiles", run: Run::EachCode(|code, fault| suite::chosen_tiles(code, fault, 1)), finds: &Fault::MISPACKED },
    Comparison {
        name: "random tiles",
        run: Run::EachCode(|code, fault| tiles::random(code, 10_000, fault, &mut random())),
        finds: &Fault::MISPACKED,
    },
];

fn random() -> Random {
    Random::new(1)
}

impl Comparison {
    /// It finds the fault if it should, and only then.
    fn check(&self, name: &str, outcome: Outcome, fault: Fault) {
        match (outcome, self.finds.contains(&fault)) {
            (Err(difference), true) => println!("{fault:?} is found in {name}: {}", shortened(&difference)),
            (Ok(_), false) => {}
            (Err(difference), false) => panic!("{fault:?} in {name}: {difference:?}"),
            (Ok(stats), true) => panic!("{fault:?} is not found in {name}: {stats:?}"),
        }
    }
}

/// Every comparison is checked.
fn check(comparisons: &'static [Comparison], fault: Fault) {
    thread::scope(|scope| {
        for comparison in comparisons {
            match comparison.run {
                Run::Once(run) => {
                    scope.spawn(move || comparison.check(comparison.name, run(fault), fault));
                }
                Run::EachCode(run) => {
                    for code in codes::ALL {
                        let name = format!("{} of C{}", comparison.name, code.number);
                        scope.spawn(move || comparison.check(&name, run(code, fault), fault));
                    }
                }
            }
        }
    });
}

fn shortened(difference: &Difference) -> String {
    difference.0.chars().take(160).collect()
}

#[test]
fn no_fault() {
    check(&COMPARISONS, Fault::None);
    check(&READINGS, Fault::None);
    check(&SHORT, Fault::None);
}

#[test]
fn gives_up_above_m() {
    check(&COMPARISONS, Fault::GivesUpAboveM);
}

#[test]
fn undetermined_at_zero_said_whole() {
    check(&COMPARISONS, Fault::ZeroSaidWhole);
}

#[test]
fn ambiguous_where_an_equation_fails() {
    check(&COMPARISONS, Fault::AmbiguousFirst);
}

#[test]
fn row_0_joined_to_the_last_parity_symbol() {
    check(&COMPARISONS, Fault::Row0JoinedToLast);
}

#[test]
fn lwc_k_as_parity() {
    check(&COMPARISONS, Fault::LwcKAsParity);
}

#[test]
fn leading_zeros_read() {
    check(&READINGS, Fault::LeadingZerosRead);
}

#[test]
fn zero_inside_a_number_refused() {
    check(&READINGS, Fault::ZeroInsideRefused);
}

#[test]
fn too_long_said_6() {
    check(&READINGS, Fault::TooLongSaid6);
}

#[test]
fn cut_off_after_four_bytes_said_19() {
    check(&READINGS, Fault::CutAfterFourSaid19);
}

#[test]
fn cut_off_by_the_value_said_6() {
    check(&READINGS, Fault::CutByValueSaid6);
}

#[test]
fn second_type_1_read() {
    check(&READINGS, Fault::SecondType1Read);
}

#[test]
fn fifth_number_read() {
    check(&READINGS, Fault::FifthNumberRead);
}

#[test]
fn symbol_from_its_second_byte() {
    check(&WRITINGS, Fault::SymbolFromSecondByte);
}

#[test]
fn last_byte_of_an_odd_width_left_out() {
    check(&WRITINGS, Fault::OddWidthCut);
}

#[test]
fn length_of_the_value_one_too_large() {
    check(&WRITINGS, Fault::ValueLengthOneMore);
}

#[test]
fn position_tried_before_lengths() {
    check(&SHOWINGS, Fault::PositionBeforeLength);
}

#[test]
fn shown_to_an_output_of_any_length() {
    check(&SHOWINGS, Fault::ShownToAnyOutput);
}

#[test]
fn idle_symbols_unknown() {
    check(&SHORT, Fault::IdleUnknown);
    check(&SHORT_BLOCKS, Fault::IdleUnknown);
    check(&SHORT_LISTS, Fault::IdleUnknown);
}

#[test]
fn idle_positions_counted_as_left() {
    check(&SHORT, Fault::IdleCountedAsLeft);
    check(&SHORT_BLOCKS, Fault::IdleCountedAsLeft);
    check(&SHORT_LISTS, Fault::IdleCountedAsLeft);
}

/// No list of calls leaves such a mark.
#[test]
fn mark_1_at_an_idle_position_believed() {
    check(&SHORT, Fault::IdleMarkBelieved);
    check(&SHORT_BLOCKS, Fault::IdleMarkBelieved);
}

#[test]
fn position_k_idle() {
    check(&SHORT, Fault::PositionKIdle);
    check(&SHORT_BLOCKS, Fault::PositionKIdle);
    check(&SHORT_LISTS, Fault::PositionKIdle);
}

#[test]
fn last_sent_information_symbol_idle() {
    check(&SHORT, Fault::LastSentIdle);
    check(&SHORT_BLOCKS, Fault::LastSentIdle);
    check(&SHORT_LISTS, Fault::LastSentIdle);
}

#[test]
fn fill_tried_after_lengths() {
    check(&SHORT, Fault::FillAfterLength);
}

#[test]
fn idle_tried_after_the_symbol() {
    check(&SHORT, Fault::IdleAfterSymbol);
    check(&SHORT_LISTS, Fault::IdleAfterSymbol);
}

#[test]
fn next_counted_from_0() {
    check(&PACKINGS, Fault::NextFromZero);
}

#[test]
fn next_tile_chained() {
    check(&PACKINGS, Fault::NextTileChained);
}

#[test]
fn full_last_row_goes_on() {
    check(&PACKINGS, Fault::FullLastRowGoesOn);
}

#[test]
fn count_of_the_whole_tile() {
    check(&PACKINGS, Fault::CountOfTile);
}

#[test]
fn padding_left_as_it_was() {
    check(&PACKINGS, Fault::PaddingLeft);
}

#[test]
fn unused_rows_left_as_they_were() {
    check(&PACKINGS, Fault::UnusedRowsLeft);
}

#[test]
fn lengths_added_modulo_2_to_the_64() {
    check(&PACKINGS, Fault::SumWraps);
}

#[test]
fn tile_of_no_bytes_taken() {
    check(&PACKINGS, Fault::EmptyTileTaken);
}

#[test]
fn overfull_by_bytes() {
    check(&PACKINGS, Fault::OverfullByBytes);
}

#[test]
fn overfull_tried_before_tiles() {
    check(&PACKINGS, Fault::OverfullFirst);
}

#[test]
fn narrow_tried_after_the_fill() {
    check(&PACKINGS, Fault::NarrowAfterFill);
}

//! Write, read, show and take of single units against the model.
mod compare;
mod model;

use compare::drafts::{Draft, Extension};
use compare::fills::{self, Told};
use compare::{all_strings, ours, unit_forms, units, Difference, Stats};
use lipvezor::Code;
use model::answers::{Parameters, Taken};
use model::refusals::Record;
use model::{byte_reader, codes, Fault};

fn report(name: &str, result: Result<Stats, Difference>) -> Stats {
    let stats = result.unwrap();
    println!(
        "{name}: compared {} units, {} shown symbols; readable {}, kept {}, refused {:?}",
        stats.units,
        stats.shown,
        stats.readable,
        stats.kept,
        stats.refusals()
    );
    stats
}

/// That each of these refusals came often, and readable units did.
fn assert_came(stats: &Stats, numbers: &[usize]) {
    assert!(stats.readable >= 1000, "{stats:?}");
    assert!(numbers.iter().all(|&number| stats.refused[number] >= 1000), "{stats:?}");
}

#[test]
fn written_units() {
    for code in codes::ALL {
        report("written", units::written(code, Fault::None, &mut compare::seeded()));
    }
}

/// Widths about the borders of what a copy may do at once, and of the bytes that W takes.
#[test]
fn written_units_of_every_lwc() {
    let mut random = compare::seeded();
    for code in codes::ALL {
        let mut stats = Stats::default();
        for w in [1, 15, 16, 17, 31, 127, 128, 1023, 1024] {
            stats += units::written_at(code, w, 1..=code.n, &mut random).unwrap();
        }
        assert_eq!(report("every LWC", Ok(stats)).readable, 9 * code.n);
    }
}

#[test]
fn written_units_of_every_width() {
    let mut random = compare::seeded();
    for code in codes::ALL {
        let mut stats = Stats::default();
        for w in 1..=1024 {
            stats += units::written_at(code, w, [1, code.k, code.k + 1, code.n], &mut random).unwrap();
        }
        assert_eq!(report("every width", Ok(stats)).readable, 4 * 1024);
    }
}

#[test]
fn written_units_of_short_blocks() {
    for code in codes::ALL {
        let stats = report("written, short", units::written_short(code, Fault::None, &mut compare::seeded()));
        assert!(stats.refused[14] > code.k / 2 && stats.kept > code.k / 2, "{stats:?}");
    }
}

#[test]
fn shown_symbols() {
    for code in codes::ALL {
        for w in [1, 2, 3, 16, 1024] {
            report("shown", units::shown(code, w, code.k, Fault::None, &mut compare::seeded()));
        }
        for (w, fill) in [(1, 1), (2, code.q + 1), (3, code.k / 2), (16, code.k - 1)] {
            report("shown, short", units::shown(code, w, fill, Fault::None, &mut compare::seeded()));
        }
    }
}

#[test]
fn fills_of_every_call() {
    for told in Told::ALL {
        let mut stats = Stats::default();
        for code in codes::ALL {
            stats += fills::compare(told, code, 2, Fault::None, &mut compare::seeded()).unwrap();
        }
        println!("fills: compared {} calls of {told:?}", stats.calls);
    }
}

#[test]
fn altered_and_cut_units() {
    let stats = report("altered", unit_forms::altered(Fault::None, &mut compare::seeded()));
    assert_came(&stats, &[5, 6, 7, 8, 9, 14, 19, 20]);
}

#[test]
fn units_almost_as_expected() {
    let stats = report("unexpected", unit_forms::unexpected(Fault::None, &mut compare::seeded()));
    assert_came(&stats, &[5, 6, 7, 8, 9, 12, 14, 20]);
}

#[test]
fn forms_of_numbers() {
    report("numbers", unit_forms::numbers(Fault::None, &mut compare::seeded()));
}

#[test]
fn forms_of_coding_parameters() {
    report("coding parameters", unit_forms::values(Fault::None, &mut compare::seeded()));
}

#[test]
fn extension_counts() {
    report("counts", unit_forms::counts(Fault::None, &mut compare::seeded()));
}

#[test]
fn random_units() {
    let stats = report("random", unit_forms::random_units(37_500, Fault::None, &mut compare::seeded()));
    assert_came(&stats, &[5, 6, 7, 14, 19, 20]);
    assert!(stats.kept >= 1000);
}

#[test]
fn bytes_that_decide() {
    let stats = report("deciding", unit_forms::deciding_bytes(200_000, &mut compare::seeded()));
    assert_came(&stats, &[5, 6, 19, 20]);
}

#[test]
fn all_short_units() {
    let stats = report("short", all_strings::short_units(Fault::None));
    assert_came(&stats, &[6, 19, 20]);
}

#[test]
fn all_edge_bytes_as_coding_parameters() {
    let stats = report("edge values", all_strings::coding_values(Fault::None));
    assert_came(&stats, &[6, 7, 19, 20]);
}

#[test]
fn all_edge_bytes_as_lengths() {
    let stats = report("edge lengths", all_strings::lengths(Fault::None));
    assert_came(&stats, &[6, 7, 19, 20]);
}

/// Values of lengths about the borders of one to five bytes, all there and one byte short.
#[test]
fn long_values() {
    for border in [1 << 7, 1 << 14, 1 << 21, 1 << 28] {
        for length in [border - 1, border] {
            let start = [&[0x10, 1, 0, 1, 0, 1, 2][..], &model::units::sdnv(length)].concat();
            let mut unit = vec![0; start.len() + length];
            unit[..start.len()].copy_from_slice(&start);
            for (unit, symbol) in [(&unit[..], Ok(unit.len())), (&unit[..unit.len() - 1], Err(6))] {
                let answers = [ours::read(unit), model::units::read(unit, Fault::None), byte_reader::read(unit)];
                assert_eq!(answers.map(|answer| answer.map(|parts| parts.symbol)), [symbol; 3], "length {length}");
            }
        }
    }
}

/// What follows the header of a unit, and the number that it is refused with; 0 if it is read.
struct Row {
    count: u8,
    bytes: &'static str,
    number: u8,
    why: &'static str,
}

const fn row(count: u8, bytes: &'static str, number: u8, why: &'static str) -> Row {
    Row { count, bytes, number, why }
}

/// No byte is left in the unit.
const UNIT_ENDS: &[Row] = &[
    row(1, "", 6, "no type"),
    row(1, "01", 6, "no length of type 1"),
    row(1, "02", 6, "no length of type 2"),
    row(1, "02 81", 6, "a length cut off after one byte"),
    row(1, "02 8F FF FF FF", 6, "a length cut off after four bytes"),
    row(1, "02 90 80 80 80", 6, "a length cut off after four bytes, too large with any fifth"),
    row(1, "01 90 80 80 80", 6, "the length of type 1 cut off after four bytes, too large with any fifth"),
    row(2, "02 00", 6, "no second type after an empty value"),
    row(2, "02 01 AA", 6, "no second type after a value"),
    row(2, "01 04 03 03 03 00", 6, "no second type after type 1"),
    row(255, "02 00 02 00 02 00", 6, "no fourth type"),
];

/// The type byte.
const TYPES: &[Row] = &[
    row(1, "00", 20, "type 0 as the last byte"),
    row(1, "FF", 20, "type 255 as the last byte"),
    row(1, "00 80", 20, "type 0 before a padded length"),
    row(1, "FF 05", 20, "type 255 before a length past the unit"),
    row(1, "02 00", 0, "type 2"),
    row(1, "FE 00", 0, "type 254"),
    row(2, "02 00 00", 20, "type 0, second"),
    row(2, "02 00 FF 00", 20, "type 255, second"),
    row(2, "02 00 02 00", 0, "type 2 twice"),
    row(2, "01 04 03 03 03 00 01", 20, "a second type 1 as the last byte"),
    row(2, "01 04 03 03 03 00 01 80", 20, "a second type 1 before a padded length"),
    row(2, "01 04 03 03 03 00 01 05", 20, "a second type 1 before a length past the unit"),
    row(2, "01 04 03 03 03 00 01 04 03 03 03 00", 20, "a second type 1 that is as it should be"),
    row(3, "01 04 03 03 03 00 02 00 01", 20, "a second type 1 after another type"),
    row(2, "01 04 03 03 03 00 02 00", 0, "type 1 and another type"),
    row(2, "01 01 80 01", 19, "a number of the first type 1 before the second"),
];

/// The first byte of a number.
const FIRST_BYTES: &[Row] = &[
    row(1, "02 80", 19, "a leading 80 as the last byte"),
    row(1, "02 80 00", 19, "length 0 padded"),
    row(1, "02 80 01 AA", 19, "length 1 padded"),
    row(1, "01 80 04 03 03 03 00", 19, "length of type 1 padded"),
    row(2, "02 00 02 80 00", 19, "length 0 of the second extension padded"),
    row(1, "01 01 80", 19, "a leading 80 as the last byte of the value and the unit"),
    row(1, "01 01 80 01", 19, "a leading 80 as the last byte of the value"),
    row(1, "01 05 80 03 03 03 00", 19, "W padded"),
    row(1, "01 05 03 80 03 03 00", 19, "k padded"),
    row(1, "01 05 03 03 80 03 00", 19, "n padded"),
    row(1, "01 05 03 03 03 80 00", 19, "seed padded"),
    row(1, "01 04 03 03 03 80", 19, "a leading 80 where the seed ends the value"),
    row(1, "01 04 00 00 00 00", 0, "0 in its one form"),
    row(1, "01 06 81 80 00 03 03 00", 0, "80 inside a number"),
    row(1, "01 08 03 03 03 81 80 80 80 00", 0, "80 at all three places inside a number"),
    row(1, "02 81 80 00", 6, "80 inside a length, past the unit"),
];

/// The fifth byte of a number.
const FIFTH_BYTES: &[Row] = &[
    row(1, "02 8F FF FF FF 7F", 6, "length 4294967295, past the unit"),
    row(1, "02 90 80 80 80 00", 19, "length 4294967296"),
    row(1, "02 FF FF FF FF 7F", 19, "the largest length of five bytes"),
    row(1, "02 81 80 80 80 00", 6, "the smallest length of five bytes, past the unit"),
    row(1, "02 81 80 80 80 80", 19, "a length of more than five bytes, cut off after them"),
    row(1, "02 81 80 80 80 80 00", 19, "a length of six bytes"),
    row(1, "02 8F FF FF FF FF 7F", 19, "a length of six bytes"),
    row(1, "01 08 8F FF FF FF 7F 03 03 00", 0, "W 4294967295"),
    row(1, "01 08 90 80 80 80 00 03 03 00", 19, "W 4294967296"),
    row(1, "01 08 03 03 03 8F FF FF FF 7F", 0, "seed 4294967295"),
    row(1, "01 08 03 03 03 90 80 80 80 00", 19, "seed 4294967296"),
    row(1, "01 08 03 03 03 81 80 80 80 80", 19, "a seed of more than five bytes, cut off after them"),
    row(1, "01 09 03 03 03 81 80 80 80 80 00", 19, "a seed of six bytes"),
    row(1, "01 07 03 03 03 90 80 80 80", 20, "a seed cut off after four bytes"),
    row(1, "01 07 03 03 03 90 80 80 80 00", 20, "a seed cut off after four bytes, the fifth after the value"),
    row(1, "01 04 FF FF FF FF", 20, "W cut off after four bytes"),
];

/// The last byte of a length.
const LENGTHS: &[Row] = &[
    row(1, "01 05 80", 6, "past the unit, before a leading 80"),
    row(1, "01 05", 6, "past the unit by all of the value"),
    row(1, "01 05 03 03 03 00", 6, "past the unit by one byte, before the value's end is seen"),
    row(1, "01 06 03 03 03 00 80", 6, "past the unit by one byte, before a fifth number"),
    row(1, "02 01", 6, "past the unit in type 2"),
    row(1, "02 03 80 80", 6, "past the unit by one byte in type 2"),
    row(1, "02 02 80 80", 0, "up to the unit's end"),
    row(1, "02 01 80 80", 0, "up to the symbol"),
    row(1, "02 04 80 FF 00 90", 0, "a value that is passed over"),
    row(1, "01 04 03 03 03 00", 0, "type 1 up to the unit's end"),
    row(1, "01 04 03 03 03 00 80", 0, "type 1 up to the symbol"),
];

/// The end of type 1's value.
const VALUE_ENDS: &[Row] = &[
    row(1, "01 00", 20, "an empty value at the unit's end"),
    row(1, "01 00 03 03 03 00", 20, "an empty value"),
    row(2, "01 00", 20, "an empty value before a missing type"),
    row(1, "01 01 03", 20, "one number"),
    row(1, "01 03 03 03 03", 20, "three numbers at the unit's end"),
    row(1, "01 03 03 03 03 00", 20, "three numbers, the fourth after the value"),
    row(1, "01 04 03 03 03 81", 20, "an unfinished number at the unit's end"),
    row(1, "01 04 03 03 03 81 00", 20, "an unfinished number, its end after the value"),
    row(1, "01 01 81", 20, "an unfinished W"),
];

/// A byte after the fourth number.
const FIFTH_NUMBERS: &[Row] = &[
    row(1, "01 05 03 03 03 00 00", 20, "a fifth number"),
    row(1, "01 05 03 03 03 00 80", 20, "a leading 80"),
    row(1, "01 06 03 03 03 00 80 00", 20, "a padded fifth number"),
    row(1, "01 05 03 03 03 00 81", 20, "an unfinished fifth number"),
    row(1, "01 0A 03 03 03 00 90 80 80 80 80 00", 20, "a fifth number of six bytes"),
];

/// The header comes before the extensions.
const NO_EXTENSIONS: &[Row] = &[row(0, "", 5, "count 0"), row(0, "00 80", 5, "count 0 before a type 0")];

#[test]
fn first_byte_that_cannot_be_accepted() {
    let tables = [UNIT_ENDS, TYPES, FIRST_BYTES, FIFTH_BYTES, LENGTHS, VALUE_ENDS, FIFTH_NUMBERS, NO_EXTENSIONS];
    for Row { count, bytes, number, why } in tables.into_iter().flatten() {
        let bytes = bytes.split_whitespace().map(|byte| u8::from_str_radix(byte, 16).unwrap());
        let unit: Vec<u8> = [0x10, *count, 0, 1, 0, 1].into_iter().chain(bytes).collect();
        let answer = units::read(&unit, Fault::None).unwrap();
        assert_eq!(answer.err().unwrap_or(0), *number, "{unit:02X?}: {why}");
    }
}

/// A block takes the units of its own code and refuses those of the others, of which two have its k: only n tells them apart. Whatever else
/// is wrong with them comes after that.
#[test]
fn units_of_other_codes() {
    for own in codes::ALL {
        for other in codes::ALL {
            for w in [1, 16, 128] {
                let record = Record { code: own.number, w, protocol: 5, lsc: 1000, fill: own.k };
                let due = if own.number == other.number { Ok(Taken::Kept) } else { Err(7) };
                for lwc in [1, 512, 513, other.k, other.k + 1, other.n] {
                    let sent = Record { code: other.number, fill: other.k, ..record };
                    assert_eq!(taken(record, &written(other, sent, lwc)), due, "{record:?}, LWC {lwc}");
                    let foreign = written(other, Record { lsc: 1001, ..sent }, lwc);
                    assert_eq!(taken(record, &foreign), due.and(Err(8)), "{record:?}, LWC {lwc}, foreign");
                    // The same in a short block, where the LWC may be idle.
                    let short = Record { fill: 1, ..record };
                    let idle = if (2..=own.k).contains(&lwc) { due.and(Err(14)) } else { due };
                    assert_eq!(taken(short, &written(other, sent, lwc)), idle, "{short:?}, LWC {lwc}");
                    assert_eq!(taken(short, &foreign), due.and(Err(8)), "{short:?}, LWC {lwc}, foreign");
                }
            }
        }
    }
}

/// The unit of a symbol, which the archive and the model write alike.
fn written(code: &model::Code, record: Record, lwc: usize) -> Vec<u8> {
    let symbol: Vec<u8> = (0..record.w).map(|i| (i * 7 + lwc) as u8).collect();
    let unit = model::units::write(code, record.w, record.protocol, record.lsc, lwc, &symbol);
    let mut ours = vec![0xA5; unit.len()];
    ours::write(record, lwc, &symbol, &mut ours).unwrap();
    assert_eq!(ours, unit, "{record:?}, LWC {lwc}");
    unit
}

/// What a new block says of a unit, as the model's does, with the same in its buffers after that.
fn taken(record: Record, unit: &[u8]) -> Result<Taken, u8> {
    let mut model = model::blocks::Block::open(record, Fault::None).unwrap();
    let (mut symbols, mut marks) = (model.symbols().to_vec(), model.marks().to_vec());
    let answer = ours::take(record, &mut symbols, &mut marks, unit);
    assert_eq!(answer, model.take(unit), "{record:?}, {unit:02X?}");
    assert!(symbols == model.symbols() && marks == model.marks(), "{record:?}, {unit:02X?}");
    answer
}

/// Each k of the standard's nine codes with each n: a block takes its own alone.
#[test]
fn every_k_and_n() {
    for own in codes::ALL {
        let record = Record { code: own.number, w: 2, protocol: 5, lsc: 1000, fill: own.k };
        for k in [512, 2048, 16_384] {
            for n in [768, 3072, 24_576, 640, 2560, 20_480, 576, 2304, 18_432] {
                let mut draft = Draft::proper(own, 2, 5, 1000, own.n, &[1, 2]);
                draft.extensions = vec![Extension::coding([2, k, n, 0])];
                let due = if (k, n) == (own.k, own.n) { Ok(Taken::Kept) } else { Err(7) };
                assert_eq!(taken(record, &draft.bytes()), due, "C{}, k {k}, n {n}", own.number);
            }
        }
    }
}

/// The sample SDNVs of the requirements, as the seed of a unit.
#[test]
fn sample_sdnvs() {
    let read_seed = |sdnv: &[u8]| {
        let mut unit = vec![0x10, 1, 0, 1, 0, 1, 1, 3 + sdnv.len() as u8, 1, 2, 3];
        unit.extend(sdnv);
        ours::read(&unit).map(|parts| parts.coding)
    };
    let seed = |seed| Ok(Some(Parameters { w: 1, k: 2, n: 3, seed }));
    assert_eq!(read_seed(&[0x7F]), seed(127));
    assert_eq!(read_seed(&[0x81, 0x00]), seed(128));
    assert_eq!(read_seed(&[0x86, 0x00]), seed(768));
    assert_eq!(read_seed(&[0x8F, 0xFF, 0xFF, 0xFF, 0x7F]), seed(4_294_967_295));
    assert_eq!(read_seed(&[0x81, 0x80, 0x00]), seed(16_384));
    assert_eq!(read_seed(&[0x90, 0x80, 0x80, 0x80, 0x00]), Err(19));
    assert_eq!(read_seed(&[0x90, 0x80, 0x80, 0x80]), Err(20));
    assert_eq!(read_seed(&[0x80, 0x01]), Err(19));
}

/// Those of a record that depend on W.
fn sizes_of(code: usize, w: usize, fill: usize) -> [usize; 5] {
    let record = ours::record(Record { code, w, protocol: 0, lsc: 1, fill });
    [record.information_bytes(), record.parity_bytes(), record.symbol_bytes(), record.work_bytes(), record.unit_bytes()]
}

#[test]
fn sizes() {
    for code in codes::ALL {
        let ours = Code::from_number(code.number);
        assert_eq!([ours.n(), ours.k(), ours.m(), ours.work_words()], [code.n, code.k, code.m, code.work_words()]);
        for w in 1..=1024 {
            let unit = model::units::write(code, w, 1, 1, 1, &vec![0; w]).len();
            // Only the information depends on the fill.
            for fill in [1, 2, code.q, code.k - 1, code.k] {
                assert_eq!(sizes_of(code.number, w, fill), [fill * w, code.m * w, code.n * w, code.m * w, unit]);
            }
            for fill in [0, code.k + 1, code.n, (1 << 32) + 1, usize::MAX] {
                assert_eq!(sizes_of(code.number, w, fill), [0, code.m * w, code.n * w, code.m * w, unit]);
            }
        }
        for w in [0, 1025, usize::MAX] {
            assert_eq!(sizes_of(code.number, w, code.k), [0; 5]);
        }
    }
    for none in [0, 3, 6, 9, 10, 257, (1 << 32) + 1, usize::MAX] {
        let code = Code::from_number(none);
        assert_eq!([code.n(), code.k(), code.m(), code.work_words()], [0; 4]);
        assert_eq!(sizes_of(none, 1, 1), [0; 5]);
    }
}

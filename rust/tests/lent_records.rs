//! What the archive leaves in the records that it is lent, called as C calls it: its answer where the call is not refused, else what they held.
#![allow(unsafe_code)]
mod compare;
mod model;

use compare::drafts::{Draft, Extension};
use compare::unit_forms::any_unit;
use compare::units::Reader;
// It brings the archive.
use lipvezor as _;
use model::answers::{Report, Taken, UnitParts, Verdict};
use model::refusals::Record;
use model::{calls as model_calls, codes, encoder, units, Code, Fault};

mod c {
    #[repr(C)]
    pub struct Block {
        pub code: usize,
        pub w: usize,
        pub protocol: usize,
        pub lsc: usize,
        pub fill: usize,
    }

    /// A record of two buffers: `lipvezor_buffers`, and `lipvezor_work`, whose first are words.
    #[repr(C)]
    #[derive(Clone, Copy, Debug, PartialEq)]
    pub struct Buffers<T> {
        pub first: *mut T,
        pub first_length: usize,
        pub second: *mut u8,
        pub second_length: usize,
    }

    extern "C" {
        pub fn lipvezor_read(unit: *const u8, unit_length: usize, parts: *mut [usize; 10]) -> u8;
        pub fn lipvezor_take(
            block: *const Block,
            buffers: *mut Buffers<u8>,
            unit: *const u8,
            unit_length: usize,
            taken: *mut [usize; 1],
        ) -> u8;
        pub fn lipvezor_close(block: *const Block, buffers: *mut Buffers<u8>, work: *mut Buffers<u64>, report: *mut [usize; 4]) -> u8;
    }
}

fn buffers<T>(first: &mut [T], second: &mut [u8]) -> c::Buffers<T> {
    c::Buffers { first: first.as_mut_ptr(), first_length: first.len(), second: second.as_mut_ptr(), second_length: second.len() }
}

fn block(record: Record) -> c::Block {
    c::Block { code: record.code, w: record.w, protocol: record.protocol, lsc: record.lsc, fill: record.fill }
}

/// What a record holds before a call.
const FILLINGS: [usize; 3] = [0, usize::MAX, 0x0123_4567_89AB_CDEF];

/// Numbers on either side of a record, which stay.
const GUARD: usize = 8;

/// Calls with a record of N numbers that holds a filling: 0 and what it was given, or a refusal's number, by which it still holds that.
fn lend<const N: usize>(filling: usize, label: &str, call: impl FnOnce(*mut [usize; N]) -> u8) -> Result<[usize; N], u8> {
    let mut numbers = vec![filling; GUARD + N + GUARD];
    let number = call(numbers[GUARD..][..N].as_mut_ptr().cast());
    let (before, rest) = numbers.split_at(GUARD);
    let (record, after) = rest.split_at(N);
    assert!(before.iter().chain(after).all(|&number| number == filling), "{label}: written beside the record");
    if number != 0 {
        assert_eq!(record, [filling; N], "{label}: refused {number}");
        return Err(number);
    }
    Ok(record.try_into().unwrap())
}

fn read(unit: &[u8], filling: usize) -> Result<[usize; 10], u8> {
    lend(filling, &format!("read of {unit:02X?}"), |parts| unsafe { c::lipvezor_read(unit.as_ptr(), unit.len(), parts) })
}

/// The model's parts of a unit as numbers.
fn numbers(parts: UnitParts) -> [usize; 10] {
    let UnitParts { protocol, count, lwc, lsc, symbol, coding } = parts;
    let [came, w, k, n, seed] = coding.map_or([0; 5], |coding| [1, coding.w, coding.k, coding.n, coding.seed]);
    [protocol, count, lwc, lsc, symbol, came, w, k, n, seed]
}

#[test]
fn parts_of_units() {
    let mut random = compare::seeded();
    let (code, w) = (&codes::C1, 3);
    let reader = Reader::new(code, w, Fault::None);
    let mut refused = [0; 21];
    let (mut with_coding, mut without) = (0, 0);
    for _ in 0..20_000 {
        let unit = any_unit(&reader, code, w, &mut random);
        let due = units::read(&unit, Fault::None);
        for filling in FILLINGS {
            assert_eq!(read(&unit, filling), due.map(numbers), "read of {unit:02X?}");
        }
        match due {
            Ok(UnitParts { coding: Some(_), .. }) => with_coding += 1,
            Ok(_) => without += 1,
            Err(number) => refused[usize::from(number)] += 1,
        }
    }
    println!("read {with_coding} units with coding parameters, {without} without; refused {refused:?}");
    assert!([with_coding, without, refused[5], refused[6], refused[19], refused[20]].iter().all(|&times| times > 100));
}

/// One take: a unit, and the mark and last byte stored at its position before.
#[derive(Clone)]
struct Taking {
    record: Record,
    draft: Draft,
    cut: usize,
    mark: u8,
    stored: u8,
    short: usize,
}

const SYMBOL: [u8; 3] = [7, 8, 9];

fn taking() -> Taking {
    let record = Record { code: 1, w: 3, protocol: 5, lsc: 1000, fill: 512 };
    let draft = Draft::proper(&codes::C1, 3, 5, 1000, 512, &SYMBOL);
    Taking { record, draft, cut: usize::MAX, mark: 0, stored: 9, short: 0 }
}

fn take(taking: &Taking, filling: usize, label: &str) -> Result<[usize; 1], u8> {
    let mut unit = taking.draft.bytes();
    unit.truncate(taking.cut);
    let (mut symbols, mut marks) = (vec![0x5A; 768 * 3 - taking.short], vec![0; 768]);
    symbols[511 * 3..][..3].copy_from_slice(&[7, 8, taking.stored]);
    marks[511] = taking.mark;
    let mut due = (symbols.clone(), marks.clone());
    let answer_due = model_calls::take(taking.record, &mut due.0, &mut due.1, &unit, Fault::None).map(|taken| match taken {
        Taken::Kept => [1],
        Taken::Repeated => [2],
    });

    let lent = buffers(&mut symbols, &mut marks);
    let mut after = lent;
    let answer =
        lend(filling, label, |taken| unsafe { c::lipvezor_take(&block(taking.record), &mut after, unit.as_ptr(), unit.len(), taken) });
    assert_eq!((answer, after), (answer_due, lent), "{label}");
    assert!((symbols, marks) == due, "{label}: buffers");
    answer
}

#[test]
fn results_of_takes() {
    // The result of a take that is not refused.
    type Case = (&'static str, Result<usize, u8>, fn(&mut Taking));
    let cases: [Case; 31] = [
        ("kept", Ok(1), |_| {}),
        ("kept over a filled symbol", Ok(1), |t| t.mark = 2),
        ("repeated", Ok(2), |t| t.mark = 1),
        ("code 3", Err(1), |t| t.record.code = 3),
        ("code 6", Err(1), |t| t.record.code = 6),
        ("W 0", Err(2), |t| t.record.w = 0),
        ("W 1025", Err(2), |t| t.record.w = 1025),
        ("LSC 0", Err(3), |t| t.record.lsc = 0),
        ("LSC 0 and fill 0", Err(3), |t| (t.record.lsc, t.record.fill) = (0, 0)),
        ("fill 0", Err(13), |t| t.record.fill = 0),
        ("fill k + 1", Err(13), |t| t.record.fill = 513),
        ("fill 0 and symbols one short", Err(13), |t| (t.record.fill, t.short) = (0, 1)),
        ("symbols one short", Err(4), |t| t.short = 1),
        ("C4, with buffers of C1", Err(4), |t| t.record.code = 4),
        ("no bytes", Err(5), |t| t.cut = 0),
        ("version 2", Err(5), |t| t.draft.version = 2),
        ("cut in the extension", Err(6), |t| t.cut = 9),
        ("a length padded", Err(19), |t| t.draft.extensions[0].length.insert(0, 0x80)),
        ("type 255", Err(20), |t| t.draft.extensions.push(Extension::new(255, vec![]))),
        ("seed 1", Err(7), |t| t.draft.extensions[0] = Extension::coding([3, 512, 768, 1])),
        ("n of C4", Err(7), |t| t.draft.extensions[0] = Extension::coding([3, 512, 640, 0])),
        ("another LSC", Err(8), |t| t.draft.lsc += 1),
        ("LWC n + 1", Err(9), |t| t.draft.lwc = 769),
        ("fill LWC - 1", Err(14), |t| t.record.fill = 511),
        ("fill 1", Err(14), |t| t.record.fill = 1),
        ("fill 1, and another LSC", Err(8), |t| (t.record.fill, t.draft.lsc) = (1, 1001)),
        ("fill LWC - 1, and a symbol one long", Err(14), |t| {
            t.record.fill = 511;
            t.draft.symbol.push(0);
        }),
        ("fill LWC - 1, and mark 255", Err(14), |t| (t.record.fill, t.mark) = (511, 255)),
        ("a symbol one long", Err(10), |t| t.draft.symbol.push(0)),
        ("mark 3", Err(11), |t| t.mark = 3),
        ("heard with other bytes", Err(12), |t| (t.mark, t.stored) = (1, 10)),
    ];
    for (label, due, change) in cases {
        let mut taking = taking();
        change(&mut taking);
        for filling in FILLINGS {
            assert_eq!(take(&taking, filling, label), due.map(|result| [result]), "{label}");
        }
    }
}

/// One close: how many positions are lost, from the first on, and what is wrong.
#[derive(Clone)]
struct Closing {
    record: Record,
    /// How many information symbols are not zero.
    sent: usize,
    lost: usize,
    /// Added to the last symbol's last byte.
    wrong: u8,
    /// The last position's mark.
    last: u8,
    /// What the work buffers have too many.
    words_more: usize,
    bytes_more: usize,
}

fn close(closing: &Closing, code: &Code, filling: usize, label: &str) -> Result<[usize; 4], u8> {
    let w = 2;
    let mut information = vec![0; code.k * w];
    compare::seeded().fill(&mut information[..closing.sent.min(code.k) * w]);
    let mut symbols = encoder::codeword(code, w, &information);
    *symbols.last_mut().unwrap() ^= closing.wrong;
    let mut marks = vec![1; code.n];
    marks[..closing.lost].fill(0);
    marks[code.n - 1] = closing.last;
    let mut words = vec![0x1111_2222_3333_4444u64; code.work_words() + closing.words_more];
    let mut bytes = vec![0xA5; code.m * w + closing.bytes_more];
    let mut due = (symbols.clone(), marks.clone(), words.clone(), bytes.clone());
    let answer_due = model_calls::close(closing.record, &mut due.0, &mut due.1, &mut due.2, &mut due.3, Fault::None).map(|report| {
        let Report { verdict, heard, filled, left } = report;
        let verdict = match verdict {
            Verdict::Whole => 1,
            Verdict::Ambiguous => 2,
            Verdict::Inconsistent => 3,
        };
        [verdict, heard, filled, left]
    });

    let lent = (buffers(&mut symbols, &mut marks), buffers(&mut words, &mut bytes));
    let mut after = lent;
    let answer = lend(filling, label, |report| unsafe { c::lipvezor_close(&block(closing.record), &mut after.0, &mut after.1, report) });
    assert_eq!((answer, after), (answer_due, lent), "{label}");
    assert!((symbols, marks, words, bytes) == due, "{label}: buffers");
    answer
}

#[test]
fn reports_of_closes() {
    // The verdict of a close that is not refused.
    type Case = (&'static str, Result<usize, u8>, fn(&mut Closing));
    let cases: [Case; 24] = [
        ("all heard", Ok(1), |_| {}),
        ("a few lost", Ok(1), |c| c.lost = 20),
        ("too many lost", Ok(2), |c| c.lost = 400),
        ("nothing but the last heard", Ok(2), |c| c.lost = usize::MAX),
        ("a wrong symbol", Ok(3), |c| c.wrong = 1),
        ("a wrong symbol and a few lost", Ok(3), |c| (c.wrong, c.lost) = (1, 20)),
        ("code 0", Err(1), |c| c.record.code = 0),
        ("W 0", Err(2), |c| c.record.w = 0),
        ("short, all heard", Ok(1), |c| (c.record.fill, c.sent) = (100, 100)),
        ("short, a few lost", Ok(1), |c| (c.record.fill, c.sent, c.lost) = (100, 100, 20)),
        ("short, nothing but the last heard", Ok(2), |c| (c.record.fill, c.sent, c.lost) = (100, 100, usize::MAX)),
        ("short, and a fill one more", Ok(1), |c| (c.record.fill, c.sent) = (101, 100)),
        ("short, and a fill one less, whose symbol is then none", Ok(3), |c| (c.record.fill, c.sent) = (99, 100)),
        ("fill 1", Ok(1), |c| (c.record.fill, c.sent) = (1, 1)),
        ("LSC 65535 and fill 0", Err(3), |c| (c.record.lsc, c.record.fill) = (65535, 0)),
        ("fill 0", Err(13), |c| c.record.fill = 0),
        ("fill above k", Err(13), |c| c.record.fill = 2049),
        ("fill 0 and words one long", Err(13), |c| (c.record.fill, c.words_more) = (0, 1)),
        ("fill usize::MAX", Err(13), |c| c.record.fill = usize::MAX),
        ("LSC 65535", Err(3), |c| c.record.lsc = 65535),
        ("protocol ID 8", Err(3), |c| c.record.protocol = 8),
        ("words one long", Err(4), |c| c.words_more = 1),
        ("bytes one long", Err(4), |c| c.bytes_more = 1),
        ("mark 3", Err(11), |c| c.last = 3),
    ];
    for code in codes::ALL {
        for (label, due, change) in cases {
            let record = Record { code: code.number, w: 2, protocol: 5, lsc: 1000, fill: code.k };
            let mut closing = Closing { record, sent: code.k, lost: 0, wrong: 0, last: 1, words_more: 0, bytes_more: 0 };
            change(&mut closing);
            // As large a share of m as in C1.
            closing.lost = (closing.lost.saturating_mul(code.m) / 256).min(code.n - 1);
            for filling in FILLINGS {
                let answer = close(&closing, code, filling, label);
                assert_eq!(answer.map(|[verdict, ..]| verdict), due, "{label}");
                if let Ok([_, heard, filled, left]) = answer {
                    assert_eq!(heard + filled + left, closing.record.fill + code.m, "{label}");
                }
            }
        }
    }
}

//! Take: all but 15, 16 and 17; and read: 5, 6, 19 and 20.
use crate::compare::drafts::{padded_sdnv, Draft, Extension};
use crate::compare::ours;
use crate::compare::units::read;
use crate::edits::{
    check_all, code_edits, edit, fill_edits, idle_edits, label_edits, length_edits, pattern, position_edits, Edit, HasLwc, HasNumbers, Lwc,
    Numbers, Off, Shape,
};
use crate::model::units::sdnv;
use crate::model::{calls as model, codes, Code, Fault};

#[derive(Clone)]
struct Input {
    numbers: Numbers,
    symbols: Off,
    marks: Off,
    lwc: Lwc,
    /// The mark at the unit's position.
    mark: u8,
    /// Whether the symbol stored there is the unit's.
    stored: bool,
    /// The unit's W, k, n and seed, of the proper ones.
    coding: fn([usize; 4]) -> [usize; 4],
    /// The symbol's length, of W.
    length: fn(usize) -> usize,
    /// Further changes of the proper unit, in order.
    unit: Vec<fn(&mut Draft)>,
    /// Only so many bytes of it.
    cut: usize,
}

impl HasNumbers for Input {
    fn numbers(&mut self) -> &mut Numbers {
        &mut self.numbers
    }
}

impl HasLwc for Input {
    fn lwc(&mut self) -> &mut Lwc {
        &mut self.lwc
    }
}

fn check(input: &Input, label: &str) -> u8 {
    let (record, shape) = (input.numbers.record(), input.numbers.shape());
    let (Shape { code, w, .. }, lwc) = (shape, (input.lwc)(&shape));
    let symbol: Vec<u8> = (0..w).map(|i| (i * 11) as u8).collect();
    let mut draft = Draft::proper(code, w, record.protocol % 8, record.lsc % 65536, lwc, &symbol);
    draft.extensions = vec![Extension::coding((input.coding)([w, code.k, code.n, 0]))];
    draft.symbol.resize((input.length)(w), 0);
    input.unit.iter().for_each(|change| change(&mut draft));
    let mut unit = draft.bytes();
    unit.truncate(input.cut);

    // Marks at other positions are any.
    let (mut symbols, mut marks) = (pattern(code.n * w, input.symbols), pattern(code.n, input.marks));
    if let Some(position) = code.position(lwc, Fault::None) {
        if let (Some(mark), Some(stored)) = (marks.get_mut(position), symbols.get_mut(position * w..(position + 1) * w)) {
            *mark = input.mark;
            stored.copy_from_slice(&symbol);
            stored[w - 1] ^= if input.stored { 0 } else { 0x40 };
        }
    }
    let (mut expected_symbols, mut expected_marks): (Vec<u8>, Vec<u8>) = (symbols.clone(), marks.clone());

    if let Err(difference) = read(&unit, Fault::None) {
        panic!("{label}: {difference:?}");
    }
    let answer = ours::take(record, &mut symbols, &mut marks, &unit);
    assert_eq!(answer, model::take(record, &mut expected_symbols, &mut expected_marks, &unit, Fault::None), "{label}");
    assert!(symbols == expected_symbols && marks == expected_marks, "{label}: buffers");
    answer.err().unwrap_or(0)
}

fn header_edits() -> Vec<Edit<Input>> {
    vec![
        edit(5, "no bytes", |i| i.cut = 0),
        edit(5, "5 bytes", |i| i.cut = 5),
        edit(5, "version 0", |i| i.unit.push(|u| u.version = 0)),
        edit(5, "version 2", |i| i.unit.push(|u| u.version = 2)),
        edit(5, "version 9", |i| i.unit.push(|u| u.version = 9)),
        edit(5, "reserved bit", |i| i.unit.push(|u| u.reserved = 1)),
        edit(5, "no extensions", |i| i.unit.push(|u| u.count = Some(0))),
    ]
}

/// Adds a type to be passed over, with any length bytes and four value bytes.
fn pass(u: &mut Draft, length: Vec<u8>) {
    u.extensions.push(Extension { kind: 9, length, value: vec![1; 4] });
}

/// Puts a type 1 before all others.
fn code(u: &mut Draft, value: &[u8]) {
    code_as(u, sdnv(value.len()), value);
}

/// The same, with any length bytes.
fn code_as(u: &mut Draft, length: Vec<u8>, value: &[u8]) {
    u.extensions.insert(0, Extension { kind: 1, length, value: value.to_vec() });
}

/// Two of type 1, the second with any length bytes.
fn code_twice(u: &mut Draft, length: Vec<u8>) {
    u.extensions = vec![coding(), Extension { length, ..coding() }];
}

/// Says one extension more, and has these bytes in its place.
fn go_on(u: &mut Draft, bytes: &[u8]) {
    u.count = Some(u.extensions.len() as u8 + 1);
    u.symbol = bytes.to_vec();
}

/// Ends the unit with a type and what is there of its length and value.
fn end_in(u: &mut Draft, kind: u8, rest: &[u8]) {
    u.extensions.push(Extension { kind, length: rest.to_vec(), value: vec![] });
    u.symbol.clear();
}

fn coding() -> Extension {
    Extension::coding([3, 512, 768, 0])
}

/// 6.
fn end_edits() -> Vec<Edit<Input>> {
    vec![
        edit(6, "6 bytes", |i| i.cut = 6),
        edit(6, "7 bytes", |i| i.cut = 7),
        edit(6, "9 bytes", |i| i.cut = 9),
        edit(6, "one extension too few", |i| i.unit.push(|u| go_on(u, &[]))),
        edit(6, "a type at the end", |i| i.unit.push(|u| end_in(u, 9, &[]))),
        edit(6, "an unfinished length at the end", |i| i.unit.push(|u| end_in(u, 9, &[0x81]))),
        edit(6, "a length of four unfinished bytes at the end", |i| i.unit.push(|u| end_in(u, 9, &[0x8F, 0xFF, 0xFF, 0xFF]))),
        edit(10, "a length up to the end", |i| i.unit.push(|u| end_in(u, 9, &[2, 1, 1]))),
        edit(6, "a length past the end", |i| i.unit.push(|u| end_in(u, 9, &[3, 1, 1]))),
        edit(6, "the largest length of four bytes", |i| i.unit.push(|u| pass(u, sdnv((1 << 28) - 1)))),
        edit(6, "the smallest length of five bytes", |i| i.unit.push(|u| pass(u, sdnv(1 << 28)))),
        edit(6, "length 4294967295", |i| i.unit.push(|u| pass(u, sdnv(4_294_967_295)))),
        edit(6, "a length of type 1 past the end, W padded", |i| i.unit.push(|u| code_as(u, sdnv(4_294_967_295), &[0x80, 3]))),
    ]
}

/// 19.
fn number_edits() -> Vec<Edit<Input>> {
    vec![
        edit(0, "the largest length of one byte", |i| i.unit.push(|u| u.extensions.push(Extension::new(9, vec![1; 127])))),
        edit(0, "the smallest length of two bytes", |i| i.unit.push(|u| u.extensions.push(Extension::new(9, vec![1; 128])))),
        edit(0, "the largest length of two bytes", |i| i.unit.push(|u| u.extensions.push(Extension::new(9, vec![1; 16_383])))),
        edit(0, "the smallest length of three bytes", |i| i.unit.push(|u| u.extensions.push(Extension::new(9, vec![1; 16_384])))),
        edit(19, "a length padded", |i| i.unit.push(|u| pass(u, padded_sdnv(4, 1)))),
        edit(19, "a length padded to five bytes", |i| i.unit.push(|u| pass(u, padded_sdnv(4, 4)))),
        edit(19, "a length padded to six bytes", |i| i.unit.push(|u| pass(u, padded_sdnv(4, 5)))),
        edit(19, "a length of type 1 padded", |i| i.unit.push(|u| code_as(u, padded_sdnv(4, 1), &[3; 4]))),
        edit(19, "a leading 80 at the end", |i| i.unit.push(|u| end_in(u, 9, &[0x80]))),
        edit(19, "length 4294967296", |i| i.unit.push(|u| pass(u, sdnv(1 << 32)))),
        edit(19, "a length of six bytes", |i| i.unit.push(|u| pass(u, sdnv(1 << 35)))),
        edit(19, "a length of five unfinished bytes at the end", |i| i.unit.push(|u| end_in(u, 9, &[0x81, 0x80, 0x80, 0x80, 0x80]))),
        edit(19, "W padded", |i| i.unit.push(|u| code(u, &[0x80, 3, 3, 3, 0]))),
        edit(19, "k padded", |i| i.unit.push(|u| code(u, &[3, 0x80, 3, 3, 0]))),
        edit(19, "n padded", |i| i.unit.push(|u| code(u, &[3, 3, 0x80, 3, 0]))),
        edit(19, "seed padded", |i| i.unit.push(|u| code(u, &[3, 3, 3, 0x80, 0]))),
        edit(19, "a leading 80 at the value's end", |i| i.unit.push(|u| code(u, &[3, 3, 3, 0x80]))),
        edit(19, "seed 4294967296", |i| i.unit.push(|u| code(u, &[3, 3, 3, 0x90, 0x80, 0x80, 0x80, 0]))),
        edit(19, "a seed of six bytes", |i| i.unit.push(|u| code(u, &[3, 3, 3, 0x81, 0x80, 0x80, 0x80, 0x80, 0]))),
        edit(19, "a seed of five unfinished bytes", |i| i.unit.push(|u| code(u, &[3, 3, 3, 0x81, 0x80, 0x80, 0x80, 0x80]))),
    ]
}

/// 20.
fn kind_edits() -> Vec<Edit<Input>> {
    vec![
        edit(20, "type 0", |i| i.unit.push(|u| u.extensions.push(Extension::new(0, vec![])))),
        edit(20, "type 0 at the end", |i| i.unit.push(|u| end_in(u, 0, &[]))),
        edit(20, "one extension too few, 0 in its place", |i| i.unit.push(|u| go_on(u, &[0]))),
        edit(20, "type 255", |i| i.unit.push(|u| u.extensions.insert(0, Extension::new(255, vec![])))),
        edit(0, "type 2", |i| i.unit.push(|u| u.extensions.push(Extension::new(2, vec![0x80; 9])))),
        edit(0, "type 254 first", |i| i.unit.push(|u| u.extensions.insert(0, Extension::new(254, vec![])))),
        edit(20, "two of type 1", |i| i.unit.push(|u| code_twice(u, coding().length))),
        edit(20, "a second type 1 with a padded length", |i| i.unit.push(|u| code_twice(u, padded_sdnv(6, 1)))),
        edit(20, "a second type 1 past the end", |i| i.unit.push(|u| code_twice(u, sdnv(4_294_967_295)))),
        edit(20, "a second type 1 at the end", |i| {
            i.unit.push(|u| {
                u.extensions = vec![coding()];
                end_in(u, 1, &[]);
            })
        }),
        edit(20, "no numbers", |i| i.unit.push(|u| code(u, &[]))),
        edit(20, "three numbers", |i| i.unit.push(|u| code(u, &[3; 3]))),
        edit(20, "three numbers and a fourth after the value", |i| i.unit.push(|u| code_as(u, sdnv(3), &[3; 4]))),
        edit(20, "five numbers", |i| i.unit.push(|u| code(u, &[3; 5]))),
        edit(20, "a fifth number that begins with 80", |i| i.unit.push(|u| code(u, &[3, 3, 3, 3, 0x80]))),
        edit(20, "an unfinished number", |i| i.unit.push(|u| code(u, &[3, 3, 3, 0x83]))),
        edit(20, "four unfinished bytes", |i| i.unit.push(|u| code(u, &[3, 3, 3, 0x90, 0x80, 0x80, 0x80]))),
        edit(20, "an unfinished number at the end", |i| {
            i.unit.push(|u| {
                u.extensions.clear();
                end_in(u, 1, &[4, 3, 3, 3, 0x83]);
            })
        }),
    ]
}

/// The coding parameters with k and n of the first such code.
fn of_code(proper: [usize; 4], such: fn(&Code, [usize; 4]) -> bool) -> [usize; 4] {
    let code = codes::ALL.into_iter().find(|code| such(code, proper)).unwrap();
    [proper[0], code.k, code.n, proper[3]]
}

fn parameter_edits() -> Vec<Edit<Input>> {
    vec![
        edit(7, "no type 1", |i| i.unit.push(|u| u.extensions.iter_mut().for_each(|e| e.kind = e.kind.max(2)))),
        edit(7, "another W", |i| i.coding = |[w, k, n, seed]| [w + 1, k, n, seed]),
        edit(7, "W 16384, with 80 inside", |i| i.coding = |[_, k, n, seed]| [16_384, k, n, seed]),
        edit(7, "another k", |i| i.coding = |[w, k, n, seed]| [w, k - 1, n, seed]),
        edit(7, "another n", |i| i.coding = |[w, k, n, seed]| [w, k, n + 1, seed]),
        edit(7, "seed 1", |i| i.coding = |[w, k, n, _]| [w, k, n, 1]),
        edit(7, "the smallest seed of five bytes", |i| i.coding = |[w, k, n, _]| [w, k, n, 1 << 28]),
        edit(7, "seed 4294967295", |i| i.coding = |[w, k, n, _]| [w, k, n, 4_294_967_295]),
        edit(7, "another code of the same k", |i| i.coding = |proper| of_code(proper, |code, [_, k, n, _]| code.k == k && code.n != n)),
        edit(7, "a code of another k", |i| i.coding = |proper| of_code(proper, |code, [_, k, ..]| code.k != k)),
    ]
}

fn block_edits() -> Vec<Edit<Input>> {
    vec![
        edit(8, "another LSC", |i| i.unit.push(|u| u.lsc ^= 1)),
        edit(8, "an LSC of another high byte", |i| i.unit.push(|u| u.lsc ^= 0x8000)),
        edit(8, "another protocol", |i| i.unit.push(|u| u.protocol ^= 1)),
        edit(10, "a symbol one short", |i| i.length = |w| w - 1),
        edit(10, "a symbol one long", |i| i.length = |w| w + 1),
        edit(10, "a symbol twice as long", |i| i.length = |w| 2 * w),
        edit(0, "filled there", |i| i.mark = 2),
        edit(11, "mark 3", |i| i.mark = 3),
        edit(11, "mark 255", |i| i.mark = 255),
        edit(0, "heard there", |i| (i.mark, i.stored) = (1, true)),
        edit(12, "heard there with other bytes", |i| (i.mark, i.stored) = (1, false)),
    ]
}

#[test]
fn take() {
    let plain = Input {
        numbers: Numbers::PLAIN,
        symbols: Off::Exact,
        marks: Off::Exact,
        lwc: |s| s.fill,
        mark: 0,
        stored: false,
        coding: |proper| proper,
        length: |w| w,
        unit: Vec::new(),
        cut: usize::MAX,
    };
    let mut edits = code_edits();
    edits.extend(label_edits());
    edits.extend(fill_edits());
    edits.extend(length_edits!(symbols));
    edits.extend(length_edits!(marks));
    edits.extend(header_edits());
    edits.extend(end_edits());
    edits.extend(number_edits());
    edits.extend(kind_edits());
    edits.extend(parameter_edits());
    edits.extend(block_edits());
    edits.extend(position_edits());
    edits.extend(idle_edits());
    check_all(&plain, &edits, check);
}

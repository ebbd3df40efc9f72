//! Encode: 1, 2, 13 and 4. Show: 1, 2, 13, 4, 9 and 14. Write: 1, 2, 3, 13, 4, 9, 14 and 10.
use crate::compare::ours;
use crate::edits::{
    allowed, check_all, code_edits, edit, fill_edits, idle_edits, label_edits, length_edits, pattern, position_edits, Edit, HasLwc,
    HasNumbers, Lwc, Numbers, Off, Shape,
};
use crate::model::{calls as model, units, Fault};

#[derive(Clone)]
struct Input {
    numbers: Numbers,
    information: Off,
    parity: Off,
    symbol: Off,
    out: Off,
    lwc: Lwc,
}

impl HasNumbers for Input {
    fn numbers(&mut self) -> &mut Numbers {
        &mut self.numbers
    }
}

impl HasLwc for Input {
    fn lwc(&mut self) -> &mut Lwc {
        &mut self.lwc
    }
}

fn plain() -> Input {
    Input { numbers: Numbers::PLAIN, information: Off::Exact, parity: Off::Exact, symbol: Off::Exact, out: Off::Exact, lwc: |s| s.fill }
}

/// 9 and 14.
fn lwc_edits() -> Vec<Edit<Input>> {
    let mut edits = position_edits();
    edits.extend(idle_edits());
    edits.extend([
        edit(9, "LWC 65536", |i: &mut Input| i.lwc = |_| 65536),
        edit(9, "LWC 65537", |i: &mut Input| i.lwc = |_| 65537),
        edit(9, "LWC 2^32 + 1", |i: &mut Input| i.lwc = |_| (1 << 32) + 1),
        edit(9, "the largest LWC", |i: &mut Input| i.lwc = |_| usize::MAX),
    ]);
    edits
}

#[test]
fn encode() {
    let mut edits = code_edits();
    edits.extend(allowed(label_edits()));
    edits.extend(fill_edits());
    edits.extend(length_edits!(information));
    edits.extend(length_edits!(parity));
    check_all(&plain(), &edits, |input, label| {
        let (record, Shape { code, w, fill }) = (input.numbers.record(), input.numbers.shape());
        let information: Vec<u8> = pattern(fill * w, input.information);
        let mut parity = pattern(code.m * w, input.parity);
        let mut expected: Vec<u8> = parity.clone();
        let answer = ours::encode(record, &information, &mut parity);
        assert_eq!(answer, model::encode(record, &information, &mut expected, Fault::None), "{label}");
        assert!(parity == expected, "{label}: parity");
        answer.err().unwrap_or(0)
    });
}

#[test]
fn write() {
    let mut edits = code_edits();
    edits.extend(label_edits());
    edits.extend(fill_edits());
    edits.extend(length_edits!(out));
    edits.extend(lwc_edits());
    edits.extend([
        edit(10, "symbol one short", |i: &mut Input| i.symbol = Off::By(-1)),
        edit(10, "symbol one long", |i: &mut Input| i.symbol = Off::By(1)),
        edit(10, "symbol empty", |i: &mut Input| i.symbol = Off::Empty),
    ]);
    check_all(&plain(), &edits, |input, label| {
        let (record, shape) = (input.numbers.record(), input.numbers.shape());
        let (Shape { code, w, .. }, lwc) = (shape, (input.lwc)(&shape));
        let symbol: Vec<u8> = pattern(w, input.symbol);
        let size = units::write(code, w, 1, 1, 1, &vec![0; w]).len();
        let mut out = pattern(size, input.out);
        let mut expected: Vec<u8> = out.clone();
        let answer = ours::write(record, lwc, &symbol, &mut out);
        assert_eq!(answer, model::write(record, lwc, &symbol, &mut expected, Fault::None), "{label}");
        assert!(out == expected, "{label}: unit");
        answer.err().unwrap_or(0)
    });
}

#[test]
fn show() {
    let mut edits = code_edits();
    edits.extend(allowed(label_edits()));
    edits.extend(fill_edits());
    edits.extend(length_edits!(information));
    edits.extend(length_edits!(parity));
    edits.extend(length_edits!(out));
    edits.extend(lwc_edits());
    check_all(&plain(), &edits, |input, label| {
        let (record, shape) = (input.numbers.record(), input.numbers.shape());
        let (Shape { code, w, fill }, lwc) = (shape, (input.lwc)(&shape));
        let (information, parity): (Vec<u8>, Vec<u8>) = (pattern(fill * w, input.information), pattern(code.m * w, input.parity));
        let mut out = pattern(w, input.out);
        let mut expected: Vec<u8> = out.clone();
        let answer = ours::show(record, &information, &parity, lwc, &mut out);
        assert_eq!(answer, model::show(record, &information, &parity, lwc, &mut expected, Fault::None), "{label}");
        assert!(out == expected, "{label}: output");
        answer.err().unwrap_or(0)
    });
}

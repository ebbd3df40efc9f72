//! Open: 1, 2, 3, 13 and 4.
use crate::compare::ours;
use crate::edits::{check_all, code_edits, edit, fill_edits, label_edits, length_edits, pattern, HasNumbers, Numbers, Off, Shape};
use crate::model::{calls as model, Fault};

#[derive(Clone)]
struct Input {
    numbers: Numbers,
    symbols: Off,
    marks: Off,
}

impl HasNumbers for Input {
    fn numbers(&mut self) -> &mut Numbers {
        &mut self.numbers
    }
}

fn check(input: &Input, label: &str) -> u8 {
    let (record, Shape { code, w, .. }) = (input.numbers.record(), input.numbers.shape());
    let (mut symbols, mut marks) = (pattern(code.n * w, input.symbols), pattern(code.n, input.marks));
    let (mut expected_symbols, mut expected_marks): (Vec<u8>, Vec<u8>) = (symbols.clone(), marks.clone());

    let answer = ours::open(record, &mut symbols, &mut marks);
    assert_eq!(answer, model::open(record, &mut expected_symbols, &mut expected_marks, Fault::None), "{label}");
    assert!(symbols == expected_symbols && marks == expected_marks, "{label}: buffers");
    answer.err().unwrap_or(0)
}

#[test]
fn open() {
    let plain = Input { numbers: Numbers::PLAIN, symbols: Off::Exact, marks: Off::Exact };
    let mut edits = code_edits();
    edits.extend(label_edits());
    edits.extend(fill_edits());
    edits.extend(length_edits!(symbols));
    edits.extend(length_edits!(marks));
    check_all(&plain, &edits, check);
}

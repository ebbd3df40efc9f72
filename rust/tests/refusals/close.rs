//! Close: 1, 2, 3, 13, 4 and 11.
use crate::compare::cases::any_fill;
use crate::compare::random::Random;
use crate::compare::{closes, ours};
use crate::edits::{check_all, code_edits, edit, fill_edits, label_edits, length_edits, pattern, HasNumbers, Numbers, Off, Shape};
use crate::model::refusals::Record;
use crate::model::{calls as model, codes, encoder, Fault};

#[derive(Clone)]
struct Input {
    numbers: Numbers,
    symbols: Off,
    marks: Off,
    words: Off,
    bytes: Off,
    /// Marks at the first position, at those before, at and after the fill, at the last before the parity and the first of it, and at the last one.
    marked: [Option<u8>; 7],
}

impl HasNumbers for Input {
    fn numbers(&mut self) -> &mut Numbers {
        &mut self.numbers
    }
}

/// A codeword with a few marks of 0 and 2, at which the bytes are others; so are some at idle positions, with mark 1, too.
fn block(input: &Input) -> (Vec<u8>, Vec<u8>) {
    let Shape { code, w, fill } = input.numbers.shape();
    let mut random = Random::new(3);
    let mut information = vec![0; fill * w];
    random.fill(&mut information);
    let word = encoder::codeword(code, w, &information);

    let mut symbols = pattern(code.n * w, input.symbols);
    let shared = word.len().min(symbols.len());
    symbols[..shared].copy_from_slice(&word[..shared]);
    let mut marks = pattern(code.n, input.marks);
    marks.fill(1);
    for _ in 0..60 {
        let position = random.below(code.n);
        if let Some(mark) = marks.get_mut(position) {
            *mark = if (fill..code.k).contains(&position) { random.below(3) } else { 2 * random.below(2) } as u8;
        }
        if let Some(symbol) = symbols.get_mut(position * w..(position + 1) * w) {
            random.fill(symbol);
        }
    }
    let places = [0, fill - 1, fill, fill + 1, code.k - 1, code.k, code.n - 1];
    for (place, mark) in places.into_iter().zip(input.marked) {
        if let (Some(place), Some(mark)) = (marks.get_mut(place), mark) {
            *place = mark;
        }
    }
    (symbols, marks)
}

/// Closes in the archive and in the model.
fn compare(input: &Input, label: &str) -> u8 {
    let (record, Shape { code, w, .. }) = (input.numbers.record(), input.numbers.shape());
    let (mut symbols, mut marks) = block(input);
    let (mut words, mut bytes) = (pattern(code.work_words(), input.words), pattern(code.m * w, input.bytes));
    let mut expected = (symbols.clone(), marks.clone(), words.clone(), bytes.clone());

    let answer = ours::close(record, &mut symbols, &mut marks, &mut words, &mut bytes);
    let due = model::close(record, &mut expected.0, &mut expected.1, &mut expected.2, &mut expected.3, Fault::None);
    assert_eq!(answer, due, "{label}");
    assert!((symbols, marks, words, bytes) == expected, "{label}: buffers");
    answer.err().unwrap_or(0)
}

#[test]
fn close() {
    let plain =
        Input { numbers: Numbers::PLAIN, symbols: Off::Exact, marks: Off::Exact, words: Off::Exact, bytes: Off::Exact, marked: [None; 7] };
    let mut edits = code_edits();
    edits.extend(label_edits());
    edits.extend(fill_edits());
    edits.extend(length_edits!(symbols));
    edits.extend(length_edits!(marks));
    edits.extend(length_edits!(words));
    edits.extend(length_edits!(bytes));
    edits.extend([
        edit(0, "first mark 2", |i: &mut Input| i.marked[0] = Some(2)),
        edit(0, "first mark 0", |i: &mut Input| i.marked[0] = Some(0)),
        edit(11, "first mark 3", |i: &mut Input| i.marked[0] = Some(3)),
        edit(11, "mark 3 before the fill", |i: &mut Input| i.marked[1] = Some(3)),
        edit(0, "mark 2 at the fill", |i: &mut Input| i.marked[2] = Some(2)),
        edit(0, "mark 1 at the fill", |i: &mut Input| i.marked[2] = Some(1)),
        edit(11, "mark 3 at the fill", |i: &mut Input| i.marked[2] = Some(3)),
        edit(11, "mark 255 after the fill", |i: &mut Input| i.marked[3] = Some(255)),
        edit(0, "mark 1 at k - 1", |i: &mut Input| i.marked[4] = Some(1)),
        edit(11, "mark 3 at k - 1", |i: &mut Input| i.marked[4] = Some(3)),
        edit(11, "mark 3 at k", |i: &mut Input| i.marked[5] = Some(3)),
        edit(0, "last mark 2", |i: &mut Input| i.marked[6] = Some(2)),
        edit(11, "last mark 3", |i: &mut Input| i.marked[6] = Some(3)),
        edit(11, "last mark 255", |i: &mut Input| i.marked[6] = Some(255)),
    ]);
    check_all(&plain, &edits, compare);
}

/// Blocks that no list of calls leaves: any symbol bytes, marks of 0, 1 and 2 in any mixture, idle positions or not.
#[test]
fn close_of_any_buffers() {
    let mut random = Random::new(5);
    for round in 0..400 {
        // One in twenty of the longer codes.
        let code = if round % 20 == 0 {
            [&codes::C2, &codes::C5, &codes::C8][round / 20 % 3]
        } else {
            [&codes::C1, &codes::C4, &codes::C7][round % 3]
        };
        let fill = if round % 2 == 0 { code.k } else { any_fill(code, &mut random) };
        let record = Record { code: code.number, w: 1 + random.below(4), protocol: 1, lsc: 1, fill };
        let mut symbols = vec![0; code.n * record.w];
        random.fill(&mut symbols);
        // From some position on nothing is heard; with few heard, codewords may agree.
        let end = random.below(code.n);
        let marks = (0..code.n).map(|position| if position < end { random.below(3) as u8 } else { 2 * random.below(2) as u8 }).collect();
        closes::close(record, symbols, marks, &format!("round {round}"), Fault::None, random.next()).unwrap();
    }
}

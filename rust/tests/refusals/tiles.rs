//! Pack: 1, 2, 15, 13, 4, 16 and 17.
use crate::compare::ours;
use crate::edits::{
    allowed, check_all, code_and_width_edits, edit, fill_edits, label_edits, length_edits, narrow_edits, pattern, Edit, HasNumbers,
    Numbers, Off, Shape,
};
use crate::model::{calls as model, Fault};

#[derive(Clone)]
struct Input {
    numbers: Numbers,
    /// The tiles' lengths, of the fill and the bytes of a payload. They are true.
    lengths: fn(usize, usize) -> Vec<usize>,
    /// Makes the lengths, or how many joined bytes there are, wrong.
    wrong: fn(&mut Vec<usize>, &mut usize),
    out: Off,
}

impl HasNumbers for Input {
    fn numbers(&mut self) -> &mut Numbers {
        &mut self.numbers
    }
}

/// Both sides of 17. Where W is 5, no tiles have too many rows that haven't too many bytes.
fn rows_edits() -> Vec<Edit<Input>> {
    vec![
        edit(0, "no tiles", |i| i.lengths = |_, _| vec![]),
        edit(0, "a tile of one byte", |i| i.lengths = |_, _| vec![1]),
        edit(0, "a tile of one row", |i| i.lengths = |_, payload| vec![payload]),
        edit(0, "a tile of all rows", |i| i.lengths = |fill, payload| vec![fill * payload]),
        edit(0, "as many tiles as rows", |i| i.lengths = |fill, _| vec![1; fill]),
        edit(0, "as many tiles as rows, each of one", |i| i.lengths = |fill, payload| vec![payload; fill]),
        edit(17, "a tile of all rows and a byte", |i| i.lengths = |fill, payload| vec![fill * payload + 1]),
        edit(17, "a tile more than rows", |i| i.lengths = |fill, _| vec![1; fill + 1]),
        edit(17, "two tiles that share the last row", |i| i.lengths = |fill, payload| vec![(fill - 1) * payload + 1, 1]),
        edit(17, "two tiles that share the first row", |i| i.lengths = |fill, payload| vec![1, (fill - 1) * payload + 1]),
        edit(17, "as many tiles as rows, the last of two", |i| {
            i.lengths = |fill, payload| {
                let mut lengths = vec![1; fill];
                lengths[fill - 1] = payload + 1;
                lengths
            };
        }),
    ]
}

/// 16, whatever the true lengths are.
fn tiles_edits() -> Vec<Edit<Input>> {
    const HALF: usize = 1 << (usize::BITS - 1);
    vec![
        edit(16, "a byte more than the lengths", |i| i.wrong = |_, bytes| *bytes += 1),
        edit(16, "a length more than the bytes", |i| i.wrong = |lengths, _| lengths.push(1)),
        edit(16, "a first length 0", |i| i.wrong = |lengths, _| lengths.insert(0, 0)),
        edit(16, "a length 0 in the middle", |i| i.wrong = |lengths, _| lengths.insert(lengths.len() / 2, 0)),
        edit(16, "a last length 0", |i| i.wrong = |lengths, _| lengths.push(0)),
        edit(16, "a first length one larger", |i| {
            i.wrong = |lengths, _| match lengths.first_mut() {
                Some(first) => *first += 1,
                None => lengths.push(1),
            };
        }),
        edit(16, "no lengths for a byte or more", |i| i.wrong = |lengths, bytes| (*lengths, *bytes) = (vec![], *bytes + 1)),
        edit(16, "two lengths 2^63", |i| i.wrong = |lengths, _| lengths.splice(..0, [HALF, HALF]).for_each(drop)),
        edit(16, "two lengths 2^63 at the end", |i| i.wrong = |lengths, _| lengths.extend([HALF, HALF])),
        edit(16, "the largest length, and 1", |i| i.wrong = |lengths, _| lengths.extend([usize::MAX, 1])),
        edit(16, "a length 2^32", |i| i.wrong = |lengths, _| lengths.push(1 << 32)),
    ]
}

#[test]
fn pack() {
    let numbers = Numbers { w: 7, ..Numbers::PLAIN };
    let plain = Input { numbers, lengths: |fill, payload| vec![(fill * payload).div_ceil(2)], wrong: |_, _| {}, out: Off::Exact };
    let mut edits = code_and_width_edits();
    edits.extend(narrow_edits());
    edits.extend(allowed(label_edits()));
    edits.extend(fill_edits());
    edits.extend(length_edits!(out));
    edits.extend(rows_edits());
    edits.extend(tiles_edits());
    check_all(&plain, &edits, |input, label| {
        let (record, Shape { w, fill, .. }) = (input.numbers.record(), input.numbers.shape());
        let mut lengths = (input.lengths)(fill, w.max(5) - 4);
        let mut bytes = lengths.iter().sum();
        (input.wrong)(&mut lengths, &mut bytes);
        let tiles: Vec<u8> = pattern(bytes, Off::Exact);
        let mut out = pattern(fill * w, input.out);
        let mut expected: Vec<u8> = out.clone();
        let answer = ours::pack(record, &tiles, &lengths, &mut out);
        assert_eq!(answer, model::pack(record, &tiles, &lengths, &mut expected, Fault::None), "{label}");
        assert!(out == expected, "{label}: output");
        answer.err().unwrap_or(0)
    });
}
